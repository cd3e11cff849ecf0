/* certificate.h: the certificate (01, 'Job file and certificate'). */
#ifndef SECOND_CERTIFICATE_H
#define SECOND_CERTIFICATE_H

#include "second.h"

/* The certificate's text, no closing zero byte; 0, FILE or ROOM. */
int s_certificate(const uint8_t *file, size_t bytes,
                  char *text, size_t room, size_t *written);

#endif
