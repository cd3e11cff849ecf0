/* text.h: text that is counted before there is room for it. */
#ifndef SECOND_TEXT_H
#define SECOND_TEXT_H

#include "second.h"

/* Text that is only counted while 'out' is null. */
struct s_text {
    char *out;
    size_t length;
};

/* Puts a piece behind it, without its closing zero byte. */
void s_put_text(struct s_text *text, const char *piece);

#endif
