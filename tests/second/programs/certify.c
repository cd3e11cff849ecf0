/*
 * certify.c: the certificate program of document 01, second version.
 *
 * Reads a job file from standard input and prints its certificate, or the
 * line 'R 14' when the file is turned away (01, 'Job file and certificate').
 * See second.h.
 */
#include "standard.h"

#include "second/certificate.h"

/* At most 8191 entries fit into a file, and a line here has at most 10
 * characters: E 8191 11 and a line feed. */
static char text[9 + 10 * 8191 + 7 * 32];

int main(void)
{
    size_t bytes, written = 0;
    int number = S_FILE;
    if (take_in(&bytes))
        number = s_certificate(file, bytes, text, sizeof text, &written);
    return put_out(number, text, written);
}
