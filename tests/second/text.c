/*
 * text.c: text that is counted before there is room for it.
 */
#include "text.h"

void s_put_text(struct s_text *text, const char *piece)
{
    for (; *piece != '\0'; piece++) {
        if (text->out != NULL)
            text->out[text->length] = *piece;
        text->length++;
    }
}
