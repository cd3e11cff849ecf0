/* line.h: characters, and bytes on a line (01, 'The line'). */
#ifndef SECOND_LINE_H
#define SECOND_LINE_H

#include "second.h"

enum {
    S_MOST_WORDS = 140,             /* 01, 'Commands and answers' */
    S_MOST_BYTES = 69               /* (140 - 2) / 2 */
};

uint16_t s_preamble(void);
uint16_t s_stop(void);
int s_is_character(uint16_t word);
int s_is_nibble(uint16_t word);

/* How many words so many bytes take on a line; and the line itself. */
size_t s_line_words(size_t bytes);
void s_put_line(const uint8_t *bytes, size_t n, uint16_t *line);

/* Byte i of a line; the value whose low byte that is. */
unsigned s_line_byte(const uint16_t *line, size_t i);
uint16_t s_line_value(const uint16_t *line, size_t i);

#endif
