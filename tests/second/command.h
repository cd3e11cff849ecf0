/* command.h: the command writer (01, 'Commands and answers'). */
#ifndef SECOND_COMMAND_H
#define SECOND_COMMAND_H

#include "question.h"

/* The bytes of a good question's command, and how many they are. */
size_t s_put_command(struct s_question q, uint8_t *bytes);

/* Its line; 0, QUESTION or ROOM. */
int s_command(struct s_question q, uint16_t *out, size_t room, size_t *written);

#endif
