/*
 * second.h: an independent reference for the battery-bench line.
 *
 * Written from documents 01 (scope and rules), 02 (changes to them) and 004
 * (MAX17823B data sheet) and the readings in docs/DECISIONS.md; shares no code
 * with the proved crates.
 * It exists to be compared with them: plain and obvious rather than fast, no
 * table beyond what the documents print, and no memory but the caller's and
 * the stack.
 *
 * Each topic is a file of this folder, and its header says what others may
 * call. The build takes every file of the folder, so that a new topic is a new
 * file and its header. What is checked of them by themselves is in checks/;
 * what runs them, in programs/ and in the host program.
 *
 * What every caller owes:
 *  - valid pointers for the sizes given, and no overlap of input and output;
 *  - reg and seed are 8-bit figures and value a 16-bit figure: only these low
 *    bits are looked at. kind, n, alive and device are compared whole.
 *
 * A refused call writes nothing into lent memory. Where a call reports how
 * much it wrote through 'written', that figure is set to 0 on refusal.
 */
#ifndef SECOND_SECOND_H
#define SECOND_SECOND_H

#include <stddef.h>
#include <stdint.h>

/* 01, 'Turned away': the numbers. 0 stands for accepted. */
enum {
    S_ACCEPTED = 0,
    S_QUESTION = 1,
    S_ROOM = 2,
    S_LENGTH = 3,
    S_CHARACTER = 4,
    S_FRAME = 5,
    S_MANCHESTER = 6,
    S_ECHO = 7,
    S_PEC = 8,
    S_ALIVE = 9,
    S_CHECK = 10,
    S_COUNT = 11,
    S_CHANNEL = 12,
    S_LOW_BITS = 13,
    S_FILE = 14,
    S_TWIN = 15
};

#endif
