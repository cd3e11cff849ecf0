/*
 * certificate.c: document 01, 'Job file and certificate': its example, and
 * which reads decide a letter.
 */
#include "checks.h"

#include "second/certificate.h"

#include <string.h>

static void check_example(void)
{
    const char *due = "BMC 1 2\nE 1 0\nE 2 0\nD 0 S\nD 1 O\n";
    size_t written = 99;
    example();
    check(is_text(due), "the document's example");
    memset(text, '#', sizeof text);
    check(s_certificate(job, job_bytes, text, strlen(due) - 1, &written) == 2, "text's ROOM");
    check(written == 0 && text[0] == '#', "no text written");
}

/* Reads before the write, of another register, refused, not covering. */
static void check_letters(void)
{
    begin(3, 1);
    add_bare(3, 0x12, 0, 0, 5);
    add_bare(1, 0x12, 0x1234, 0, 0xFE);
    add_bare(3, 0x13, 0, 0, 0);
    add_bare(4, 0x12, 0, 1, 9);
    add_bare(0, 0, 0, 0, 0);
    add_bare(4, 0x12, 0, 3, 9);
    check(rehearse_job() == 0, "rehearsed");
    check(is_text("BMC 1 3\nE 1 0\nE 2 0\nE 3 0\nE 4 0\nE 5 0\nE 6 1\n"
                  "D 0 U\nD 1 S\nD 2 U\n"), "one device read");
    add_bare(3, 0x12, 0, 0, 0);
    check(is_text("BMC 1 3\nE 1 0\nE 2 0\nE 3 0\nE 4 0\nE 5 0\nE 6 1\nE 7 3\n"
                  "D 0 U\nD 1 S\nD 2 U\n"), "a refused read leaves the letters");
}

/* A later good write moves the certificate; a bad one does not; the echo
 * does not certify, nor is its refusal asked for. */
static void check_last_write(void)
{
    begin(2, 0);
    add_bare(1, 0x12, 7, 0, 0);
    add_bare(3, 0x12, 0, 0, 0);
    check(rehearse_job() == 0, "rehearsed");
    check(is_text("BMC 1 2\nE 1 0\nE 2 0\nD 0 S\nD 1 S\n"), "both the same");
    add_bare(2, 0x12, 8, 2, 0);
    check(is_text("BMC 1 2\nE 1 0\nE 2 0\nE 3 1\nD 0 S\nD 1 S\n"), "a bad write");
    add_bare(2, 0x12, 8, 1, 0);
    check(is_text("BMC 1 2\nE 1 0\nE 2 0\nE 3 1\nE 4 3\nD 1 U\n"), "a later write");
    add_bare(3, 0x12, 0, 0, 0);
    check(rehearse_job() == 0, "rehearsed again");
    check(is_text("BMC 1 2\nE 1 0\nE 2 0\nE 3 1\nE 4 0\nE 5 0\nD 1 S\n"), "and its read");
    add_bare(1, 0x00, 1, 0, 0);
    add_bare(3, 0x00, 0, 0, 0);
    check(rehearse_job() == 0, "rehearsed a third time");
    check(is_text("BMC 1 2\nE 1 0\nE 2 0\nE 3 1\nE 4 0\nE 5 0\nE 6 0\nE 7 0\n"
                  "D 0 O\nD 1 O\n"), "0x00 keeps its value");
}

/* The latest of two accepted reads decides. */
static void check_latest(void)
{
    uint8_t first[] = { 0x05, 0x12, 0x07, 0x00, 0x00, 0 };
    uint8_t later[] = { 0x05, 0x12, 0x08, 0x00, 0x00, 0 };
    struct s_question q = { .kind = 4, .n = 1, .reg = 0x12 };
    close_bytes(first, 5, 0, 0);
    close_bytes(later, 5, 0, 0);
    begin(1, 0);
    add_bare(2, 0x12, 7, 0, 0);
    add_bytes(q, first, 6);
    check(is_text("BMC 1 1\nE 1 3\nE 2 0\nD 0 S\n"), "first read");
    add_bytes(q, later, 6);
    check(is_text("BMC 1 1\nE 1 3\nE 2 0\nE 3 0\nD 0 O\n"), "later read");
    add_bytes(q, first, 6);
    check(is_text("BMC 1 1\nE 1 3\nE 2 0\nE 3 0\nE 4 0\nD 0 S\n"), "latest read");
}

/* 01: another device's values in accepted reads can't alter a letter. */
static void check_own_values(void)
{
    for (unsigned other = 0; other < 300; other++) {
        uint8_t read[] = { 0x03, 0x12, (uint8_t)any(256), (uint8_t)any(256), 0x0F, 0x00, 0x00, 0 };
        struct s_question r = { .kind = 3, .n = 2, .reg = 0x12 };
        size_t written;
        example();
        close_bytes(read, 7, 0, 0);
        add_bytes(r, read, 8);
        check(s_certificate(job, job_bytes, text, sizeof text, &written) == 0, "good file");
        check(memcmp(text + 26, "D 0 S\n", 6) == 0, "device 0 keeps its letter");
    }
}

void check_certificate(void)
{
    check_example();
    check_letters();
    check_last_write();
    check_latest();
    check_own_values();
}
