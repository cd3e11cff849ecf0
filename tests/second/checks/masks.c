/*
 * masks.c: document 02, M-100: a mask in every entry of version 2, and only
 * masked bits decide.
 */
#include "checks.h"

#include "second/certificate.h"
#include "second/rehearsal.h"

#include <stdio.h>
#include <string.h>

/* ---- Which files are none ------------------------------------------------ */

static int is_good_file(void)
{
    char few[64] = "#";
    size_t written = 99;
    int number = s_certificate(job, job_bytes, few, sizeof few, &written);
    check(number == 0 || (number == 14 && written == 0 && few[0] == '#'), "taken, or FILE");
    return number == 0;
}

static void check_versions(void)
{
    for (unsigned version = 0; version < 65536; version++) {
        begin_version(version, 7, 0);
        check(is_good_file() == (version == 1 || version == 2), "the version");
    }
    begin_version(2, 7, 0);
    check(is_text("BMC 2 7\n"), "version 2 in the first line");
}

/* A job of one entry, its mask behind the value, low byte first. */
static int is_taken(unsigned kind, unsigned mask, unsigned device)
{
    const uint8_t file[] = {
        'B', 'M', 'C', 2, 0, 3, 0, (uint8_t)kind, 0, 0, 0, (uint8_t)mask,
        (uint8_t)(mask >> 8), (uint8_t)device, 0, 0, 0
    };
    memcpy(job, file, sizeof file);
    job_bytes = sizeof file;
    return is_good_file();
}

/* A write's mask is not 0, in the chain or not; another's is. */
static void check_fields(void)
{
    for (unsigned mask = 0; mask < 65536; mask++) {
        check(is_taken(1, mask, 0) == (mask != 0), "a WRITEALL's mask");
        check(is_taken(2, mask, 2) == (mask != 0), "a WRITEDEVICE's mask");
        check(is_taken(2, mask, 3) == (mask != 0), "a mask for no device");
        check(is_taken(0, mask, 0) == (mask == 0), "a HELLOALL's mask");
        check(is_taken(3, mask, 0) == (mask == 0), "a READALL's mask");
        check(is_taken(4, mask, 3) == (mask == 0), "a READDEVICE's mask");
        check(!is_taken(5, mask, 0), "kind 5 in version 2");
    }
}

/* The whole file, and what stands up to an entry's end, are good files. */
static void check_cuts(void)
{
    const uint16_t words[2] = { 1, 2 };
    struct s_question write = { .kind = 1, .reg = 0x12, .value = 7 };
    size_t ends[3];
    begin_version(2, 2, 0);
    for (size_t i = 0; i < 3; i++) {
        ends[i] = job_bytes;
        add(write, words, i);
    }
    for (size_t whole = job_bytes, cut = 0; cut <= whole; cut++) {
        int at_end = cut == whole || cut == ends[0] || cut == ends[1] || cut == ends[2];
        job_bytes = cut;
        check(is_good_file() == at_end, "version 2 cut short");
    }
}

/* As in version 1. */
static void check_words(void)
{
    const uint16_t words[141] = { 0 };
    struct s_question read = { .kind = 3, .reg = 0x12 };
    for (size_t count = 139; count <= 141; count++) {
        begin_version(2, 32, 1);
        add(read, words, count);
        check(is_good_file() == (count <= 140), "140 words at most in version 2");
    }
}

/* 6,552 entries of ten bytes, the last with four words, are 65,535 bytes. */
static void check_longest(void)
{
    const uint16_t words[5] = { 0 };
    struct s_question hello = { .kind = 0 };
    size_t written;
    begin_version(2, 1, 0);
    for (unsigned i = 0; i < 6551; i++)
        add(hello, NULL, 0);
    size_t last = job_bytes;
    add(hello, words, 4);
    check(job_bytes == 65535, "6,552 entries");
    check(s_certificate(job, job_bytes, text, sizeof text, &written) == 0, "65,535 bytes");
    job_bytes = last;
    add(hello, words, 5);
    check(job_bytes == 65537 && is_refused(14), "65,537 bytes");
}

/* ---- Which bits decide --------------------------------------------------- */

/* One device: a write with a mask, and a read that brings a value. */
static void put_pair(unsigned version, unsigned written, unsigned mask, unsigned value)
{
    uint8_t echo[] = { 0x02, 0x13, (uint8_t)written, (uint8_t)(written >> 8), 0 };
    uint8_t read[] = { 0x05, 0x13, (uint8_t)value, (uint8_t)(value >> 8), 0x00, 0 };
    struct s_question w = { .kind = 1, .n = 1, .reg = 0x13, .value = written };
    struct s_question r = { .kind = 4, .n = 1, .reg = 0x13 };
    uint16_t line[MOST];
    close_bytes(echo, 4, 0, 0);
    close_bytes(read, 5, 0, 0);
    begin_version(version, 1, 0);
    add_masked(w, mask, line, wire(echo, 5, line));
    add_bytes(r, read, 6);
}

static int is_letter(unsigned version, char letter)
{
    char due[64];
    snprintf(due, sizeof due, "BMC %u 1\nE 1 0\nE 2 0\nD 0 %c\n", version, letter);
    return is_text(due);
}

/* 004, SCANCTRL: SCAN always reads 0, SCANDONE and DATARDY the monitor sets. */
static void check_scanctrl(void)
{
    put_pair(2, 0x0025, 0x1FFE, 0xA024);
    check(is_letter(2, 'S'), "the masked bits stayed");
    put_pair(2, 0x0025, 0xFFFF, 0xA024);
    check(is_letter(2, 'O'), "all bits masked");
    put_pair(1, 0x0025, 0, 0xA024);
    check(is_letter(1, 'O'), "version 1 compares all bits");
    put_pair(2, 0x0025, 0x1FFE, 0xA004);
    check(is_letter(2, 'O'), "a masked bit differs");
}

/* Each bit of value and mask, written 0 or 1: it decides where it is masked. */
static void check_bits(void)
{
    for (unsigned bit = 0; bit < 16; bit++)
        for (unsigned i = 0; i < 200; i++) {
            unsigned written = any(65536), one = 1u << bit;
            unsigned outside = any(65536) & ~one;
            put_pair(2, written, one, written ^ outside);
            check(is_letter(2, 'S'), "one bit masked, and it is the same");
            put_pair(2, written, one, written ^ outside ^ one);
            check(is_letter(2, 'O'), "one bit masked, and it differs");
            put_pair(2, written, 0xFFFF ^ one, written ^ one);
            check(is_letter(2, 'S'), "one bit not masked, and it differs");
            put_pair(1, written, 0, written ^ one);
            check(is_letter(1, 'O'), "version 1, one bit differs");
        }
}

/* The last good write brings its own mask; one with a bad question none. */
static void check_last_mask(void)
{
    struct s_question write = { .kind = 1, .n = 1, .reg = 0x13, .value = 0x0100 };
    struct s_question bad = { .kind = 2, .n = 1, .reg = 0x13, .value = 0, .device = 1 };
    struct s_question r = { .kind = 4, .n = 1, .reg = 0x13 };
    uint8_t read[] = { 0x05, 0x13, 0x01, 0x01, 0x00, 0 };
    close_bytes(read, 5, 0, 0);
    put_pair(2, 0x0001, 0x00FF, 0x0101);
    check(is_letter(2, 'S'), "the first write's mask");
    add_masked(bad, 0xFFFF, NULL, 0);
    add_bytes(r, read, 6);
    check(is_text("BMC 2 1\nE 1 0\nE 2 0\nE 3 1\nE 4 0\nD 0 S\n"), "a bad write's mask");
    add_masked(write, 0x0001, NULL, 0);
    add_bytes(r, read, 6);
    check(is_text("BMC 2 1\nE 1 0\nE 2 0\nE 3 1\nE 4 0\nE 5 3\nE 6 0\nD 0 O\n"),
          "the second write's mask");
}

/* ECHO compares all sixteen bits: the mask has no say in it. */
static void check_echo(void)
{
    uint8_t echo[] = { 0x02, 0x13, 0x24, 0x00, 0 };
    struct s_question w = { .kind = 1, .n = 1, .reg = 0x13, .value = 0x0025 };
    uint16_t line[MOST];
    close_bytes(echo, 4, 0, 0);
    begin_version(2, 1, 0);
    add_masked(w, 0x1FFE, line, wire(echo, 5, line));
    check(is_text("BMC 2 1\nE 1 7\nD 0 U\n"), "a bit outside the mask, echoed wrong");
}

/* ---- A job in both versions ---------------------------------------------- */

/* A version 1 file as version 2: a mask behind each value, for a write all bits
 * or some figure of its register and value, for the others 0. */
static size_t carry(const uint8_t *file, size_t bytes, unsigned all, uint8_t *out)
{
    size_t length = 7;
    memcpy(out, file, 7);
    out[3] = 2;
    for (size_t at = 7; at < bytes;) {
        const uint8_t *entry = file + at;
        size_t behind = 4 + 2 * (entry[6] | (size_t)entry[7] << 8);
        unsigned mask = all ? 0xFFFF : 1 + (entry[1] * 257u + entry[2]) % 65535;
        if (entry[0] != 1 && entry[0] != 2)
            mask = 0;
        memcpy(out + length, entry, 4);
        out[length + 4] = (uint8_t)mask;
        out[length + 5] = (uint8_t)(mask >> 8);
        memcpy(out + length + 6, entry + 4, behind);
        at += 4 + behind;
        length += 6 + behind;
    }
    return length;
}

static void put_any_job(void)
{
    unsigned n = 1 + any(32), alive = any(2);
    begin(n, alive);
    for (unsigned left = any(30); left > 0; left--)
        add(job_question(n, alive), NULL, 0);
}

/* Rehearsed as version 2, a file is what it is as version 1, with its masks. */
static void check_rehearsed(void)
{
    static uint8_t masked[JOB_ROOM], due[JOB_ROOM];
    for (unsigned run = 0; run < 300; run++) {
        size_t written = 0;
        put_any_job();
        size_t bytes = carry(job, job_bytes, 0, masked);
        check(rehearse_job() == 0, "version 1 rehearsed");
        size_t length = carry(job, job_bytes, 0, due);
        check(s_rehearse(masked, bytes, rehearsed, length, &written) == 0, "version 2 rehearsed");
        check(written == length && memcmp(rehearsed, due, length) == 0, "version and masks kept");
        check(s_rehearse(masked, bytes, rehearsed, length - 1, &written) == 2, "version 2's ROOM");
    }
}

/* Answers of 65,535 bytes are good, 65,545 are FILE. */
static void check_rehearsed_length(void)
{
    struct s_question hello = { .kind = 0 }, far = { .kind = 4, .device = 1 };
    size_t written = 0;
    begin_version(2, 1, 0);
    for (unsigned i = 0; i < 2518; i++)
        add(hello, NULL, 0);
    for (unsigned i = 0; i < 6; i++)
        add(far, NULL, 0);
    check(s_rehearse(job, job_bytes, rehearsed, sizeof rehearsed, &written) == 0, "the longest");
    check(written == 65535, "65,535 bytes answered");
    add(far, NULL, 0);
    check(s_rehearse(job, job_bytes, rehearsed, sizeof rehearsed, &written) == 14, "longer");
}

/* With every mask FFFFh it is version 1's certificate but for its first line. */
static void check_same_text(void)
{
    static char first[TEXT_ROOM];
    static uint8_t masked[JOB_ROOM];
    for (unsigned run = 0; run < 300; run++) {
        size_t length = 0, written = 0;
        put_any_job();
        check(rehearse_job() == 0, "rehearsed");
        size_t bytes = carry(job, job_bytes, 1, masked);
        check(s_certificate(job, job_bytes, first, sizeof first, &length) == 0, "version 1");
        check(s_certificate(masked, bytes, text, sizeof text, &written) == 0, "version 2");
        check(memcmp(first, "BMC 1", 5) == 0 && memcmp(text, "BMC 2", 5) == 0, "the version");
        check(written == length && memcmp(first + 5, text + 5, length - 5) == 0, "all else");
    }
}

void check_masks(void)
{
    check_versions();
    check_fields();
    check_cuts();
    check_words();
    check_longest();
    check_scanctrl();
    check_bits();
    check_last_mask();
    check_echo();
    check_rehearsed();
    check_rehearsed_length();
    check_same_text();
}
