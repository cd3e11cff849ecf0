/*
 * rows.c: document 01, 'Turned away', a row at a time and all that can meet it:
 * questions, the writer's room, every word, every count.
 */
#include "checks.h"

#include "second/command.h"
#include "second/reader.h"

/* Row 1 in every part. */
static void check_questions(void)
{
    uint16_t line[MOST];
    size_t words;
    struct s_question q = { .kind = 5, .n = 1 };
    check(s_command(q, line, MOST, &words) == 1 && words == 0, "kind 5");
    for (unsigned kind = 0; kind <= 4; kind++) {
        struct s_question a = { .kind = kind, .n = 4, .alive = 2 };
        check(s_command(a, line, MOST, &words) == 1, "alive 2");
        struct s_question b = { .kind = kind, .n = 4, .device = 4 };
        int due = kind == 2 || kind == 4 ? 1 : 0;
        check(s_command(b, line, MOST, &words) == due, "device 4 of 4");
        b.device = 3;
        check(s_command(b, line, MOST, &words) == 0, "device 3 of 4");
    }
}

/* The writer's room: its line, for every kind; nothing written without. */
static void check_writer_room(void)
{
    uint16_t line[MOST + 2], exact[MOST];
    size_t words, written;
    for (unsigned kind = 0; kind <= 4; kind++)
        for (unsigned n = 1; n <= 32; n++) {
            struct s_question q = any_question(kind, n, n % 2);
            words = send_command(q, exact);
            fill_words(line, MOST + 2);
            check(s_command(q, line, words - 1, &written) == 2, "writer's ROOM");
            check(written == 0 && are_marked(line, MOST + 2), "nothing written");
            check(s_command(q, line, words, &written) == 0, "writer's room");
            check(written == words && same_words(line, exact, words), "the line");
            check(are_marked(line + words, MOST + 2 - words), "the rest stays");
        }
}

/* Row 4 and row 6 word by word: all 65,536 words in one place. */
static void check_words(void)
{
    struct s_question q = { .kind = 0 };
    const uint8_t bytes[] = { 0x57, 0x00, 0x01 };
    uint16_t line[8];
    for (unsigned word = 0; word < 65536; word++) {
        unsigned ones = 0, nibble = 16;
        for (unsigned i = 1; i <= 9; i++)
            ones += word >> i & 1;
        for (unsigned i = 0; i < 16; i++)
            if (spell_nibble(i) == word)
                nibble = i;
        int due = (word & 0xFC01) != 0x0C00 || ones % 2 ? 4
                : nibble == 16 ? 6 : nibble != 5 ? 7 : 0;
        wire(bytes, 3, line);
        line[2] = (uint16_t)word;
        struct s_answer a = s_read(q, line, 8, NULL, 0);
        check(a.number == due, "a word's row");
        check(a.place == (due == 4 || due == 6 ? 2u : 0u), "a word's place");
    }
}

/* HELLOALL's last byte: the count, or COUNT with the byte. */
static void check_counts(void)
{
    for (unsigned byte = 0; byte < 256; byte++) {
        struct s_question q = { .kind = 0, .n = 1000, .alive = byte % 2 };
        uint8_t bytes[] = { 0x57, 0x00, (uint8_t)byte };
        uint16_t line[8];
        wire(bytes, 3, line);
        struct s_answer a = s_read(q, line, 8, NULL, 0);
        int good = byte >= 1 && byte <= 32;
        check(a.number == (good ? 0 : 11), "COUNT exactly then");
        check(a.count == (good ? byte : 0) && a.byte == (good ? 0 : byte), "its byte");
    }
}

void check_rows(void)
{
    check_questions();
    check_writer_room();
    check_words();
    check_counts();
}
