/*
 * certificate.c: the certificate's text.
 *
 * Written from document 01, 'Job file and certificate', and document 02, M-100:
 * the first line shows the file's version.
 */
#include "certificate.h"

#include "letters.h"
#include "text.h"

#include <stdio.h>

static void put_entries(struct s_text *text, const uint8_t *file, size_t bytes)
{
    char piece[48];
    uint16_t values[S_MOST_DEVICES];
    unsigned i = 1;
    struct s_entry entry;
    for (size_t at = S_HEADER_BYTES; at < bytes; at += s_entry_size(entry), i++) {
        entry = s_entry_at(file, at);
        snprintf(piece, sizeof piece, "E %u %d\n", i, s_read_entry(entry, values));
        s_put_text(text, piece);
    }
}

static void put_letters(struct s_text *text, const uint8_t *file, size_t bytes)
{
    char piece[32];
    char letters[S_MOST_DEVICES];
    size_t write_at = s_last_write(file, bytes);
    if (write_at == 0)
        return;
    struct s_question write = s_entry_at(file, write_at).q;
    s_judge(file, bytes, write_at, letters);
    for (unsigned device = 0; device < write.n; device++)
        if (s_covers(write, device)) {
            snprintf(piece, sizeof piece, "D %u %c\n", device, letters[device]);
            s_put_text(text, piece);
        }
}

static size_t put_certificate(const uint8_t *file, size_t bytes, char *out)
{
    struct s_text text = { .out = out, .length = 0 };
    char piece[32];
    snprintf(piece, sizeof piece, "BMC %u %u\n", s_file_version(file), (unsigned)file[5]);
    s_put_text(&text, piece);
    put_entries(&text, file, bytes);
    put_letters(&text, file, bytes);
    return text.length;
}

int s_certificate(const uint8_t *file, size_t bytes,
                  char *text, size_t room, size_t *written)
{
    *written = 0;
    if (!s_is_job_file(file, bytes))
        return S_FILE;
    if (room < put_certificate(file, bytes, NULL))
        return S_ROOM;
    *written = put_certificate(file, bytes, text);
    return S_ACCEPTED;
}
