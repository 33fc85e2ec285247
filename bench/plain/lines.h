/*
 * A program of lines in plain C: a key line and then others on standard input, what they make on standard output. What
 * it is for stands in aes.h. A program that includes it has a function take_line, and main calls run.
 */
#ifndef PLAIN_LINES_H
#define PLAIN_LINES_H

#include <unistd.h>

#include "mac.h"

#define LONGEST_LINE 510
#define LONGEST_FRAME 255
#define KEY_LINE 68

/* What is kept from one read to the next: the keys, and a line that is begun, up to where it is too long. */
struct session {
    int has_keys;
    int is_over;
    struct keys keys;
    uint8_t line[LONGEST_LINE + 1];
    size_t count;
};

static uint8_t input[65536];
static uint8_t output[65536];
static size_t written;

/* What is made of a line; false where it cannot be written. */
static int take_line(struct session *s, const uint8_t *line, size_t n);

static inline int hex_digit(uint8_t c)
{
    if (c >= '0' && c <= '9')
        return c - '0';
    if (c >= 'A' && c <= 'F')
        return c - 'A' + 10;
    return -1;
}

/* A line of at most 510 characters into a space of 255 bytes. */
static inline enum number decode(const uint8_t *line, size_t n, uint8_t *bytes)
{
    if (n > LONGEST_LINE)
        return BAD_LENGTH;
    for (size_t i = 0; i + 1 < n; i += 2) {
        int high = hex_digit(line[i]), low = hex_digit(line[i + 1]);

        if (high < 0 || low < 0)
            return NOT_HEX;
        bytes[i / 2] = (uint8_t)(16 * high + low);
    }
    return n % 2 == 0 ? DONE : NOT_HEX;
}

static inline enum number read_key_line(struct keys *keys, const uint8_t *line, size_t n)
{
    uint8_t bytes[KEY_LINE / 2];
    enum number number;

    if (n != KEY_LINE)
        return BAD_LENGTH;
    number = decode(line, n, bytes);
    if (number != DONE)
        return number;
    return key_call(keys, bytes[0], bytes[1], bytes + 2, bytes + 18);
}

static inline int flush(void)
{
    size_t at = 0;

    while (at < written) {
        ssize_t put = write(1, output + at, written - at);

        if (put <= 0)
            return 0;
        at += (size_t)put;
    }
    written = 0;
    return 1;
}

/* Adds what a read brought of a line to what is kept of it. */
static inline void keep(struct session *s, const uint8_t *part, size_t n)
{
    size_t room = sizeof s->line - s->count;

    if (n > room)
        n = room;
    memcpy(s->line + s->count, part, n);
    s->count += n;
}

/* The lines of what a read brought. One that lies whole in it is taken where it lies. */
static inline int take_part(struct session *s, const uint8_t *part, size_t n)
{
    const uint8_t *end = part + n, *feed;

    while (!s->is_over && (feed = memchr(part, '\n', (size_t)(end - part))) != NULL) {
        if (s->count == 0) {
            if (!take_line(s, part, (size_t)(feed - part)))
                return 0;
        } else {
            keep(s, part, (size_t)(feed - part));
            if (!take_line(s, s->line, s->count))
                return 0;
            s->count = 0;
        }
        part = feed + 1;
    }
    keep(s, part, (size_t)(end - part));
    return flush() && !s->is_over;
}

/* Until the input ends, the key line is refused, or a read or a write fails. A last line may lack its line feed. */
static inline void run(void)
{
    static struct session s;
    ssize_t got;

    while ((got = read(0, input, sizeof input)) > 0)
        if (!take_part(&s, input, (size_t)got))
            return;
    if (s.count > 0)
        take_line(&s, s.line, s.count);
    flush();
}

#endif
