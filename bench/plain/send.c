/*
 * The program send in plain C: a key line and bodies on standard input, a frame a line on standard output, an empty
 * line for a body that is refused. What it is for stands in aes.h; bench/count fails where it writes otherwise than
 * the proved program.
 */
#include "lines.h"

static uint8_t *put_bytes(uint8_t *text, const uint8_t *bytes, size_t n)
{
    for (size_t i = 0; i < n; i++) {
        *text++ = (uint8_t)"0123456789ABCDEF"[bytes[i] >> 4];
        *text++ = (uint8_t)"0123456789ABCDEF"[bytes[i] & 15];
    }
    return text;
}

/* Puts the tag behind a body of n bytes: how many bytes the frame has, or 0 where the body is refused. */
static size_t make_frame(const struct keys *keys, uint8_t *frame, size_t n)
{
    size_t size = tag_size(keys);
    struct chain made;

    if (n == 0 || n > LONGEST_FRAME - size)
        return 0;
    if (message_tag(keys, frame, n, frame + n, size, &made) != DONE)
        return 0;
    return n + size;
}

static int take_line(struct session *s, const uint8_t *line, size_t n)
{
    uint8_t frame[LONGEST_FRAME], *text;

    if (!s->has_keys) {
        s->has_keys = read_key_line(&s->keys, line, n) == DONE;
        s->is_over = !s->has_keys;
        return 1;
    }
    if (sizeof output - written < LONGEST_LINE + 1 && !flush())
        return 0;
    text = output + written;
    if (decode(line, n, frame) == DONE)
        text = put_bytes(text, frame, make_frame(&s->keys, frame, n / 2));
    *text++ = '\n';
    written = (size_t)(text - output);
    return 1;
}

int main(void)
{
    run();
    return 0;
}
