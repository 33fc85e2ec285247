/*
 * The program check in plain C: a key line and frames on standard input, a verdict a line on standard output. What it
 * is for stands in aes.h; bench/count fails where it says otherwise than the proved program.
 */
#include "lines.h"

#define VERDICT 21

struct verdict {
    enum number number;
    size_t whole;
    size_t four;
    size_t body;
};

/* A frame is a body of at least one byte, and behind it a tag. */
static void judge_frame(const struct keys *keys, const uint8_t *frame, size_t n, struct verdict *v)
{
    size_t size = tag_size(keys), body = n - size;
    struct chain made;

    v->number = set_fault(keys);
    if (v->number != DONE)
        return;
    if (n > LONGEST_FRAME || n <= size) {
        v->number = BAD_LENGTH;
        return;
    }
    v->number = message_verify(keys, frame, body, frame + body, size, &made);
    v->whole = made.whole;
    v->four = made.four;
    v->body = v->number == DONE ? body : 0;
}

static uint8_t *put_hex(uint8_t *text, int width, size_t n)
{
    for (int i = width - 1; i >= 0; i--) {
        text[i] = (uint8_t)"0123456789ABCDEF"[n % 16];
        n /= 16;
    }
    return text + width;
}

static int say(const struct verdict *v)
{
    uint8_t *text;

    if (sizeof output - written < VERDICT && !flush())
        return 0;
    text = put_hex(output + written, 2, v->number);
    text = put_hex(text, 8, v->whole);
    text = put_hex(text, 8, v->four);
    text = put_hex(text, 2, v->body);
    *text = '\n';
    written += VERDICT;
    return 1;
}

static int take_line(struct session *s, const uint8_t *line, size_t n)
{
    uint8_t frame[LONGEST_FRAME];
    struct verdict v = {DONE, 0, 0, 0};

    if (!s->has_keys) {
        v.number = read_key_line(&s->keys, line, n);
        s->has_keys = v.number == DONE;
        s->is_over = !s->has_keys;
        return s->has_keys || say(&v);
    }
    v.number = decode(line, n, frame);
    if (v.number == DONE)
        judge_frame(&s->keys, frame, n / 2, &v);
    return say(&v);
}

int main(void)
{
    run();
    return 0;
}
