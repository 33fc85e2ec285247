/*
 * The questions of the program bench, answered in plain C: what they are stands in crates/bench/src/main.rt, and what
 * this is for in aes.h. bench/count fails where an answer is not the proved program's.
 */
#include <unistd.h>

#include "mac.h"

#define MEBIBYTE 1048576

static uint8_t mebibyte[MEBIBYTE];

static unsigned digit(uint8_t c)
{
    return c >= '0' && c <= '9' ? (unsigned)c - '0' : 0;
}

static void chain_of_blocks(int is_e, unsigned times, uint8_t block[16])
{
    uint8_t key[16], w[176], u[48];

    memset(key, 7, 16);
    expand_key(w, key);
    for (int i = 0; i < 3; i++) {
        memset(u + 16 * i, i + 1, 16);
        encrypt_block(w, u + 16 * i);
    }
    for (unsigned n = 0; n < times * 4096; n++) {
        if (is_e)
            encrypt_block(w, block);
        else
            four_rounds(u, block);
    }
}

static void keys_for(struct keys *keys, unsigned order)
{
    uint8_t k[16], l[16];

    memset(k, 7, 16);
    memset(l, 9, 16);
    key_call(keys, order, 128, k, l);
}

static void streamed(unsigned order, unsigned times, uint8_t tag[16])
{
    struct keys keys;

    keys_for(&keys, order);
    memset(mebibyte, 5, MEBIBYTE);
    for (unsigned n = 0; n < times; n++) {
        struct stream s;
        struct chain made;

        stream_start(&s);
        stream_add(&keys, &s, mebibyte, MEBIBYTE);
        stream_close(&keys, &s, tag, 16, &made);
    }
}

static void tagged(unsigned order, unsigned times, uint8_t tag[16])
{
    struct keys keys;
    uint8_t message[100];

    keys_for(&keys, order);
    memset(message, 5, sizeof message);
    for (unsigned n = 0; n < times; n++) {
        struct chain made;

        message_tag(&keys, message, sizeof message, tag, 16, &made);
    }
}

int main(void)
{
    uint8_t asked[3] = {0}, answer[16] = {0};
    size_t had = 0;
    ssize_t got;

    while (had < 3 && (got = read(0, asked + had, 3 - had)) > 0)
        had += (size_t)got;
    if (asked[0] == 'S')
        streamed(digit(asked[2]), digit(asked[1]), answer);
    else if (asked[0] == 'T')
        tagged(digit(asked[2]), digit(asked[1]), answer);
    else
        chain_of_blocks(asked[0] == 'E', digit(asked[1]), answer);
    return write(1, answer, 16) != 16;
}
