/*
 * PC-MAC-AES (NEC's specification) in plain C: the key call, a message in parts, a message at once. What it is for
 * stands in aes.h. Keys and streams go by pointer; a call answers the numbers that the proved calls answer.
 */
#ifndef PLAIN_MAC_H
#define PLAIN_MAC_H

#include "aes.h"

#define MESSAGE_LIMIT 1048576

enum number {
    DONE, BAD_ORDER, BAD_TAG_LENGTH, BAD_SIZE, BAD_STREAM, TOO_LONG, NO_BYTES, TAG_DIFFERS, BAD_LENGTH, NOT_HEX
};

struct keys {
    uint8_t order;
    uint8_t bits;
    uint8_t round[176];
    uint8_t u[5][48];
    uint8_t x[4][16];
    uint8_t full_mask[16];
    uint8_t short_mask[16];
};

struct chain {
    uint8_t value[16];
    size_t whole;
    size_t four;
};

/* A message of which some bytes are known; a full block is held, since it may be the last. */
struct stream {
    size_t total;
    struct chain chain;
    uint8_t held[16];
    size_t count;
};

static inline void double_block(uint8_t r[16], const uint8_t x[16])
{
    uint8_t carry = (x[0] >> 7) * 0x87;

    for (int i = 0; i < 15; i++)
        r[i] = (uint8_t)(x[i] << 1 | x[i + 1] >> 7);
    r[15] = (uint8_t)(x[15] << 1) ^ carry;
}

/* E of L + [i]. */
static inline void make_subkey(const struct keys *keys, const uint8_t l[16], int i, uint8_t r[16])
{
    memcpy(r, l, 16);
    r[15] ^= (uint8_t)i;
    encrypt_block(keys->round, r);
}

/* The key call, Algorithm 2.1. Order 0 is read as 2, and tag length 0 as 128; a refusal leaves a set of zeros. */
static inline enum number key_call(struct keys *keys, size_t order, size_t bits, const uint8_t k[16],
                                   const uint8_t l[16])
{
    int d = order == 0 ? 2 : (int)order;

    memset(keys, 0, sizeof *keys);
    if (order > 5)
        return BAD_ORDER;
    if (bits > 128)
        return BAD_TAG_LENGTH;
    keys->order = (uint8_t)d;
    keys->bits = bits == 0 ? 128 : (uint8_t)bits;
    expand_key(keys->round, k);
    for (int i = 0; i < 3 * d; i++)
        make_subkey(keys, l, i, keys->u[i / 3] + 16 * (i % 3));
    for (int i = 0; i < d - 1; i++)
        make_subkey(keys, l, 3 * d + i, keys->x[i]);
    double_block(keys->full_mask, l);
    double_block(keys->short_mask, keys->full_mask);
    return DONE;
}

static inline enum number set_fault(const struct keys *keys)
{
    if (keys->order < 1 || keys->order > 5)
        return BAD_ORDER;
    if (keys->bits < 1 || keys->bits > 128)
        return BAD_TAG_LENGTH;
    return DONE;
}

static inline size_t tag_size(const struct keys *keys)
{
    return (keys->bits + 7u) / 8;
}

/* One step of Algorithm 2.2: the block at place w of the cycle. */
static inline void step(const struct keys *keys, size_t w, struct chain *c, const uint8_t *block)
{
    xor_block(c->value, block);
    if (w == 0) {
        encrypt_block(keys->round, c->value);
        c->whole++;
        return;
    }
    if (w > 1)
        xor_block(c->value, keys->x[w - 2]);
    four_rounds(keys->u[w - 1], c->value);
    c->four++;
}

/* So many whole blocks, which follow the first `done` blocks of the message. */
static inline void absorb(const struct keys *keys, size_t done, struct chain *c, const uint8_t *part, size_t blocks)
{
    size_t w = done % (keys->order + 1u);

    for (size_t i = 0; i < blocks; i++) {
        step(keys, w, c, part + 16 * i);
        w = w < keys->order ? w + 1 : 0;
    }
}

/* The closing step, over a last block of n bytes, 1 to 16. */
static inline void seal(const struct keys *keys, struct chain *c, const uint8_t *last, size_t n)
{
    uint8_t block[16] = {0};

    memcpy(block, last, n);
    if (n < 16)
        block[n] = 0x80;
    xor_block(c->value, block);
    xor_block(c->value, n < 16 ? keys->short_mask : keys->full_mask);
    encrypt_block(keys->round, c->value);
    c->whole++;
}

/* The first so many bits of a block, and then zeros. */
static inline void keep_bits(uint8_t block[16], size_t bits)
{
    size_t whole = bits / 8;

    if (bits % 8 != 0)
        block[whole++] &= (uint8_t)(0xff << (8 - bits % 8));
    memset(block + whole, 0, 16 - whole);
}

static inline void write_tag(const struct keys *keys, struct chain *c, uint8_t *tag)
{
    keep_bits(c->value, keys->bits);
    memcpy(tag, c->value, tag_size(keys));
}

/* The received tag as it is: a spare bit that is set differs as any other bit does. */
static inline enum number compare_tag(const struct keys *keys, struct chain *c, const uint8_t *received)
{
    uint8_t block[16] = {0};

    memcpy(block, received, tag_size(keys));
    keep_bits(c->value, keys->bits);
#ifdef LEAVES
    /* the control of bench/same: leaves at the first byte that differs, and volatile keeps it so */
    for (int i = 0; i < 16; i++)
        if (((volatile uint8_t *)block)[i] != c->value[i])
            return TAG_DIFFERS;
    return DONE;
#else
    return memcmp(block, c->value, 16) == 0 ? DONE : TAG_DIFFERS;
#endif
}

static inline int all_zero(const uint8_t *bytes, size_t n)
{
    for (size_t i = 0; i < n; i++)
        if (bytes[i] != 0)
            return 0;
    return 1;
}

/* Whether a stream is one that these calls make, for an order, field by field. */
static inline int is_formed(size_t order, const struct stream *s)
{
    size_t settled = s->total == 0 ? 0 : (s->total - 1) / 16;
    size_t whole = (settled + order) / (order + 1);

    if (s->total > MESSAGE_LIMIT || s->count != s->total - 16 * settled)
        return 0;
    if (!all_zero(s->held + s->count, 16 - s->count))
        return 0;
    if (s->chain.whole != whole || s->chain.four != settled - whole)
        return 0;
    return s->total > 16 || all_zero(s->chain.value, 16);
}

static inline void stream_start(struct stream *s)
{
    memset(s, 0, sizeof *s);
}

static inline enum number stream_add(const struct keys *keys, struct stream *s, const uint8_t *part, size_t n)
{
    enum number fault = set_fault(keys);
    size_t room = 16 - s->count, done = (s->total - s->count) / 16, blocks;

    if (fault != DONE)
        return fault;
    if (!is_formed(keys->order, s))
        return BAD_STREAM;
    if (n > MESSAGE_LIMIT - s->total)
        return TOO_LONG;
    s->total += n;
    if (n <= room) {
        memcpy(s->held + s->count, part, n);
        s->count += n;
        return DONE;
    }
    memcpy(s->held + s->count, part, room);
    absorb(keys, done, &s->chain, s->held, 1);
    blocks = (n - room - 1) / 16;
    absorb(keys, done + 1, &s->chain, part + room, blocks);
    s->count = n - room - 16 * blocks;
    memset(s->held, 0, 16);
    memcpy(s->held, part + room + 16 * blocks, s->count);
    return DONE;
}

/* The tag of what the stream has taken, and the steps for it; the stream stays as it is. */
static inline enum number stream_close(const struct keys *keys, const struct stream *s, uint8_t *tag, size_t size,
                                       struct chain *c)
{
    enum number fault = set_fault(keys);

    if (fault != DONE)
        return fault;
    if (size != tag_size(keys))
        return BAD_SIZE;
    if (!is_formed(keys->order, s))
        return BAD_STREAM;
    if (s->total == 0)
        return NO_BYTES;
    *c = s->chain;
    seal(keys, c, s->held, s->count);
    write_tag(keys, c, tag);
    return DONE;
}

/* The chain of a whole message after the closing step, where nothing is to be refused. */
static inline enum number message_chain(const struct keys *keys, const uint8_t *message, size_t n, size_t size,
                                        struct chain *c)
{
    enum number fault = set_fault(keys);
    size_t blocks = n == 0 ? 0 : (n - 1) / 16;

    memset(c, 0, sizeof *c);
    if (fault != DONE)
        return fault;
    if (size != tag_size(keys))
        return BAD_SIZE;
    if (n > MESSAGE_LIMIT)
        return TOO_LONG;
    if (n == 0)
        return NO_BYTES;
    absorb(keys, 0, c, message, blocks);
    seal(keys, c, message + 16 * blocks, n - 16 * blocks);
    return DONE;
}

static inline enum number message_tag(const struct keys *keys, const uint8_t *message, size_t n, uint8_t *tag,
                                      size_t size, struct chain *c)
{
    enum number fault = message_chain(keys, message, n, size, c);

    if (fault == DONE)
        write_tag(keys, c, tag);
    return fault;
}

static inline enum number message_verify(const struct keys *keys, const uint8_t *message, size_t n,
                                         const uint8_t *received, size_t size, struct chain *c)
{
    enum number fault = message_chain(keys, message, n, size, c);

    return fault == DONE ? compare_tag(keys, c, received) : fault;
}

#endif
