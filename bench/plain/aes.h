/*
 * AES-128 encryption (FIPS 197) and the four-round function G of PC-MAC-AES, in plain C.
 *
 * The files of this folder are written to be counted and timed beside the proved programs (bench/count, bench/time),
 * and as the control of bench/same. No proof and no program of the project rests on them. They have the shape of the
 * proved code: one table of 256 bytes, a state of 4x4 bytes, MixColumns by xtime; no tables of whole rounds, no
 * intrinsics.
 *
 * Everything is static inline, so that the compiler sees a program whole and may put any call into its caller. With
 * WORDS defined, MixColumns works on words of 32 bits; with LEAVES, a comparison of tags leaves at the first byte that
 * differs (mac.h).
 */
#ifndef PLAIN_AES_H
#define PLAIN_AES_H

#include <stddef.h>
#include <stdint.h>
#include <string.h>

static const uint8_t sbox[256] = {
    0x63, 0x7c, 0x77, 0x7b, 0xf2, 0x6b, 0x6f, 0xc5, 0x30, 0x01, 0x67, 0x2b, 0xfe, 0xd7, 0xab, 0x76,
    0xca, 0x82, 0xc9, 0x7d, 0xfa, 0x59, 0x47, 0xf0, 0xad, 0xd4, 0xa2, 0xaf, 0x9c, 0xa4, 0x72, 0xc0,
    0xb7, 0xfd, 0x93, 0x26, 0x36, 0x3f, 0xf7, 0xcc, 0x34, 0xa5, 0xe5, 0xf1, 0x71, 0xd8, 0x31, 0x15,
    0x04, 0xc7, 0x23, 0xc3, 0x18, 0x96, 0x05, 0x9a, 0x07, 0x12, 0x80, 0xe2, 0xeb, 0x27, 0xb2, 0x75,
    0x09, 0x83, 0x2c, 0x1a, 0x1b, 0x6e, 0x5a, 0xa0, 0x52, 0x3b, 0xd6, 0xb3, 0x29, 0xe3, 0x2f, 0x84,
    0x53, 0xd1, 0x00, 0xed, 0x20, 0xfc, 0xb1, 0x5b, 0x6a, 0xcb, 0xbe, 0x39, 0x4a, 0x4c, 0x58, 0xcf,
    0xd0, 0xef, 0xaa, 0xfb, 0x43, 0x4d, 0x33, 0x85, 0x45, 0xf9, 0x02, 0x7f, 0x50, 0x3c, 0x9f, 0xa8,
    0x51, 0xa3, 0x40, 0x8f, 0x92, 0x9d, 0x38, 0xf5, 0xbc, 0xb6, 0xda, 0x21, 0x10, 0xff, 0xf3, 0xd2,
    0xcd, 0x0c, 0x13, 0xec, 0x5f, 0x97, 0x44, 0x17, 0xc4, 0xa7, 0x7e, 0x3d, 0x64, 0x5d, 0x19, 0x73,
    0x60, 0x81, 0x4f, 0xdc, 0x22, 0x2a, 0x90, 0x88, 0x46, 0xee, 0xb8, 0x14, 0xde, 0x5e, 0x0b, 0xdb,
    0xe0, 0x32, 0x3a, 0x0a, 0x49, 0x06, 0x24, 0x5c, 0xc2, 0xd3, 0xac, 0x62, 0x91, 0x95, 0xe4, 0x79,
    0xe7, 0xc8, 0x37, 0x6d, 0x8d, 0xd5, 0x4e, 0xa9, 0x6c, 0x56, 0xf4, 0xea, 0x65, 0x7a, 0xae, 0x08,
    0xba, 0x78, 0x25, 0x2e, 0x1c, 0xa6, 0xb4, 0xc6, 0xe8, 0xdd, 0x74, 0x1f, 0x4b, 0xbd, 0x8b, 0x8a,
    0x70, 0x3e, 0xb5, 0x66, 0x48, 0x03, 0xf6, 0x0e, 0x61, 0x35, 0x57, 0xb9, 0x86, 0xc1, 0x1d, 0x9e,
    0xe1, 0xf8, 0x98, 0x11, 0x69, 0xd9, 0x8e, 0x94, 0x9b, 0x1e, 0x87, 0xe9, 0xce, 0x55, 0x28, 0xdf,
    0x8c, 0xa1, 0x89, 0x0d, 0xbf, 0xe6, 0x42, 0x68, 0x41, 0x99, 0x2d, 0x0f, 0xb0, 0x54, 0xbb, 0x16,
};

/* The state is the block as it lies: byte r of column c is s[c][r]. */
typedef uint8_t state[4][4];

static inline uint8_t xtime(uint8_t x)
{
    return (uint8_t)((x << 1) ^ (-(x >> 7) & 0x1b));
}

static inline void xor_block(uint8_t *x, const uint8_t *y)
{
    for (int i = 0; i < 16; i++)
        x[i] ^= y[i];
}

/* SubBytes and ShiftRows in one pass: row r is turned to the left by r places. */
static inline void sub_and_shift(state s)
{
    const state t = {
        {sbox[s[0][0]], sbox[s[1][1]], sbox[s[2][2]], sbox[s[3][3]]},
        {sbox[s[1][0]], sbox[s[2][1]], sbox[s[3][2]], sbox[s[0][3]]},
        {sbox[s[2][0]], sbox[s[3][1]], sbox[s[0][2]], sbox[s[1][3]]},
        {sbox[s[3][0]], sbox[s[0][1]], sbox[s[1][2]], sbox[s[2][3]]},
    };

    memcpy(s, t, sizeof t);
}

#ifndef WORDS

/* {02}p + {03}q is {02}(p + q) + q: one doubling for each byte. */
static inline void mix_columns(state s)
{
    for (int c = 0; c < 4; c++) {
        uint8_t p = s[c][0], q = s[c][1], t = s[c][2], v = s[c][3];

        s[c][0] = xtime(p ^ q) ^ q ^ t ^ v;
        s[c][1] = xtime(q ^ t) ^ t ^ v ^ p;
        s[c][2] = xtime(t ^ v) ^ v ^ p ^ q;
        s[c][3] = xtime(v ^ p) ^ p ^ q ^ t;
    }
}

#else

/* The same on a column as a word of 32 bits, byte 0 lowest, as x86-64 reads it: turned by a byte, p is q. */
static inline uint32_t turned(uint32_t w, int bits)
{
    return w >> bits | w << (32 - bits);
}

static inline void mix_columns(state s)
{
    for (int c = 0; c < 4; c++) {
        uint32_t p, q, sum;

        memcpy(&p, s[c], 4);
        q = turned(p, 8);
        sum = p ^ q;
        p = ((sum & 0x7f7f7f7f) << 1) ^ ((sum >> 7 & 0x01010101) * 0x1b) ^ q ^ turned(p, 16) ^ turned(p, 24);
        memcpy(s[c], &p, 4);
    }
}

#endif

static inline void expand_key(uint8_t w[176], const uint8_t key[16])
{
    uint8_t rcon = 1;

    memcpy(w, key, 16);
    for (int i = 16; i < 176; i += 4) {
        uint8_t t[4];

        memcpy(t, w + i - 4, 4);
        if (i % 16 == 0) {
            uint8_t first = t[0];

            t[0] = sbox[t[1]] ^ rcon;
            t[1] = sbox[t[2]];
            t[2] = sbox[t[3]];
            t[3] = sbox[first];
            rcon = xtime(rcon);
        }
        for (int j = 0; j < 4; j++)
            w[i + j] = w[i + j - 16] ^ t[j];
    }
}

/* E: the block, in place, under a schedule. */
static inline void encrypt_block(const uint8_t w[176], uint8_t block[16])
{
    state s;

    memcpy(s, block, 16);
    xor_block(s[0], w);
    for (int i = 1; i < 10; i++) {
        sub_and_shift(s);
        mix_columns(s);
        xor_block(s[0], w + 16 * i);
    }
    sub_and_shift(s);
    xor_block(s[0], w + 160);
    memcpy(block, s, 16);
}

/* G: four rounds of the block, in place, with a key after each of the first three. */
static inline void four_rounds(const uint8_t u[48], uint8_t block[16])
{
    state s;

    memcpy(s, block, 16);
    for (int i = 0; i < 4; i++) {
        sub_and_shift(s);
        mix_columns(s);
        if (i < 3)
            xor_block(s[0], u + 16 * i);
    }
    memcpy(block, s, 16);
}

#endif
