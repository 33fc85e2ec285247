/* Collierbud for C and C++: PC-MAC-AES tags made and checked, and frames opened, under two shared keys.
 *
 * Every function is proved, on its language's abstract machine, to answer as crates/collierbud/specs/
 * says, for every input that keeps the four rules below. The proof ends at this boundary: nothing
 * checks the rules, and neither the compiler nor this header is proved.
 *
 * To link:   (cd crates/collierbud && rt lib)
 *            cc -Iinclude yours.c crates/collierbud/out/libcollierbud.a
 *
 * Linux on x86-64 alone (the System V calling convention). The archive has these three names and no
 * other; of the C library it needs memcpy and memset. A call keeps nothing and shares nothing: there
 * is no set-up and no allocation, and any thread may call at any time, on memory that is its own.
 *
 * The rules: what is handed over
 *
 *   1. A slice is a pointer and, right behind it, how many elements it has: bytes, and of counts numbers.
 *      All of them can be read, and of tag and counts written, for as long as the call runs.
 *   2. No pointer is NULL, not even where the length is 0.
 *   3. What is written (tag, counts) overlaps nothing else that is handed over.
 *   4. Nothing else writes to any of it, and nothing else reads tag or counts, while the call runs.
 *
 * What a call takes
 *
 *   order    1 to 5; 0 is read as 2, which the newer units run. (Archives before landing 9 read 0 otherwise:
 *            CHANGELOG.md. 1 to 5 mean the same in all.)
 *   bits     the length of a tag in bits, 1 to 128; 0 is read as 128. A tag occupies (bits + 7) / 8 bytes,
 *            16 where bits is 0; the spare low bits of its last byte are written as zeros, and a received tag
 *            with one of them set differs (so since landing 11: CHANGELOG.md)
 *   k, l     the keys K and L, 16 bytes each
 *   counts   where the steps are counted: counts[0] the whole-cipher steps, counts[1] the four-round
 *            steps. Those of the key set, which each call makes anew, are not among them
 *
 * What it answers is the number of the first fault, in this order: 1, 2, 3 of order, bits, k and l;
 * 3 of counts; then those that stand with the function. A refusal leaves tag as it was. counts, where it
 * has just as many places as are asked, always holds the answer's counts afterwards: zeros with
 * a refusal, and with 7 those of the check. With another number of places it is left as it was.
 *
 * Nothing is claimed about how long a call takes or what a cache shows, and the key set that a call
 * makes on the stack is not wiped.
 */
#ifndef COLLIERBUD_H
#define COLLIERBUD_H

#include <stddef.h>
#include <stdint.h>

#ifdef __cplusplus
extern "C" {
#endif

/* The numbers. 4, 9 and 10 are of calls that are not exported. */
enum {
    COLLIERBUD_DONE = 0,           /* nothing is refused */
    COLLIERBUD_BAD_ORDER = 1,      /* the order is above 5 */
    COLLIERBUD_BAD_TAG_LENGTH = 2, /* the tag length is above 128 bits */
    COLLIERBUD_BAD_SIZE = 3,       /* K or L is not 16 bytes, counts has not just its places, or a tag not just its bytes */
    COLLIERBUD_TOO_LONG = 5,       /* the message is above 1,048,576 bytes */
    COLLIERBUD_NO_BYTES = 6,       /* the message is empty */
    COLLIERBUD_TAG_DIFFERS = 7,    /* the tag is not that of the message, or has a spare bit set */
    COLLIERBUD_BAD_LENGTH = 8      /* the frame is above 255 bytes, or has no body byte before its tag */
};

/* Writes the tag of a message. tag has just the bytes of a tag, counts two places.
 * 0, or of the message and the tag: 3, 5, 6. */
uint8_t collierbud_tag(size_t order, size_t bits,
                       const uint8_t *k, size_t k_len,
                       const uint8_t *l, size_t l_len,
                       const uint8_t *message, size_t message_len,
                       uint8_t *tag, size_t tag_len,
                       uint64_t *counts, size_t counts_len);

/* Checks a received tag for a message. counts has two places.
 * 0 where it is accepted, 7 where it differs, or of the message and the tag: 3, 5, 6. */
uint8_t collierbud_check(size_t order, size_t bits,
                         const uint8_t *k, size_t k_len,
                         const uint8_t *l, size_t l_len,
                         const uint8_t *message, size_t message_len,
                         const uint8_t *received, size_t received_len,
                         uint64_t *counts, size_t counts_len);

/* Opens a frame: a body, and behind it its tag. counts has three places, and counts[2] is the length of
 * the body, 0 unless the frame is accepted: the body is the first counts[2] bytes of the frame.
 * 0 where it is accepted, 7 where the tag differs, or of the frame: 8. */
uint8_t collierbud_open(size_t order, size_t bits,
                        const uint8_t *k, size_t k_len,
                        const uint8_t *l, size_t l_len,
                        const uint8_t *frame, size_t frame_len,
                        uint64_t *counts, size_t counts_len);

#ifdef __cplusplus
}
#endif

#endif
