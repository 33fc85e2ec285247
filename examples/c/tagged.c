/* Monday's tariff of the sample week (examples/week.txt): tagged, checked, sent as a frame and opened,
 * and refused where a bit of it was turned on the way. tagged.out is what this prints.
 *
 *     (cd crates/collierbud && rt lib)
 *     cc -Iinclude examples/c/tagged.c crates/collierbud/out/libcollierbud.a -o tagged && ./tagged
 */
#include <inttypes.h>
#include <stdio.h>
#include <string.h>

#include "collierbud.h"

enum { ORDER = 2, BITS = 64, TAG = 8 };

static const uint8_t K[16] = {0x10, 0x11, 0x12, 0x13, 0x14, 0x15, 0x16, 0x17, 0x18, 0x19, 0x1A, 0x1B, 0x1C, 0x1D, 0x1E, 0x1F};
static const uint8_t L[16] = {0xA0, 0xA1, 0xA2, 0xA3, 0xA4, 0xA5, 0xA6, 0xA7, 0xA8, 0xA9, 0xAA, 0xAB, 0xAC, 0xAD, 0xAE, 0xAF};

static void open_and_say(const char *what, const uint8_t *frame, size_t n) {
    uint64_t counts[3];
    uint8_t number = collierbud_open(ORDER, BITS, K, 16, L, 16, frame, n, counts, 3);
    printf("%s %u, %" PRIu64 " whole and %" PRIu64 " four-round steps, body \"%.*s\"\n",
           what, number, counts[0], counts[1], (int)counts[2], (const char *)frame);
}

int main(void) {
    const char *text = "MON Gibraltar 0450, Ceuta 0520, Tangier 0610";
    size_t n = strlen(text);
    uint8_t frame[255];
    uint64_t counts[2];
    memcpy(frame, text, n);

    /* the tag goes right behind the body: message and tag are parts of one array, and do not overlap */
    uint8_t number = collierbud_tag(ORDER, BITS, K, 16, L, 16, frame, n, frame + n, TAG, counts, 2);
    printf("tag %u, %" PRIu64 " whole and %" PRIu64 " four-round steps, ", number, counts[0], counts[1]);
    for (size_t i = 0; i < TAG; i++) printf("%02X", frame[n + i]);
    printf("\n");

    number = collierbud_check(ORDER, BITS, K, 16, L, 16, frame, n, frame + n, TAG, counts, 2);
    printf("check %u\n", number);
    number = collierbud_check(6, BITS, K, 16, L, 16, frame, n, frame + n, TAG, counts, 2);
    printf("check at order 6 %u\n", number);

    open_and_say("open", frame, n + TAG);
    frame[16] ^= 4; /* 0450 becomes 0410 */
    open_and_say("open damaged", frame, n + TAG);
    open_and_say("open a tag alone", frame + n, TAG);
    return 0;
}
