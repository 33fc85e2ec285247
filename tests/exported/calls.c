/* The exported calls of the static library, made from C: a question a line on standard input, in hexadecimal, and its
 * answer a line on standard output.
 *
 *     tag   ORDER BITS K L MESSAGE            number, two counts, the tag space
 *     check ORDER BITS K L MESSAGE RECEIVED   number, two counts
 *     open  ORDER BITS K L FRAME              number, two counts, the length of the body
 *
 * The space for a tag has just its bytes and holds A5 before the call, the counts hold ones. Of the C library it wants
 * two functions, which are declared here, so that it builds also where there are no headers for x86-64 (the end of the
 * input is then -1, as every C library on Linux has it).
 */
#include "collierbud.h"

int getchar(void);
int putchar(int c);

enum { END = -1, LONGEST = 4096, MOST_FIELDS = 7 };

struct slice {
    uint8_t bytes[LONGEST];
    size_t length;
};

/* The fields of a line: the call's first letter, and then bytes. */
static struct slice field[MOST_FIELDS];

static int digit(int c)
{
    return c >= '0' && c <= '9' ? c - '0' : c >= 'A' && c <= 'F' ? c - 'A' + 10 : -1;
}

/* Reads a line: the first letter of its call, or 0 where the input has ended. */
static int read_line(void)
{
    int call = getchar(), c = call;
    size_t at = 0;

    if (call == END)
        return 0;
    while (c != ' ' && c != '\n' && c != END)
        c = getchar();
    for (size_t i = 0; i < MOST_FIELDS; i++)
        field[i].length = 0;
    while (c != '\n' && c != END) {
        if (c == ' ') {
            at = at + 1 < MOST_FIELDS ? at + 1 : at;
        } else if (field[at].length < LONGEST) {
            int high = digit(c), low = digit(getchar());

            field[at].bytes[field[at].length++] = (uint8_t)(16 * high + low);
        }
        c = getchar();
    }
    return call;
}

static void put_number(uint64_t n, int digits)
{
    while (digits-- > 0)
        putchar("0123456789ABCDEF"[n >> 4 * digits & 15]);
}

static void answer(int call)
{
    size_t order = field[1].bytes[0], bits = field[2].bytes[0];
    const struct slice *k = &field[3], *l = &field[4], *text = &field[5], *received = &field[6];
    uint64_t counts[3] = {UINT64_MAX, UINT64_MAX, UINT64_MAX};
    uint8_t tag[16], number;
    size_t size = bits == 0 ? 16 : (bits + 7) / 8, shown = call == 'o' ? 3 : 2;

    for (size_t i = 0; i < 16; i++)
        tag[i] = 0xA5;
    if (call == 't')
        number = collierbud_tag(order, bits, k->bytes, k->length, l->bytes, l->length, text->bytes, text->length,
                                tag, size, counts, 2);
    else if (call == 'c')
        number = collierbud_check(order, bits, k->bytes, k->length, l->bytes, l->length, text->bytes, text->length,
                                  received->bytes, received->length, counts, 2);
    else
        number = collierbud_open(order, bits, k->bytes, k->length, l->bytes, l->length, text->bytes, text->length,
                                 counts, 3);
    put_number(number, 2);
    for (size_t i = 0; i < shown; i++)
        put_number(counts[i], 16);
    for (size_t i = 0; call == 't' && i < size; i++)
        put_number(tag[i], 2);
    putchar('\n');
}

int main(void)
{
    int call;

    while ((call = read_line()) != 0)
        answer(call);
    return 0;
}
