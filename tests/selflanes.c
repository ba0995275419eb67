/* The model's byte lanes (document 02, wish 4) against the same said by bytes: a lane carries the unit
   exactly if its byte is one of the unit's. The operation is found without the decoder, as the one whose
   code it is; "each operation has exactly one code" (01, "START codes"). Besides, the wish's own sentences
   over every code, and 01's examples P2 and P3. */
#include <stdio.h>
#include "selflanes.h"
#include "spur.h"

enum { LOW = 64, /* AD5 to AD0: table 2.3 looks at none above */
       MOST_LINES = 30 };
static unsigned long compared, apart, by_unit[UNITS + 1];

struct code {
    int tm1, tm0;
    uint32_t ad;
};

static void check(int right, const char *what, struct code c, unsigned lanes)
{
    compared++;
    if (right)
        return;
    if (++apart > MOST_LINES)
        return;
    printf("lanes: %s: TM1 %d TM0 %d AD %08lX: lanes %X\n", what, c.tm1, c.tm0, (unsigned long)c.ad,
           lanes);
}

/* The operation whose code it is, sought by the encoder among all aligned units near; 0 for none. */
static int sought(struct code c, struct operation *op)
{
    for (int unit = 0; unit < UNITS; unit++)
        for (uint32_t low = 0; low < LOW; low += code_size(unit)) {
            uint8_t tm1, tm0;
            uint32_t ad;
            *op = (struct operation){(uint8_t)c.tm1, (uint8_t)unit, (c.ad & ~(uint32_t)(LOW - 1)) + low};
            if (code_encode(op, &tm1, &tm0, &ad) == 0 && tm1 == c.tm1 && tm0 == c.tm0 && ad == c.ad)
                return 1;
        }
    return 0;
}

/* Lane k of the word at an address carries the unit if the word's byte k is one of the unit's. The sums
   don't wrap, for the last word's sake. */
static unsigned lanes_by_bytes(const struct operation *op, uint64_t word)
{
    uint64_t from = op->address, end = from + code_size(op->unit);
    unsigned lanes = 0;
    for (unsigned k = 0; k < LANES; k++)
        if (word + k >= from && word + k < end)
            lanes |= 1u << k;
    return lanes;
}

/* Every word that the unit has a byte in: the enclosing one, or each of a block's. */
static void by_bytes(struct code c)
{
    struct decoded d;
    struct operation op;
    int no = code_decode(&d, c.tm1, c.tm0, c.ad);
    if (!sought(c, &op)) {
        by_unit[UNITS]++;
        check(no == 4 && d.lanes == 0, "no meaning has no lanes", c, d.lanes);
        return;
    }
    by_unit[op.unit]++;
    check(no == 0 && d.op.write == op.write && d.op.unit == op.unit && d.op.address == op.address,
          "the operation whose code it is", c, d.lanes);
    uint64_t first = op.address & ~(uint32_t)3, end = (uint64_t)op.address + code_size(op.unit);
    for (uint64_t word = first; word < end; word += 4)
        check(d.lanes == lanes_by_bytes(&op, word), "by bytes", c, d.lanes);
}

static unsigned lanes(int tm1, int tm0, uint32_t ad)
{
    struct decoded d;
    code_decode(&d, tm1, tm0, ad);
    return d.lanes;
}

static int count_lanes(unsigned set)
{
    int n = 0;
    for (; set != 0; set >>= 1)
        n += set & 1;
    return n;
}

/* "One for a byte, two for a halfword, four for a word and for each word of a block. For a byte, lane k
   is address modulo 4; halfword 1 is lanes 2 and 3." The halfword is told from its AD lines, by table
   2.2, a word of a block from the code of that word alone. */
static void sentences(struct code c)
{
    static const int many[UNITS] = {1, 2, 4, 4, 4, 4, 4};
    struct decoded d;
    int no = code_decode(&d, c.tm1, c.tm0, c.ad);
    check(no == 0 || (no == 4 && d.lanes == 0), "no meaning, no lanes", c, d.lanes);
    check(lanes(!c.tm1, c.tm0, c.ad) == d.lanes, "a read's are a write's", c, d.lanes);
    if (no != 0)
        return;
    check(count_lanes(d.lanes) == many[d.op.unit], "how many", c, d.lanes);
    if (d.op.unit == BYTE)
        check(d.lanes >> d.op.address % 4 == 1, "a byte's is its address modulo 4", c, d.lanes);
    if (d.op.unit == HALF && (c.ad & 3) == 3)
        check(d.lanes >> 2 == 3, "halfword 1 is lanes 2 and 3", c, d.lanes);
    for (int w = 0; d.op.unit > WORD && w < code_words(d.op.unit); w++)
        check(lanes(c.tm1, 0, d.op.address + 4 * (uint32_t)w) == d.lanes, "each word of a block", c,
              d.lanes);
}

/* Of one word: its two halfwords share no lane and have all of the word's; so with the two bytes of
   each halfword. */
static void parts(int tm1, uint32_t word)
{
    struct code c = {tm1, 0, word};
    unsigned half[2] = {lanes(tm1, 0, word | 1), lanes(tm1, 0, word | 3)};
    check((half[0] & half[1]) == 0, "halfwords 0 and 1 are disjoint", c, half[0] & half[1]);
    check((half[0] | half[1]) == lanes(tm1, 0, word), "the halfwords are the word", c, half[0] | half[1]);
    for (uint32_t h = 0; h < 2; h++) {
        unsigned low = lanes(tm1, 1, word | h << 1), high = lanes(tm1, 1, word | h << 1 | 1);
        check((low & high) == 0 && (low | high) == half[h], "its bytes are the halfword", c, low | high);
        check(low < high, "the higher byte has the higher lane", c, low | high);
    }
}

/* The stand-in answers them in byte 7, with nothing behind, and for an encoding none. */
static void in_the_answer(struct code c)
{
    static struct driver driver;
    struct decoded d;
    uint8_t answer[CALL], call[CALL] = {3, (uint8_t)c.tm1, (uint8_t)c.tm0, (uint8_t)(c.ad >> 24),
                                        (uint8_t)(c.ad >> 16), (uint8_t)(c.ad >> 8), (uint8_t)c.ad, 0xA5};
    int after = 0;
    driver_start(&driver);
    code_decode(&d, c.tm1, c.tm0, c.ad);
    driver_call(&driver, call, answer);
    for (int i = 8; i < CALL; i++)
        after |= answer[i];
    check(answer[7] == d.lanes && after == 0, "byte 7 of the answer", c, answer[7]);
    call[0] = 4;
    driver_call(&driver, call, answer);
    check(answer[7] == 0, "an encoding answers no lanes", c, answer[7]);
}

/* P2 and P3: a block of 8, one of 16, no meaning; and a halfword at 00002002, which is halfword 1. */
static void examples(void)
{
    static const struct code codes[] = {{0, 0, 0x100E}, {0, 0, 0x1E}, {0, 0, 0x3E}, {1, 0, 0x2003}};
    static const unsigned right[] = {0xF, 0xF, 0x0, 0xC};
    for (int i = 0; i < 4; i++) {
        unsigned got = lanes(codes[i].tm1, codes[i].tm0, codes[i].ad);
        check(got == right[i], "01's example", codes[i], got);
    }
}

unsigned long selflanes(unsigned long *differ)
{
    /* The first and the last words, and single address lines; the lanes depend on none of them. */
    static const uint32_t upper[] = {0, 0x40, 0x1000, 0x80000000, 0x5A5A5A40, 0xF0000000, 0xFFFFFFC0};
    for (size_t u = 0; u < sizeof upper / sizeof upper[0]; u++)
        for (int i = 0; i < 4 * LOW; i++) {
            struct code c = {i / (2 * LOW), i / LOW % 2, upper[u] | (uint32_t)(i % LOW)};
            by_bytes(c);
            sentences(c);
            in_the_answer(c);
            if (c.tm0 == 0 && c.ad % 4 == 0)
                parts(c.tm1, c.ad);
        }
    examples();
    printf("lanes: bytes %lu, halfwords %lu, words %lu, blocks %lu %lu %lu %lu, no meaning %lu\n",
           by_unit[BYTE], by_unit[HALF], by_unit[WORD], by_unit[BLOCK2], by_unit[BLOCK4], by_unit[BLOCK8],
           by_unit[BLOCK16], by_unit[UNITS]);
    *differ += apart;
    return compared;
}
