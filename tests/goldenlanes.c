/* The driver's decoding with its byte lanes (document 02, wish 4), written down by hand from 001's tables
   2.2 and 2.3. Lane 0 is bit 0, so 1, 2, 4 and 8 are bytes 0 to 3, 3 is halfword 0, C halfword 1 and F a
   word or each word of a block; a refusal gives 0 for every value (01, "Numbers that are fixed"). */
#include <string.h>
#include "golden.h"

/* A code as a call gives it, and the operation: refusal, direction, unit (0 byte, 1 halfword, 2 word,
   3 to 6 blocks of 2, 4, 8, 16), address; then the lanes. */
struct lane_call {
    const char *name;
    uint8_t tm1, tm0;
    uint32_t ad;
    uint8_t no, write, unit;
    uint32_t at;
    uint8_t lanes;
};

/* Table 2.2, its rows from the top; L is an active line. */
static const struct lane_call rows[] = {
    {"L L L L write byte 3", 1, 1, 0x00004567, 0, 1, 0, 0x00004567, 0x8},
    {"L L L H write byte 2", 1, 1, 0x00004566, 0, 1, 0, 0x00004566, 0x4},
    {"L L H L write byte 1", 1, 1, 0x00004565, 0, 1, 0, 0x00004565, 0x2},
    {"L L H H write byte 0", 1, 1, 0x00004564, 0, 1, 0, 0x00004564, 0x1},
    {"L H L L write halfword 1", 1, 0, 0x00004567, 0, 1, 1, 0x00004566, 0xC},
    {"L H L H write block", 1, 0, 0x00004562, 0, 1, 3, 0x00004560, 0xF},
    {"L H H L write halfword 0", 1, 0, 0x00004565, 0, 1, 1, 0x00004564, 0x3},
    {"L H H H write word", 1, 0, 0x00004564, 0, 1, 2, 0x00004564, 0xF},
    {"H L L L read byte 3", 0, 1, 0x00004567, 0, 0, 0, 0x00004567, 0x8},
    {"H L L H read byte 2", 0, 1, 0x00004566, 0, 0, 0, 0x00004566, 0x4},
    {"H L H L read byte 1", 0, 1, 0x00004565, 0, 0, 0, 0x00004565, 0x2},
    {"H L H H read byte 0", 0, 1, 0x00004564, 0, 0, 0, 0x00004564, 0x1},
    {"H H L L read halfword 1", 0, 0, 0x00004567, 0, 0, 1, 0x00004566, 0xC},
    {"H H L H read block", 0, 0, 0x00004562, 0, 0, 3, 0x00004560, 0xF},
    {"H H H L read halfword 0", 0, 0, 0x00004565, 0, 0, 1, 0x00004564, 0x3},
    {"H H H H read word", 0, 0, 0x00004564, 0, 0, 2, 0x00004564, 0xF},
};

/* Table 2.3, with the lines that are still address inactive and active. A block's lanes are those of
   each of its words, whatever its lines say of length and address. */
static const struct lane_call blocks[] = {
    {"2 words", 0, 0, 0x00000002, 0, 0, 3, 0x00000000, 0xF},
    {"2 words, AD3", 1, 0, 0x0000000A, 0, 1, 3, 0x00000008, 0xF},
    {"2 words, AD4", 0, 0, 0x00000012, 0, 0, 3, 0x00000010, 0xF},
    {"2 words, AD5 to AD3", 1, 0, 0x0000003A, 0, 1, 3, 0x00000038, 0xF},
    {"2 words, AD31 to AD3", 0, 0, 0xFFFFFFFA, 0, 0, 3, 0xFFFFFFF8, 0xF},
    {"4 words", 1, 0, 0x00000006, 0, 1, 4, 0x00000000, 0xF},
    {"4 words, AD5", 0, 0, 0x00000026, 0, 0, 4, 0x00000020, 0xF},
    {"4 words, AD31 to AD4", 1, 0, 0xFFFFFFF6, 0, 1, 4, 0xFFFFFFF0, 0xF},
    {"8 words", 1, 0, 0x0000000E, 0, 1, 5, 0x00000000, 0xF},
    {"8 words, AD31 to AD5", 0, 0, 0xFFFFFFEE, 0, 0, 5, 0xFFFFFFE0, 0xF},
    {"16 words", 1, 0, 0x0000001E, 0, 1, 6, 0x00000000, 0xF},
    {"16 words, AD31 to AD6", 0, 0, 0xFFFFFFDE, 0, 0, 6, 0xFFFFFFC0, 0xF},

    /* All four of AD5 to AD2 active in a block: no length, so no lanes, right behind one that had all. */
    {"no meaning, read", 0, 0, 0x0000003E, 4, 0, 0, 0, 0x0},
    {"no meaning, write", 1, 0, 0x0000003E, 4, 0, 0, 0, 0x0},
    {"no meaning, AD6", 0, 0, 0x0000007E, 4, 0, 0, 0, 0x0},
    {"no meaning, AD31 to AD1", 1, 0, 0xFFFFFFFE, 4, 0, 0, 0, 0x0},

    /* The same AD lines in another mode have a meaning, and lanes. */
    {"byte at 3C", 1, 1, 0x0000003C, 0, 1, 0, 0x0000003C, 0x1},
    {"byte at 3E", 0, 1, 0x0000003E, 0, 0, 0, 0x0000003E, 0x4},
    {"byte at 3F", 1, 1, 0x0000003F, 0, 1, 0, 0x0000003F, 0x8},
    {"halfword 0 at 3C", 1, 0, 0x0000003D, 0, 1, 1, 0x0000003C, 0x3},
    {"halfword 1 at 3E", 0, 0, 0x0000003F, 0, 0, 1, 0x0000003E, 0xC},
    {"word at 3C", 1, 0, 0x0000003C, 0, 1, 2, 0x0000003C, 0xF},
};

/* The first and the last words of the address space, and address lines that aren't AD1 and AD0. */
static const struct lane_call places[] = {
    {"the first byte", 0, 1, 0x00000000, 0, 0, 0, 0x00000000, 0x1},
    {"byte 4 is lane 0", 0, 1, 0x00000004, 0, 0, 0, 0x00000004, 0x1},
    {"byte 8 is lane 0", 1, 1, 0x00000008, 0, 1, 0, 0x00000008, 0x1},
    {"byte 7 is lane 3", 0, 1, 0x00000007, 0, 0, 0, 0x00000007, 0x8},
    {"byte 9 is lane 1", 1, 1, 0x00000009, 0, 1, 0, 0x00000009, 0x2},
    {"the first halfword", 1, 0, 0x00000001, 0, 1, 1, 0x00000000, 0x3},
    {"the second halfword", 0, 0, 0x00000003, 0, 0, 1, 0x00000002, 0xC},
    {"the third halfword", 1, 0, 0x00000005, 0, 1, 1, 0x00000004, 0x3},
    {"the first word", 0, 0, 0x00000000, 0, 0, 2, 0x00000000, 0xF},
    {"AD31 and AD1", 1, 1, 0x80000002, 0, 1, 0, 0x80000002, 0x4},
    {"the last byte", 0, 1, 0xFFFFFFFF, 0, 0, 0, 0xFFFFFFFF, 0x8},
    {"the last byte but one", 1, 1, 0xFFFFFFFE, 0, 1, 0, 0xFFFFFFFE, 0x4},
    {"the last halfword", 1, 0, 0xFFFFFFFF, 0, 1, 1, 0xFFFFFFFE, 0xC},
    {"the last halfword but one", 0, 0, 0xFFFFFFFD, 0, 0, 1, 0xFFFFFFFC, 0x3},
    {"the last word", 1, 0, 0xFFFFFFFC, 0, 1, 2, 0xFFFFFFFC, 0xF},

    /* A flag is read as "not 0" (CALLS.md). */
    {"TM1 255, TM0 2", 255, 2, 0x00000001, 0, 1, 0, 0x00000001, 0x2},
    {"TM1 128", 128, 0, 0x00000003, 0, 1, 1, 0x00000002, 0xC},
};

/* Each byte of the answer is settled: those that aren't named are 0. The call's that aren't named are
   ignored; in every other call they are A5. An encoding takes no lanes and answers none, so the
   operation has its code back with byte 7 at 0. */
static void put_lanes(const struct lane_call *list, size_t count)
{
    for (size_t i = 0; i < count; i++) {
        const struct lane_call *l = &list[i];
        struct step *s = call(l->name, 3, l->no);
        memset(s->call + 7, i % 2 ? 0xA5 : 0, CALL - 7);
        put(s->call, 1, 1, l->tm1);
        put(s->call, 2, 1, l->tm0);
        put(s->call, 3, 4, l->ad);
        expect(s, 1, 1, l->write);
        expect(s, 2, 1, l->unit);
        expect(s, 3, 4, l->at);
        expect(s, 7, 1, l->lanes);
        expect(s, 8, CALL - 8, 0);
        if (l->no != 0)
            continue;
        s = call(l->name, 4, 0);
        memset(s->call + 7, i % 2 ? 0 : 0xA5, CALL - 7);
        put(s->call, 1, 1, l->write);
        put(s->call, 2, 1, l->unit);
        put(s->call, 3, 4, l->at);
        expect(s, 1, 1, l->tm1 != 0);
        expect(s, 2, 1, l->tm0 != 0);
        expect(s, 3, 4, l->ad);
        expect(s, 7, CALL - 7, 0);
    }
}

void golden_lane_calls(void)
{
    put_lanes(rows, sizeof rows / sizeof rows[0]);
    put_lanes(blocks, sizeof blocks / sizeof blocks[0]);
    put_lanes(places, sizeof places / sizeof places[0]);
}
