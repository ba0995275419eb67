/* Calls for codes and records, and calls of any bytes at all. */
#include <stdlib.h>
#include <string.h>
#include "caller.h"

const char *const subject_names[SUBJECTS] = {"codes", "records", "bus", "cache", "judge", "accounts",
                                             "any", "every code"};

void caller_start(struct caller *c, struct buffer *out, struct rng *g)
{
    c->out = out;
    c->g = g;
    c->accounts = 0;
    driver_start(&c->d);
}

void caller_clear(struct caller *c, int op)
{
    memset(c->call, 0, CALL);
    if (rng_chance(c->g, 30))
        for (int i = 0; i < CALL; i += 8)
            caller_number(c, i, 8, rng_next(c->g));
    c->call[0] = (uint8_t)op;
}

void caller_number(struct caller *c, int at, int bytes, uint64_t v)
{
    for (int i = bytes; i-- > 0; v >>= 8)
        c->call[at + i] = (uint8_t)v;
}

void caller_issue(struct caller *c)
{
    driver_call(&c->d, c->call, c->answer);
    buffer_add(c->out, c->call, CALL);
}

int caller_full(const struct caller *c, size_t calls)
{
    return c->out->len >= calls * CALL;
}

static uint8_t flag(struct rng *g)
{
    return rng_chance(g, 50) ? 0 : rng_chance(g, 70) ? 1 : (uint8_t)rng_below(g, 256);
}

/* A START code or an address near an edge of tables 2.2 and 2.3. */
static uint32_t some_code(struct rng *g)
{
    uint32_t high = rng_word(g) & ~(uint32_t)0x7F;
    return rng_chance(g, 70) ? high | rng_below(g, 128) : rng_word(g);
}

static void one_code(struct caller *c)
{
    struct rng *g = c->g;
    int op = 3 + (int)rng_below(g, 5);
    caller_clear(c, op);
    switch (op) {
    case 3:
        c->call[1] = flag(g);
        c->call[2] = rng_chance(g, 60) ? 0 : flag(g);
        caller_number(c, 3, 4, some_code(g));
        break;
    case 4:
        c->call[1] = flag(g);
        c->call[2] = (uint8_t)(rng_chance(g, 80) ? rng_below(g, 7) : rng_below(g, 256));
        caller_number(c, 3, 4, some_code(g) & (rng_chance(g, 70) ? ~0u << rng_below(g, 8) : ~0u));
        break;
    case 5:
        c->call[1] = flag(g);
        c->call[2] = flag(g);
        break;
    case 6:
        caller_number(c, 1, 4, rng_word(g));
        break;
    case 7:
        caller_number(c, 1, 2, rng_chance(g, 20) ? 1u << rng_below(g, 16)
                               : rng_chance(g, 10) ? 0
                                                   : rng_next(g) & rng_next(g));
        break;
    }
    caller_issue(c);
}

/* All low parts of a code, both ways, and all sets of the contest. */
static void all_codes(struct caller *c)
{
    for (int i = 0; i < 4 * 128; i++) {
        caller_clear(c, 3);
        c->call[1] = i >> 8 & 1;
        c->call[2] = i >> 7 & 1;
        caller_number(c, 3, 4, (rng_word(c->g) & ~(uint32_t)0x7F) | (i & 0x7F));
        caller_issue(c);
    }
    for (int i = 0; i < 2 * 7 * 64; i++) {
        caller_clear(c, 4);
        c->call[1] = (uint8_t)(i & 1);
        c->call[2] = (uint8_t)(i / 2 % 7);
        caller_number(c, 3, 4, (rng_word(c->g) & ~(uint32_t)0x3F) | (unsigned)(i / 14));
        caller_issue(c);
    }
    for (int i = 0; i < 65536; i++) {
        caller_clear(c, 7);
        caller_number(c, 1, 2, (uint64_t)i);
        caller_issue(c);
    }
}

static uint8_t some_offset(struct rng *g)
{
    return (uint8_t)(rng_chance(g, 90) ? rng_below(g, 45) : rng_below(g, 256));
}

static uint8_t some_length(struct rng *g)
{
    return (uint8_t)(rng_chance(g, 60) ? 40 : rng_chance(g, 80) ? rng_below(g, 42)
                                                                : rng_below(g, 256));
}

/* Packing, with fields too wide and too little room; unpacking, with spare bits and too few
   bytes. Offset and length near each other's edge often. */
static void one_record(struct caller *c)
{
    struct rng *g = c->g;
    uint8_t offset = some_offset(g), length = some_length(g);
    if (rng_chance(g, 40)) {
        uint8_t held = length > 40 ? 40 : length;
        int edge = held - 16 + (int)rng_below(g, 3) - 1;
        offset = edge < 0 ? 0 : (uint8_t)edge;
    }
    if (rng_chance(g, 50)) {
        caller_clear(c, 1);
        caller_number(c, 4, 4, rng_word(g));
        for (int i = 8; i < 17; i++)
            c->call[i] = flag(g);
        c->call[10] = (uint8_t)(rng_chance(g, 85) ? rng_below(g, 16) : 14 + rng_below(g, 4));
        if (rng_chance(g, 3))
            c->call[10] = (uint8_t)rng_below(g, 256);
        caller_number(c, 17, 4, rng_word(g));
        for (int i = 21; i < 25; i++)
            c->call[i] = flag(g);
        uint64_t vad = rng_next(g) >> 31;
        if (rng_chance(g, 12))
            vad = ((uint64_t)1 << 33) - 2 + rng_below(g, 4);
        if (rng_chance(g, 4))
            vad = rng_chance(g, 50) ? rng_next(g) : (uint64_t)1 << rng_below(g, 64);
        caller_number(c, 25, 8, vad);
    } else {
        caller_clear(c, 2);
        for (int i = 3; i < 43; i += 8)
            caller_number(c, i, 8, rng_next(g));
        if (rng_chance(g, 75) && offset <= 24) { /* no spare bits, or a single one */
            c->call[3 + offset + 14] &= 0x80;
            c->call[3 + offset + 15] = 0;
            if (rng_chance(g, 20)) {
                uint32_t bit = rng_below(g, 15);
                c->call[3 + offset + 15 - bit / 8] |= (uint8_t)(1 << bit % 8);
            }
        }
    }
    c->call[1] = offset;
    c->call[2] = length;
    caller_issue(c);
}

/* Any bytes, small numbers often; every operation, and some that aren't. */
static void one_of_any(struct caller *c)
{
    struct rng *g = c->g;
    caller_clear(c, (int)(rng_chance(g, 97) ? rng_below(g, 29) : rng_below(g, 256)));
    for (int i = 1; i < CALL; i++)
        if (rng_chance(g, 60))
            c->call[i] = (uint8_t)(rng_chance(g, 70) ? rng_below(g, 20) : rng_below(g, 256));
    if (c->call[0] == 9 && rng_chance(g, 80)) {
        static const uint8_t words[] = {0, 1, 2, 4, 8, 16};
        c->call[4] = 16;
        for (int i = 5; i < 21; i++)
            c->call[i] = (uint8_t)((c->call[i] & 0xC0) | words[rng_below(g, 6)]);
    }
    if (c->call[0] == 11 && rng_chance(g, 80)) {
        c->call[1] = (uint8_t)(1 + rng_below(g, 64));
        caller_number(c, 2, 2, 16u * c->call[1]);
        caller_number(c, 4, 2, 16u * c->call[1]);
    }
    if (c->call[0] == 23 && rng_chance(g, 80))
        c->call[50] = SLOTS;
    if (c->call[0] == 24 && rng_chance(g, 80))
        c->call[2] = SLOTS;
    if (c->call[0] == 25 && rng_chance(g, 50))
        caller_number(c, 2, 12, 0);
    if (c->call[0] == 10 && rng_chance(g, 70)) {
        c->call[18] %= 3;
        c->call[21] = (uint8_t)(1 + c->call[21] % 16);
        c->call[19] %= c->call[21];
        c->call[20] = c->call[20] % 2 ? 255 : c->call[20] % 16;
        c->call[23] = (uint8_t)(1 + c->call[23] % 16);
    }
    caller_issue(c);
}

void make_calls(struct buffer *out, struct rng *g, enum subject s, size_t calls)
{
    struct caller *c = malloc(sizeof *c);
    if (c == NULL)
        exit(2);
    switch (s) {
    case BUS: calls_bus(out, g, calls); break;
    case CACHE: calls_cache(out, g, calls); break;
    case JUDGE: calls_judge(out, g, calls, 0); break;
    case ACCOUNTS: calls_judge(out, g, calls, 60 + 20 * rng_below(g, 3)); break;
    default:
        caller_start(c, out, g);
        if (s == EVERY_CODE)
            all_codes(c);
        while (!caller_full(c, calls))
            if (s == CODES)
                one_code(c);
            else if (s == RECORDS)
                one_record(c);
            else
                one_of_any(c);
    }
    free(c);
}
