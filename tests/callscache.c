/* Calls on the cache tables (01, "Cache blocks"): reads, writes and evictions on coherent blocks
   and on blocks that are not, with bad sizes, slots and blocks. */
#include <stdlib.h>
#include "caller.h"

static uint8_t some_block(struct caller *c)
{
    struct rng *g = c->g;
    uint32_t most = c->d.nmemory > 0 ? (uint32_t)c->d.nmemory : 1;
    if (rng_chance(g, 4))
        return (uint8_t)(rng_chance(g, 60) ? most : rng_below(g, 256));
    return (uint8_t)(rng_chance(g, 70) ? rng_below(g, most < 4 ? most : 4) : rng_below(g, most));
}

static uint8_t some_slot(struct rng *g)
{
    return (uint8_t)(rng_chance(g, 97) ? rng_below(g, 16)
                     : rng_chance(g, 50) ? 16 : rng_below(g, 256));
}

static void sizes(struct caller *c)
{
    struct rng *g = c->g;
    uint32_t memory = 1 + rng_below(g, 64), states, copies;
    if (rng_chance(g, 20))
        memory = rng_chance(g, 50) ? 1 : 64;
    if (rng_chance(g, 12))
        memory = rng_chance(g, 40) ? 0 : 65 + rng_below(g, 2) * rng_below(g, 191);
    states = copies = 16 * (memory > 65 ? 65 : memory);
    if (rng_chance(g, 8))
        states = rng_chance(g, 50) ? states + rng_below(g, 33) - 16 : (uint32_t)rng_next(g);
    if (rng_chance(g, 8))
        copies = rng_chance(g, 50) ? copies + rng_below(g, 33) - 16 : (uint32_t)rng_next(g);
    caller_clear(c, 11);
    c->call[1] = (uint8_t)memory;
    caller_number(c, 2, 2, states);
    caller_number(c, 4, 2, copies);
    caller_issue(c);
}

static void set_memory(struct caller *c, uint8_t block, uint32_t word)
{
    caller_clear(c, 12);
    c->call[1] = block;
    caller_number(c, 2, 4, word);
    caller_issue(c);
}

static void set_copy(struct caller *c, uint8_t slot, uint8_t block, uint8_t state, uint32_t copy)
{
    caller_clear(c, 13);
    c->call[1] = slot;
    c->call[2] = block;
    c->call[3] = state;
    caller_number(c, 4, 4, copy);
    caller_issue(c);
}

/* A block set up whole: coherent, or with one thing wrong. */
static void set_block(struct caller *c, uint8_t block)
{
    struct rng *g = c->g;
    uint32_t memory = rng_word(g), content = rng_chance(g, 50) ? rng_word(g) : memory;
    uint8_t owner = (uint8_t)rng_below(g, 16), kind = (uint8_t)rng_below(g, 3); /* owned as 2, 3? */
    uint32_t valid = rng_below(g, 101);
    if (kind == 0)
        content = memory;
    set_memory(c, block, memory);
    for (uint8_t s = 0; s < SLOTS; s++) {
        uint8_t state = (uint8_t)(rng_chance(g, valid) ? 1 : 0);
        if (kind == 2)
            state = 0;
        if (kind > 0 && s == owner)
            state = (uint8_t)(kind + 1);
        if (state != 0 || rng_chance(g, 50))
            set_copy(c, s, block, state, state != 0 ? content : rng_word(g));
        else
            set_copy(c, s, block, 0, 0);
    }
    if (!rng_chance(g, 35))
        return;
    switch (rng_below(g, 6)) { /* one thing wrong, perhaps */
    case 0:
        set_copy(c, (uint8_t)rng_below(g, 16), block,
                 (uint8_t)(rng_chance(g, 50) ? 4 : 4 + rng_below(g, 252)), content);
        break;
    case 1:
        set_copy(c, (uint8_t)rng_below(g, 16), block, 2, content);
        break;
    case 2:
        set_copy(c, (uint8_t)rng_below(g, 16), block, 3, content);
        break;
    case 3:
        set_copy(c, (uint8_t)rng_below(g, 16), block, 1, content ^ (uint32_t)1 << rng_below(g, 32));
        break;
    case 4:
        set_memory(c, block, memory ^ (uint32_t)1 << rng_below(g, 32));
        break;
    case 5:
        set_copy(c, (uint8_t)rng_below(g, 16), block, 1, content);
        break;
    }
}

static void look(struct caller *c, uint8_t block)
{
    caller_clear(c, 17);
    c->call[1] = block;
    caller_issue(c);
    caller_clear(c, 18);
    c->call[1] = block;
    caller_issue(c);
}

static void operate(struct caller *c)
{
    struct rng *g = c->g;
    uint8_t block = some_block(c);
    caller_clear(c, 14 + (int)rng_below(g, 3));
    c->call[1] = some_slot(g);
    c->call[2] = block;
    if (c->call[0] == 15)
        caller_number(c, 3, 4, rng_word(g));
    caller_issue(c);
    if (rng_chance(g, 60))
        look(c, block);
    if (rng_chance(g, 10))
        look(c, (uint8_t)rng_below(g, 256));
}

/* Every bound of the tables' lengths, and of slot and block, at its edge and one past it. */
static void bounds(struct caller *c)
{
    static const int list[][3] = {{1, 16, 16}, {0, 0, 0}, {64, 1024, 1024}, {65, 1040, 1040},
                                  {64, 1023, 1024}, {64, 1024, 1023}, {64, 1025, 1024},
                                  {64, 1024, 1025}, {1, 0, 16}, {1, 16, 0}, {1, 32, 32},
                                  {2, 16, 16}, {63, 1008, 1008}, {63, 1024, 1024}, {255, 65535, 65535}};
    for (size_t i = 0; i < sizeof list / sizeof list[0]; i++) {
        caller_clear(c, 11);
        c->call[1] = (uint8_t)list[i][0];
        caller_number(c, 2, 2, (uint64_t)list[i][1]);
        caller_number(c, 4, 2, (uint64_t)list[i][2]);
        caller_issue(c);
        for (int n = 0; n < 8; n++) {
            int op = 14 + (int)rng_below(c->g, 3);
            int block = list[i][0] - 1 + (n & 1);
            caller_clear(c, op);
            c->call[1] = n < 4 ? 15 : 16;
            c->call[2] = (uint8_t)(n & 2 ? 0 : block);
            caller_issue(c);
        }
    }
}

/* Mends the lengths after a while, so that most calls are accepted. */
static void mend(struct caller *c)
{
    uint32_t memory = 1 + rng_below(c->g, 64);
    caller_clear(c, 11);
    c->call[1] = (uint8_t)memory;
    caller_number(c, 2, 2, 16 * memory);
    caller_number(c, 4, 2, 16 * memory);
    caller_issue(c);
}

void calls_cache(struct buffer *out, struct rng *g, size_t calls)
{
    struct caller *c = malloc(sizeof *c);
    if (c == NULL)
        exit(2);
    caller_start(c, out, g);
    for (int i = 0; i < 50; i++)
        operate(c);
    if (rng_chance(g, 50)) {
        bounds(c);
        mend(c);
    }
    while (!caller_full(c, calls)) {
        if (rng_chance(g, 2)) {
            sizes(c);
            for (uint32_t i = rng_below(g, 6); i > 0; i--)
                operate(c);
            if (rng_chance(g, 70))
                mend(c);
        } else if (rng_chance(g, 4)) {
            set_block(c, (uint8_t)rng_below(g, 256));
        } else if (rng_chance(g, 5)) {
            set_block(c, some_block(c));
        } else {
            operate(c);
        }
    }
    for (int b = 0; b < 64; b++)
        if (rng_chance(g, 50))
            look(c, (uint8_t)b);
    free(c);
}
