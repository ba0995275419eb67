/* Random numbers, growing buffers, and a recording in the making. */
#include <stdio.h>
#include <stdlib.h>
#include <string.h>
#include "make.h"

/* splitmix64 */
uint64_t rng_next(struct rng *g)
{
    uint64_t z = g->state += 0x9E3779B97F4A7C15u;
    z = (z ^ z >> 30) * 0xBF58476D1CE4E5B9u;
    z = (z ^ z >> 27) * 0x94D049BB133111EBu;
    return z ^ z >> 31;
}

uint32_t rng_below(struct rng *g, uint32_t n)
{
    return (uint32_t)((rng_next(g) >> 32) * n >> 32);
}

int rng_chance(struct rng *g, uint32_t percent)
{
    return rng_below(g, 100) < percent;
}

uint32_t rng_word(struct rng *g)
{
    static const uint32_t odd[] = {0, 1, 2, 3, 0x3E, 0x1E, 0x0E, 0x7FFFFFFF, 0x80000000,
                                   0x80000001, 0xFFFFFFFE, 0xFFFFFFFF};
    switch (rng_below(g, 4)) {
    case 0: return odd[rng_below(g, sizeof odd / sizeof odd[0])];
    case 1: return (uint32_t)1 << rng_below(g, 32);
    default: return (uint32_t)rng_next(g);
    }
}

void buffer_add(struct buffer *b, const uint8_t *bytes, size_t len)
{
    if (len == 0)
        return;
    if (b->room - b->len < len) {
        size_t room = b->room * 2 + len + 256;
        uint8_t *more = realloc(b->bytes, room);
        if (more == NULL) {
            perror("memory");
            exit(2);
        }
        b->bytes = more;
        b->room = room;
    }
    memcpy(b->bytes + b->len, bytes, len);
    b->len += len;
}

void buffer_free(struct buffer *b)
{
    free(b->bytes);
    *b = (struct buffer){0};
}

void maker_start(struct maker *m, struct rng *g, unsigned limit)
{
    *m = (struct maker){.g = g};
    judge_fresh(&m->j, limit);
}

void record_spare_write(const struct record *r, unsigned spare, uint8_t *bytes)
{
    record_write(r, bytes);
    bytes[14] |= (uint8_t)(spare >> 8 & 0x7F);
    bytes[15] |= (uint8_t)spare;
}

void maker_add_raw(struct maker *m, const struct record *r, unsigned spare)
{
    uint8_t bytes[RECORD];
    record_spare_write(r, spare, bytes);
    buffer_add(&m->out, bytes, RECORD);
}

uint32_t maker_try(struct maker *m, const struct record *r, unsigned spare)
{
    uint32_t broken = judge_broken(&m->j, r, spare);
    if (broken == 0) {
        judge_take(&m->j, &m->t, r);
        maker_add_raw(m, r, 0);
    }
    return broken;
}

int never_both(const struct buffer *in, unsigned limit)
{
    const uint32_t both = 1u << TOO_FEW | 1u << TOO_SOON;
    struct judge j;
    struct tally t = {0};
    judge_fresh(&j, limit);
    for (size_t at = 0; at + RECORD <= in->len; at += RECORD) {
        struct record r, next = {.start = 1};
        record_read(&r, in->bytes + at);
        if ((judge_early(&j, &r) & both) == both)
            return 0;
        if (judge_one(&j, &t, in->bytes + at).rule != 0)
            return 1;
        next.stamp = j.stamp + 1;
        if ((judge_early(&j, &next) & both) == both)
            return 0;
    }
    return 1;
}
