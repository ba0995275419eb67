/* The same by looking back over the recording: every record with the cycle in which it stands, and what
   came before is found among those before it; nothing of the judge but which rule which record breaks. */
#include <stdlib.h>
#include "desk.h"

struct past {
    struct record *at;
    uint64_t *cycle;
};

static int active_before(const struct past *p, long i) /* RQST in the cycle before record i's */
{
    return i > 0 && p->cycle[i - 1] + 1 == p->cycle[i] && !p->at[i - 1].reset && p->at[i - 1].rqst;
}

static int of_wave(const struct past *p, long i)
{
    return !p->at[i].reset && p->at[i].start && active_before(p, i);
}

/* The START of the transfer that is open when record i comes. */
static long opened(const struct past *p, long i)
{
    for (long k = i - 1; k >= 0; k--)
        if (p->at[k].start && !p->at[k].ack && !p->at[k].reset)
            return k;
    return -1;
}

/* The wave's START before record i, which is one of its STARTs itself; -1 where there is none: behind a
   cycle without RQST the wave wasn't on. */
static long start_before(const struct past *p, long i)
{
    for (long k = i - 1; k >= 0 && active_before(p, k + 1) && active_before(p, k); k--)
        if (of_wave(p, k))
            return k;
    return -1;
}

static int odd(uint32_t ad)
{
    int lines = 0;
    for (int bit = 0; bit < 32; bit++)
        lines += (int)(ad >> bit & 1);
    return lines % 2;
}

static uint64_t words_of(const struct record *start)
{
    unsigned low = start->ad >> 2 & 15;
    if (start->tm0 || (start->ad & 3) != 2)
        return 1;
    return (low & 1) == 0 ? 2 : (low & 2) == 0 ? 4 : (low & 4) == 0 ? 8 : 16;
}

static int strobes_at(const struct past *p, long i)
{
    return p->at[i].tm0 && !p->at[i].ack && !p->at[i].start;
}

/* The record from which the age counts at record i: the last strobe of an open block, else the START
   (document 02, wish 5). */
static long restarted(const struct past *p, long i, long open)
{
    for (long k = i - 1; k > open && words_of(&p->at[open]) > 1; k--)
        if (strobes_at(p, k))
            return k;
    return open;
}

static struct cause look(const struct past *p, long i, unsigned spare, unsigned limit,
                         struct verdict v)
{
    const struct record *r = &p->at[i];
    struct cause c = {0, 0};
    long open = opened(p, i), last = i > 0 ? start_before(p, i) : -1;
    switch (v.rule) {
    case 1: return (struct cause){spare, 0};
    case 2: return (struct cause){p->cycle[i] - p->cycle[i - 1], 2147483648u};
    case 3: return (struct cause){r->sp, (uint64_t)odd(r->ad)};
    case 4: return (struct cause){p->cycle[i] - p->cycle[open], 0};
    case 8:
        if (v.kind == TOO_SOON)
            c = (struct cause){p->cycle[i] - p->cycle[last], 3};
        return c;
    case 10: return (struct cause){r->arb, p->at[last].arb};
    case 11:
        c = (struct cause){1, limit};
        for (; last >= 0; last = start_before(p, last))
            c.found += p->at[last].arb == r->arb;
        return c;
    case 12: return (struct cause){p->cycle[i] - p->cycle[restarted(p, i, open)], 256};
    case 13:
        for (long k = open + 1; k <= i; k++)
            c.found += (uint64_t)strobes_at(p, k);
        c.bound = words_of(&p->at[open]) - 1;
        return c;
    }
    return c;
}

struct cause cause_back(const uint8_t *bytes, unsigned limit, struct verdict v)
{
    struct past p = {calloc(v.record + 1, sizeof *p.at), calloc(v.record + 1, sizeof *p.cycle)};
    unsigned spare = 0;
    if (p.at == NULL || p.cycle == NULL)
        exit(2);
    for (uint32_t i = 0; i <= v.record; i++) {
        spare = record_read(&p.at[i], bytes + (size_t)i * RECORD);
        if (i > 0)
            p.cycle[i] = p.cycle[i - 1] + (uint32_t)(p.at[i].stamp - p.at[i - 1].stamp);
    }
    struct cause c = look(&p, (long)v.record, spare, limit, v);
    free(p.at);
    free(p.cycle);
    return c;
}
