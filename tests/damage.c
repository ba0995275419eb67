/* Damaged recordings: sound ones up to a record that breaks the wanted rule, and no lower one; of
   rule 8 the wanted kind. */
#include "make.h"

/* Where the wanted rule may be broken on any record, a sound proposal is spoilt; elsewhere the
   proposals themselves are searched. Gives the rules broken, 0 if none was found. */
static uint32_t spoil(struct maker *m, int rule, int kind, int tries)
{
    struct rng *g = m->g;
    while (tries-- > 0) {
        struct record r;
        unsigned spare;
        wild_propose(m, &r, &spare, rng_chance(g, 50) ? 10 : 40);
        if (rule == 1)
            spare = 1u << rng_below(g, 15);
        else if (rule == 2 && m->j.has_stamp && rng_chance(g, 50))
            r.stamp = m->j.stamp - (rng_chance(g, 50) ? 0 : rng_below(g, 2000));
        else if (rule == 3)
            r.spv = 1;
        uint32_t broken = judge_broken(&m->j, &r, spare);
        if (judge_lowest(broken) != rule)
            continue;
        if (kind != 0 && judge_lowest(judge_early(&m->j, &r)) != kind)
            continue;
        if (m->out.len == 0 && rng_chance(g, 90))
            continue; /* seldom the very first record */
        maker_add_raw(m, &r, spare);
        return broken;
    }
    return 0;
}

/* What comes after a breach doesn't matter: more records, whatever they are. */
static void tail(struct maker *m)
{
    for (uint32_t n = rng_below(m->g, 12); n > 0; n--) {
        struct record r;
        unsigned spare;
        wild_propose(m, &r, &spare, 30);
        maker_add_raw(m, &r, spare);
    }
}

/* One in five has records as far apart as can be, before the others or behind them, so that the span
   at the breach is some times 2^31. */
uint32_t damage(struct maker *m, int rule, int kind)
{
    struct rng *g = m->g;
    uint32_t broken = 0;
    uint32_t before = rng_chance(g, 20) ? 0 : rng_below(g, rng_chance(g, 20) ? 400 : 40);
    uint32_t far = rng_below(g, 10);
    if (far == 0)
        wild_far(m, 1 + rng_below(g, 5));
    if (rng_chance(g, 50))
        traffic_bus(m, before);
    else
        traffic_wild(m, before);
    if (far == 1)
        wild_far(m, 1 + rng_below(g, 5));
    if (rng_chance(g, 40))
        broken = spoil(m, rule, kind, 400);
    while (broken == 0) {
        if (kind != 0)
            wild_early(m, kind);
        else
            wild_setup(m, rule);
        broken = spoil(m, rule, kind, 400);
    }
    tail(m);
    return broken;
}
