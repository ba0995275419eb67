/* Recordings made for the watchdog of document 02's wish 5: blocks whose words come as late as rule 12 allows,
   or nearly, single transfers with TM0 active, and at the end one of a list of records at the edge, some of
   which break a rule. Within a wave each cycle has its record, elsewhere most are missing. */
#include "make.h"

/* What was strobed before the end: of a block no word, one, some, all that may be, or all of sixteen and each
   in the last cycle; or a single transfer, in which TM0 is no strobe. */
enum words { NO_WORD, A_WORD, SOME, ALL, FULL, SINGLE };
enum last { A_STROBE, AN_ACK, SHORT_ACK, NO_LINE, A_START, BAD_PARITY, NO_RQST, A_RESET };
/* How a recording ends: its last record, the age there, and the words before. */
struct ending {
    enum last last;
    unsigned age;
    enum words words;
};
static const struct ending endings[SLOW_ENDINGS] = {
    {A_STROBE, 257, NO_WORD}, {A_STROBE, 257, A_WORD}, {A_STROBE, 257, SOME},   {A_STROBE, 256, NO_WORD},
    {A_STROBE, 255, A_WORD},  {A_STROBE, 256, SOME},   {A_STROBE, 256, ALL},    {A_STROBE, 257, ALL},
    {AN_ACK, 256, ALL},       {AN_ACK, 257, ALL},      {AN_ACK, 257, A_WORD},   {SHORT_ACK, 256, SOME},
    {SHORT_ACK, 257, SOME},   {NO_LINE, 256, ALL},     {NO_LINE, 257, SOME},    {A_START, 257, A_WORD},
    {BAD_PARITY, 257, ALL},   {NO_RQST, 257, A_WORD},  {A_RESET, 257, SOME},    {AN_ACK, 256, SINGLE},
    {AN_ACK, 257, SINGLE},    {AN_ACK, 256, FULL},     {AN_ACK, 257, FULL},     {A_RESET, 300, FULL},
};

/* The record after so many cycles, RQST being as it was. */
static struct record after(const struct maker *m, uint32_t cycles)
{
    return (struct record){.stamp = m->j.stamp + cycles, .rqst = m->j.rqst1};
}

/* Time passes up to the age before the given one, or less. */
static void wait_for(struct maker *m, unsigned age)
{
    while (m->j.age + 1u < age && (m->j.rqst1 || rng_chance(m->g, 5))) {
        struct record r = after(m, m->j.rqst1 ? 1 : 1 + rng_below(m->g, age - m->j.age - 1));
        r.ad = rng_chance(m->g, 50) ? rng_word(m->g) : 0;
        maker_try(m, &r, 0);
    }
}

/* TM0 in a single transfer. */
static void no_strobes(struct maker *m)
{
    for (uint32_t n = 1 + rng_below(m->g, 4); n > 0; n--) {
        struct record r = after(m, m->j.rqst1 ? 1 : 1 + rng_below(m->g, 50));
        r.tm0 = 1;
        maker_try(m, &r, 0);
    }
}

/* Strobes of the open block: at age 256, or one in three before, mostly the two cycles before. */
static void strobes(struct maker *m, uint32_t count, int exact)
{
    for (; count > 0 && m->j.strobes + 1 < m->j.words; count--) {
        unsigned age = WATCHDOG;
        if (!exact && rng_chance(m->g, 35))
            age = rng_chance(m->g, 70) ? age - 1 - rng_below(m->g, 2) : 1 + rng_below(m->g, age);
        wait_for(m, age);
        struct record r = after(m, age - m->j.age);
        r.tm0 = 1;
        r.tm1 = (uint8_t)rng_below(m->g, 2);
        r.ad = rng_word(m->g);
        maker_try(m, &r, 0);
    }
}

/* The last record, right or wrong. */
static void last_record(struct maker *m, const struct ending *e)
{
    struct record r = after(m, e->age - m->j.age);
    switch (e->last) {
    case A_STROBE: r.tm0 = 1; break;
    case AN_ACK: r.ack = r.tm1 = 1; r.tm0 = m->j.strobes + 1 == m->j.words; break;
    case SHORT_ACK: r.ack = r.tm1 = r.tm0 = 1; break;
    case NO_LINE: r.ad = rng_word(m->g); break;
    case A_START: r.start = 1; r.arb = (uint8_t)rng_below(m->g, 16); break;
    case BAD_PARITY: r.spv = 1; r.sp = (uint8_t)!code_parity(r.ad = rng_word(m->g)); break;
    case NO_RQST: r.rqst = 0; break;
    case A_RESET: r.reset = 1; r.stamp += rng_below(m->g, 5000); break;
    }
    if (maker_try(m, &r, 0) != 0)
        maker_add_raw(m, &r, 0);
}

static int some_unit(struct rng *g, enum words words, int in_wave)
{
    switch (words) {
    case SINGLE: return (int)rng_below(g, BLOCK2);
    case FULL: return BLOCK16;
    case SOME: return in_wave ? BLOCK8 : BLOCK8 + (int)rng_below(g, 2);
    case A_WORD: return in_wave ? BLOCK4 : BLOCK4 + (int)rng_below(g, 3);
    default: return in_wave ? BLOCK2 : BLOCK2 + (int)rng_below(g, 4);
    }
}

/* A transfer up to the age before the ending's, or less; 0 where it can't be. Within a wave the words are few
   and as late as can be. */
static int near_ending(struct maker *m, const struct ending *e, int in_wave)
{
    struct rng *g = m->g;
    if (!wild_open(m, some_unit(g, e->words, in_wave), in_wave))
        return 0;
    if (e->words == SINGLE)
        no_strobes(m);
    else if (e->words != NO_WORD)
        strobes(m, e->words == A_WORD ? 1 : e->words == SOME ? 2 + rng_below(g, in_wave ? 1 : 4) : MOST_WORDS,
                in_wave || e->words == FULL);
    wait_for(m, e->age);
    return 1;
}

/* A RESET so near before the stamp's wrap that the words come on both sides of it. */
static void near_wrap(struct maker *m)
{
    struct record r = {.stamp = 0u - 1 - rng_below(m->g, 600), .reset = 1};
    maker_try(m, &r, 0);
}

void traffic_slow(struct maker *m, unsigned ending)
{
    static const struct ending sound = {AN_ACK, WATCHDOG, ALL};
    const struct ending *e = &endings[ending % SLOW_ENDINGS];
    struct rng *g = m->g;
    if (rng_chance(g, 50))
        near_wrap(m);
    for (uint32_t n = rng_below(g, 3); n > 0; n--)
        if (near_ending(m, &sound, rng_chance(g, 5)))
            last_record(m, &sound);
    for (int tries = 0; tries < 20; tries++)
        if (near_ending(m, e, e->last == NO_RQST || (e->words < ALL && rng_chance(g, 10)))) {
            last_record(m, e);
            return;
        }
}
