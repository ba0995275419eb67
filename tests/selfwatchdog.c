/* The stepper's watchdog (01, "One bus cycle"; 02, wish 5) against the same said of a whole run: the cycles
   of one master's transfers stand in an array with the slave's events, and what each cycle is to answer is
   found by looking back to its START and counting the strobes since; no age and no owed words are carried
   along. The slave acts near the timer's cycle mostly. */
#include <stdio.h>
#include "selfwatchdog.h"

enum { CYCLES = 6000, ENOUGH = 50 };
enum met { TAKEN, EXTRA, FINISHED, FIRED, OVER, LONGEST_ONE, METS };
static const char *const names[METS] = {
    "strobes taken in the 256th cycle", "extra ones there", "finishes there", "nothing there",
    "transfers over 257 cycles", "of 4,097"};
static unsigned long met[METS];

/* A cycle of the run: its event, what was answered, and the state after it. */
struct cycle {
    int event, status;
    struct answer a;
    struct bus after;
};
static struct cycle run[CYCLES];

/* What is so before cycle n: the START of the open transfer, or -1, the words owed, and the cycle from
   which the age counts. */
struct past {
    long opened, restarted;
    int owed;
};

static struct past look_back(long n, int words)
{
    struct past p = {n - 1, 0, words};
    while (p.opened >= 0 && !run[p.opened].a.start && !run[p.opened].a.ack)
        p.opened--;
    if (p.opened >= 0 && run[p.opened].a.ack)
        p.opened = -1; /* ended there, or an attention cycle */
    p.restarted = p.opened;
    for (long k = p.opened + 1; p.opened >= 0 && k < n; k++)
        if (run[k].event == STROBE && p.owed > 1) {
            p.owed--;
            p.restarted = k;
        }
    return p;
}

/* Whether cycle n is as it is to be, where a transfer was open before it. */
static int right(long n, const struct past *p)
{
    const struct cycle *c = &run[n];
    int taken = c->event == STROBE && p->owed > 1, last = n - p->restarted == WATCHDOG;
    int ends = c->event == FINISH || (last && !taken), note = NOTE_NONE;
    met[TAKEN] += last && taken;
    met[EXTRA] += last && c->event == STROBE && !taken;
    met[FINISHED] += last && c->event == FINISH;
    met[FIRED] += last && c->event == NOTHING;
    if (ends) {
        met[OVER] += n - p->opened > WATCHDOG;
        met[LONGEST_ONE] += n - p->opened + 1 == LONGEST;
    }
    if (c->event == FINISH && c->status == SUCCESS && p->owed > 1)
        note = NOTE_SHORT;
    else if (c->event == STROBE && !taken && !last)
        note = NOTE_EXTRA;
    if (c->a.ack != ends || c->a.note != note || c->after.open == ends)
        return 0;
    if (ends)
        return c->a.status == (c->event == FINISH ? c->status : TIMEOUT);
    return c->a.status == NONE && c->after.owed == p->owed - taken &&
           c->after.age == (taken ? 0 : n - p->restarted);
}

/* The slave's manner: from which age on it acts, and the chance in a hundred then and before. */
struct manner {
    int from;
    uint32_t late, early;
};

static int some_event(struct rng *g, const struct bus *b, const struct manner *how)
{
    if (!b->open || !rng_chance(g, b->age >= how->from ? how->late : how->early))
        return NOTHING;
    return b->owed > 1 && rng_chance(g, 97) ? STROBE : rng_chance(g, 50) ? FINISH : STROBE;
}

/* One master that goes on asking, for as many cycles as there is room, some for sixteen words as late as can
   be; gives the cycles that aren't right. */
static unsigned long one_run(struct rng *g, int longest)
{
    static const uint8_t lengths[] = {1, 2, 4, 8, 16, 16};
    struct bus b;
    struct node nodes[SLOTS] = {{0, 0, 0}};
    unsigned slot = rng_below(g, SLOTS);
    unsigned long wrong = 0;
    struct manner how = {WATCHDOG - 1 - (rng_chance(g, 50) ? 0 : (int)rng_below(g, 3)), 80 + rng_below(g, 21),
                         rng_chance(g, 70) ? 0 : rng_below(g, 3)};
    nodes[slot] = (struct node){1, 0, lengths[rng_below(g, sizeof lengths)]};
    if (longest) {
        how = (struct manner){WATCHDOG - 1, 100, 0};
        nodes[slot].words = MOST_WORDS;
    }
    bus_fresh(&b, 1 + rng_below(g, 16));
    for (long n = 0; n < CYCLES; n++) {
        struct past p = look_back(n, nodes[slot].words);
        run[n].event = some_event(g, &b, &how);
        run[n].status = (int)rng_below(g, 4);
        bus_cycle(&b, 0, run[n].event, run[n].status, nodes, SLOTS, &run[n].a);
        run[n].after = b;
        wrong += p.opened >= 0 ? !right(n, &p) : run[n].a.start && (b.age != 0 || b.owed != nodes[slot].words);
    }
    return wrong;
}

unsigned long selfwatchdog(int count, struct rng *g, unsigned long *differ)
{
    unsigned long wrong = 0, least = (unsigned long)-1;
    for (int i = 0; i < count; i++)
        wrong += one_run(g, i % 4 == 0) > 0;
    printf("stepper's watchdog:");
    for (int i = 0; i < METS; i++) {
        printf("%s %s %lu", i == 0 ? "" : ",", names[i], met[i]);
        least = met[i] < least ? met[i] : least;
    }
    printf("\n");
    if (count >= ENOUGH && least == 0) {
        printf("something of the watchdog was never met\n");
        wrong++;
    }
    *differ += wrong;
    return (unsigned long)count;
}
