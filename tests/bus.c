/* One bus cycle (01, "One bus cycle"; 02, wish 5). */
#include "spur.h"

/* Refusal 3: the hold limit is 1 to 16. */
int bus_fresh(struct bus *b, unsigned limit)
{
    if (limit < 1 || limit > 16)
        return 3;
    *b = (struct bus){.owner = NOBODY, .limit = (uint8_t)limit};
    return 0;
}

/* The bounds for refusal 5. */
int bus_bounds(const struct bus *b)
{
    if (b->limit < 1 || b->limit > 16 || b->settling > 2 || b->turn >= b->limit)
        return 0;
    if (b->owner != NOBODY && b->owner >= SLOTS)
        return 0;
    if (b->wave == 0 && (b->settling != 0 || b->turn != 0))
        return 0;
    if (b->open && (b->owed < 1 || b->owed > 16))
        return 0;
    return 1;
}

static int refused(const struct bus *b, const struct node *nodes, size_t count)
{
    if (!bus_bounds(b))
        return 5;
    if (count != SLOTS)
        return 1;
    for (size_t i = 0; i < count; i++)
        switch (nodes[i].words) {
        case 0: case 1: case 2: case 4: case 8: case 16: break;
        default: return 3;
        }
    return 0;
}

/* "A starter that no longer wants, or has words 0, makes an attention cycle." */
static int attends(const struct node *n)
{
    return !n->wants || n->words == 0;
}

/* Who starts in this cycle, and what becomes of the wave; before is the state after the
   cycle before. Gives NOBODY where none starts. */
static uint8_t arbitrate(struct bus *b, const struct bus *before, const struct node *nodes)
{
    uint16_t wanting = 0;
    uint8_t starter = NOBODY;
    for (int s = 0; s < SLOTS; s++)
        if (nodes[s].wants)
            wanting |= (uint16_t)(1u << s);
    if (before->wave == 0) {
        b->wave = wanting;
        if (!before->open && before->owner != NOBODY && nodes[before->owner].wants) {
            starter = before->owner; /* parked */
            b->wave &= (uint16_t)~(1u << starter);
        }
        b->settling = b->wave != 0 ? 1 : 0;
        return starter;
    }
    if (before->settling > 0) {
        b->settling = (uint8_t)(before->settling - 1);
        return NOBODY;
    }
    if (before->open)
        return NOBODY;
    starter = (uint8_t)contest_winner(before->wave);
    b->owner = starter;
    if (nodes[starter].holds && !attends(&nodes[starter]) && before->turn + 1 < before->limit) {
        b->turn = (uint8_t)(before->turn + 1);
    } else {
        b->wave &= (uint16_t)~(1u << starter);
        b->turn = 0;
    }
    b->settling = b->wave != 0 ? 2 : 0;
    return starter;
}

/* What the slave's event and the watchdog do to a transfer that was open before. "The age returns to 0
   with each strobe that takes an owed word", and that one "is taken before the timer fires"; "a finish
   still wins over both", "strobes that are extra restart nothing" (02, wish 5), and in the timer's cycle they
   aren't noted (01). */
static void transfer(struct bus *b, int event, int status, struct answer *a)
{
    int age = b->age + 1;
    if (event == FINISH) {
        a->ack = 1;
        a->status = (uint8_t)status;
        if (status == SUCCESS && b->owed > 1)
            a->note = NOTE_SHORT;
        b->open = b->owed = b->age = 0;
        return;
    }
    if (event == STROBE && b->owed > 1) {
        b->owed--;
        b->age = 0;
        return;
    }
    if (age == WATCHDOG) {
        a->ack = 1;
        a->status = TIMEOUT;
        b->open = b->owed = b->age = 0;
        return;
    }
    b->age = (uint8_t)age;
    if (event == STROBE)
        a->note = NOTE_EXTRA;
}

int bus_cycle(struct bus *b, int reset, int event, int status, const struct node *nodes,
              size_t count, struct answer *a)
{
    const struct bus before = *b;
    int no = refused(b, nodes, count);
    *a = (struct answer){0};
    if (no != 0)
        return no;
    a->starter = NOBODY;
    a->status = NONE;
    if (reset) {
        bus_fresh(b, before.limit);
        return 0;
    }
    uint8_t starter = arbitrate(b, &before, nodes);
    if (before.open)
        transfer(b, event, status, a);
    else if (event != NOTHING)
        a->note = NOTE_STRAY;
    if (starter != NOBODY) {
        a->start = 1;
        a->starter = starter;
        if (attends(&nodes[starter])) {
            a->ack = 1;
        } else {
            b->open = 1;
            b->owed = nodes[starter].words;
            b->age = 0;
        }
    }
    a->rqst = b->wave != 0;
    return 0;
}
