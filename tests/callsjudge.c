/* Recordings given to the judge in pieces, with torn pieces, raw states and raw tallies between
   them (01, "The judge"; refusals 5, 8, 1, 3); some or all of them with an account (02, wish 3). */
#include <stdlib.h>
#include <string.h>
#include "caller.h"

/* With an account or without, by chance; without where it would be left to the build whose a transfer
   is. */
void call_piece(struct caller *c, const uint8_t *bytes, size_t len)
{
    int account = rng_chance(c->g, c->accounts) && (!c->d.loose_owner || rng_chance(c->g, 3));
    if (c->accounts > 0)
        account_between(c);
    caller_clear(c, account ? 23 : 20);
    c->call[1] = (uint8_t)(len == 48 && rng_chance(c->g, 20) ? 48 + rng_below(c->g, 208) : len);
    c->call[50] = account ? account_lent(c->g) : c->call[50];
    if (len > 0)
        memcpy(c->call + 2, bytes, len);
    caller_issue(c);
    if (account && c->answer[0] != 0)
        account_again(c);
}

void call_set_tally(struct caller *c, const struct tally *t)
{
    caller_clear(c, 21);
    caller_number(c, 1, 4, t->records);
    caller_number(c, 5, 8, t->span);
    caller_number(c, 13, 4, t->starts);
    caller_number(c, 17, 4, t->acks);
    caller_number(c, 21, 4, t->aborted);
    caller_issue(c);
}

void call_set_judge(struct caller *c, const struct judge *j)
{
    caller_clear(c, 22);
    c->call[1] = j->limit;
    c->call[2] = j->open ? (uint8_t)(rng_chance(c->g, 80) ? 1 : 1 + rng_below(c->g, 255)) : 0;
    caller_number(c, 3, 2, j->age);
    c->call[5] = j->words;
    c->call[6] = j->strobes;
    c->call[7] = j->turn;
    c->call[8] = j->arb;
    caller_issue(c);
}

void call_fresh(struct caller *c, unsigned limit)
{
    if (rng_chance(c->g, 6)) { /* refused first: judge and tally stay */
        caller_clear(c, 19);
        c->call[1] = (uint8_t)(rng_chance(c->g, 40) ? 0 : rng_chance(c->g, 50)
                                                              ? 17
                                                              : 17 + rng_below(c->g, 239));
        caller_issue(c);
        call_piece(c, NULL, 0);
    }
    caller_clear(c, 19);
    c->call[1] = (uint8_t)limit;
    caller_issue(c);
}

/* A tally out of bounds in one thing or more, or near 2^30 records. */
static struct tally odd_tally(struct rng *g)
{
    struct tally t = {0};
    t.records = rng_chance(g, 50) ? (uint32_t)(MOST_RECORDS - 4 + rng_below(g, 7))
                                  : rng_chance(g, 50) ? rng_below(g, 5) : rng_word(g);
    t.span = ((uint64_t)1 << 31) * t.records;
    if (rng_chance(g, 50))
        t.span = t.span > 0 ? rng_next(g) % t.span : 0;
    t.starts = rng_chance(g, 50) ? t.records : 0;
    t.acks = rng_chance(g, 50) ? t.records : 0;
    t.aborted = rng_chance(g, 50) ? t.records : 0;
    if (rng_chance(g, 40))
        switch (rng_below(g, 5)) {
        case 0: t.span = ((uint64_t)1 << 31) * t.records + 1; break;
        case 1: t.starts = t.records + 1; break;
        case 2: t.acks = t.records + 1; break;
        case 3: t.aborted = t.records + 1; break;
        case 4: t.span = rng_next(g) | (uint64_t)1 << 63; break;
        }
    return t;
}

/* A judge's settings within the bounds, at their edges often. */
static struct judge some_judge(struct rng *g, unsigned limit)
{
    struct judge j = {0};
    j.limit = (uint8_t)limit;
    j.open = (uint8_t)rng_chance(g, 60);
    j.age = (uint16_t)(rng_chance(g, 60) ? 250 + rng_below(g, 7) : rng_below(g, 257));
    j.words = (uint8_t)(1 + rng_below(g, 16));
    j.strobes = (uint8_t)(rng_chance(g, 40) ? j.words - 1 : (int)rng_below(g, j.words));
    j.turn = (uint8_t)(rng_chance(g, 40) ? limit : 1 + rng_below(g, limit));
    j.arb = (uint8_t)rng_below(g, 16);
    return j;
}

static void spoil(struct rng *g, struct judge *j)
{
    do
        switch (rng_below(g, 8)) {
        case 0: j->limit = (uint8_t)(rng_chance(g, 50) ? 0 : 17); break;
        case 1: j->open = 1; j->age = (uint16_t)(rng_chance(g, 60) ? 257 : 256 + rng_word(g)); break;
        case 2: j->open = 1; j->words = (uint8_t)(rng_chance(g, 50) ? 0 : 17); break;
        case 3: j->open = 1; j->strobes = j->words; break;
        case 4: j->turn = (uint8_t)(j->limit + 1); break;
        case 5: j->arb = (uint8_t)(16 + rng_below(g, 240)); break;
        case 6: j->open = 0; j->age = 300; j->words = 0; break; /* not looked at */
        case 7: j->limit = (uint8_t)rng_below(g, 256); break;
        }
    while (rng_chance(g, 25));
}

/* Some calls with a tally set raw, and then the old one again. */
static void try_tally(struct caller *c, const uint8_t *bytes, size_t len)
{
    struct rng *g = c->g;
    struct tally kept = c->d.tally, t = odd_tally(g);
    call_set_tally(c, &t);
    for (uint32_t i = 1 + rng_below(g, 3); i > 0; i--) {
        size_t n = rng_below(g, 4) * RECORD + (rng_chance(g, 30) ? rng_below(g, 16) : 0);
        call_piece(c, bytes, n < len ? n : len);
        if (c->d.tally.records != t.records)
            return; /* the judge has moved on */
    }
    call_set_tally(c, &kept);
}

/* A START right after a wave's first cycle: 8b, whatever turn is set. */
static void early_start(struct caller *c)
{
    struct record r = {.stamp = c->d.judge.stamp + 1, .start = 1};
    uint8_t bytes[RECORD];
    r.arb = (uint8_t)rng_below(c->g, 16);
    r.rqst = (uint8_t)rng_chance(c->g, 50);
    record_write(&r, bytes);
    call_piece(c, bytes, RECORD);
}

/* A judge set raw. Within a wave that has had a START the settings are plain, and the recording
   goes on under them; elsewhere refusals are looked at, and what comes next starts with a RESET. */
static void try_judge(struct caller *c, unsigned limit, const uint8_t *bytes, size_t len)
{
    struct rng *g = c->g;
    int plain = c->d.judge.turn > 0 && c->d.judge.has_stamp;
    struct judge kept = c->d.judge, j = some_judge(g, limit);
    struct record r = {.stamp = kept.stamp + 1, .reset = 1};
    if (rng_chance(g, 60))
        spoil(g, &j);
    call_set_judge(c, &j);
    size_t n = rng_below(g, 4) * RECORD + (rng_chance(g, 30) ? rng_below(g, 16) : 0);
    if (plain && rng_chance(g, 70) && j.turn > 0) {
        call_piece(c, bytes, n < len ? n : len);
        if (!judge_bounds(&c->d.judge, &c->d.tally)) {
            j = some_judge(g, limit);
            call_set_judge(c, &j);
        }
        return;
    }
    call_piece(c, bytes, rng_chance(g, 50) ? 0 : rng_below(g, 16));
    if (kept.rqst1 && !kept.rqst2)
        early_start(c);
    if (rng_chance(g, 50)) {
        j = some_judge(g, limit);
        call_set_judge(c, &j);
    }
    uint8_t reset[RECORD];
    record_write(&r, reset);
    call_piece(c, reset, RECORD);
    if (c->answer[0] != 0) { /* still out of bounds */
        j = some_judge(g, limit);
        call_set_judge(c, &j);
        call_piece(c, reset, RECORD);
    }
}

/* Records that go on from the judge's state as it is, sound or not. */
static void go_on(struct caller *c, int count)
{
    struct maker m = {.g = c->g};
    while (count-- > 0) {
        struct record r;
        uint8_t bytes[RECORD];
        unsigned spare;
        m.j = c->d.judge;
        wild_propose(&m, &r, &spare, rng_chance(c->g, 20) ? 25 : 0);
        record_spare_write(&r, spare, bytes);
        call_piece(c, bytes, RECORD);
    }
}

/* A fresh judge beside a tally that isn't: its first record has no stamp before it, so a breach there
   tells the tally's span. */
static void first_records(struct caller *c, unsigned limit)
{
    struct tally t = {.records = 1 + rng_below(c->g, 1000)};
    t.span = rng_next(c->g) % (((uint64_t)1 << 31) * t.records);
    call_fresh(c, limit);
    call_set_tally(c, &t);
    go_on(c, 1 + (int)rng_below(c->g, 4));
}

/* A turn set raw in a wave's first cycle, and a START right behind it. */
static void raw_turn(struct caller *c, unsigned limit)
{
    struct record r = {.stamp = rng_word(c->g), .rqst = 1};
    struct judge j = some_judge(c->g, limit);
    uint8_t bytes[RECORD];
    call_fresh(c, limit);
    record_write(&r, bytes);
    call_piece(c, bytes, RECORD);
    j.open = (uint8_t)rng_chance(c->g, 10);
    call_set_judge(c, &j);
    early_start(c);
}

/* An age set raw in a block of any length up to sixteen words, and records at the edges of rule 12 behind it,
   strobes mostly (02, wish 5); then a RESET. */
static void raw_age(struct caller *c, unsigned limit)
{
    struct rng *g = c->g;
    struct record r = {.stamp = rng_word(g)};
    struct judge j = some_judge(g, limit);
    uint8_t bytes[RECORD];
    call_fresh(c, limit);
    record_write(&r, bytes);
    call_piece(c, bytes, RECORD);
    j.open = 1;
    j.turn = 0;
    call_set_judge(c, &j);
    for (uint32_t n = 1 + rng_below(g, 8); n > 0 && c->d.judge.open; n--) {
        unsigned age = 255 + rng_below(g, 3);
        r = (struct record){.stamp = c->d.judge.stamp + 1, .tm0 = 1, .tm1 = (uint8_t)rng_below(g, 2)};
        if (age > c->d.judge.age)
            r.stamp += age - c->d.judge.age - 1;
        r.ack = (uint8_t)rng_chance(g, 15);
        r.tm0 = (uint8_t)rng_chance(g, 85);
        record_write(&r, bytes);
        call_piece(c, bytes, RECORD);
    }
    r = (struct record){.stamp = c->d.judge.stamp + 1 + rng_below(g, 300), .reset = 1};
    record_write(&r, bytes);
    call_piece(c, bytes, RECORD);
}

static enum owners some_owners(struct rng *g)
{
    return rng_chance(g, 12) ? LATE_ABORTS : rng_chance(g, 15) ? LATE_WORDS : PLAIN_OWNERS;
}

static void some_traffic(struct maker *m, int accounts)
{
    struct rng *g = m->g;
    switch (accounts && rng_chance(g, 40) ? 7 : rng_below(g, 7)) {
    case 7: traffic_owners(m, 20 + rng_below(g, 100), some_owners(g)); break;
    case 0: traffic_bus(m, rng_below(g, 120)); break;
    case 1: traffic_wild(m, rng_below(g, 120)); break;
    case 2: damage(m, 8, 1 + (int)rng_below(g, KINDS - 1)); break;
    case 6: traffic_slow(m, rng_below(g, SLOW_ENDINGS)); break;
    default: damage(m, 1 + (int)rng_below(g, 13), 0); break;
    }
}

static void recording(struct caller *c, size_t calls)
{
    struct rng *g = c->g;
    struct maker m;
    unsigned limit = c->out->len == 0 ? 16 : 1 + rng_below(g, 16);
    uint32_t raw = rng_chance(g, 40) ? 3 : 0;
    maker_start(&m, g, limit);
    some_traffic(&m, c->accounts > 0);
    if (c->out->len > 0 && rng_chance(g, 15))
        first_records(c, limit);
    if (c->out->len > 0 && rng_chance(g, 10))
        raw_turn(c, limit);
    if (c->out->len > 0 && rng_chance(g, 15))
        raw_age(c, limit);
    if (limit != 16 || c->out->len > 0) /* at first the judge is fresh, with limit 16 */
        call_fresh(c, limit);
    for (size_t at = 0; at < m.out.len && !caller_full(c, calls);) {
        size_t left = m.out.len - at, n = rng_below(g, 4) * RECORD;
        if (n > left)
            n = left;
        if (rng_chance(g, raw))
            try_tally(c, m.out.bytes + at, left < 48 ? left : 48);
        if (rng_chance(g, raw))
            try_judge(c, limit, m.out.bytes + at, left < 48 ? left : 48);
        if (rng_chance(g, 4)) { /* torn: refused whole, and given again */
            size_t torn = n + 1 + rng_below(g, 15);
            call_piece(c, m.out.bytes + at, torn > 48 || torn > left ? left % RECORD : torn);
        }
        call_piece(c, m.out.bytes + at, n);
        at += n;
        if (c->answer[1] != 0 && rng_chance(g, 60))
            break; /* a breach: the rest would mostly break rule 2 or 9 */
        if (raw && rng_chance(g, 10))
            go_on(c, 1 + (int)rng_below(g, 6));
    }
    if (rng_chance(g, 30))
        go_on(c, (int)rng_below(g, 40));
    buffer_free(&m.out);
}

/* Every bound of refusal 5 at its edge and one past it, seen by a judging of nothing and of a
   torn piece; then the same of the tally, and of 2^30. */
static void bounds(struct caller *c)
{
    static const struct judge good = {.limit = 8, .open = 1, .age = 5, .words = 4, .strobes = 1,
                                      .turn = 3, .arb = 7};
    struct judge list[] = {
        {.limit = 0, .turn = 0}, {.limit = 1, .turn = 1}, {.limit = 1, .turn = 2},
        {.limit = 16, .turn = 16}, {.limit = 17, .turn = 16}, {.limit = 16, .turn = 17},
        {.limit = 255, .turn = 16}, {.limit = 16, .arb = 15}, {.limit = 16, .arb = 16},
        good, good, good, good, good, good, good, good, good, good, good};
    size_t n = 9;
    list[n++].age = 256;
    list[n++].age = 257;
    list[n++].age = 0xFFFF;
    list[n++].words = 0;
    list[n++].words = 17;
    list[n++].strobes = 3;
    list[n++].strobes = 4;
    list[n].words = 16;
    list[n++].strobes = 15;
    list[n].words = 16;
    list[n++].strobes = 16;
    list[n].words = 1;
    list[n++].strobes = 1;
    list[n].words = 1;
    list[n++].strobes = 0;
    for (size_t i = 0; i < n; i++) {
        call_set_judge(c, &list[i]);
        call_piece(c, NULL, 0);
        call_piece(c, (const uint8_t[RECORD]){0}, 1 + i % 15);
    }
    call_fresh(c, 16);
    for (uint32_t records = 0; records <= 3; records++)
        for (int field = 0; field < 8; field++) {
            struct tally t = {records, (uint64_t)records << 31, records, records, records};
            t.span += field == 0;
            t.starts += field == 1;
            t.acks += field == 2;
            t.aborted += field == 3;
            t.records = field == 4 ? 0xFFFFFFFF : t.records;
            t.span -= field == 5 && records > 0;
            call_set_tally(c, &t);
            call_piece(c, NULL, 0);
            call_piece(c, (const uint8_t[RECORD]){0}, 7);
        }
    for (uint32_t i = 0; i < 40; i++) { /* inactive lines in a row, up to 2^30 records and past */
        uint8_t bytes[3 * RECORD] = {0};
        struct tally t = {(uint32_t)MOST_RECORDS - 3 + i % 5, 0, 0, 0, 0};
        for (int k = 0; k < 3; k++)
            bytes[k * RECORD + 2] = (uint8_t)i, bytes[k * RECORD + 3] = (uint8_t)(k + 1);
        call_set_tally(c, &t);
        call_piece(c, bytes, i / 5 % 4 * RECORD + (i >= 20 && i / 5 % 4 < 3 ? 1 + i % 15 : 0));
    }
}

void calls_judge(struct buffer *out, struct rng *g, size_t calls, uint32_t accounts)
{
    struct caller *c = malloc(sizeof *c);
    if (c == NULL)
        exit(2);
    caller_start(c, out, g);
    c->accounts = accounts;
    if (rng_chance(g, 70)) {
        recording(c, calls);
        bounds(c);
    }
    while (!caller_full(c, calls)) {
        if (accounts > 0 && rng_chance(g, 30))
            account_scene(c);
        recording(c, calls);
    }
    free(c);
}
