/* The driver program's calls: 64 bytes in, 64 bytes out, numbers big-endian. */
#include <string.h>
#include "spur.h"

static uint64_t number(const uint8_t *b, int bytes)
{
    uint64_t v = 0;
    for (int i = 0; i < bytes; i++)
        v = v << 8 | b[i];
    return v;
}

static void set_number(uint8_t *b, int bytes, uint64_t v)
{
    for (int i = bytes; i-- > 0; v >>= 8)
        b[i] = (uint8_t)v;
}

static size_t at_most(size_t v, size_t most)
{
    return v > most ? most : v;
}

void driver_start(struct driver *d)
{
    memset(d, 0, sizeof *d);
    bus_fresh(&d->bus, 16);
    judge_fresh(&d->judge, 16);
    d->nmemory = 64;
    d->nstates = d->ncopies = 1024;
}

/* A record in a call or an answer, at its byte 4. */
static void get_record(const uint8_t *b, struct record *r)
{
    r->stamp = (uint32_t)number(b, 4);
    r->reset = b[4] != 0;
    r->rqst = b[5] != 0;
    r->arb = b[6];
    r->start = b[7] != 0;
    r->ack = b[8] != 0;
    r->tm1 = b[9] != 0;
    r->tm0 = b[10] != 0;
    r->sp = b[11] != 0;
    r->spv = b[12] != 0;
    r->ad = (uint32_t)number(b + 13, 4);
    r->vtm1 = b[17] != 0;
    r->vtm0 = b[18] != 0;
    r->vack = b[19] != 0;
    r->vsack = b[20] != 0;
    r->vad = number(b + 21, 8);
}

static void set_record(uint8_t *b, const struct record *r)
{
    set_number(b, 4, r->stamp);
    b[4] = r->reset;
    b[5] = r->rqst;
    b[6] = r->arb;
    b[7] = r->start;
    b[8] = r->ack;
    b[9] = r->tm1;
    b[10] = r->tm0;
    b[11] = r->sp;
    b[12] = r->spv;
    set_number(b + 13, 4, r->ad);
    b[17] = r->vtm1;
    b[18] = r->vtm0;
    b[19] = r->vack;
    b[20] = r->vsack;
    set_number(b + 21, 8, r->vad);
}

static void set_bus(uint8_t *b, const struct bus *s)
{
    set_number(b, 2, s->wave);
    b[2] = s->settling;
    b[3] = s->turn;
    b[4] = s->owner;
    b[5] = s->limit;
    b[6] = s->open;
    b[7] = s->open ? s->owed : 0;
    b[8] = s->open ? s->age : 0;
}

static void get_bus(const uint8_t *b, struct bus *s)
{
    s->wave = (uint16_t)number(b, 2);
    s->settling = b[2];
    s->turn = b[3];
    s->owner = b[4];
    s->limit = b[5];
    s->open = b[6] != 0;
    s->owed = s->open ? b[7] : 0;
    s->age = s->open ? b[8] : 0;
}

static void call_record(const uint8_t *c, uint8_t *a)
{
    struct record r;
    uint8_t buffer[40];
    size_t len = at_most(c[2], 40);
    if (c[0] == 1) {
        memset(buffer, 0xA5, sizeof buffer);
        get_record(c + 4, &r);
        a[0] = (uint8_t)record_pack(&r, buffer, len, c[1]);
        memcpy(a + 1, buffer, sizeof buffer);
    } else {
        memcpy(buffer, c + 3, sizeof buffer);
        a[0] = (uint8_t)record_unpack(&r, buffer, len, c[1]);
        set_record(a + 4, &r);
    }
}

static void call_code(const uint8_t *c, uint8_t *a)
{
    struct decoded start;
    struct operation op;
    uint32_t ad;
    if (c[0] == 3) {
        a[0] = (uint8_t)code_decode(&start, c[1] != 0, c[2] != 0, (uint32_t)number(c + 3, 4));
        a[1] = start.op.write;
        a[2] = start.op.unit;
        set_number(a + 3, 4, start.op.address);
        a[7] = start.lanes;
    } else if (c[0] == 4) {
        op.write = c[1] != 0;
        op.unit = c[2] % UNITS;
        op.address = (uint32_t)number(c + 3, 4);
        a[0] = (uint8_t)code_encode(&op, &a[1], &a[2], &ad);
        set_number(a + 3, 4, ad);
    } else if (c[0] == 5) {
        a[1] = (uint8_t)code_status(c[1] != 0, c[2] != 0);
    } else if (c[0] == 6) {
        a[1] = (uint8_t)code_parity((uint32_t)number(c + 1, 4));
    } else {
        int winner = contest_winner((unsigned)number(c + 1, 2));
        a[1] = (uint8_t)contest_lines((unsigned)number(c + 1, 2));
        a[2] = winner >= 0;
        a[3] = winner >= 0 ? (uint8_t)winner : 0;
    }
}

static void call_bus(struct driver *d, const uint8_t *c, uint8_t *a)
{
    struct node nodes[17];
    struct answer n;
    if (c[0] == 8) {
        a[0] = (uint8_t)bus_fresh(&d->bus, c[1]);
    } else if (c[0] == 9) {
        for (int i = 0; i < 17; i++) {
            nodes[i].wants = c[5 + i] >> 7;
            nodes[i].holds = c[5 + i] >> 6 & 1;
            nodes[i].words = c[5 + i] & 63;
        }
        a[0] = (uint8_t)bus_cycle(&d->bus, c[1] != 0, c[2] % 3, c[3] % 4, nodes,
                                  at_most(c[4], 17), &n);
        a[1] = n.rqst;
        a[2] = n.start;
        a[3] = n.ack;
        a[4] = n.starter;
        a[5] = n.status;
        a[6] = n.note;
    } else {
        get_bus(c + 16, &d->bus);
    }
    set_bus(a + 16, &d->bus);
}

static void call_cache(struct driver *d, const uint8_t *c, uint8_t *a)
{
    struct cache t = {d->states, d->copies, d->memory, d->nstates, d->ncopies, d->nmemory};
    uint32_t value = 0;
    size_t block = c[1] % 64;
    switch (c[0]) {
    case 11:
        d->nmemory = at_most(c[1], 65);
        d->nstates = at_most(number(c + 2, 2), 1040);
        d->ncopies = at_most(number(c + 4, 2), 1040);
        break;
    case 12:
        d->memory[block] = (uint32_t)number(c + 2, 4);
        break;
    case 13:
        d->states[c[2] % 64 * SLOTS + c[1] % 16] = c[3];
        d->copies[c[2] % 64 * SLOTS + c[1] % 16] = (uint32_t)number(c + 4, 4);
        break;
    case 14:
        a[0] = (uint8_t)cache_read(&t, c[1], c[2], &value);
        set_number(a + 1, 4, value);
        break;
    case 15:
        a[0] = (uint8_t)cache_write(&t, c[1], c[2], (uint32_t)number(c + 3, 4));
        break;
    case 16:
        a[0] = (uint8_t)cache_evict(&t, c[1], c[2]);
        break;
    case 17:
        set_number(a + 1, 4, d->memory[block]);
        memcpy(a + 5, d->states + block * SLOTS, SLOTS);
        break;
    case 18:
        for (int s = 0; s < SLOTS; s++)
            set_number(a + 4 * s, 4, d->copies[block * SLOTS + (size_t)s]);
        break;
    }
}

/* After a raw setting the paper doesn't say what a wave without a START keeps as its turn and
   ARB, nor how an open transfer ages at a first record. A RESET settles both; a START (or, for
   the age, any other record) before one makes the judge's answers depend on the build until it
   is fresh again. A START that breaks a rule below 8, or 8b, does so whatever turn was set, and
   leaves the judge as it was. */
static void watch_loose(struct driver *d, const uint8_t *bytes, size_t records, size_t taken,
                        struct verdict v)
{
    int settled = (v.rule > 0 && v.rule < 8) || v.kind == TOO_FEW;
    struct record r;
    for (size_t i = 0; i < records && i <= taken; i++) {
        if (!d->loose_turn && !d->loose_age)
            return;
        record_read(&r, bytes + i * RECORD);
        if (r.reset && i < taken)
            d->loose_turn = d->loose_age = 0;
        else if (!r.reset && (d->loose_age || (r.start && !(settled && i == taken))))
            d->unknown = 1;
    }
}

/* A transfer set open where no wave has had a START since the reset is no slot's, so the paper doesn't
   say whose busy cycles it adds when it ends in a judging with an account. */
static void watch_owner(struct driver *d, int op, const uint8_t *bytes, size_t taken)
{
    struct record r;
    for (size_t i = 0; i < taken && d->loose_owner; i++) {
        record_read(&r, bytes + i * RECORD);
        if (!r.reset && !r.ack)
            continue;
        d->loose_owner = 0;
        d->unknown |= op == 23;
    }
}

/* 20, without an account, and 23 with one. */
static void call_recording(struct driver *d, const uint8_t *c, uint8_t *a)
{
    struct verdict v;
    uint32_t before = d->tally.records;
    size_t len = at_most(c[1], 48);
    if (c[0] == 20)
        a[0] = (uint8_t)judge_recording(&d->judge, &d->tally, c + 2, len, &v);
    else
        a[0] = (uint8_t)account_recording(&d->judge, &d->tally, d->account, at_most(c[50], ENTRIES),
                                          c + 2, len, &v);
    if (a[0] == 0) {
        watch_owner(d, c[0], c + 2, d->tally.records - before);
        watch_loose(d, c + 2, len / RECORD, d->tally.records - before, v);
    }
    a[1] = (uint8_t)v.rule;
    set_number(a + 2, 4, v.record);
    set_number(a + 6, 4, d->tally.records);
    set_number(a + 10, 8, d->tally.span);
    set_number(a + 18, 4, d->tally.starts);
    set_number(a + 22, 4, d->tally.acks);
    set_number(a + 26, 4, d->tally.aborted);
    a[30] = d->judge.open;
    a[31] = (uint8_t)v.kind;
    set_number(a + 32, 8, v.span);
}

/* 22 sets the base's fields alone; "a transfer set open has been busy for its age and one cycle". */
static void set_judge(struct driver *d, const uint8_t *c)
{
    struct judge *j = &d->judge;
    int had_turn = j->turn > 0;
    j->limit = c[1];
    j->open = c[2] != 0;
    j->age = j->open ? (uint16_t)number(c + 3, 2) : 0;
    j->busy = j->open ? j->age + 1u : 0;
    j->words = j->open ? c[5] : 0;
    j->strobes = j->open ? c[6] : 0;
    j->turn = c[7];
    j->arb = c[8];
    d->loose_turn |= !had_turn || c[7] == 0;
    d->loose_age |= j->open && !j->has_stamp;
    d->loose_owner = j->open && !j->started;
}

static void call_judge(struct driver *d, const uint8_t *c, uint8_t *a)
{
    switch (c[0]) {
    case 19:
        a[0] = (uint8_t)judge_fresh(&d->judge, c[1]);
        if (a[0] == 0) {
            d->tally = (struct tally){0};
            memset(d->account, 0, sizeof d->account);
            d->loose_turn = d->loose_age = d->loose_owner = d->unknown = 0;
        }
        break;
    case 20: case 23:
        call_recording(d, c, a);
        break;
    case 21:
        d->tally.records = (uint32_t)number(c + 1, 4);
        d->tally.span = number(c + 5, 8);
        d->tally.starts = (uint32_t)number(c + 13, 4);
        d->tally.acks = (uint32_t)number(c + 17, 4);
        d->tally.aborted = (uint32_t)number(c + 21, 4);
        break;
    case 22:
        set_judge(d, c);
        break;
    }
}

/* 24 and 25 (02, wish 3): an account has room for seventeen entries, however many are lent. */
static void call_account(struct driver *d, const uint8_t *c, uint8_t *a)
{
    struct entry e;
    if (c[0] == 25) {
        e.starts = (uint32_t)number(c + 2, 4);
        e.busy = number(c + 6, 8);
        d->account[c[1] % ENTRIES] = e;
        return;
    }
    a[0] = (uint8_t)account_slot(&d->tally, d->account, at_most(c[2], ENTRIES), c[1], &e);
    set_number(a + 1, 4, e.starts);
    set_number(a + 5, 8, e.busy);
}

int driver_call(struct driver *d, const uint8_t *call, uint8_t *answer)
{
    memset(answer, 0, CALL);
    switch (call[0]) {
    case 1: case 2:
        call_record(call, answer);
        break;
    case 3: case 4: case 5: case 6: case 7:
        call_code(call, answer);
        break;
    case 8: case 9: case 10:
        call_bus(d, call, answer);
        break;
    case 11: case 12: case 13: case 14: case 15: case 16: case 17: case 18:
        call_cache(d, call, answer);
        break;
    case 19: case 20: case 21: case 22: case 23:
        call_judge(d, call, answer);
        return (call[0] != 20 && call[0] != 23) || !d->unknown;
    case 24: case 25:
        call_account(d, call, answer);
        return call[0] != 24 || !d->unknown;
    default:
        answer[0] = 255;
    }
    return 1;
}
