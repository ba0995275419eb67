/* Why a record breaks its rule: what was found and what bounds it, from the judge's state before it. */
#include "desk.h"

/* Since the transfer's START, for rule 4; busy counts the START's own cycle too. */
static uint64_t open_for(const struct judge *j, const struct record *r)
{
    return (uint64_t)j->busy - 1 + (uint32_t)(r->stamp - j->stamp);
}

/* The age that rule 12 bounds: since the START or the last strobe (document 02, wish 5). */
static uint64_t age_at(const struct judge *j, const struct record *r)
{
    return (uint64_t)j->age + (uint32_t)(r->stamp - j->stamp);
}

struct cause cause_of(const struct judge *j, const uint8_t *bytes, struct verdict v)
{
    struct record r;
    unsigned spare = record_read(&r, bytes);
    switch (v.rule) {
    case 1: return (struct cause){spare, 0};
    case 2: return (struct cause){(uint32_t)(r.stamp - j->stamp), (uint64_t)1 << 31};
    case 3: return (struct cause){r.sp, (uint64_t)code_parity(r.ad)};
    case 4: return (struct cause){open_for(j, &r), 0};
    case 8:
        if (v.kind == TOO_SOON)
            return (struct cause){j->since + 1u, 3};
        break;
    case 10: return (struct cause){r.arb, j->arb};
    case 11: return (struct cause){j->turn + 1u, j->limit};
    case 12: return (struct cause){age_at(j, &r), WATCHDOG};
    case 13: return (struct cause){j->strobes + (r.ack ? 0u : 1u), j->words - 1u};
    }
    return (struct cause){0, 0};
}
