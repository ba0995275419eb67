/* Line records (01, "The line record"): 16 bytes, bit-packed, most significant first. */
#include "spur.h"

/* The fields in the paper's order with their widths; the rest, 15 bits, is spare. */
static uint64_t get(const uint8_t *b, unsigned *at, unsigned width)
{
    uint64_t v = 0;
    for (unsigned i = 0; i < width; i++, (*at)++)
        v = v << 1 | (b[*at / 8] >> (7 - *at % 8) & 1);
    return v;
}

static void put(uint8_t *b, unsigned *at, unsigned width, uint64_t v)
{
    for (unsigned i = width; i-- > 0; (*at)++) {
        uint8_t bit = (uint8_t)(0x80 >> *at % 8);
        if (v >> i & 1)
            b[*at / 8] |= bit;
        else
            b[*at / 8] &= (uint8_t)~bit;
    }
}

unsigned record_read(struct record *r, const uint8_t *b)
{
    unsigned at = 0;
    r->stamp = (uint32_t)get(b, &at, 32);
    r->reset = (uint8_t)get(b, &at, 1);
    r->rqst = (uint8_t)get(b, &at, 1);
    r->arb = (uint8_t)get(b, &at, 4);
    r->start = (uint8_t)get(b, &at, 1);
    r->ack = (uint8_t)get(b, &at, 1);
    r->tm1 = (uint8_t)get(b, &at, 1);
    r->tm0 = (uint8_t)get(b, &at, 1);
    r->sp = (uint8_t)get(b, &at, 1);
    r->spv = (uint8_t)get(b, &at, 1);
    r->ad = (uint32_t)get(b, &at, 32);
    r->vtm1 = (uint8_t)get(b, &at, 1);
    r->vtm0 = (uint8_t)get(b, &at, 1);
    r->vack = (uint8_t)get(b, &at, 1);
    r->vsack = (uint8_t)get(b, &at, 1);
    r->vad = get(b, &at, 33);
    return (unsigned)get(b, &at, 15);
}

void record_write(const struct record *r, uint8_t *b)
{
    unsigned at = 0;
    put(b, &at, 32, r->stamp);
    put(b, &at, 1, r->reset);
    put(b, &at, 1, r->rqst);
    put(b, &at, 4, r->arb);
    put(b, &at, 1, r->start);
    put(b, &at, 1, r->ack);
    put(b, &at, 1, r->tm1);
    put(b, &at, 1, r->tm0);
    put(b, &at, 1, r->sp);
    put(b, &at, 1, r->spv);
    put(b, &at, 32, r->ad);
    put(b, &at, 1, r->vtm1);
    put(b, &at, 1, r->vtm0);
    put(b, &at, 1, r->vack);
    put(b, &at, 1, r->vsack);
    put(b, &at, 33, r->vad);
    put(b, &at, 15, 0);
}

/* Refusal 2 stands before 6 in the paper's order. */
int record_pack(const struct record *r, uint8_t *buf, size_t len, size_t at)
{
    if (r->arb > 15 || r->vad >> 33 != 0)
        return 2;
    if (at > len || len - at < RECORD)
        return 6;
    record_write(r, buf + at);
    return 0;
}

/* Fewer than 16 bytes hold no spare bits to read: that is 6, and 3 comes after. */
int record_unpack(struct record *r, const uint8_t *buf, size_t len, size_t at)
{
    struct record got;
    *r = (struct record){0};
    if (at > len || len - at < RECORD)
        return 6;
    if (record_read(&got, buf + at) != 0)
        return 3;
    *r = got;
    return 0;
}

int record_inactive(const struct record *r)
{
    return !(r->reset | r->rqst | r->arb | r->start | r->ack | r->tm1 | r->tm0 | r->sp | r->spv |
             r->vtm1 | r->vtm0 | r->vack | r->vsack) &&
           r->ad == 0 && r->vad == 0;
}
