/* START codes, ACK status and parity (01, "START codes"; 001, tables 2.2, 2.3, 2.4), and the byte lanes
   (02, wish 4). */
#include "spur.h"

enum { ANY_BLOCK = UNITS };

/* 001, table 2.2, its sixteen rows from the top: TM1 TM0 AD1 AD0 run from 1111 to 0000
   (L in the table is an active line). */
static const struct mode {
    uint8_t write, unit, offset;
} modes[16] = {
    {1, BYTE, 3}, {1, BYTE, 2},      {1, BYTE, 1}, {1, BYTE, 0},
    {1, HALF, 2}, {1, ANY_BLOCK, 0}, {1, HALF, 0}, {1, WORD, 0},
    {0, BYTE, 3}, {0, BYTE, 2},      {0, BYTE, 1}, {0, BYTE, 0},
    {0, HALF, 2}, {0, ANY_BLOCK, 0}, {0, HALF, 0}, {0, WORD, 0},
};

int code_words(int unit)
{
    switch (unit) {
    case BLOCK2: return 2;
    case BLOCK4: return 4;
    case BLOCK8: return 8;
    case BLOCK16: return 16;
    default: return 1;
    }
}

uint32_t code_size(int unit)
{
    switch (unit) {
    case BYTE: return 1;
    case HALF: return 2;
    default: return 4 * (uint32_t)code_words(unit);
    }
}

static int row(int tm1, int tm0, unsigned ad1ad0)
{
    return 15 - (tm1 * 8 + tm0 * 4 + (int)ad1ad0);
}

/* Refusal 4: a block whose AD2 to AD5 are all active has no meaning (001, table 2.3). */
static int operation_of(struct operation *op, int tm1, int tm0, uint32_t ad)
{
    const struct mode *m = &modes[row(tm1, tm0, ad & 3)];
    *op = (struct operation){0, 0, 0};
    if (m->unit != ANY_BLOCK) {
        op->write = m->write;
        op->unit = m->unit;
        op->address = (ad & ~(uint32_t)3) + m->offset;
        return 0;
    }
    int unit = BLOCK2;
    unsigned line = 2;
    while (ad >> line & 1) {
        unit++;
        line++;
        if (line > 5)
            return 4;
    }
    op->write = m->write;
    op->unit = (uint8_t)unit;
    op->address = ad & ~(code_size(unit) - 1);
    return 0;
}

/* "One for a byte, two for a halfword, four for a word and for each word of a block. For a byte, lane
   k is address modulo 4; halfword 1 is lanes 2 and 3" (02, wish 4), so halfword 0 is 0 and 1. The
   address has the unit's low bits zero, so a halfword's is 0 or 2 modulo 4. */
static uint8_t lanes_of(const struct operation *op)
{
    unsigned offset = op->address % LANES;
    switch (op->unit) {
    case BYTE: return (uint8_t)(1 << offset);
    case HALF: return offset == 2 ? 0xC : 0x3;
    default: return 0xF;
    }
}

/* A refusal gives 0 for every other value, the lanes too. */
int code_decode(struct decoded *d, int tm1, int tm0, uint32_t ad)
{
    int no = operation_of(&d->op, tm1, tm0, ad);
    d->lanes = no == 0 ? lanes_of(&d->op) : 0;
    return no;
}

/* Refusal 4: an address not aligned to its unit. */
int code_encode(const struct operation *op, uint8_t *tm1, uint8_t *tm0, uint32_t *ad)
{
    static const uint32_t marks[UNITS] = {0, 1, 0, 0x02, 0x06, 0x0E, 0x1E};
    *tm1 = *tm0 = 0;
    *ad = 0;
    if (op->address % code_size(op->unit) != 0)
        return 4;
    *tm1 = op->write;
    *tm0 = op->unit == BYTE;
    *ad = op->address + marks[op->unit];
    return 0;
}

/* 001, table 2.4: 11 success, 10 unspecified error, 01 timeout, 00 try again later. */
int code_status(int tm1, int tm0)
{
    if (tm1)
        return tm0 ? SUCCESS : ERROR;
    return tm0 ? TIMEOUT : AGAIN;
}

/* "SP is active exactly if an odd number of AD lines is." */
int code_parity(uint32_t ad)
{
    int lines = 0;
    for (; ad != 0; ad >>= 1)
        lines += ad & 1;
    return lines % 2;
}
