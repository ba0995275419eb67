/* The real bound of 2^30 records, 16 GiB through a pipe a run: what comes right behind it, a read
   that has records from both sides of it, and a breach next to it. */
#define _DEFAULT_SOURCE 1
#include <stdio.h>
#include <stdlib.h>
#include <string.h>
#include "faults.h"

enum {
    WHOLE = BLOCK * RECORD, /* bytes of the last block, at whose end the bound is */
    ACROSS = 100 * RECORD,  /* bytes before the bound that come in one read with those behind it */
    BEHIND = 50 * RECORD,
    NOWHERE = -1
};

/* A run: the last block comes up to the cut, and when that has been read, in one write, the rest of
   it and so many bytes behind the bound. A write of up to 4,096 bytes is seen whole by one read. */
struct bound {
    const char *what;
    size_t cut, behind;
    long breach; /* the record with a spare bit, counted in the last block, or NOWHERE */
    int rule, refusal;
};

static const struct bound bounds[JUDGE_BOUNDS] = {
    {"2^30 records", WHOLE, 0, NOWHERE, 0, 0},
    {"2^30 records and one", WHOLE, RECORD, NOWHERE, 0, 8},
    {"2^30 records and a torn piece", WHOLE, 5, NOWHERE, 0, 1},
    {"2^30 records, one and a torn piece", WHOLE, RECORD + 5, NOWHERE, 0, 8},
    {"a read across 2^30 records", WHOLE - ACROSS, BEHIND, NOWHERE, 0, 8},
    {"a read across, a breach in the last record before", WHOLE - ACROSS, BEHIND, BLOCK - 1, 1, 0},
    {"a read across, a breach in the first record behind", WHOLE - ACROSS + 5, BEHIND, BLOCK, 0, 8},
};

struct last {
    const struct bound *bound;
    struct block *block;
    uint64_t blocks; /* before the last */
};

static void spoil_spare(const struct bound *b, uint8_t *bytes)
{
    if (b->breach != NOWHERE)
        bytes[b->breach * RECORD + RECORD - 1] |= 1;
}

static void write_bound(int to, void *with)
{
    const struct last *l = with;
    static uint8_t bytes[2 * WHOLE];
    uint32_t base = 0;
    for (uint64_t i = 0; i < l->blocks; i++, base += (uint32_t)l->block->t.span) {
        set_stamps(l->block, base);
        if (write_all(to, l->block->bytes, WHOLE) != 0)
            return;
    }
    for (int i = 0; i < 2; i++, base += (uint32_t)l->block->t.span) {
        set_stamps(l->block, base);
        memcpy(bytes + i * WHOLE, l->block->bytes, WHOLE);
    }
    spoil_spare(l->bound, bytes);
    if (write_all(to, bytes, l->bound->cut) != 0)
        return;
    drained(to);
    write_all(to, bytes + l->bound->cut, WHOLE - l->bound->cut + l->bound->behind);
}

/* The totals up to the bound, or to a breach before it: those of the blocks before, and of the last
   by the model. A block starts and ends at a reset, so it is judged as it would be alone. */
static void bound_text(const struct last *l, char *text)
{
    struct tally t = blocks_tally(l->block, l->blocks), of_last = {0};
    struct entry account[SLOTS];
    struct judge j;
    struct verdict v = NO_BREACH;
    uint8_t *bytes = malloc(2 * WHOLE);
    if (bytes == NULL)
        exit(2);
    set_stamps(l->block, 0);
    memcpy(bytes, l->block->bytes, WHOLE);
    memcpy(bytes + WHOLE, l->block->bytes, WHOLE);
    spoil_spare(l->bound, bytes);
    judge_fresh(&j, 16);
    blocks_account(l->block, l->blocks, account);
    for (size_t i = 0; i < BLOCK && v.rule == 0; i++)
        v = account_one(&j, &of_last, account, bytes + i * RECORD);
    free(bytes);
    t.records += of_last.records;
    t.span += of_last.span + 1; /* and the step from the block before */
    t.starts += of_last.starts;
    t.acks += of_last.acks;
    t.aborted += of_last.aborted;
    v.record = t.records; /* the one breach here is of rule 1, and tells the totals' span */
    v.span = t.span;
    judge_text(&t, j.open, v, l->bound->refusal, text);
    add_lines(account, text);
    if (v.rule != l->bound->rule) {
        fprintf(stderr, "the breach isn't where it was meant\n");
        exit(2);
    }
}

/* One of the runs, under the number by which it may be asked for. */
static void run_bound(const struct bound *bound, struct block *b, int number)
{
    char text[ACCOUNT_TEXT];
    struct last l = {bound, b, MOST_RECORDS / BLOCK - 1};
    if (!bound_wanted(number))
        return;
    bound_text(&l, text);
    run_stream(bound->what, write_bound, &l, MOST_RECORDS, text);
}

void big_boundary(void)
{
    struct block *b = make_block(set.seed + 1);
    for (int i = 0; i < JUDGE_BOUNDS; i++)
        run_bound(&bounds[i], b, 1 + i);
    free(b);
}

/* The accounts' program at one more record, at a torn piece, and at a breach in a read across. */
void account_boundary(void)
{
    static const int of_judge[ACCOUNT_BOUNDS] = {1, 2, 5};
    struct block *b = make_block(set.seed + 1);
    const char *before = set.command;
    set.command = set.accounts;
    set.counting = 1;
    for (int i = 0; i < ACCOUNT_BOUNDS; i++)
        run_bound(&bounds[of_judge[i]], b, JUDGE_BOUNDS + PHASE_BOUNDS + 1 + i);
    set.command = before;
    set.counting = 0;
    free(b);
}
