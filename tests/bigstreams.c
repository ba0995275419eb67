/* Long inputs made on the fly: random bytes, and a long recording whose memory is measured. */
#define _DEFAULT_SOURCE 1
#include <stdio.h>
#include <stdlib.h>
#include <string.h>
#include <time.h>
#include "faults.h"

static struct buffer block_traffic(unsigned long seed)
{
    struct rng g = {seed};
    struct maker m;
    struct record r = {.reset = 1};
    maker_start(&m, &g, 16);
    maker_try(&m, &r, 0);
    while (m.out.len < (BLOCK - 1) * RECORD) {
        unsigned spare;
        if (rng_chance(&g, 3))
            wild_setup(&m, 4 + (int)rng_below(&g, 10));
        wild_propose(&m, &r, &spare, 0);
        if (r.stamp - m.j.stamp < 300) /* no long jumps: 2^30 records are to fit any clock */
            maker_try(&m, &r, spare);
    }
    return m.out;
}

struct block *make_block(unsigned long seed)
{
    struct buffer traffic = block_traffic(seed);
    struct block *b = calloc(1, sizeof *b);
    /* Cut to length by judging the first BLOCK - 1 again, and a RESET at the end. */
    struct judge j;
    if (b == NULL)
        exit(2);
    judge_fresh(&j, 16);
    memcpy(b->bytes, traffic.bytes, (BLOCK - 1) * RECORD);
    for (size_t i = 0; i < BLOCK - 1; i++)
        account_one(&j, &b->t, b->account, b->bytes + i * RECORD);
    struct record r = {.stamp = j.stamp + 1, .reset = 1};
    record_write(&r, b->bytes + (BLOCK - 1) * RECORD);
    account_one(&j, &b->t, b->account, b->bytes + (BLOCK - 1) * RECORD);
    if (b->t.records != BLOCK) {
        fprintf(stderr, "the block is not sound\n");
        exit(2);
    }
    b->t.span += 1;
    for (size_t i = 0; i < BLOCK; i++) {
        struct record s;
        record_read(&s, b->bytes + i * RECORD);
        b->stamps[i] = s.stamp;
    }
    buffer_free(&traffic);
    return b;
}

struct tally blocks_tally(const struct block *b, uint64_t blocks)
{
    struct tally t;
    t.records = (uint32_t)(b->t.records * blocks);
    t.span = b->t.span * blocks - 1;
    t.starts = (uint32_t)(b->t.starts * blocks);
    t.acks = (uint32_t)(b->t.acks * blocks);
    t.aborted = (uint32_t)(b->t.aborted * blocks);
    return t;
}

/* No transfer is open from one block to the next. */
void blocks_account(const struct block *b, uint64_t blocks, struct entry *account)
{
    for (int k = 0; k < SLOTS; k++) {
        account[k].starts = (uint32_t)(b->account[k].starts * blocks);
        account[k].busy = b->account[k].busy * blocks;
    }
}

void set_stamps(struct block *b, uint32_t base)
{
    for (size_t i = 0; i < BLOCK; i++) {
        uint32_t s = b->stamps[i] + base;
        uint8_t *at = b->bytes + i * RECORD;
        at[0] = (uint8_t)(s >> 24);
        at[1] = (uint8_t)(s >> 16);
        at[2] = (uint8_t)(s >> 8);
        at[3] = (uint8_t)s;
    }
}

void write_stream(int to, void *with)
{
    struct stream *s = with;
    uint32_t base = 0;
    for (uint64_t i = 0; i < s->blocks; i++, base += (uint32_t)s->block->t.span) {
        set_stamps(s->block, base);
        if (write_all(to, s->block->bytes, sizeof s->block->bytes) != 0)
            return;
    }
}

long run_stream(const char *what, writer *write, void *with, uint64_t records, const char *text)
{
    struct plan p = {.command = set.command, .out = -2, .write = write, .with = with,
                     .seconds = set.seconds + (int)(records >> 20)};
    struct result r;
    char detail[4 * ACCOUNT_TEXT];
    struct timespec a, b;
    clock_gettime(CLOCK_MONOTONIC, &a);
    run_plan(&p, &r);
    clock_gettime(CLOCK_MONOTONIC, &b);
    double took = (double)(b.tv_sec - a.tv_sec) + (double)(b.tv_nsec - a.tv_nsec) / 1e9;
    int good = printed(&r, text);
    if (good)
        snprintf(detail, sizeof detail, "%llu records, %.1f s, %ld KiB, %.*s",
                 (unsigned long long)records, took, r.memory,
                 (int)strcspn(strchr(text, '\n') + 1, "\n"), strchr(text, '\n') + 1);
    else
        snprintf(detail, sizeof detail, "expected\n%sgot (%s)\n%.*s", text, ending(&r),
                 (int)r.out.len, r.out.bytes == NULL ? "" : (const char *)r.out.bytes);
    char *end = strrchr(detail, '\n');
    if (end != NULL)
        *end = '\0';
    outcome(good, what, detail);
    long memory = good ? r.memory : -1;
    result_free(&r);
    return memory;
}

static void judged_blocks(const struct block *b, uint64_t blocks, char *text)
{
    struct tally t = blocks_tally(b, blocks);
    struct entry account[SLOTS];
    blocks_account(b, blocks, account);
    judge_text(&t, 0, NO_BREACH, 0, text);
    add_lines(account, text);
}

static long run_blocks(const char *what, struct block *b, uint64_t blocks, blocks_text *right)
{
    struct stream s = {b, blocks};
    char text[ACCOUNT_TEXT];
    right(b, blocks, text);
    return run_stream(what, write_stream, &s, blocks * BLOCK, text);
}

void steady_memory(blocks_text *text)
{
    struct block *b = make_block(set.seed);
    char detail[100];
    long small = run_blocks("1 MiB", b, 16, text);
    long large = run_blocks("the long recording", b, 16 * (uint64_t)set.megabytes, text);
    snprintf(detail, sizeof detail, "%ld KiB at 1 MiB, %ld KiB at %lu MiB", small, large,
             set.megabytes);
    long apart = large > small ? large - small : small - large;
    outcome(small >= 0 && large >= 0 && apart <= 256 + small / 10, "memory doesn't grow", detail);
    free(b);
}

void big_memory(void)
{
    steady_memory(judged_blocks);
}

/* Random bytes. As they are, they break a rule at once; with the spare bits and stamps put right,
   a little later; with RESET active as well, never, and all lines but that are noise. */
enum kind { AS_THEY_ARE, LINES, RESETS };
struct random {
    enum kind kind;
    unsigned long seed;
    uint64_t bytes;
};

static void random_block(struct rng *g, enum kind kind, uint32_t *stamp, uint8_t *out)
{
    for (size_t i = 0; i < BLOCK * RECORD; i += 8) {
        uint64_t v = rng_next(g);
        memcpy(out + i, &v, 8);
    }
    if (kind == AS_THEY_ARE)
        return;
    for (size_t i = 0; i < BLOCK; i++) {
        uint8_t *b = out + i * RECORD;
        *stamp += 1 + (kind == RESETS ? (uint32_t)(b[15] << 8 | b[14]) << (b[13] & 15) : 0);
        b[0] = (uint8_t)(*stamp >> 24);
        b[1] = (uint8_t)(*stamp >> 16);
        b[2] = (uint8_t)(*stamp >> 8);
        b[3] = (uint8_t)*stamp;
        b[4] = kind == RESETS ? b[4] | 0x80 : b[4] & 0x7F;
        if (kind == LINES && b[13] % 16 != 0) { /* mostly neither START, ACK, RQST nor SPV */
            b[4] &= 0x3C;
            b[5] &= 0xEF;
        }
        b[14] &= 0x80;
        b[15] = 0;
    }
}

static void write_random(int to, void *with)
{
    struct random *r = with;
    struct rng g = {r->seed};
    static uint8_t bytes[BLOCK * RECORD];
    uint32_t stamp = 0;
    for (uint64_t left = r->bytes; left > 0;) {
        size_t n = left < sizeof bytes ? (size_t)left : sizeof bytes;
        random_block(&g, r->kind, &stamp, bytes);
        if (write_all(to, bytes, n) != 0)
            return;
        left -= n;
    }
}

static void random_run(enum kind kind, uint64_t size, unsigned long seed, int say)
{
    static const char *const names[] = {"random bytes", "random lines", "random lines in resets"};
    static uint8_t bytes[BLOCK * RECORD];
    struct random with = {kind, seed, size};
    struct plan p = {.command = set.command, .out = -2, .write = write_random, .with = &with,
                     .seconds = set.seconds + (int)(size >> 24)};
    struct rng g = {seed};
    struct judge j;
    struct tally t = {0};
    struct entry account[SLOTS] = {{0}};
    struct result r;
    char text[ACCOUNT_TEXT], detail[4 * ACCOUNT_TEXT] = "";
    struct verdict v = NO_BREACH;
    uint32_t stamp = 0;
    judge_fresh(&j, 16);
    for (uint64_t at = 0; size - at >= RECORD && v.rule == 0; at += RECORD) {
        if (at % sizeof bytes == 0)
            random_block(&g, kind, &stamp, bytes);
        v = account_one(&j, &t, account, bytes + at % sizeof bytes);
    }
    judge_text(&t, j.open, v, size % RECORD != 0, text);
    add_lines(account, text);
    run_plan(&p, &r);
    int good = printed(&r, text);
    if (!good)
        snprintf(detail, sizeof detail, "%llu bytes, seed %lu: expected\n%sgot (%s)\n%.*s",
                 (unsigned long long)size, seed, text, ending(&r), (int)r.out.len,
                 r.out.bytes == NULL ? "" : (const char *)r.out.bytes);
    else if (say)
        snprintf(detail, sizeof detail, "%llu bytes, %lu records judged", (unsigned long long)size,
                 (unsigned long)t.records);
    outcome(good, names[kind], detail);
    result_free(&r);
}

void big_random(int small)
{
    struct rng g = {set.seed + 2};
    for (int i = 0; i < small; i++)
        random_run((enum kind)(i % 3), rng_below(&g, 100000), (unsigned long)rng_next(&g), 0);
    for (int kind = AS_THEY_ARE; kind <= RESETS; kind++)
        random_run((enum kind)kind, ((uint64_t)set.megabytes << 20) + 3 * (kind == RESETS),
                   (unsigned long)rng_next(&g), 1);
}
