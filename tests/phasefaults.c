/* Of faults: the world around the boot report's program. It needs nothing behind the ACK of the last
   mark (document 02, wish 1), so a pipe that stays open there, or whose read would fail, is no matter;
   and the real bound of 2^30 records. */
#define _DEFAULT_SOURCE 1
#include <fcntl.h>
#include <poll.h>
#include <stdio.h>
#include <stdlib.h>
#include <string.h>
#include <unistd.h>
#include "faults.h"
#include "marks.h"

enum { LINE = 4096, START_AT = 2, ACK_AT = 3, FOUR = 4 };
static const struct mark asked = {3, 4};

/* The lines of a successful write of the mark asked for: RQST in two cycles, START, ACK. */
static void write_mark(uint8_t *bytes, uint32_t stamp)
{
    for (uint32_t i = 0; i < FOUR; i++) {
        struct record r = {.stamp = stamp + i, .rqst = i < START_AT, .start = i == START_AT,
                           .ack = i == ACK_AT, .tm1 = i >= START_AT, .tm0 = i == ACK_AT};
        r.ad = i == START_AT ? 0xF3000010 : 0;
        record_write(&r, bytes + i * RECORD);
    }
}

/* Writes all, and holds the pipe open until nobody reads it any more. */
static void write_and_hold(int to, void *with)
{
    struct pollfd fd = {to, 0, 0};
    write_all(to, with, FOUR * RECORD);
    poll(&fd, 1, 1000 * set.seconds);
}

static void compare(const char *what, const struct plan *p, const char *text)
{
    struct result r;
    char detail[400] = "";
    run_plan(p, &r);
    int good = printed(&r, text);
    if (!good)
        snprintf(detail, sizeof detail, "expected\n%sgot (%s)\n%.*s", text, ending(&r),
                 r.out.len > 200 ? 200 : (int)r.out.len,
                 r.out.bytes == NULL ? "" : (const char *)r.out.bytes);
    outcome(good, what, detail);
    result_free(&r);
}

/* Cycles 0 to 3: the START is in cycle 2, the ACK is the fourth record. */
static void nothing_behind(void)
{
    static const char *const text = "mark 0 span 2\nrecords 4\ncomplete\n";
    uint8_t bytes[FOUR * RECORD];
    int ends[2];
    write_mark(bytes, 0);
    struct plan held = {.command = set.command, .out = -2, .write = write_and_hold, .with = bytes,
                        .seconds = set.seconds < 10 ? set.seconds : 10};
    compare("a pipe that stays open behind the last mark", &held, text);
    if (pipe(ends) != 0)
        return;
    fcntl(ends[0], F_SETFL, O_NONBLOCK);
    write_all(ends[1], bytes, sizeof bytes);
    struct plan failing = {.command = set.command, .in = ends[0], .out = -2, .seconds = set.seconds};
    compare("a read that would fail behind the last mark", &failing, text);
    close(ends[0]);
    close(ends[1]);
}

/* Each block starts and ends at a reset, so the mark is in all of them or in none. */
static void absent_in_blocks(const struct block *b, uint64_t blocks, char *text)
{
    char in_one[REPORT_TEXT];
    report_program(16, &asked, 1, b->bytes, sizeof b->bytes, in_one);
    if (strstr(in_one, "refused 10 place 0") == NULL) {
        fprintf(stderr, "the mark is in the block\n");
        exit(2);
    }
    snprintf(text, TEXT, "records %llu\nrefused 10 place 0\n", (unsigned long long)blocks * BLOCK);
}

/* Puts the boot report's program in the judge's place, and gives what was there. */
static const char *in_place(char *line)
{
    const char *before = set.command;
    snprintf(line, LINE, "%s 16 %u/%u", set.phases, asked.slot, asked.number);
    set.command = line;
    return before;
}

void phase_faults(struct rng *g)
{
    char line[LINE];
    const char *before = in_place(line);
    printf("the boot report:\n");
    failing_input(g);
    failing_output(g);
    nothing_behind();
    steady_memory(absent_in_blocks);
    set.command = before;
}

/* A run at the bound: the mark's write, if any, is the last four records before it, or so many
   records later; bytes behind the bound follow. */
static const struct bound {
    const char *what;
    int written;
    size_t later, behind;
    const char *last_line;
} bounds[PHASE_BOUNDS] = {
    {"the last mark's ACK is record 2^30, and one more", 1, 0, RECORD, "complete"},
    {"its START is record 2^30, the ACK one more", 1, 1, RECORD, "refused 8"},
    {"a mark absent in 2^30 records", 0, 0, 0, "refused 10 place 0"},
    {"a mark absent in 2^30 records, and one more", 0, 0, RECORD, "refused 8"},
    {"a mark absent in 2^30 records, and a torn piece", 0, 0, 5, "refused 1"},
};

struct last {
    const struct bound *bound;
    struct stream before;
};

/* The last block: cycles without lines, up to the mark's write. */
static void write_last(int to, void *with)
{
    const struct last *l = with;
    static uint8_t bytes[(BLOCK + FOUR) * RECORD];
    uint32_t base = (uint32_t)(l->before.block->t.span * l->before.blocks) + l->before.block->stamps[0];
    for (uint32_t i = 0; i < BLOCK + FOUR; i++) {
        struct record r = {.stamp = base + i};
        record_write(&r, bytes + i * RECORD);
    }
    if (l->bound->written) {
        uint32_t at = BLOCK - FOUR + (uint32_t)l->bound->later;
        write_mark(bytes + at * RECORD, base + at);
    }
    write_stream(to, (void *)&l->before);
    write_all(to, bytes, BLOCK * RECORD + l->bound->behind);
}

void phase_boundary(void)
{
    char line[LINE], text[TEXT];
    const char *before = in_place(line);
    struct block *b = make_block(set.seed + 1);
    for (int i = 0; i < PHASE_BOUNDS; i++) {
        struct last l = {&bounds[i], {b, MOST_RECORDS / BLOCK - 1}};
        int n = 0;
        if (!bound_wanted(JUDGE_BOUNDS + 1 + i))
            continue;
        /* The last block's first cycle comes one after the blocks' last. */
        if (strcmp(bounds[i].last_line, "complete") == 0)
            n = snprintf(text, sizeof text, "mark 0 span %llu\n",
                         (unsigned long long)(blocks_tally(b, l.before.blocks).span + 1 + BLOCK -
                                              FOUR + START_AT));
        snprintf(text + n, sizeof text - (size_t)n, "records %llu\n%s\n",
                 (unsigned long long)MOST_RECORDS, bounds[i].last_line);
        run_stream(bounds[i].what, write_last, &l, MOST_RECORDS, text);
    }
    free(b);
    set.command = before;
}
