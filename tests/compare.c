/* Comparing a program's answers with the model's, and making a disagreement small. */
#define _DEFAULT_SOURCE 1
#include <stdio.h>
#include <stdlib.h>
#include <string.h>
#include <sys/wait.h>
#include <time.h>
#include "compare.h"
#include "describe.h"

struct coverage covered;

static void cover(const uint8_t *c, const uint8_t *a)
{
    covered.calls++;
    covered.by_op[c[0]]++;
    if (c[0] == 18)
        return;
    covered.refusals[a[0]]++;
    if (c[0] < OPERATIONS && a[0] < 9)
        covered.op_refusal[c[0]][a[0]]++;
    if ((c[0] == 20 || c[0] == 23) && a[0] == 0) {
        covered.rules[a[1]]++;
        covered.kinds[a[31]]++;
        covered.far += (a[32] | a[33] | a[34] | a[35]) != 0;
    }
    if (c[0] == 9 && a[0] == 0)
        covered.notes[a[6]]++;
    if (c[0] == 3)
        covered.lanes[a[7]]++;
}

/* The watchdog's 256th cycle, and strobes that are taken in the one before. */
static void cover_due(const struct bus *before, const uint8_t *c, const uint8_t *a)
{
    if (c[0] != 9 || a[0] != 0 || c[1] != 0 || !before->open)
        return;
    if (before->age == WATCHDOG - 1)
        covered.due[c[2] % 3][before->owed > 1]++;
    covered.before_due += before->age == WATCHDOG - 2 && c[2] % 3 == STROBE && before->owed > 1;
}

static void say_calls(const struct subject_program *p, const struct buffer *in, size_t at,
                      const uint8_t *expected, const struct result *r, FILE *say)
{
    size_t from = in->len / CALL > 40 && at > 40 ? at - 40 : 0;
    fprintf(say, "  %s\n", p->command);
    if (from > 0)
        fprintf(say, "  (%lu calls before)\n", (unsigned long)from);
    for (size_t i = from; i <= at && i < in->len / CALL; i++) {
        fprintf(say, "  call %lu: ", (unsigned long)i);
        say_call(say, in->bytes + i * CALL);
        fprintf(say, "\n    ");
        say_hex(say, in->bytes + i * CALL, CALL);
        fprintf(say, "\n");
    }
    if (at >= in->len / CALL) {
        fprintf(say, "  expected no more than %lu answers, got %lu bytes; %s\n",
                (unsigned long)(in->len / CALL), (unsigned long)r->out.len, ending(r));
        return;
    }
    const uint8_t *call = in->bytes + at * CALL;
    fprintf(say, "  expected: ");
    say_answer(say, call, expected);
    fprintf(say, "\n    ");
    say_hex(say, expected, CALL);
    fprintf(say, "\n  got:      ");
    if (r->out.len < (at + 1) * CALL) {
        fprintf(say, "no answer (%lu bytes in all); %s\n", (unsigned long)r->out.len, ending(r));
        return;
    }
    say_answer(say, call, r->out.bytes + at * CALL);
    fprintf(say, "\n    ");
    say_hex(say, r->out.bytes + at * CALL, CALL);
    fprintf(say, "\n");
}

static long calls_differ(const struct subject_program *p, const struct buffer *in, FILE *say)
{
    static struct driver d;
    struct result r;
    long at = -1;
    uint8_t expected[CALL];
    size_t calls = in->len / CALL;
    run_bytes(p->command, in->bytes, in->len, p->feed, p->seconds, &r);
    driver_start(&d);
    for (size_t i = 0; i < calls && at < 0; i++) {
        struct bus before = d.bus;
        int settled = driver_call(&d, in->bytes + i * CALL, expected);
        if (r.out.len < (i + 1) * CALL) {
            at = (long)i;
        } else if (!settled) {
            covered.skipped++;
        } else {
            cover(in->bytes + i * CALL, expected);
            cover_due(&before, in->bytes + i * CALL, expected);
            if (memcmp(expected, r.out.bytes + i * CALL, CALL) != 0)
                at = (long)i;
        }
    }
    if (at < 0 && (r.out.len != calls * CALL || r.late))
        at = (long)calls;
    if (at >= 0 && say != NULL)
        say_calls(p, in, (size_t)at, expected, &r, say);
    result_free(&r);
    return at;
}

static void say_recording(const struct subject_program *p, const struct buffer *in,
                          const char *expected, const struct result *r, FILE *say)
{
    static const char *const ways[] = {"a file", "a pipe", "a pipe in drips"};
    size_t records = in->len / RECORD, from = records > 60 ? records - 60 : 0;
    fprintf(say, "  %s\n  from %s", p->command, ways[p->feed.way]);
    if (p->feed.way != BY_FILE)
        fprintf(say, ", %lu bytes at a time", (unsigned long)p->feed.piece);
    fprintf(say, ", %lu bytes:\n", (unsigned long)in->len);
    if (from > 0)
        fprintf(say, "  (%lu records before)\n", (unsigned long)from);
    for (size_t i = from; i < records; i++) {
        fprintf(say, "  record %lu: ", (unsigned long)i);
        say_hex(say, in->bytes + i * RECORD, RECORD);
        fprintf(say, "  ");
        say_record(say, in->bytes + i * RECORD);
        fprintf(say, "\n");
    }
    if (in->len % RECORD != 0) {
        fprintf(say, "  and a torn piece: ");
        say_hex(say, in->bytes + records * RECORD, in->len % RECORD);
        fprintf(say, "\n");
    }
    fprintf(say, "  expected:\n%s  got (%s):\n%.*s", expected, ending(r), (int)r->out.len,
            r->out.bytes == NULL ? "" : (const char *)r->out.bytes);
    if (r->out.len == 0)
        fprintf(say, "nothing\n");
}

static long recording_differs(const struct subject_program *p, const struct buffer *in, FILE *say)
{
    struct result r;
    char expected[MOST_TEXT];
    int status = 0;
    if (p->model != NULL)
        status = p->model(p->with, in->bytes, in->len, expected);
    else
        status = judge_program(NO_LIMIT_GIVEN, in->bytes, in->len, expected);
    run_bytes(p->command, in->bytes, in->len, p->feed, p->seconds, &r);
    size_t len = strlen(expected);
    int same = !r.late && r.out.len == len && memcmp(r.out.bytes, expected, len) == 0;
    if (same && p->statuses)
        same = WIFEXITED(r.status) && WEXITSTATUS(r.status) == status;
    if (!same && say != NULL)
        say_recording(p, in, expected, &r, say);
    result_free(&r);
    return same ? -1 : (long)(in->len / RECORD);
}

long disagree(const struct subject_program *p, const struct buffer *in, FILE *say)
{
    return p->unit == CALL ? calls_differ(p, in, say) : recording_differs(p, in, say);
}

enum { TRIES = 2000, MOST_SECONDS = 60 };

/* The next record of the input from a place on, also of those that calls carry; NULL at the end. */
static uint8_t *record_from(const struct buffer *in, size_t unit, size_t *at)
{
    for (; *at / unit * unit + unit <= in->len; *at += RECORD) {
        uint8_t *p = in->bytes + *at;
        if (unit == RECORD) {
            *at += RECORD;
            return p;
        }
        const uint8_t *call = in->bytes + *at / CALL * CALL;
        size_t place = *at % CALL / RECORD, len = call[1] > 48 ? 48 : call[1];
        if ((call[0] == 20 || call[0] == 23) && place < len / RECORD) {
            *at += RECORD;
            return p + 2;
        }
    }
    return NULL;
}

static uint32_t stamp_at(const uint8_t *p)
{
    return (uint32_t)p[0] << 24 | (uint32_t)p[1] << 16 | (uint32_t)p[2] << 8 | p[3];
}

/* The input without the given bytes. Where close is set, the stamps after them move up, so that
   what is left follows without a gap. */
static struct buffer without(const struct buffer *in, size_t unit, size_t at, size_t len, int close)
{
    struct buffer b = {0};
    size_t first = at, next = at;
    buffer_add(&b, in->bytes, at);
    buffer_add(&b, in->bytes + at + len, in->len - at - len);
    const uint8_t *gone = record_from(in, unit, &first), *left = record_from(&b, unit, &next);
    if (!close || len == 0 || gone == NULL || left == NULL)
        return b;
    uint32_t by = stamp_at(left) - stamp_at(gone);
    for (uint8_t *p; (p = record_from(&b, unit, &at)) != NULL;) {
        uint32_t s = stamp_at(p) - by;
        for (int i = 3; i >= 0; i--, s >>= 8)
            p[i] = (uint8_t)s;
    }
    return b;
}

static int try_smaller(const struct subject_program *p, struct buffer *in, struct buffer *less,
                       int *tries)
{
    static time_t begin;
    if (*tries == 0)
        begin = time(NULL);
    (*tries)++;
    if (time(NULL) - begin > MOST_SECONDS)
        *tries = 2 * TRIES; /* long enough */
    if (disagree(p, less, NULL) >= 0) {
        buffer_free(in);
        *in = *less;
        return 1;
    }
    buffer_free(less);
    return 0;
}

/* Drops runs of n units, from the end, each time moving on by step. */
static int drop(const struct subject_program *p, struct buffer *in, size_t n, size_t step,
                int *tries)
{
    int moved = 0;
    for (size_t end = in->len / p->unit; end >= n && *tries < TRIES;) {
        int gone = 0;
        for (int close = 1; close >= 0 && !gone; close--) {
            struct buffer less = without(in, p->unit, (end - n) * p->unit, n * p->unit, close);
            gone = try_smaller(p, in, &less, tries);
        }
        moved |= gone;
        size_t by = gone ? n : step;
        if (end < by)
            break;
        end -= by;
    }
    return moved;
}

void shrink(const struct subject_program *p, struct buffer *in)
{
    struct coverage kept = covered;
    int tries = 0, moved = 1;
    long at = disagree(p, in, NULL);
    if (p->unit == CALL && at >= 0 && ((size_t)at + 1) * CALL < in->len)
        in->len = ((size_t)at + 1) * CALL;
    for (size_t n = in->len / p->unit; n > 0 && tries < TRIES; n /= 2)
        drop(p, in, n, n, &tries);
    while (moved && tries < TRIES) {
        moved = 0;
        for (size_t n = 8; n > 0 && tries < TRIES; n--)
            moved |= drop(p, in, n, in->len / p->unit > 60 ? n : 1, &tries);
    }
    if (p->unit == RECORD && in->len % RECORD != 0) {
        struct buffer less =
            without(in, RECORD, in->len / RECORD * RECORD, in->len % RECORD, 0);
        try_smaller(p, in, &less, &tries);
    }
    for (size_t i = 0; i < in->len && tries < 2 * TRIES; i++) {
        if (in->bytes[i] == 0 || (p->unit == CALL && i % CALL == 0))
            continue;
        struct buffer less = without(in, p->unit, in->len, 0, 0);
        less.bytes[i] = 0;
        try_smaller(p, in, &less, &tries);
    }
    covered = kept;
}
