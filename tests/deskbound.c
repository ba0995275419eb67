/* The desk's programs at 2^30 records, and a time beyond 64 bits: long inputs made on the fly. */
#define _DEFAULT_SOURCE 1
#include <stdio.h>
#include <stdlib.h>
#include <string.h>
#include <time.h>
#include "desk.h"

/* Records without lines, each so many cycles behind the last; then a torn piece of so many bytes. */
struct quiet {
    uint64_t records;
    uint32_t step;
    size_t torn;
};

static void write_quiet(int to, void *with)
{
    enum { PIECE = 4096 };
    static uint8_t bytes[PIECE * RECORD];
    const struct quiet *q = with;
    uint32_t stamp = 0;
    for (uint64_t done = 0; done < q->records;) {
        size_t n = q->records - done < PIECE ? (size_t)(q->records - done) : PIECE;
        for (size_t i = 0; i < n; i++, stamp += q->step)
            for (int k = 0; k < 4; k++)
                bytes[i * RECORD + (size_t)k] = (uint8_t)(stamp >> (24 - 8 * k));
        if (write_all(to, bytes, n * RECORD) != 0)
            return;
        done += n;
    }
    memset(bytes, 0, RECORD);
    write_all(to, bytes, q->torn);
}

static void run_quiet(const char *command, const char *words, struct quiet q, const struct said *right,
                      const char *what)
{
    char line[4096];
    struct plan p = {.command = line, .out = -2, .write = write_quiet, .with = &q, .seconds = 3600};
    struct result r;
    struct timespec a, b;
    snprintf(line, sizeof line, "%s %s", command, words);
    clock_gettime(CLOCK_MONOTONIC, &a);
    run_plan(&p, &r);
    clock_gettime(CLOCK_MONOTONIC, &b);
    size_t len = right->complaint == NULL ? 0 : strlen(right->complaint) + 1;
    int good = !r.late && r.out.len == right->out.len &&
               (r.out.len == 0 || memcmp(r.out.bytes, right->out.bytes, r.out.len) == 0) &&
               r.err.len == len && (len == 0 || memcmp(r.err.bytes, right->complaint, len - 1) == 0);
    printf("%s: %.0f s, %ld KiB\n", what, difftime(b.tv_sec, a.tv_sec), r.memory);
    if (desk_outcome(good, what))
        printf("  %s: %s; it printed\n%.*s%.*s", line, ending(&r), (int)r.out.len,
               r.out.bytes == NULL ? "" : (const char *)r.out.bytes, (int)r.err.len,
               r.err.bytes == NULL ? "" : (const char *)r.err.bytes);
    fflush(stdout);
    result_free(&r);
}

static void add_row(struct buffer *out, uint64_t place, uint64_t cycle, uint32_t gap, const char *ns)
{
    buffer_say(out, "record %llu cycle %llu gap %lu ns %s reset 0 rqst 0 arb 0 start 0 ack 0 tm1 0 tm0 0 sp 0 "
                    "spv 0 ad 00000000 vtm1 0 vtm0 0 vack 0 vsack 0 vad 000000000 spare 0\n",
               (unsigned long long)place, (unsigned long long)cycle, (unsigned long)gap, ns);
}

/* 2^30 records, and what is behind them. */
static void show_bound(uint64_t more, size_t torn, const char *complaint, const char *what)
{
    struct said right = {{0}, complaint};
    add_row(&right.out, MOST_RECORDS - 2, MOST_RECORDS - 2, 1, "107374182200");
    add_row(&right.out, MOST_RECORDS - 1, MOST_RECORDS - 1, 1, "107374182300");
    run_quiet(desk.show, "rows 1073741822 99999999999", (struct quiet){MOST_RECORDS + more, 1, torn}, &right,
              what);
    buffer_free(&right.out);
}

/* Stamps that go back by one each time: 4294967295 cycles on. The time of record 43,000,000 is
   18,468,359,368,500,000,000 and more nanoseconds, over 2^64. */
static void far_time(void)
{
    struct said right = {{0}, NULL};
    add_row(&right.out, 43000000, 184683593685000000u, 4294967295u, "18468359368500000000");
    run_quiet(desk.show, "rows 43000000 43000000", (struct quiet){43000001, 4294967295u, 0}, &right,
              "a time over 2^64 nanoseconds");
    buffer_free(&right.out);
}

static void why_bound(uint64_t more, size_t torn, const char *last, const char *what)
{
    struct said right = {{0}, NULL};
    buffer_say(&right.out, "records 1073741824 span 1073741823 starts 0 acks 0 aborted 0 open 0\n%s\n", last);
    run_quiet(desk.why, "16", (struct quiet){MOST_RECORDS + more, 1, torn}, &right, what);
    buffer_free(&right.out);
}

void desk_boundary(void)
{
    if (desk.show != NULL) {
        far_time();
        show_bound(0, 0, NULL, "2^30 records shown");
        show_bound(1, 0, too_many, "2^30 records shown, and one more");
        show_bound(0, 7, torn_end, "2^30 records shown, and a torn piece");
    }
    if (desk.why != NULL) {
        why_bound(0, 0, "conforming", "why of 2^30 records");
        why_bound(1, 7, "refused 8", "why of 2^30 records and one more");
    }
}
