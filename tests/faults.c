/* Faults: torn ends, input in small pieces, inputs and outputs that are closed or fail, random
   bytes, memory, and with --boundary the real bound of 2^30 records; --bound K has the K-th run
   there alone. The boot report's program has the same, where it is given, and the accounts' has some of
   it.

   faults --judge COMMAND [--phases COMMAND] [--accounts COMMAND] [--megabytes N] [--seed S]
          [--seconds T] [--boundary] [--bound K] [--quick] */
#define _DEFAULT_SOURCE 1
#include <fcntl.h>
#include <signal.h>
#include <stdio.h>
#include <stdlib.h>
#include <string.h>
#include <sys/wait.h>
#include <unistd.h>
#include "faults.h"

struct settings set = {.megabytes = 8, .seconds = 60, .seed = 19861023};
static unsigned long passed, failed;

void outcome(int good, const char *what, const char *detail)
{
    if (good)
        passed++;
    else
        failed++;
    if (!good || detail[0] != '\0')
        printf("%s: %s%s%s\n", good ? "ok" : "FAILED", what, detail[0] ? ": " : "", detail);
    fflush(stdout);
}

int printed(const struct result *r, const char *text)
{
    return !r->late && r->out.len == strlen(text) && memcmp(r->out.bytes, text, r->out.len) == 0;
}

static void told(const struct result *r, const char *expected, char *detail, size_t room)
{
    snprintf(detail, room, "expected\n%sgot (%s)\n%.*s", expected, ending(r), (int)r->out.len,
             r->out.bytes == NULL ? "" : (const char *)r->out.bytes);
}

void add_lines(const struct entry *account, char *text)
{
    size_t n = strlen(text);
    if (set.counting)
        account_lines(account, text + n, ACCOUNT_TEXT - n);
}

void compare_bytes(const char *what, const uint8_t *bytes, size_t len, struct feed feed)
{
    struct result r;
    char expected[ACCOUNT_TEXT], detail[3 * ACCOUNT_TEXT] = "";
    if (set.counting)
        account_program(NO_LIMIT_GIVEN, bytes, len, expected);
    else
        judge_program(NO_LIMIT_GIVEN, bytes, len, expected);
    run_bytes(set.command, bytes, len, feed, set.seconds, &r);
    int good = printed(&r, expected);
    if (!good)
        told(&r, expected, detail, sizeof detail);
    outcome(good, what, detail);
    result_free(&r);
}

static struct maker some_traffic(struct rng *g, size_t records)
{
    struct maker m;
    maker_start(&m, g, 16);
    traffic_bus(&m, records / 2);
    traffic_wild(&m, records);
    return m;
}

/* Every length from 0 to 63 alone, and around the places where reads may end. */
static void torn_ends(struct rng *g)
{
    struct maker m = some_traffic(g, 9000);
    static const size_t around[] = {4096, 65536, 131072};
    struct feed feed = {BY_FILE, 0};
    for (size_t len = 0; len < 64; len++)
        compare_bytes("torn end", m.out.bytes, len, feed);
    for (int i = 0; i < 3; i++)
        for (size_t len = around[i] - 17; len <= around[i] + 17; len++) {
            feed.way = len % 2 ? BY_FILE : BY_PIPE;
            feed.piece = 65536;
            compare_bytes("torn end", m.out.bytes, len, feed);
        }
    outcome(1, "torn ends", "lengths 0 to 63, and within 17 of 4096, 65536 and 131072");
    buffer_free(&m.out);
}

/* Pieces of one size: a recording that conforms, its torn end, and a breach behind it. */
static void pieces_of(struct rng *g, struct feed feed)
{
    struct maker m = some_traffic(g, feed.piece < 15 ? 150 : 1500);
    compare_bytes("small pieces", m.out.bytes, m.out.len, feed);
    compare_bytes("small pieces, a torn end", m.out.bytes, m.out.len - 1 - rng_below(g, 15), feed);
    damage(&m, 1 + (int)rng_below(g, 13), 0);
    compare_bytes("small pieces, a breach", m.out.bytes, m.out.len, feed);
    buffer_free(&m.out);
}

/* In drips each read sees one piece; through a pipe that is kept full, as many as there are. */
static void small_pieces(struct rng *g)
{
    static const size_t others[] = {1, 7, 15, 16, 17, 31, 1023};
    for (size_t size = 1; size <= 40; size++)
        pieces_of(g, (struct feed){BY_DRIPS, size});
    pieces_of(g, (struct feed){BY_DRIPS, 1023});
    for (int i = 0; i < 7; i++)
        pieces_of(g, (struct feed){BY_PIPE, others[i]});
    outcome(1, "small pieces", "every size from 1 to 40 and 1023 bytes a read, and a full pipe");
}

/* No verdict on standard output, something on standard error. */
static void unreadable(const char *what, int in)
{
    struct plan p = {.command = set.command, .in = in, .out = -2, .seconds = set.seconds};
    struct result r;
    char detail[400];
    run_plan(&p, &r);
    int good = !r.late && r.out.len == 0 && r.err.len > 0;
    snprintf(detail, sizeof detail, "%s; standard output %lu bytes, standard error: %.*s", ending(&r),
             (unsigned long)r.out.len, r.err.len > 200 ? 200 : (int)r.err.len,
             r.err.bytes == NULL ? "" : (const char *)r.err.bytes);
    for (char *c = detail; *c != '\0'; c++)
        if (*c == '\n')
            *c = ' ';
    outcome(good, what, detail);
    result_free(&r);
}

void failing_input(struct rng *g)
{
    int fd, ends[2];
    unreadable("closed standard input", -1);
    fd = open("/", O_RDONLY);
    if (fd >= 0) {
        unreadable("a directory as standard input", fd);
        close(fd);
    }
    fd = open("/dev/null", O_WRONLY);
    if (fd >= 0) {
        unreadable("standard input open for writing only", fd);
        close(fd);
    }
    /* A pipe that doesn't wait: the read fails when it has given what it holds. */
    for (size_t records = 0; records < 200; records = records * 4 + 7) {
        struct maker m = some_traffic(g, records);
        char what[80];
        size_t len = m.out.len < 4000 ? m.out.len : 4000; /* whole records, within a pipe's room */
        if (pipe(ends) != 0)
            continue;
        fcntl(ends[0], F_SETFL, O_NONBLOCK);
        write_all(ends[1], m.out.bytes, len);
        snprintf(what, sizeof what, "a read that fails after %lu records",
                 (unsigned long)(len / RECORD));
        unreadable(what, ends[0]);
        close(ends[0]);
        close(ends[1]);
        buffer_free(&m.out);
    }
}

/* It ends, by SIGPIPE or by itself, and then it says so on standard error; by no other signal. */
static void unwritable(const char *what, int out, int ignore, const uint8_t *bytes, size_t len)
{
    struct plan p = {.command = set.command, .out = out, .ignore_pipe = ignore,
                     .seconds = set.seconds};
    struct result r;
    char detail[100];
    FILE *f = tmpfile();
    if (f == NULL || write_all(fileno(f), bytes, len) != 0 || lseek(fileno(f), 0, SEEK_SET) != 0) {
        outcome(0, what, "no temporary file");
        return;
    }
    p.in = fileno(f);
    run_plan(&p, &r);
    int by_pipe = WIFEXITED(r.status) ? WEXITSTATUS(r.status) == 128 + SIGPIPE
                                      : WTERMSIG(r.status) == SIGPIPE;
    int by_itself = WIFEXITED(r.status) && WEXITSTATUS(r.status) <= 128;
    int good = !r.late && (by_pipe || (by_itself && r.err.len > 0));
    snprintf(detail, sizeof detail, "%s; standard error %lu bytes", ending(&r),
             (unsigned long)r.err.len);
    outcome(good, what, detail);
    result_free(&r);
    fclose(f);
}

void failing_output(struct rng *g)
{
    struct maker m = some_traffic(g, 300);
    int fd = open("/dev/full", O_WRONLY), ends[2];
    if (fd >= 0) {
        unwritable("full standard output", fd, 0, m.out.bytes, m.out.len);
        close(fd);
    }
    unwritable("closed standard output", -1, 0, m.out.bytes, m.out.len);
    fd = open("/dev/null", O_RDONLY);
    unwritable("standard output open for reading only", fd, 0, m.out.bytes, m.out.len);
    close(fd);
    for (int ignore = 0; ignore < 2; ignore++) {
        if (pipe(ends) != 0)
            continue;
        close(ends[0]);
        unwritable(ignore ? "a pipe without a reader, SIGPIPE ignored"
                          : "a pipe without a reader", ends[1], ignore, m.out.bytes, m.out.len);
        close(ends[1]);
    }
    buffer_free(&m.out);
}

static void read_options(int argc, char **argv)
{
    for (int i = 1; i < argc; i++) {
        if (strcmp(argv[i], "--boundary") == 0)
            set.boundary = 1;
        else if (strcmp(argv[i], "--quick") == 0)
            set.quick = 1;
        else if (i + 1 < argc && strcmp(argv[i], "--judge") == 0)
            set.command = argv[++i];
        else if (i + 1 < argc && strcmp(argv[i], "--phases") == 0)
            set.phases = argv[++i];
        else if (i + 1 < argc && strcmp(argv[i], "--accounts") == 0)
            set.accounts = argv[++i];
        else if (i + 1 < argc && strcmp(argv[i], "--megabytes") == 0)
            set.megabytes = strtoul(argv[++i], NULL, 0);
        else if (i + 1 < argc && strcmp(argv[i], "--seed") == 0)
            set.seed = strtoul(argv[++i], NULL, 0);
        else if (i + 1 < argc && strcmp(argv[i], "--bound") == 0)
            set.bound = atoi(argv[++i]);
        else if (i + 1 < argc && strcmp(argv[i], "--seconds") == 0)
            set.seconds = atoi(argv[++i]);
        else
            set.command = NULL, i = argc;
    }
    if (set.command == NULL) {
        fprintf(stderr, "faults --judge COMMAND [--phases COMMAND] [--accounts COMMAND] "
                        "[--megabytes N] [--seed S] [--seconds T] [--boundary] [--bound K] "
                        "[--quick]\n");
        exit(2);
    }
}

int bound_wanted(int number)
{
    return set.bound == 0 ? set.boundary : set.bound == number;
}

/* The numbers of the runs are the same whatever programs are given. */
static void boundaries(void)
{
    big_boundary();
    if (set.phases != NULL)
        phase_boundary();
    if (set.accounts != NULL)
        account_boundary();
    int phase = set.bound > JUDGE_BOUNDS && set.bound <= JUDGE_BOUNDS + PHASE_BOUNDS;
    if (set.bound > JUDGE_BOUNDS + PHASE_BOUNDS + ACCOUNT_BOUNDS || (phase && set.phases == NULL) ||
        (set.bound > JUDGE_BOUNDS + PHASE_BOUNDS && set.accounts == NULL))
        outcome(0, "--bound", "there is no such run");
}

int main(int argc, char **argv)
{
    read_options(argc, argv);
    struct rng g = {set.seed};
    printf("seed %lu\n", set.seed);
    if (!set.quick) {
        torn_ends(&g);
        small_pieces(&g);
    }
    failing_input(&g);
    failing_output(&g);
    big_random(30);
    big_memory();
    if (set.phases != NULL)
        phase_faults(&g);
    if (set.accounts != NULL)
        account_faults(&g);
    boundaries();
    printf("faults: %lu passed, %lu failed\n", passed, failed);
    return failed > 0;
}
