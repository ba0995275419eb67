/* The programs of the analyst's desk (docs of the landing, "to the byte"): every byte that they print is
   compared with the model's, or with what is worked out here another way.

   desk [--quote Q] [--seconds S] [--fleet F] [--show W] [--why Y] [--count N] [--seed S] [--time T]
        [--first] [--unshrunk] [--boundary]

   Each is a command for the shell that gets its words behind it. Without --seed there are two passes, with
   the fixed seed and with a fresh one, and N is the share of both together; --boundary adds the runs at
   2^30 records. */
#define _DEFAULT_SOURCE 1
#include <stdio.h>
#include <stdlib.h>
#include <string.h>
#include <time.h>
#include <unistd.h>
#include "desk.h"

enum { FIXED_SEED = 19861023, MOST_TOLD = 12, ENOUGH = 16 };

struct desk desk = {.count = 50, .time = 60};
static unsigned long passed, failed, starts;

int desk_outcome(int good, const char *what)
{
    passed += good ? 1 : 0;
    failed += good ? 0 : 1;
    if (good || failed > MOST_TOLD)
        return 0;
    printf("FAILED: %s, seed %lu\n", what, desk.seed);
    fflush(stdout);
    return 1;
}

static void end(void)
{
    printf("starts of programs %lu\ndesk: %lu passed, %lu failed\n", starts, passed, failed);
    exit(failed > 0);
}

void desk_met(const char *what, unsigned long times)
{
    if (times == 0 && desk.count >= ENOUGH) {
        printf("FAILED: never met: %s\n", what);
        failed++;
    }
}

char *desk_quoted(char **words, size_t count)
{
    struct buffer b = {0};
    for (size_t i = 0; i < count; i++) {
        buffer_add(&b, (const uint8_t *)" '", 2);
        for (const char *p = words[i]; *p != '\0'; p++)
            buffer_say(&b, *p == '\'' ? "'\\''" : "%c", *p);
        buffer_add(&b, (const uint8_t *)"'", 1);
    }
    buffer_add(&b, (const uint8_t *)"", 1);
    return (char *)b.bytes;
}

/* The complaint is one line that begins as it is to. */
static int complained(const struct result *r, const char *complaint)
{
    const char *err = (const char *)r->err.bytes;
    size_t len = complaint == NULL ? 0 : strlen(complaint);
    if (complaint == NULL)
        return r->err.len == 0;
    if (r->err.len <= len || memcmp(err, complaint, len) != 0 || err[r->err.len - 1] != '\n')
        return 0;
    int whole = complaint[len - 1] == ':' || r->err.len == len + 1;
    return whole && memchr(err, '\n', r->err.len) == err + r->err.len - 1;
}

/* The first line that differs, of both, and the lines before it. */
static void say_difference(const struct buffer *right, const struct buffer *got)
{
    size_t at = 0, line = 0, lines = 0;
    while (at < right->len && at < got->len && right->bytes[at] == got->bytes[at]) {
        if (right->bytes[at] == '\n') {
            line = at + 1;
            lines++;
        }
        at++;
    }
    for (int which = 0; which < 2; which++) {
        const struct buffer *b = which == 0 ? right : got;
        size_t n = 0;
        while (line + n < b->len && n < 400 && b->bytes[line + n] != '\n')
            n++;
        printf("  %s (%lu bytes), line %lu: %.*s\n", which == 0 ? "right is" : "it printed",
               (unsigned long)b->len, (unsigned long)lines + 1, (int)n,
               b->bytes == NULL ? "" : (const char *)b->bytes + line);
    }
}

static void say_failure(const char *command, const char *words, size_t len, struct feed feed,
                        const struct said *right, const struct result *r)
{
    static const char *const ways[] = {"a file", "a pipe in pieces of", "a pipe in drips of"};
    printf("  %s%.300s\n  %lu bytes from %s %lu; %s\n", command, words, (unsigned long)len,
           ways[feed.way], (unsigned long)feed.piece, ending(r));
    say_difference(&right->out, &r->out);
    printf("  complaint: right is '%s', it was '%.*s'\n",
           right->complaint == NULL ? "" : right->complaint,
           r->err.len > 400 ? 400 : (int)r->err.len,
           r->err.bytes == NULL ? "" : (const char *)r->err.bytes);
    fflush(stdout);
}

void desk_compare(const char *command, const char *words, const uint8_t *in, size_t len,
                  struct feed feed, const struct said *right, const char *what)
{
    struct result r;
    size_t room = strlen(command) + strlen(words) + 1;
    char *line = malloc(room);
    if (line == NULL)
        exit(2);
    snprintf(line, room, "%s%s", command, words);
    run_bytes(line, in, len, feed, desk.time, &r);
    starts++;
    int good = !r.late && r.out.len == right->out.len &&
               (r.out.len == 0 || memcmp(r.out.bytes, right->out.bytes, r.out.len) == 0) &&
               complained(&r, right->complaint);
    if (desk_outcome(good, what))
        say_failure(command, words, len, feed, right, &r);
    result_free(&r);
    free(line);
    if (!good && desk.first)
        end();
}

struct feed desk_feed(struct rng *g, size_t len)
{
    static const size_t sizes[] = {1000, 4095, 4096, 4097, 65535, 65536, 65537};
    struct feed f = {BY_FILE, 0};
    if (rng_chance(g, 50))
        return f;
    f.way = rng_chance(g, 50) ? BY_PIPE : BY_DRIPS;
    f.piece = len > 4000 ? sizes[rng_below(g, 7)] : 1 + rng_below(g, 50);
    return f;
}

static void all_of(unsigned long with)
{
    struct rng g = {desk.seed = with};
    printf("seed %lu\n", desk.seed);
    fflush(stdout);
    if (desk.seconds != NULL)
        desk_seconds(&g);
    if (desk.fleet != NULL)
        desk_fleets(&g);
    if (desk.show != NULL)
        desk_shows(&g);
    if (desk.why != NULL)
        desk_whys(&g);
    desk_quotes_searched(&g);
}

static int read_options(int argc, char **argv, int *given)
{
    const struct {
        const char *name;
        const char **command;
    } commands[] = {{"--quote", &desk.quote}, {"--seconds", &desk.seconds}, {"--fleet", &desk.fleet},
                    {"--show", &desk.show},   {"--why", &desk.why}};
    for (int i = 1; i < argc; i++) {
        int more = i + 1 < argc, known = 0;
        for (size_t k = 0; more && k < sizeof commands / sizeof commands[0]; k++)
            if (strcmp(argv[i], commands[k].name) == 0) {
                *commands[k].command = argv[i + 1];
                known = 1;
            }
        if (known)
            i++;
        else if (strcmp(argv[i], "--first") == 0)
            desk.first = 1;
        else if (strcmp(argv[i], "--unshrunk") == 0)
            desk.unshrunk = 1;
        else if (strcmp(argv[i], "--boundary") == 0)
            desk.boundary = 1;
        else if (more && strcmp(argv[i], "--count") == 0)
            desk.count = atoi(argv[++i]);
        else if (more && strcmp(argv[i], "--time") == 0)
            desk.time = atoi(argv[++i]);
        else if (more && strcmp(argv[i], "--seed") == 0)
            desk.seed = strtoul(argv[++i], NULL, 0), *given = 1;
        else
            return 0;
    }
    return desk.count >= 1;
}

int main(int argc, char **argv)
{
    int given = 0;
    if (!read_options(argc, argv, &given)) {
        fprintf(stderr, "desk [--quote Q] [--seconds S] [--fleet F] [--show W] [--why Y] [--count N] "
                        "[--seed S] [--time T] [--first] [--unshrunk] [--boundary]\n");
        return 2;
    }
    unsigned long seed = desk.seed;
    desk_quotes();
    desk_words();
    if (desk.show != NULL)
        desk_show_words();
    if (desk.why != NULL)
        desk_why_words();
    if (given) {
        all_of(seed);
    } else {
        desk.count = (desk.count + 1) / 2;
        all_of(FIXED_SEED);
        all_of((unsigned long)time(NULL) * 1000 + (unsigned long)getpid() % 1000);
        desk.count *= 2;
    }
    if (desk.show != NULL)
        desk_shows_met();
    if (desk.why != NULL)
        desk_whys_met();
    if (desk.boundary)
        desk_boundary();
    end();
}
