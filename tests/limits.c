/* The hold limit as the judging program's argument, and the accounts': recordings made for each limit,
   judged with it and with its neighbours (the accounts with one of these), every answer compared with
   the model's; and what is no limit.

   limits [--judge COMMAND] [--accounts COMMAND] [--count N] [--seed S] */
#define _DEFAULT_SOURCE 1
#include <stdio.h>
#include <stdlib.h>
#include <string.h>
#include <unistd.h>
#include "run.h"

enum { SECONDS = 60, LINE = 4096 };
/* A program and what the model prints in its place. */
struct under_test {
    const char *command;
    int (*model)(unsigned limit, const uint8_t *bytes, size_t len, char *text);
};
static struct under_test judge = {NULL, judge_program}, accounts = {NULL, account_program};
static unsigned long passed, failed, by_rule[14], accounted;

/* The program with a word behind it, quoted for the shell. */
static const char *with_word(const struct under_test *p, const char *word)
{
    static char line[LINE];
    snprintf(line, sizeof line, "%s '%s'", p->command, word);
    return line;
}

static void outcome(int good, const char *what, const char *word, const char *expected,
                    const struct result *r)
{
    if (good) {
        passed++;
        return;
    }
    failed++;
    printf("FAILED: %s, limit '%s': expected\n%sgot (%s)\n%.*s\n", what, word, expected, ending(r),
           (int)r->out.len, r->out.bytes == NULL ? "" : (const char *)r->out.bytes);
}

static int printed(const struct result *r, const char *text)
{
    return !r->late && r->out.len == strlen(text) &&
           (r->out.len == 0 || memcmp(r->out.bytes, text, r->out.len) == 0);
}

static void compare(const struct under_test *p, const char *what, const struct buffer *in,
                    unsigned limit)
{
    struct result r;
    char word[16], expected[ACCOUNT_TEXT];
    snprintf(word, sizeof word, "%u", limit);
    if (p->model(limit, in->bytes, in->len, expected) == 1)
        by_rule[atoi(strstr(expected, "breach rule ") + 12)]++;
    run_bytes(with_word(p, word), in->bytes, in->len, (struct feed){BY_FILE, 0}, SECONDS, &r);
    outcome(printed(&r, expected), what, word, expected, &r);
    result_free(&r);
}

/* A recording whose first breach under its limit is of the rule, or none. One that breaks rule 11
   at its limit passes that place at the next, and one that just conforms may not at the last. */
static void recordings(struct rng *g, unsigned limit, int rule)
{
    struct maker m;
    const char *what = rule == 0 ? "sound traffic" : "a breach";
    maker_start(&m, g, limit);
    if (rule == 0)
        traffic_bus(&m, 60 * limit);
    else
        damage(&m, rule, 0);
    for (unsigned near = limit > 1 ? limit - 1 : 1; near <= limit + 1 && near <= 16; near++)
        if (judge.command != NULL)
            compare(&judge, what, &m.out, near);
    if (accounts.command != NULL && (rule == 11 || judge.command == NULL)) {
        unsigned near = limit + rng_below(g, 3) - 1;
        compare(&accounts, what, &m.out, near < 1 ? 1 : near > 16 ? 16 : near);
        accounted++;
    }
    buffer_free(&m.out);
}

/* Another number is refused alone and a word that is none isn't answered; nothing is read. */
static void no_limit(const struct under_test *of, const struct buffer *in, const char *word,
                     const char *expected)
{
    struct plan p = {.command = with_word(of, word), .out = -2, .seconds = SECONDS};
    struct result r;
    FILE *f = tmpfile();
    if (f == NULL || write_all(fileno(f), in->bytes, in->len) != 0 ||
        lseek(fileno(f), 0, SEEK_SET) != 0) {
        perror("temporary file");
        exit(2);
    }
    p.in = fileno(f);
    run_plan(&p, &r);
    int told = (expected[0] == '\0') == (r.err.len > 0);
    int unread = lseek(fileno(f), 0, SEEK_CUR) == 0;
    outcome(printed(&r, expected) && told && unread, unread ? "no limit" : "no limit, and it read",
            word, expected, &r);
    result_free(&r);
    fclose(f);
}

static void no_limits(const struct under_test *p, struct rng *g)
{
    /* The long ones are 4 or 16 to a build that keeps 8, 32 or 64 bits of them. */
    static const char *const numbers[] = {"0", "17", "20", "100", "160", "260", "272", "4294967300",
                                          "18446744073709551620", "99999999999999999999999"};
    static const char *const words[] = {"", "x", "4x", "x4", "-4", "+4", "0x4", "4.0", "4 4"};
    struct maker m;
    maker_start(&m, g, 16);
    traffic_bus(&m, 200);
    for (size_t i = 0; i < sizeof numbers / sizeof numbers[0]; i++)
        no_limit(p, &m.out, numbers[i], "refused 3\n");
    for (size_t i = 0; i < sizeof words / sizeof words[0]; i++)
        no_limit(p, &m.out, words[i], "");
    buffer_free(&m.out);
}

static void read_options(int argc, char **argv, unsigned long *count, struct rng *g)
{
    int good = 1;
    for (int i = 1; i + 1 < argc; i += 2) {
        if (strcmp(argv[i], "--judge") == 0)
            judge.command = argv[i + 1];
        else if (strcmp(argv[i], "--accounts") == 0)
            accounts.command = argv[i + 1];
        else if (strcmp(argv[i], "--count") == 0)
            *count = strtoul(argv[i + 1], NULL, 0);
        else if (strcmp(argv[i], "--seed") == 0)
            g->state = strtoul(argv[i + 1], NULL, 0);
        else
            good = 0;
    }
    good = good && argc % 2 == 1 && (judge.command != NULL || accounts.command != NULL);
    if (!good || (judge.command != NULL && strlen(judge.command) > LINE / 2) ||
        (accounts.command != NULL && strlen(accounts.command) > LINE / 2)) {
        fprintf(stderr, "limits [--judge COMMAND] [--accounts COMMAND] [--count N] [--seed S]\n");
        exit(2);
    }
}

int main(int argc, char **argv)
{
    unsigned long count = 5;
    struct rng g = {19861023};
    read_options(argc, argv, &count, &g);
    for (unsigned limit = 1; limit <= 16; limit++)
        for (unsigned long i = 0; i < count; i++) {
            recordings(&g, limit, 0);
            recordings(&g, limit, 11);
            recordings(&g, limit, 1 + (int)rng_below(&g, 13));
        }
    if (judge.command != NULL)
        no_limits(&judge, &g);
    if (accounts.command != NULL)
        no_limits(&accounts, &g);
    printf("breaches by rule:");
    for (int rule = 1; rule <= 13; rule++)
        printf(" %d:%lu", rule, by_rule[rule]);
    printf("; recordings of the accounts %lu\nlimits: %lu passed, %lu failed\n", accounted, passed,
           failed);
    return failed > 0;
}
