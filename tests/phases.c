/* The boot report's program (document 02, wish 1): recordings with marks among writes that are
   nearly marks, whole, damaged, torn and in drips, every byte printed compared with the model's; and
   what the program makes of its words.

   phases --program COMMAND [--count N] [--seed S] [--seconds T] [--first] [--unshrunk]

   The program gets the hold limit and the marks behind the command. Without --seed there are two
   passes, with the fixed seed and with a fresh one; N is the share. */
#define _DEFAULT_SOURCE 1
#include <stdio.h>
#include <stdlib.h>
#include <string.h>
#include <time.h>
#include <unistd.h>
#include "compare.h"
#include "marked.h"
#include "phases.h"

enum { FIXED_SEED = 19861023, MOST_REPORTS = 5, MOST_LINES = 30, LINE = 4096, ENOUGH = 10 };

struct options options = {.count = 50, .seconds = 60};
static unsigned long passed, failed, seed;
static unsigned long by_rule[14], by_kind[KINDS], complete, torn, absent, reached;

/* What the program is asked for. */
struct asked {
    unsigned limit;
    struct mark marks[MOST_MARKS];
    size_t count;
};

void phases_outcome(int good)
{
    passed += good ? 1 : 0;
    failed += good ? 0 : 1;
    if (good || !options.first)
        return;
    printf("phases: %lu passed, %lu failed\n", passed, failed);
    exit(1);
}

static int expected(const void *with, const uint8_t *bytes, size_t len, char *text)
{
    const struct asked *a = with;
    report_program(a->limit, a->marks, a->count, bytes, len, text);
    return 0;
}

/* The command with its words; a number may have zeros in front. */
static const char *words_of(struct rng *g, const struct asked *a)
{
    static char line[LINE];
    int n = snprintf(line, sizeof line, "%s %u", options.program, a->limit);
    for (size_t i = 0; i < a->count; i++) {
        int zeros = rng_chance(g, 10) ? 1 + (int)rng_below(g, 20) : 1;
        n += snprintf(line + n, sizeof line - (size_t)n, " %0*u/%0*u", zeros, a->marks[i].slot,
                      rng_chance(g, 50) ? zeros : 1, a->marks[i].number);
    }
    return line;
}

/* Counts how the report ends, by the model. */
static void cover(const char *text)
{
    const char *breach = strstr(text, "breach rule ");
    complete += strstr(text, "\ncomplete\n") != NULL;
    torn += strstr(text, "\nrefused 1\n") != NULL;
    absent += strstr(text, "refused 10 ") != NULL;
    if (breach != NULL) {
        by_rule[atoi(breach + 12)]++;
        if (breach[12] == '8')
            by_kind[breach[13] - 'a' + NO_OWNER]++;
    }
    for (; (text = strstr(text, "mark ")) != NULL; text++)
        reached++;
}

static struct feed some_feed(struct rng *g, size_t len)
{
    static const size_t sizes[] = {1000, 4095, 4096, 65535, 65537};
    struct feed f = {BY_FILE, 0};
    if (rng_chance(g, 60))
        return f;
    f.way = rng_chance(g, 50) ? BY_PIPE : BY_DRIPS;
    f.piece = len > 4000 ? sizes[rng_below(g, 5)] : 1 + rng_below(g, 40);
    return f;
}

static void compare(struct rng *g, const struct asked *a, struct buffer *in, struct feed feed,
                    const char *what)
{
    struct subject_program p = {.command = words_of(g, a), .unit = RECORD, .feed = feed,
                                .seconds = options.seconds, .model = expected, .with = a};
    char text[MOST_TEXT];
    int good = disagree(&p, in, NULL) < 0;
    expected(a, in->bytes, in->len, text);
    cover(text);
    if (!good && failed < MOST_LINES) {
        printf("disagreement: %s, seed %lu\n", what, seed);
        if (failed < MOST_REPORTS) {
            if (!options.unshrunk)
                shrink(&p, in);
            if (disagree(&p, in, stdout) < 0)
                printf("  it does not come back: the program's answer is not always the same\n");
        }
        fflush(stdout);
    }
    phases_outcome(good);
}

static void one(struct rng *g, const struct asked *a, struct maker *m, const char *what)
{
    compare(g, a, &m->out, some_feed(g, m->out.len), what);
    buffer_free(&m->out);
}

/* Some marks, and a recording to be made under their hold limit. */
static void begin(struct rng *g, struct asked *a, struct maker *m)
{
    a->count = marked_choose(g, a->marks);
    a->limit = 1 + rng_below(g, 16);
    maker_start(m, g, a->limit);
}

/* Asks for more than is there, for less, or under another limit. */
static void ask_otherwise(struct rng *g, struct asked *a)
{
    if (rng_chance(g, 15) && a->count < MOST_MARKS) {
        a->marks[a->count] = a->marks[rng_below(g, (uint32_t)a->count)];
        a->count++;
    }
    if (rng_chance(g, 10) && a->count > 1)
        a->count--;
    if (rng_chance(g, 20))
        a->limit = rng_chance(g, 50) && a->limit > 1 ? a->limit - 1 : 1 + rng_below(g, 16);
}

/* Boots that conform, one mark left out in some; more traffic behind the last mark. */
static void sound(struct rng *g)
{
    for (int i = 0; i < 5 * options.count; i++) {
        struct asked a;
        struct maker m;
        begin(g, &a, &m);
        size_t left_out = rng_chance(g, 20) ? rng_below(g, (uint32_t)a.count) : a.count;
        marked_boot(&m, a.marks, a.count, left_out, rng_chance(g, 30) ? 12 : 4);
        if (rng_chance(g, 30))
            marked_open(&m, a.marks[a.count - 1]);
        if (rng_chance(g, 30))
            traffic_wild(&m, 20);
        ask_otherwise(g, &a);
        one(g, &a, &m, "a boot that conforms");
    }
}

/* Some of the marks, and then a breach of each rule, of rule 8 in its kinds by turns. */
static void damaged(struct rng *g)
{
    for (int rule = 1; rule <= 13; rule++)
        for (int i = 0; i < (options.count + 1) / 2; i++) {
            struct asked a;
            struct maker m;
            char what[64];
            begin(g, &a, &m);
            size_t part = rng_below(g, (uint32_t)a.count + (i % 4 == 3));
            marked_boot(&m, a.marks, part, part, 3);
            if (rng_chance(g, 30))
                marked_open(&m, a.marks[rng_below(g, (uint32_t)a.count)]);
            damage(&m, rule, rule == 8 ? 1 + i % (KINDS - 1) : 0);
            snprintf(what, sizeof what, "a boot with rule %d broken first", rule);
            one(g, &a, &m, what);
        }
}

/* The model's report over a recording, for the places of its marks. */
static struct report places(const struct asked *a, const struct buffer *in)
{
    struct report p;
    report_fresh(&p, a->limit, a->marks, a->count);
    for (size_t at = 0; at < in->len && !report_complete(&p); at += RECORD)
        if (report_one(&p, in->bytes + at).rule != 0)
            break;
    return p;
}

/* A bit of a record, mostly of its lines, near to a mark's START or ACK. */
static void change_near(struct rng *g, const struct report *p, struct buffer *in)
{
    size_t at = p->ends[rng_below(g, (uint32_t)p->reached)] - 1, records = in->len / RECORD;
    uint32_t steps = rng_chance(g, 40) ? 0 : rng_below(g, 6);
    at = rng_chance(g, 70) ? at - (steps < at ? steps : at) : at + steps;
    if (at >= records)
        at = records - 1;
    size_t byte = rng_chance(g, 60) ? 4 + rng_below(g, 2) : rng_below(g, RECORD);
    in->bytes[at * RECORD + byte] ^= (uint8_t)(1 << rng_below(g, 8));
}

static void changed(struct rng *g)
{
    for (int i = 0; i < 5 * options.count; i++) {
        struct asked a;
        struct maker m;
        begin(g, &a, &m);
        marked_boot(&m, a.marks, a.count, a.count, 2);
        struct report p = places(&a, &m.out);
        change_near(g, &p, &m.out);
        one(g, &a, &m, "a bit changed near a mark");
    }
}

static void add_random(struct rng *g, struct buffer *out, size_t len)
{
    for (; len > 0; len--) {
        uint8_t byte = (uint8_t)rng_next(g);
        buffer_add(out, &byte, 1);
    }
}

/* A recording cut anywhere, most often near its end. */
static void cut(struct rng *g)
{
    for (int i = 0; i < 2 * options.count; i++) {
        struct asked a;
        struct maker m;
        begin(g, &a, &m);
        marked_boot(&m, a.marks, a.count, a.count, 3);
        size_t most = rng_chance(g, 70) && m.out.len > 100 ? 100 : m.out.len;
        m.out.len -= rng_below(g, (uint32_t)most);
        one(g, &a, &m, "a recording cut off");
    }
}

/* Right behind the last mark's ACK, or behind the ACK of the one before it: a breach, a torn piece,
   random bytes, nothing. */
static void behind(struct rng *g)
{
    for (int i = 0; i < 3 * options.count; i++) {
        struct asked a;
        struct maker m, cut_off;
        begin(g, &a, &m);
        marked_boot(&m, a.marks, a.count, a.count, 3);
        struct report p = places(&a, &m.out);
        size_t last = rng_chance(g, 70) || a.count == 1 ? a.count - 1 : a.count - 2;
        maker_start(&cut_off, g, a.limit);
        for (size_t r = 0; r < p.ends[last]; r++) {
            struct record lines;
            record_read(&lines, m.out.bytes + r * RECORD);
            maker_try(&cut_off, &lines, 0);
        }
        buffer_free(&m.out);
        if (i % 3 == 0)
            marked_break(&cut_off);
        if (i % 3 == 1)
            add_random(g, &cut_off.out, 1 + rng_below(g, 15));
        if (rng_chance(g, 30))
            add_random(g, &cut_off.out, rng_below(g, 100));
        one(g, &a, &cut_off, "something behind a mark's ACK");
    }
}

/* The marks near to where reads of 4 and 64 KiB end. */
static void over_reads(struct rng *g)
{
    static const size_t edges[] = {256, 4096, 8192};
    for (int i = 0; i < (options.count + 4) / 5; i++) {
        struct asked a;
        struct maker m;
        begin(g, &a, &m);
        traffic_bus(&m, edges[rng_below(g, 3)] - rng_below(g, 30));
        marked_boot(&m, a.marks, a.count, rng_chance(g, 20) ? 0 : a.count, 3);
        if (rng_chance(g, 50))
            marked_break(&m);
        one(g, &a, &m, "marks over the ends of reads");
    }
}

/* 32 marks with up to 200 records between, each 2^31 cycles behind the one before: the lines become
   long, spans having up to 14 digits. */
static void far_apart(struct rng *g)
{
    for (int i = 0; i < (options.count + 9) / 10; i++) {
        struct asked a;
        struct maker m;
        begin(g, &a, &m);
        for (a.count = 0; a.count < MOST_MARKS; a.count++) {
            a.marks[a.count] = a.marks[0];
            marked_far(&m, 100 + rng_below(g, 100));
            marked_boot(&m, &a.marks[a.count], 1, 1, 1);
        }
        one(g, &a, &m, "marks far apart");
    }
}

/* Drips of each size: a read sees no more than one. */
static void drips(struct rng *g)
{
    for (size_t size = 1; size <= 40; size++) {
        struct asked a;
        struct maker m;
        begin(g, &a, &m);
        marked_boot(&m, a.marks, a.count, a.count, 1);
        if (rng_chance(g, 50))
            m.out.len -= 1 + rng_below(g, 15);
        compare(g, &a, &m.out, (struct feed){BY_DRIPS, size}, "drips");
        buffer_free(&m.out);
    }
}

static void all_of(unsigned long with)
{
    struct rng g = {seed = with};
    printf("seed %lu\n", seed);
    fflush(stdout);
    sound(&g);
    damaged(&g);
    changed(&g);
    cut(&g);
    behind(&g);
    over_reads(&g);
    far_apart(&g);
    drips(&g);
}

/* Says what was met; with a fair share each way to end is to be among it, and each near miss. */
static void summary(void)
{
    unsigned long least = complete < torn ? complete : torn;
    printf("marks reached %lu; complete %lu, torn %lu, a mark absent %lu; a breach of rule", reached,
           complete, torn, absent);
    least = absent < least ? absent : least;
    for (int rule = 1; rule <= 13; rule++) {
        printf(" %d:%lu", rule, by_rule[rule]);
        least = by_rule[rule] < least ? by_rule[rule] : least;
    }
    printf(", of rule");
    for (int kind = NO_OWNER; kind < KINDS; kind++) {
        printf(" 8%c:%lu", 'a' + kind - NO_OWNER, by_kind[kind]);
        least = by_kind[kind] < least ? by_kind[kind] : least;
    }
    printf("\nnear:");
    for (int kind = 0; kind < NEARS; kind++) {
        printf("%s %s %lu", kind > 0 ? "," : "", near_names[kind], near_made[kind]);
        least = near_made[kind] < least ? near_made[kind] : least;
    }
    printf("\n");
    if (options.count >= ENOUGH && least == 0) {
        printf("FAILED: something of these was never met\n");
        failed++;
    }
    printf("phases: %lu passed, %lu failed\n", passed, failed);
}

static int read_options(int argc, char **argv, int *given)
{
    for (int i = 1; i < argc; i++) {
        int more = i + 1 < argc;
        if (strcmp(argv[i], "--first") == 0)
            options.first = 1;
        else if (strcmp(argv[i], "--unshrunk") == 0)
            options.unshrunk = 1;
        else if (more && strcmp(argv[i], "--program") == 0)
            options.program = argv[++i];
        else if (more && strcmp(argv[i], "--count") == 0)
            options.count = atoi(argv[++i]);
        else if (more && strcmp(argv[i], "--seconds") == 0)
            options.seconds = atoi(argv[++i]);
        else if (more && strcmp(argv[i], "--seed") == 0)
            seed = strtoul(argv[++i], NULL, 0), *given = 1;
        else
            return 0;
    }
    return options.program != NULL && strlen(options.program) < LINE / 2 && options.count >= 1;
}

int main(int argc, char **argv)
{
    int given = 0;
    if (!read_options(argc, argv, &given)) {
        fprintf(stderr, "phases --program COMMAND [--count N] [--seed S] [--seconds T] [--first] "
                        "[--unshrunk]\n");
        return 2;
    }
    phases_words();
    if (given) {
        all_of(seed);
    } else {
        all_of(FIXED_SEED);
        all_of((unsigned long)time(NULL) * 1000 + (unsigned long)getpid() % 1000);
    }
    summary();
    return failed > 0;
}
