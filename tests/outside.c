/* The outside test: generated recordings and calls, every answer compared with the model's.

   outside [--judge COMMAND] [--calls COMMAND] [--accounts COMMAND] [--count N] [--seed S] [--status]
           [--seconds T] [--first] [--unshrunk]

   A command is one string for the shell. Without --seed there are two passes, with the fixed
   seed and with a fresh one. N is the share: N damaged recordings for each of the thirteen rules
   (N for each of rule 8's three kinds), 5 N sound ones, 3 N for the watchdog and N/10 lists of 3,000 calls for each subject
   (twice as many for the bus, the judge and the accounts), in each pass; with the fixed seed also
   every code and every contest. The accounts' program gets every fifth of the judging program's
   recordings, or all where that isn't given, and N that are made for it. With --status the
   exit status of either is to be 0, 1 or 2 by its verdict; with --first the run ends at
   the first disagreement; with --unshrunk it is told as it was found. */
#define _DEFAULT_SOURCE 1
#include <stdio.h>
#include <stdlib.h>
#include <string.h>
#include <time.h>
#include <unistd.h>
#include "accountsmet.h"
#include "compare.h"
#include "watchdogmet.h"

enum { CALLS_A_LIST = 3000, FIXED_SEED = 19861023, MOST_REPORTS = 5, MOST_LINES = 30, ENOUGH = 10,
       SHARED = 5 }; /* of the recordings one in so many is the accounts' program's too */

static struct {
    const char *judge, *calls, *accounts;
    int count, statuses, seconds, first, unshrunk;
} options = {.count = 50, .seconds = 60};
static unsigned long passed, failed;
static unsigned long broken_first[14], kinds[KINDS], wrapped, far, at_once, recordings, counted;

static void report(const struct subject_program *p, struct buffer *in, const char *what,
                   unsigned long seed)
{
    failed++;
    if (failed > MOST_LINES)
        return;
    printf("disagreement: %s, seed %lu\n", what, seed);
    if (failed == MOST_LINES)
        printf("more are counted and not told\n");
    if (failed <= MOST_REPORTS) {
        if (!options.unshrunk)
            shrink(p, in);
        if (disagree(p, in, stdout) < 0)
            printf("  it does not come back: the program's answer is not always the same\n");
    }
    fflush(stdout);
    if (options.first) {
        printf("outside: %lu passed, %lu failed\n", passed, failed);
        exit(1);
    }
}

static struct feed some_feed(struct rng *g, size_t len)
{
    static const size_t sizes[] = {1, 7, 15, 16, 17, 48, 1000, 4095, 4096, 65535, 65537};
    struct feed f = {BY_FILE, 0};
    if (rng_chance(g, 70))
        return f;
    f.way = rng_chance(g, 50) ? BY_PIPE : BY_DRIPS;
    f.piece = sizes[rng_below(g, 11)];
    if (len > 4000 && f.piece < 48)
        f.piece = 1000;
    return f;
}

static void tear(struct rng *g, struct buffer *in)
{
    uint8_t piece[15];
    for (int i = 0; i < 15; i++)
        piece[i] = (uint8_t)rng_next(g);
    buffer_add(in, piece, 1 + rng_below(g, 15));
}

static void judged(struct rng *g, struct buffer *in, const char *what, unsigned long seed)
{
    struct subject_program p = {.command = options.judge, .unit = RECORD,
                                .seconds = options.seconds, .statuses = options.statuses};
    p.feed = some_feed(g, in->len);
    recordings++;
    if (!never_both(in, NO_LIMIT_GIVEN)) {
        printf("a START breaks 8b and 8c at once: %s, seed %lu\n", what, seed);
        failed++;
    }
    if (disagree(&p, in, NULL) < 0)
        passed++;
    else
        report(&p, in, what, seed);
}

static int accounts_of(const void *with, const uint8_t *bytes, size_t len, char *text)
{
    (void)with;
    return account_program(NO_LIMIT_GIVEN, bytes, len, text);
}

static void accounted(struct rng *g, struct buffer *in, const char *what, unsigned long seed)
{
    struct subject_program p = {.command = options.accounts, .unit = RECORD,
                                .seconds = options.seconds, .statuses = options.statuses,
                                .model = accounts_of};
    char told[100];
    p.feed = some_feed(g, in->len);
    account_meet(in, NO_LIMIT_GIVEN);
    snprintf(told, sizeof told, "accounts, %s", what);
    counted++;
    if (disagree(&p, in, NULL) < 0)
        passed++;
    else
        report(&p, in, told, seed);
}

/* Gives the recording, some with a torn end, to the programs; a disagreement makes it small. */
static void one_recording(struct rng *g, struct buffer *in, const char *what, unsigned long seed)
{
    static unsigned turn;
    if (rng_chance(g, 10))
        tear(g, in);
    int account = options.accounts != NULL && (options.judge == NULL || turn++ % SHARED == 0);
    watchdog_meet(in, NO_LIMIT_GIVEN);
    struct buffer kept = {0};
    buffer_add(&kept, in->bytes, in->len);
    if (options.judge != NULL)
        judged(g, in, what, seed);
    if (account)
        accounted(g, &kept, what, seed);
    buffer_free(&kept);
}

/* Counts what a damaged recording's breach is, by the model, which must name what was meant. */
static void cover(const struct buffer *in, int rule, int kind)
{
    struct judge j;
    struct tally t = {0};
    struct verdict v;
    struct record first;
    record_read(&first, in->bytes);
    judge_fresh(&j, NO_LIMIT_GIVEN);
    judge_recording(&j, &t, in->bytes, in->len, &v);
    if (v.rule != rule || v.kind != kind) {
        printf("the maker meant rule %d kind %d, the model names %d kind %d\n", rule, kind, v.rule,
               v.kind);
        failed++;
    }
    broken_first[v.rule]++;
    kinds[v.kind]++;
    wrapped += (v.span + first.stamp) >> 32 != 0;
    far += v.span >> 32 != 0;
}

static void one_damaged(struct rng *g, unsigned long seed, int rule, int kind)
{
    struct maker m;
    char what[64];
    maker_start(&m, g, NO_LIMIT_GIVEN);
    uint32_t broken = damage(&m, rule, kind);
    cover(&m.out, rule, kind);
    at_once += (broken & (broken - 1)) != 0;
    snprintf(what, sizeof what, "recording with rule %d broken first, kind %d", rule, kind);
    one_recording(g, &m.out, what, seed);
    buffer_free(&m.out);
}

/* N damaged recordings for each rule, rule 8 in its three kinds. */
static void damaged(struct rng *g, unsigned long seed)
{
    for (int rule = 1; rule <= 13; rule++)
        for (int kind = rule == 8; kind < (rule == 8 ? KINDS : 1); kind++)
            for (int i = 0; i < options.count; i++)
                one_damaged(g, seed, rule, kind);
}

static void sound(struct rng *g, unsigned long seed)
{
    for (int i = 0; i < 5 * options.count; i++) {
        struct maker m;
        size_t records = rng_below(g, rng_chance(g, 10) ? 3000 : 150);
        if (i % 50 == 49)
            records = 4000 + rng_below(g, 9000); /* over several reads */
        maker_start(&m, g, 16);
        if (rng_chance(g, 50))
            traffic_bus(&m, records);
        else
            traffic_wild(&m, records);
        one_recording(g, &m.out, "sound recording", seed);
        buffer_free(&m.out);
    }
}

/* Long recordings with something wrong near the places where reads of 4 and 64 KiB end. */
static void long_damaged(struct rng *g, unsigned long seed)
{
    static const size_t edges[] = {255, 256, 257, 4095, 4096, 4097, 8192};
    for (int i = 0; i < options.count / 5; i++) {
        struct maker m;
        struct record r;
        unsigned spare;
        maker_start(&m, g, 16);
        traffic_bus(&m, edges[rng_below(g, 7)] - rng_below(g, 2));
        for (int k = 0; k < 20; k++) {
            wild_propose(&m, &r, &spare, 40);
            if (maker_try(&m, &r, spare) != 0)
                maker_add_raw(&m, &r, spare);
        }
        one_recording(g, &m.out, "long recording", seed);
        buffer_free(&m.out);
    }
}

/* Recordings made for the watchdog (02, wish 5), in each of their endings by turns. */
static void slow(struct rng *g, unsigned long seed)
{
    for (int i = 0; i < 3 * options.count; i++) {
        struct maker m;
        maker_start(&m, g, NO_LIMIT_GIVEN);
        if (rng_chance(g, 50))
            traffic_wild(&m, rng_below(g, 30));
        traffic_slow(&m, (unsigned)i);
        one_recording(g, &m.out, "slow words' recording", seed);
        buffer_free(&m.out);
    }
}

/* Recordings made for the accounts, some of them broken behind: the entries are of what came before. */
static void owners(struct rng *g, unsigned long seed)
{
    for (int i = 0; i < options.count + options.count / 5; i++) { /* the last have late words */
        struct maker m;
        enum owners how = i >= options.count ? LATE_WORDS : i % 8 == 0 ? LATE_ABORTS : PLAIN_OWNERS;
        maker_start(&m, g, NO_LIMIT_GIVEN);
        traffic_owners(&m, (how != PLAIN_OWNERS ? 200 : 0) + rng_below(g, rng_chance(g, 10) ? 3000 : 200), how);
        if (rng_chance(g, 30))
            damage(&m, 1 + (int)rng_below(g, 13), 0);
        if (rng_chance(g, 10))
            tear(g, &m.out);
        watchdog_meet(&m.out, NO_LIMIT_GIVEN);
        accounted(g, &m.out, "owners' recording", seed);
        buffer_free(&m.out);
    }
}

/* The lists of calls on a subject, for some of each. */
static int rounds_of(int subject, int some, unsigned long seed)
{
    if (subject == EVERY_CODE)
        return seed == FIXED_SEED;
    return subject == BUS || subject == JUDGE || subject == ACCOUNTS ? 2 * some : some;
}

static void lists(struct rng *g, unsigned long seed)
{
    int some = options.count / 10 > 0 ? options.count / 10 : 1;
    for (int s = 0; s < SUBJECTS; s++) {
        for (int i = rounds_of(s, some, seed); i > 0; i--) {
            struct subject_program p = {.command = options.calls, .unit = CALL,
                                        .seconds = options.seconds};
            struct buffer in = {0};
            char what[64];
            make_calls(&in, g, (enum subject)s, CALLS_A_LIST);
            if (rng_chance(g, 30)) {
                p.feed.way = rng_chance(g, 50) ? BY_PIPE : BY_DRIPS;
                p.feed.piece = in.len / 4000 + 1 + rng_below(g, 5000);
            }
            size_t calls = in.len / CALL;
            if (rng_chance(g, 20)) /* a torn last call isn't answered */
                buffer_add(&in, (const uint8_t[CALL]){9}, 1 + rng_below(g, CALL - 1));
            snprintf(what, sizeof what, "calls on %s", subject_names[s]);
            if (disagree(&p, &in, NULL) < 0)
                passed += calls;
            else
                report(&p, &in, what, seed);
            buffer_free(&in);
        }
    }
}

static void pass(unsigned long seed)
{
    struct rng g = {seed};
    printf("seed %lu\n", seed);
    fflush(stdout);
    if (options.judge != NULL || options.accounts != NULL) {
        damaged(&g, seed);
        sound(&g, seed);
        long_damaged(&g, seed);
        slow(&g, seed);
    }
    if (options.accounts != NULL)
        owners(&g, seed);
    if (options.calls != NULL)
        lists(&g, seed);
}

/* With a fair share each kind of rule 8 is to be met, and breaches after wraps and beyond 2^32. */
static void met(const char *where, const unsigned long *of_kind, unsigned long others)
{
    if (options.count < ENOUGH || (of_kind[NO_OWNER] > 0 && of_kind[TOO_FEW] > 0 &&
                                   of_kind[TOO_SOON] > 0 && others > 0))
        return;
    printf("FAILED: a kind of rule 8, or a breach at a great span, was never met in %s\n", where);
    failed++;
}

static void say_kinds(const unsigned long *of_kind)
{
    printf(" (8a:%lu 8b:%lu 8c:%lu)", of_kind[NO_OWNER], of_kind[TOO_FEW], of_kind[TOO_SOON]);
}

static void recordings_met(void)
{
    printf("recordings %lu; rule broken first:", recordings);
    for (int r = 1; r <= 13; r++) {
        printf(" %d:%lu", r, broken_first[r]);
        if (r == 8)
            say_kinds(kinds);
    }
    printf("; more than one rule broken at once in %lu\n", at_once);
    printf("breaches after a wrap of the stamp %lu, at a span of 2^32 or more %lu\n", wrapped, far);
    met("recordings", kinds, wrapped < far ? wrapped : far);
}

/* A byte has one lane, a halfword 0 and 1 or 2 and 3, all else four; none is a code with no meaning (02,
   wish 4). With a fair share each is to be met. */
static void lanes_met(void)
{
    static const int sets[] = {0x0, 0x1, 0x2, 0x4, 0x8, 0x3, 0xC, 0xF};
    unsigned long least = covered.by_op[3];
    printf("lanes decoded:");
    for (size_t i = 0; i < sizeof sets / sizeof sets[0]; i++) {
        unsigned long n = covered.lanes[sets[i]];
        printf(" ");
        for (int k = LANES; k-- > 0;)
            printf("%d", sets[i] >> k & 1);
        printf(":%lu", n);
        least = n < least ? n : least;
    }
    printf("\n");
    if (options.count < ENOUGH || least > 0)
        return;
    printf("FAILED: a set of byte lanes was never met\n");
    failed++;
}

/* In the watchdog's 256th cycle each event is to be met, with a word beside the last owed and without (02,
   wish 5). */
static void due_met(void)
{
    static const char *const events[] = {"nothing", "strobes", "finishes"};
    unsigned long least = covered.before_due;
    printf("in the 256th cycle:");
    for (int event = NOTHING; event <= FINISH; event++) {
        printf(" %s %lu (with one word owed %lu)", events[event], covered.due[event][1], covered.due[event][0]);
        for (int more = 0; more < 2; more++)
            least = covered.due[event][more] < least ? covered.due[event][more] : least;
    }
    printf("; strobes taken in the cycle before %lu\n", covered.before_due);
    if (options.count < ENOUGH || least > 0)
        return;
    printf("FAILED: something in the watchdog's 256th cycle was never met\n");
    failed++;
}

static void calls_met(void)
{
    printf("calls %lu, of which not settled by the paper %lu\n", covered.calls + covered.skipped,
           covered.skipped);
    printf("answers by operation and refusal:\n");
    for (int op = 1; op < OPERATIONS; op++) {
        printf("  %2d: %lu", op, covered.by_op[op]);
        for (int no = 1; no < 9; no++)
            if (covered.op_refusal[op][no] > 0)
                printf("  refused %d: %lu", no, covered.op_refusal[op][no]);
        printf("\n");
    }
    printf("judge calls by rule:");
    for (int r = 0; r <= 13; r++) {
        printf(" %d:%lu", r, covered.rules[r]);
        if (r == 8)
            say_kinds(covered.kinds);
    }
    printf("; at a span of 2^32 or more %lu\n", covered.far);
    printf("notes: none %lu short %lu extra %lu stray %lu; no operation: %lu\n", covered.notes[0],
           covered.notes[1], covered.notes[2], covered.notes[3], covered.refusals[255]);
    due_met();
    lanes_met();
    met("calls", covered.kinds, covered.far);
}

static void accounts_met(void)
{
    printf("recordings for the accounts %lu\n", counted);
    if (account_met() || options.count < ENOUGH)
        return;
    printf("FAILED: something that the accounts count was never met\n");
    failed++;
}

static void watchdogs_met(void)
{
    if (watchdog_met() || options.count < ENOUGH)
        return;
    printf("FAILED: something of the watchdog was never met in recordings\n");
    failed++;
}

static void summary(void)
{
    if (options.judge != NULL || options.accounts != NULL)
        watchdogs_met();
    if (options.judge != NULL)
        recordings_met();
    if (options.accounts != NULL)
        accounts_met();
    if (options.calls != NULL)
        calls_met();
    printf("outside: %lu passed, %lu failed\n", passed, failed);
}

static void usage(void)
{
    fprintf(stderr, "outside [--judge COMMAND] [--calls COMMAND] [--accounts COMMAND] [--count N] "
                    "[--seed S] [--status] [--seconds T] [--first] [--unshrunk]\n");
    exit(2);
}

int main(int argc, char **argv)
{
    unsigned long seed = 0;
    int given = 0;
    for (int i = 1; i < argc; i++) {
        int *flag = strcmp(argv[i], "--status") == 0     ? &options.statuses
                    : strcmp(argv[i], "--first") == 0    ? &options.first
                    : strcmp(argv[i], "--unshrunk") == 0 ? &options.unshrunk
                                                         : NULL;
        if (flag != NULL) {
            *flag = 1;
            continue;
        }
        if (i + 1 >= argc)
            usage();
        if (strcmp(argv[i], "--judge") == 0)
            options.judge = argv[++i];
        else if (strcmp(argv[i], "--calls") == 0)
            options.calls = argv[++i];
        else if (strcmp(argv[i], "--accounts") == 0)
            options.accounts = argv[++i];
        else if (strcmp(argv[i], "--count") == 0)
            options.count = atoi(argv[++i]);
        else if (strcmp(argv[i], "--seconds") == 0)
            options.seconds = atoi(argv[++i]);
        else if (strcmp(argv[i], "--seed") == 0) {
            seed = strtoul(argv[++i], NULL, 0);
            given = 1;
        } else
            usage();
    }
    if ((options.judge == NULL && options.calls == NULL && options.accounts == NULL) ||
        options.count < 1)
        usage();
    if (given) {
        pass(seed);
    } else {
        pass(FIXED_SEED);
        pass((unsigned long)time(NULL) * 1000 + (unsigned long)getpid() % 1000);
    }
    summary();
    return failed > 0;
}
