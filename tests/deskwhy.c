/* spurwhy: the judge's two lines, and why; recordings that break each rule first, sound ones, torn ones. */
#define _DEFAULT_SOURCE 1
#include <stdio.h>
#include <stdlib.h>
#include <string.h>
#include "compare.h"
#include "desk.h"

static unsigned long by_rule[14], by_kind[KINDS], by_limit[17], conforming, torn, found_long, found_longest,
    same_stamp, far_stamp, too_many_strobes, too_few_strobes, parity[2], longest_spare, behind_strobe[2];

/* What is to be printed: the judge's lines by its state, what was found by looking back. */
static int expected(const void *with, const uint8_t *bytes, size_t len, char *text)
{
    unsigned limit = *(const unsigned *)with;
    struct judge j;
    struct tally t = {0};
    struct verdict v = NO_BREACH;
    judge_fresh(&j, limit);
    for (size_t at = 0; len - at >= RECORD && v.rule == 0; at += RECORD)
        v = judge_one(&j, &t, bytes + at);
    judge_text(&t, j.open, v, v.rule == 0 && len % RECORD != 0 ? 1 : 0, text);
    if (v.rule != 0) {
        struct cause c = cause_back(bytes, limit, v);
        size_t n = strlen(text);
        snprintf(text + n, MOST_TEXT - n, "found %llu bound %llu\n", (unsigned long long)c.found,
                 (unsigned long long)c.bound);
    }
    return v.rule != 0 ? 1 : 0;
}

static void cover(const char *text, unsigned limit)
{
    const char *breach = strstr(text, "breach rule "), *why = strstr(text, "found ");
    unsigned long long found, bound;
    conforming += strstr(text, "conforming\n") != NULL;
    torn += strstr(text, "refused 1\n") != NULL;
    if (breach == NULL || why == NULL || sscanf(why, "found %llu bound %llu", &found, &bound) != 2)
        return;
    int rule = atoi(breach + 12);
    by_rule[rule]++;
    by_limit[limit] += rule == 11;
    if (rule == 8)
        by_kind[breach[13] - 'a' + NO_OWNER]++;
    found_long += (rule == 4 || rule == 12) && found > 65536;
    found_longest += (rule == 4 || rule == 12) && found > (unsigned long long)1 << 31;
    same_stamp += rule == 2 && found == 0;
    far_stamp += rule == 2 && found > bound;
    too_many_strobes += rule == 13 && found > bound;
    too_few_strobes += rule == 13 && found < bound;
    parity[1] += rule == 3 && bound == 1;
    parity[0] += rule == 3 && bound == 0;
    longest_spare += rule == 1 && found >= 16384;
}

/* Rules 4 and 12 behind a strobe: what is found for 12 counts from it, for 4 from the START (02, wish 5). */
static void cover_strobes(const struct buffer *in, unsigned limit)
{
    struct judge j;
    struct tally t = {0};
    struct verdict v;
    judge_fresh(&j, limit);
    judge_recording(&j, &t, in->bytes, in->len / RECORD * RECORD, &v);
    behind_strobe[0] += v.rule == 4 && j.strobes > 0;
    behind_strobe[1] += v.rule == 12 && j.strobes > 0;
}

static void compare_why(struct buffer *in, unsigned limit, struct feed feed, const char *what)
{
    char line[4096], words[32], text[MOST_TEXT];
    struct subject_program p = {.command = line, .unit = RECORD, .feed = feed, .seconds = desk.time,
                                .model = expected, .with = &limit};
    struct said right = {{0}, NULL};
    expected(&limit, in->bytes, in->len, text);
    cover(text, limit);
    cover_strobes(in, limit);
    buffer_say(&right.out, "%s", text);
    snprintf(words, sizeof words, " %u", limit);
    snprintf(line, sizeof line, "%s%s", desk.why, words);
    desk_compare(desk.why, words, in->bytes, in->len, feed, &right, what);
    buffer_free(&right.out);
    static int told;
    if (desk.first || desk.unshrunk || told >= 3 || disagree(&p, in, NULL) < 0)
        return;
    told++;
    shrink(&p, in);
    disagree(&p, in, stdout);
}

/* One in ten is asked under another limit too. */
static void one(struct rng *g, struct maker *m, unsigned limit, const char *what)
{
    compare_why(&m->out, limit, desk_feed(g, m->out.len), what);
    if (rng_chance(g, 10)) {
        limit += rng_chance(g, 50) ? 1u : (unsigned)-1;
        limit = limit < 1 ? 1 : limit > 16 ? 16 : limit;
        compare_why(&m->out, limit, desk_feed(g, m->out.len), what);
    }
    buffer_free(&m->out);
}

/* A rule broken first; of rule 8 the kind. Of rule 11 each limit comes by turns. */
static void broken(struct rng *g, int rule, int kind)
{
    for (int i = 0; i < desk.count; i++) {
        struct maker m;
        char what[64];
        static unsigned turn;
        unsigned limit = rule == 11 ? 1 + turn++ % 16 : 1 + rng_below(g, 16);
        maker_start(&m, g, limit);
        damage(&m, rule, kind);
        snprintf(what, sizeof what, "rule %d broken first", rule);
        one(g, &m, limit, what);
    }
}

/* Rules 4 and 12 after a long silence: the age is more than any timer's. */
static void long_silent(struct rng *g)
{
    for (int i = 0; i < desk.count / 5 + 2; i++) {
        struct maker m;
        unsigned limit = 1 + rng_below(g, 16);
        maker_start(&m, g, limit);
        traffic_wild(&m, rng_below(g, 30));
        int tries = 0;
        while (!m.j.open && tries++ < 100)
            wild_setup(&m, 4);
        struct record r = {.stamp = m.j.stamp + (rng_chance(g, 30) ? 0x80000000u - rng_below(g, 3)
                                                                   : 300 + (uint32_t)(rng_next(g) >> 34))};
        r.start = (uint8_t)(i % 2);
        r.ack = (uint8_t)rng_below(g, 2);
        r.tm1 = r.tm0 = 1;
        maker_add_raw(&m, &r, 0);
        one(g, &m, limit, "a transfer that is open for too long");
    }
}

/* Words that come late, and a record at the edge behind them (02, wish 5). */
static void slow_words(struct rng *g)
{
    for (int i = 0; i < desk.count; i++) {
        struct maker m;
        unsigned limit = 1 + rng_below(g, 16);
        maker_start(&m, g, limit);
        traffic_slow(&m, (unsigned)i);
        one(g, &m, limit, "words that come late");
    }
}

/* Spare bits of any number, on any record. */
static void spares(struct rng *g)
{
    for (int i = 0; i < desk.count / 5 + 2; i++) {
        struct maker m;
        unsigned limit = 1 + rng_below(g, 16);
        maker_start(&m, g, limit);
        traffic_wild(&m, rng_below(g, 20));
        struct record r = {.stamp = m.j.stamp + 1};
        maker_add_raw(&m, &r, i == 0 ? 32767 : i == 1 ? 16384 : 1 + rng_below(g, 32767));
        one(g, &m, limit, "spare bits");
    }
}

static void sound(struct rng *g)
{
    for (int i = 0; i < desk.count; i++) {
        struct maker m;
        unsigned limit = 1 + rng_below(g, 16);
        maker_start(&m, g, limit);
        if (rng_chance(g, 50))
            traffic_bus(&m, rng_below(g, 200));
        else
            traffic_wild(&m, rng_below(g, 200));
        if (i % 3 == 0 && m.out.len >= RECORD)
            m.out.len -= 1 + rng_below(g, 15);
        compare_why(&m.out, limit, desk_feed(g, m.out.len), "a sound recording, or a torn one");
        buffer_free(&m.out);
    }
}

/* A breach behind more than a read. */
static void long_ones(struct rng *g)
{
    for (int i = 0; i < (desk.count + 9) / 10; i++) {
        struct maker m;
        maker_start(&m, g, 16);
        traffic_bus(&m, 4080 + rng_below(g, 5000));
        damage(&m, 1 + (int)rng_below(g, 13), 0);
        one(g, &m, 16, "a long recording with a breach");
    }
}

static void drips(struct rng *g)
{
    for (size_t size = 1; size <= 40; size += 2) {
        struct maker m;
        maker_start(&m, g, 16);
        traffic_wild(&m, rng_below(g, 10));
        damage(&m, 1 + (int)rng_below(g, 13), 0);
        compare_why(&m.out, 16, (struct feed){BY_DRIPS, size}, "drips");
        buffer_free(&m.out);
    }
}

static const struct {
    const char *words, *lines; /* no lines: a complaint */
} cases[] = {
    {"0", "refused 3\n"}, {"17", "refused 3\n"}, {"000", "refused 3\n"}, {"00017", "refused 3\n"},
    {"100", "refused 3\n"}, {"256", "refused 3\n"}, {"260", "refused 3\n"}, {"4294967300", "refused 3\n"},
    {"18446744073709551620", "refused 3\n"}, {"1000000000000000000000000000000", "refused 3\n"},
    {"''", ""}, {"x", ""}, {"4x", ""}, {"x4", ""}, {"-4", ""}, {"+4", ""}, {"0x4", ""}, {"4.0", ""},
    {"' 4'", ""}, {"'4 '", ""}, {"'4 4'", ""},
};

void desk_why_words(void)
{
    static const uint8_t records[3 * RECORD] = {[19] = 1, [35] = 2};
    struct buffer in = {(uint8_t *)records, sizeof records, 0};
    for (size_t i = 0; i < sizeof cases / sizeof cases[0]; i++) {
        struct said right = {{0}, cases[i].lines[0] == '\0' ? "spurwhy:" : NULL};
        char words[256];
        buffer_say(&right.out, "%s", cases[i].lines);
        snprintf(words, sizeof words, " %s", cases[i].words);
        desk_compare(desk.why, words, records, sizeof records, (struct feed){BY_FILE, 0}, &right,
                     "a limit that is none");
        buffer_free(&right.out);
    }
    for (unsigned limit = 1; limit <= 16; limit++)
        compare_why(&in, limit, (struct feed){BY_FILE, 0}, "three records");
    in.len = 0;
    compare_why(&in, 16, (struct feed){BY_FILE, 0}, "no record");
    in.len = 9;
    compare_why(&in, 16, (struct feed){BY_FILE, 0}, "a torn piece alone");
}

void desk_whys(struct rng *g)
{
    for (int rule = 1; rule <= 13; rule++)
        for (int kind = rule == 8 ? 1 : 0; kind < (rule == 8 ? (int)KINDS : 1); kind++)
            broken(g, rule, kind);
    long_silent(g);
    slow_words(g);
    spares(g);
    sound(g);
    long_ones(g);
    drips(g);
}

void desk_whys_met(void)
{
    char what[32];
    printf("why: conforming %lu, torn %lu; breaches of rule", conforming, torn);
    for (int rule = 1; rule <= 13; rule++) {
        printf(" %d:%lu", rule, by_rule[rule]);
        snprintf(what, sizeof what, "rule %d", rule);
        desk_met(what, by_rule[rule]);
    }
    for (int kind = NO_OWNER; kind < KINDS; kind++) {
        printf(" 8%c:%lu", 'a' + kind - NO_OWNER, by_kind[kind]);
        snprintf(what, sizeof what, "rule 8%c", 'a' + kind - NO_OWNER);
        desk_met(what, by_kind[kind]);
    }
    printf("\nfound: rules 4 and 12 over 2^16 %lu, over 2^31 %lu; rule 2 at 0 %lu, beyond 2^31 %lu; rule 13 too "
           "many %lu, too few %lu; rule 3 right 0 %lu, 1 %lu; the highest spare bit %lu\n",
           found_long, found_longest, same_stamp, far_stamp, too_many_strobes, too_few_strobes, parity[0],
           parity[1], longest_spare);
    printf("behind a strobe: rule 4 %lu, rule 12 %lu\n", behind_strobe[0], behind_strobe[1]);
    desk_met("rule 4 behind a strobe", behind_strobe[0]);
    desk_met("rule 12 behind a strobe", behind_strobe[1]);
    desk_met("an age over 2^16", found_long);
    desk_met("an age over 2^31", found_longest);
    desk_met("the stamp before", same_stamp);
    desk_met("a stamp too far", far_stamp);
    desk_met("too many strobes", too_many_strobes);
    desk_met("too few strobes", too_few_strobes);
    desk_met("SP to be 0", parity[0]);
    desk_met("SP to be 1", parity[1]);
    desk_met("the highest spare bit", longest_spare);
    for (int limit = 1; limit <= 16; limit++) {
        snprintf(what, sizeof what, "rule 11 at limit %d", limit);
        desk_met(what, by_limit[limit]);
    }
}
