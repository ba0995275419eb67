/* The model's boot report against the same worked out over the whole recording (marksback.c): boots
   with marks, whole, torn and with bits changed, and recordings that were made for the judge. */
#include <stdio.h>
#include <string.h>
#include "marked.h"
#include "selfmarks.h"

enum { ENOUGH = 50 }; /* a count at which everything is to be met */
static unsigned long compared, apart, endings[4], reached, kinds[KINDS];

static void check(unsigned limit, const struct mark *marks, size_t count, const struct buffer *in)
{
    char stepped[REPORT_TEXT], back[REPORT_TEXT];
    report_program(limit, marks, count, in->bytes, in->len, stepped);
    report_back(limit, marks, count, in->bytes, in->len, back);
    compared++;
    endings[strstr(stepped, "complete") != NULL   ? 0
            : strstr(stepped, "breach") != NULL   ? 1
            : strstr(stepped, "refused 1\n") != NULL ? 2
                                                     : 3]++;
    for (const char *at = stepped; (at = strstr(at, "mark ")) != NULL; at++)
        reached++;
    const char *early = strstr(stepped, "breach rule 8");
    kinds[early != NULL && early[13] >= 'a' && early[13] <= 'c' ? early[13] - 'a' + NO_OWNER : 0]++;
    if (strcmp(stepped, back) == 0)
        return;
    apart++;
    printf("the boot report:\n%sover the whole recording:\n%s", stepped, back);
}

/* A recording with some bits changed, most of them late in it. */
static void change_bits(struct rng *g, struct buffer *in)
{
    for (uint32_t n = 1 + rng_below(g, 3); n > 0 && in->len > 0; n--) {
        size_t from = rng_chance(g, 50) ? in->len / 2 : 0;
        in->bytes[from + rng_below(g, (uint32_t)(in->len - from))] ^= (uint8_t)(1 << rng_below(g, 8));
    }
}

static void boot(struct rng *g)
{
    struct maker m;
    struct mark marks[MOST_MARKS];
    size_t count = marked_choose(g, marks);
    unsigned limit = 1 + rng_below(g, 16);
    maker_start(&m, g, limit);
    marked_boot(&m, marks, count, rng_chance(g, 30) ? rng_below(g, (uint32_t)count) : count, 4);
    if (rng_chance(g, 30))
        traffic_wild(&m, 20);
    if (rng_chance(g, 30))
        marked_open(&m, marks[count - 1]);
    if (rng_chance(g, 30))
        marked_break(&m);
    else if (rng_chance(g, 25))
        damage(&m, 8, 1 + (int)rng_below(g, KINDS - 1));
    check(limit, marks, count, &m.out);
    m.out.len -= rng_below(g, (uint32_t)(m.out.len < 200 ? m.out.len : 200));
    check(limit, marks, count, &m.out);
    change_bits(g, &m.out);
    check(limit, marks, count, &m.out);
    buffer_free(&m.out);
}

/* Traffic that wasn't made for marks, with each mark in it that a START there is. */
static void any_traffic(struct rng *g, int rule)
{
    struct maker m;
    struct mark marks[MOST_MARKS];
    size_t count = 0;
    maker_start(&m, g, 16);
    if (rule > 0)
        damage(&m, rule, 0);
    else
        traffic_boot(&m, 600);
    for (size_t i = 0; i < m.out.len / RECORD && count < MOST_MARKS; i++) {
        struct record r;
        record_read(&r, m.out.bytes + i * RECORD);
        if (r.start && r.ad >> 28 == 15 && rng_chance(g, 50))
            marks[count++] = (struct mark){r.ad >> 24 & 15, r.ad >> 2 & 15};
    }
    if (count > 0)
        check(16, marks, count, &m.out);
    buffer_free(&m.out);
}

unsigned long selfmarks(int count, struct rng *g, unsigned long *differ)
{
    for (int i = 0; i < 10 * count; i++)
        boot(g);
    for (int i = 0; i < count; i++)
        any_traffic(g, (int)rng_below(g, 14));
    printf("boot reports: complete %lu, a breach %lu (8a:%lu 8b:%lu 8c:%lu), torn %lu, a mark absent "
           "%lu; marks reached %lu\n", endings[0], endings[1], kinds[NO_OWNER], kinds[TOO_FEW],
           kinds[TOO_SOON], endings[2], endings[3], reached);
    for (int k = NO_OWNER; count >= ENOUGH && k < KINDS; k++)
        if (kinds[k] == 0) {
            printf("no boot report ends with that kind of rule 8: %d\n", k);
            apart++;
        }
    for (int i = 0; i < 4; i++)
        if (endings[i] == 0) {
            printf("no boot report ends that way: %d\n", i);
            apart++;
        }
    *differ += apart;
    return compared;
}
