/* Of faults: the world around the accounts' program (document 02, wish 3), on recordings that are made
   for it: torn ends, drips, inputs and outputs that fail, random bytes, memory. */
#define _DEFAULT_SOURCE 1
#include <stdio.h>
#include "faults.h"

static struct maker some_owners(struct rng *g, size_t records)
{
    struct maker m;
    maker_start(&m, g, NO_LIMIT_GIVEN);
    traffic_owners(&m, records, PLAIN_OWNERS);
    return m;
}

/* Every part of a record torn, and around the places where reads may end. */
static void torn_ends(struct rng *g)
{
    static const size_t around[] = {4096, 65536};
    static const int by[] = {-17, -1, 0, 1, 15};
    struct maker m = some_owners(g, 5000);
    struct feed feed = {BY_FILE, 0};
    for (size_t len = 0; len < 20; len++)
        compare_bytes("accounts, torn end", m.out.bytes, 10 * RECORD + len, feed);
    for (int i = 0; i < 2; i++)
        for (int k = 0; k < 5; k++) {
            feed = (struct feed){k % 2 ? BY_PIPE : BY_FILE, 65536};
            compare_bytes("accounts, torn end", m.out.bytes, around[i] + (size_t)by[k], feed);
        }
    outcome(1, "torn ends", "every length from 160 to 179, and near 4096 and 65536");
    buffer_free(&m.out);
}

/* In drips each read sees one piece: whole, torn and broken recordings in turn. */
static void drips(struct rng *g)
{
    static const size_t sizes[] = {1,  2,  3,  5,  7,  8,  11, 13, 15, 16,
                                   17, 19, 23, 29, 31, 32, 33, 40, 1023};
    for (size_t i = 0; i < sizeof sizes / sizeof sizes[0]; i++) {
        struct maker m = some_owners(g, sizes[i] < 15 ? 100 : 500);
        size_t less = i % 3 == 1 ? 1 + rng_below(g, 15) : 0;
        if (i % 3 == 2)
            damage(&m, 1 + (int)rng_below(g, 13), 0);
        compare_bytes("accounts, drips", m.out.bytes, m.out.len - less,
                      (struct feed){BY_DRIPS, sizes[i]});
        buffer_free(&m.out);
    }
    outcome(1, "drips", "1 to 40 and 1023 bytes a read");
}

void account_faults(struct rng *g)
{
    const char *before = set.command;
    set.command = set.accounts;
    set.counting = 1;
    printf("the accounts:\n");
    if (!set.quick) {
        torn_ends(g);
        drips(g);
    }
    failing_input(g);
    failing_output(g);
    big_random(6);
    big_memory();
    set.command = before;
    set.counting = 0;
}
