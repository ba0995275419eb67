/* Writes a list of calls for the driver program to standard output:

   makecalls mixed CALLS SEED     so many or a few more for each of codes, records, bus, cache, judge,
                                  accounts
   makecalls damaged COUNT SEED   for each rule, and each kind of rule 8, so many recordings that
                                  break it first, each to a fresh judge, three records a call;
                                  every other with an account, whose sixteen entries are asked for

   A call whose answer the paper leaves to the build is left out, so every answer may be compared. */
#include <stdio.h>
#include <stdlib.h>
#include <string.h>
#include "make.h"

static void mixed(struct buffer *all, struct rng *g, unsigned long calls)
{
    static const enum subject subjects[] = {CODES, RECORDS, BUS, CACHE, JUDGE, ACCOUNTS};
    for (size_t i = 0; i < sizeof subjects / sizeof subjects[0]; i++) {
        struct buffer one = {0};
        make_calls(&one, g, subjects[i], calls);
        buffer_add(all, one.bytes, one.len);
        buffer_free(&one);
    }
}

static void damaged(struct buffer *all, struct rng *g, int rule, int kind, int account)
{
    struct maker m;
    maker_start(&m, g, 16);
    damage(&m, rule, kind);
    buffer_add(all, (const uint8_t[CALL]){19, 16}, CALL);
    for (size_t at = 0; at < m.out.len; at += 3 * RECORD) {
        size_t n = m.out.len - at < 3 * RECORD ? m.out.len - at : 3 * RECORD;
        uint8_t call[CALL] = {account ? 23 : 20, (uint8_t)n, [50] = SLOTS};
        memcpy(call + 2, m.out.bytes + at, n);
        buffer_add(all, call, CALL);
    }
    for (uint8_t slot = 0; account && slot < SLOTS; slot++)
        buffer_add(all, (const uint8_t[CALL]){24, slot, SLOTS}, CALL);
    buffer_free(&m.out);
}

int main(int argc, char **argv)
{
    static struct driver kept, d;
    struct buffer all = {0};
    struct rng g = {argc == 4 ? strtoul(argv[3], NULL, 0) : 0};
    unsigned long count = argc == 4 ? strtoul(argv[2], NULL, 0) : 0;
    if (count > 0 && strcmp(argv[1], "mixed") == 0) {
        mixed(&all, &g, count);
    } else if (count > 0 && strcmp(argv[1], "damaged") == 0) {
        for (unsigned long i = 0; i < count; i++)
            for (int rule = 1; rule <= 13; rule++)
                for (int kind = rule == 8; kind < (rule == 8 ? KINDS : 1); kind++)
                    damaged(&all, &g, rule, kind, i % 2);
    } else {
        fprintf(stderr, "makecalls mixed CALLS SEED | damaged COUNT SEED\n");
        return 2;
    }
    driver_start(&d);
    for (size_t at = 0; at < all.len; at += CALL) {
        uint8_t answer[CALL];
        kept = d;
        if (!driver_call(&d, all.bytes + at, answer))
            d = kept;
        else if (fwrite(all.bytes + at, 1, CALL, stdout) != CALL)
            break;
    }
    if (fflush(stdout) != 0 || ferror(stdout)) {
        perror("standard output");
        return 2;
    }
    buffer_free(&all);
    return 0;
}
