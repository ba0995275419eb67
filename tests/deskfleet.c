/* Times of cycles and the figures of a fleet: numbers of up to 19 digits. The time is worked out on the
   digits, the median by its definition, without sorting, and the sum by adding digits. */
#include <stdio.h>
#include <stdlib.h>
#include <string.h>
#include "desk.h"

enum { MOST = 4096 };
static const struct feed no_input = {BY_FILE, 0};

struct list {
    char (*word)[32];
    char **words;
    size_t count;
};

static struct list list_of(size_t most)
{
    struct list l = {calloc(most + 1, sizeof *l.word), calloc(most + 1, sizeof *l.words), 0};
    if (l.word == NULL || l.words == NULL)
        exit(2);
    return l;
}

static void list_add(struct list *l, const char *word)
{
    snprintf(l->word[l->count], sizeof *l->word, "%s", word);
    l->words[l->count] = l->word[l->count];
    l->count++;
}

static void list_free(struct list *l)
{
    free(l->word);
    free(l->words);
}

/* A number as a word: any length, edges of words and of the point, zeros in front now and then. */
static void some_number(struct rng *g, char *word)
{
    static const char *const edges[] = {
        "0", "1", "9", "10", "2361", "123617", "999999", "1000000", "9999999", "10000000", "10000001",
        "99999999", "2147483647", "2147483648", "4294967295", "4294967296", "4294967297",
        "999999999999999999", "1000000000000000000", "9223372036854775807", "9223372036854775808",
        "9223372036854775809", "9999999999999999999", "9999999999990000000", "1000000000000000001"};
    size_t len = 1 + rng_below(g, DIGITS), zeros;
    if (rng_chance(g, 30)) {
        strcpy(word, edges[rng_below(g, sizeof edges / sizeof edges[0])]);
        len = strlen(word);
    } else {
        for (size_t i = 0; i < len; i++)
            word[i] = (char)('0' + (i == 0 && len > 1 ? 1 + rng_below(g, 9) : rng_below(g, 10)));
        word[len] = '\0';
    }
    if (len < DIGITS && rng_chance(g, 20)) {
        zeros = 1 + rng_below(g, (uint32_t)(DIGITS - len));
        memmove(word + zeros, word, len + 1);
        memset(word, '0', zeros);
    }
}

/* What is no number of 1 to 19 digits. */
static const char *const no_numbers[] = {
    "", "x", "-1", "+1", "1.0", "1,0", "0x1", "1e3", " 1", "1 ", "1 2", "1x", "x1", "12-", "/", ":",
    "10000000000000000000", "00000000000000000001", "18446744073709551616", "1234567890123456789012",
    "0000000000000000000000000000"};
enum { NO_NUMBERS = sizeof no_numbers / sizeof no_numbers[0] };

/* The point moved by seven digits. */
static void say_time(struct buffer *out, const char *word)
{
    char digits[64];
    snprintf(digits, sizeof digits, "0000000%s", word);
    size_t len = strlen(digits), whole = len - 7, first = strspn(digits, "0");
    if (first >= whole)
        buffer_say(out, "0.%s\n", digits + whole);
    else
        buffer_say(out, "%.*s.%s\n", (int)(whole - first), digits + first, digits + whole);
}

static void compare_seconds(struct list *l, size_t good, const char *what)
{
    struct said right = {{0}, good < l->count ? "spurseconds:" : NULL};
    for (size_t i = 0; i < good; i++)
        say_time(&right.out, l->words[i]);
    char *words = desk_quoted(l->words, l->count);
    desk_compare(desk.seconds, words, NULL, 0, no_input, &right, what);
    free(words);
    buffer_free(&right.out);
}

void desk_seconds(struct rng *g)
{
    for (int i = 0; i < desk.count / 2 + 2; i++) {
        size_t count = i == 0 ? 2000 : 1 + rng_below(g, rng_chance(g, 20) ? 300 : 40);
        struct list l = list_of(count);
        while (l.count < count) {
            char word[32];
            some_number(g, word);
            list_add(&l, word);
        }
        compare_seconds(&l, count, "times of cycles");
        list_free(&l);
    }
    for (int i = 0; i < NO_NUMBERS; i++) { /* behind some that are numbers, and before others */
        struct list l = list_of(8);
        size_t before = rng_below(g, 4), behind = rng_below(g, 3);
        while (l.count < before + 1 + behind) {
            char word[32];
            some_number(g, word);
            list_add(&l, l.count == before ? no_numbers[i] : word);
        }
        compare_seconds(&l, before, "a word that is no number of cycles");
        list_free(&l);
    }
}

static unsigned __int128 value(const char *word)
{
    unsigned __int128 n = 0;
    for (; *word != '\0'; word++)
        n = n * 10 + (unsigned)(*word - '0');
    return n;
}

/* The line by definition. */
static void say_fleet(struct buffer *out, const struct list *l)
{
    size_t k = l->count, best = 0;
    unsigned __int128 sum = 0, mean = 0, least, greatest, median = 0;
    int any = 0;
    if (k == 0) {
        buffer_say(out, "count 0\n");
        return;
    }
    least = greatest = value(l->words[0]);
    unsigned __int128 *n = calloc(k, sizeof *n);
    if (n == NULL)
        exit(2);
    for (size_t i = 0; i < k; i++) {
        n[i] = value(l->words[i]);
        sum += n[i];
        least = n[i] < least ? n[i] : least;
        greatest = n[i] > greatest ? n[i] : greatest;
    }
    for (size_t i = 0; i < k; i++) { /* the least that at least half of them don't exceed */
        if (any && n[i] >= median)
            continue;
        best = 0;
        for (size_t at = 0; at < k; at++)
            best += n[at] <= n[i];
        if (2 * best >= k) {
            median = n[i];
            any = 1;
        }
    }
    mean = sum / k;
    buffer_say(out, "count %lu least %llu median %llu greatest %llu mean %llu remainder %llu\n",
               (unsigned long)k, (unsigned long long)least, (unsigned long long)median,
               (unsigned long long)greatest, (unsigned long long)mean,
               (unsigned long long)(sum - mean * k));
    free(n);
}

static void compare_fleet(struct list *l, int good, const char *what)
{
    struct said right = {{0}, good ? NULL : "spurfleet:"};
    if (good)
        say_fleet(&right.out, l);
    char *words = desk_quoted(l->words, l->count);
    desk_compare(desk.fleet, words, NULL, 0, no_input, &right, what);
    free(words);
    buffer_free(&right.out);
}

/* Manners of lists: any numbers; a few that are alike; near 2^63; near 10^19; in order, up and down. */
static void some_list(struct rng *g, struct list *l, size_t count)
{
    unsigned manner = rng_below(g, 7);
    unsigned long long base = rng_next(g) >> (1 + rng_below(g, 60));
    base = base > 9000000000000000000u ? 9000000000000000000u : base;
    while (l->count < count) {
        char word[32];
        unsigned long long n = 0;
        switch (manner) {
        case 0: some_number(g, word); break;
        case 1: n = base + rng_below(g, 3); break;
        case 2: n = ((unsigned long long)1 << 63) + rng_below(g, 5) - 2; break;
        case 3: n = 9999999999999999999u - rng_below(g, 3); break;
        case 4: n = base + l->count; break;
        case 5: n = base + (count - l->count) * 1000; break;
        default: n = 14000 + rng_below(g, 1000);
        }
        if (manner != 0)
            snprintf(word, sizeof word, "%llu", n);
        list_add(l, word);
    }
}

static void one_fleet(struct rng *g, size_t count)
{
    struct list l = list_of(count);
    some_list(g, &l, count);
    compare_fleet(&l, 1, "the figures of a fleet");
    list_free(&l);
}

/* One bad word anywhere, or more words than there may be. */
static void bad_fleets(struct rng *g)
{
    for (int i = 0; i < NO_NUMBERS; i++) {
        size_t count = 1 + rng_below(g, 20);
        struct list l = list_of(count);
        some_list(g, &l, count);
        strcpy(l.words[rng_below(g, (uint32_t)count)], no_numbers[i]);
        compare_fleet(&l, 0, "a word that is no number of a fleet");
        list_free(&l);
    }
    struct list l = list_of(MOST + 1);
    some_list(g, &l, MOST + 1);
    compare_fleet(&l, 0, "4097 numbers");
    list_free(&l);
}

void desk_fleets(struct rng *g)
{
    for (size_t count = 0; count <= 12; count++)
        one_fleet(g, count);
    for (int i = 0; i < 2 * desk.count; i++)
        one_fleet(g, rng_below(g, i % 8 == 0 ? 601 : 40));
    one_fleet(g, MOST);
    one_fleet(g, MOST - 1);
    struct list l = list_of(MOST);
    while (l.count < MOST)
        list_add(&l, "9999999999999999999");
    compare_fleet(&l, 1, "4096 of the greatest");
    list_free(&l);
    bad_fleets(g);
}
