/* spurshow: rows and dumps of recordings of all kinds, ranges of all kinds, every byte compared. */
#define _DEFAULT_SOURCE 1
#include <poll.h>
#include <stdio.h>
#include <stdlib.h>
#include <string.h>
#include <unistd.h>
#include "desk.h"

static unsigned long shown, wraps, gaps, far, back, same, spares, resets, torn, none, dumps, silent,
    beyond_one_read, both;

/* Records of any bytes, and with any stamps: what no bus records. */
static void any_bytes(struct maker *m, size_t records)
{
    while (records-- > 0) {
        struct record r;
        unsigned spare = rng_chance(m->g, 30) ? rng_below(m->g, 32768) : 0;
        uint8_t bytes[RECORD];
        for (int i = 0; i < RECORD; i++)
            bytes[i] = (uint8_t)rng_next(m->g);
        record_read(&r, bytes);
        if (rng_chance(m->g, 30))
            r = (struct record){0};
        switch (rng_below(m->g, 6)) {
        case 0: r.stamp = m->j.stamp; break;
        case 1: r.stamp = m->j.stamp + 2; break;
        case 2: r.stamp = m->j.stamp + 0x80000000u + rng_below(m->g, 3) - 1; break;
        case 3: r.stamp = m->j.stamp - 1; break;
        case 4: break;
        default: r.stamp = m->j.stamp + 1;
        }
        m->j.stamp = r.stamp;
        maker_add_raw(m, &r, spare);
    }
}

static void some_recording(struct rng *g, struct maker *m)
{
    size_t records = rng_below(g, rng_chance(g, 10) ? 300 : 40);
    maker_start(m, g, 1 + rng_below(g, 16));
    switch (rng_below(g, 6)) {
    case 0: traffic_bus(m, records); break;
    case 1: traffic_wild(m, records); break;
    case 2: traffic_owners(m, records, LATE_ABORTS); break;
    case 3: damage(m, 1 + (int)rng_below(g, 13), 0); break;
    case 4: any_bytes(m, records); break;
    default:
        wild_far(m, rng_below(g, 6));
        traffic_wild(m, records);
    }
}

/* From and to: all, one, none because they are exchanged or behind the end, some. */
static void some_range(struct rng *g, uint64_t records, char *from, char *to)
{
    uint64_t a = rng_below(g, (uint32_t)records + 2), b = rng_below(g, (uint32_t)records + 2);
    static const char *const huge[] = {"1073741824", "4294967295", "4294967296", "9223372036854775808",
                                       "9999999999999999999", "10000000000000000000"};
    snprintf(from, 64, "%llu", (unsigned long long)(a < b ? a : b));
    snprintf(to, 64, "%llu", (unsigned long long)(a < b ? b : a));
    switch (rng_below(g, 8)) {
    case 0: strcpy(to, from); break;
    case 1: strcpy(from, "0"); break;
    case 2: strcpy(to, huge[rng_below(g, 6)]); break;
    case 3:
        strcpy(from, "0");
        strcpy(to, huge[rng_below(g, 6)]);
        break;
    case 4:
        if (rng_chance(g, 30))
            snprintf(from, 64, "%llu", (unsigned long long)(a < b ? b : a) + 1);
        break;
    case 5:
        if (rng_chance(g, 30))
            snprintf(from, 64, "%llu", (unsigned long long)records + rng_below(g, 3));
        break;
    }
}

/* What the records that are shown have among them. */
static void cover(const struct buffer *in, const struct said *right, int dump)
{
    struct record r = {0}, last = {0};
    uint64_t places = in->len / RECORD;
    for (uint64_t i = 0; i < places; i++, last = r) {
        spares += record_read(&r, in->bytes + i * RECORD) != 0;
        uint32_t apart = r.stamp - last.stamp;
        if (i == 0)
            continue;
        resets += r.reset;
        wraps += r.stamp < last.stamp && apart <= 1u << 31;
        gaps += apart > 1 && apart < 1u << 31;
        far += apart == 1u << 31;
        back += apart > 1u << 31;
        same += apart == 0;
        silent += record_inactive(&last) && apart > 1;
    }
    shown += right->out.len > 0;
    dumps += right->out.len > 0 && dump;
    none += right->complaint == no_record;
    torn += right->complaint == torn_end;
    beyond_one_read += in->len > 65536;
}

static void compare_show(char **words, const struct buffer *in, struct feed feed, const char *what)
{
    struct said right = show_program(words, 3, in->bytes, in->len);
    char *quoted = desk_quoted(words, 3);
    cover(in, &right, words[0][0] == 'v');
    desk_compare(desk.show, quoted, in->bytes, in->len, feed, &right, what);
    free(quoted);
    buffer_free(&right.out);
}

static void show(struct rng *g, const char *form, const char *from, const char *to,
                 const struct buffer *in, const char *what)
{
    char *words[] = {(char *)form, (char *)from, (char *)to};
    struct shower w;
    shower_fresh(&w, words, 3);
    if (in->len % RECORD != 0 && in->len / RECORD <= w.from && in->len / RECORD <= w.to) {
        both++; /* torn, and no record in the range: either may be told, so it isn't compared */
        return;
    }
    compare_show(words, in, desk_feed(g, in->len), what);
}

static const char *const forms[] = {"rows", "vcd"};

static void short_ones(struct rng *g)
{
    for (int i = 0; i < 8 * desk.count; i++) {
        struct maker m;
        char from[64], to[64];
        some_recording(g, &m);
        if (rng_chance(g, 20) && m.out.len >= RECORD)
            m.out.len -= 1 + rng_below(g, 15);
        some_range(g, m.out.len / RECORD, from, to);
        show(g, forms[i % 2], from, to, &m.out, "a recording shown");
        buffer_free(&m.out);
    }
}

/* Longer than a read: all of it, and pieces near to where reads of 4 and 64 KiB end. */
static void long_ones(struct rng *g)
{
    static const uint32_t edges[] = {256, 4096, 8192};
    for (int i = 0; i < (desk.count + 9) / 10 + 1; i++) {
        struct maker m;
        maker_start(&m, g, 16);
        if (rng_chance(g, 50))
            traffic_bus(&m, 5000 + rng_below(g, 4500));
        else
            traffic_wild(&m, 5000 + rng_below(g, 4500));
        size_t cut = rng_chance(g, 30) ? 1 + rng_below(g, 15) : 0;
        m.out.len -= cut;
        show(g, forms[i % 2], "0", "1000000", &m.out, "a long recording shown");
        for (int k = 0; k < 4; k++) {
            char from[64], to[64];
            uint32_t at = edges[rng_below(g, 3)] - rng_below(g, 4);
            snprintf(from, sizeof from, "%u", at);
            snprintf(to, sizeof to, "%u", at + rng_below(g, 6));
            show(g, forms[(i + k) % 2], from, to, &m.out, "a range at the end of a read");
        }
        buffer_free(&m.out);
    }
}

/* Drips of each size: a read sees no more than one. */
static void drips(struct rng *g)
{
    for (size_t size = 1; size <= 40; size += 1 + (size > 20)) {
        struct maker m;
        maker_start(&m, g, 16);
        traffic_wild(&m, 12 + rng_below(g, 10));
        if (rng_chance(g, 40))
            m.out.len -= 1 + rng_below(g, 15);
        compare_show((char *[]){(char *)forms[size % 2], "0", "100"}, &m.out,
                     (struct feed){BY_DRIPS, size}, "drips");
        buffer_free(&m.out);
    }
}

/* A pipe that stays open behind the last record asked for, with or without a torn piece behind it: the
   program ends without waiting for more. */
struct held {
    const struct buffer *in;
    size_t len;
};

static void hold(int to, void *with)
{
    const struct held *h = with;
    struct pollfd fd = {to, 0, 0};
    if (write_all(to, h->in->bytes, h->len) != 0)
        return;
    for (int i = 0; i < 20 * desk.time; i++)
        if (poll(&fd, 1, 50) > 0 && (fd.revents & POLLERR))
            return;
}

static void held_open(struct rng *g)
{
    for (int i = 0; i < 6; i++) {
        struct maker m;
        char line[4096], to[32];
        size_t last = 3 + rng_below(g, 20), behind = i < 3 ? 0 : 1 + rng_below(g, 15);
        struct result r;
        maker_start(&m, g, 16);
        traffic_wild(&m, 40);
        snprintf(to, sizeof to, "%lu", (unsigned long)last);
        char *words[] = {(char *)forms[i % 2], "2", to};
        struct said right = show_program(words, 3, m.out.bytes, m.out.len);
        struct held h = {&m.out, (last + 1) * RECORD + behind};
        struct plan p = {.command = line, .out = -2, .write = hold, .with = &h, .seconds = 20};
        snprintf(line, sizeof line, "%s %s 2 %s", desk.show, words[0], to);
        run_plan(&p, &r);
        int good = !r.late && r.err.len == 0 && r.out.len == right.out.len &&
                   memcmp(r.out.bytes, right.out.bytes, r.out.len) == 0;
        if (desk_outcome(good, "a pipe that stays open behind the last record asked for"))
            printf("  %s, %lu bytes: %s\n", line, (unsigned long)h.len, ending(&r));
        result_free(&r);
        buffer_free(&right.out);
        buffer_free(&m.out);
    }
}

/* A recording of nothing, a torn piece alone, and words. */
static const struct {
    const char *words;
    int records; /* of the input, -1 for nothing but a torn piece */
    const char *complaint;
} cases[] = {
    {"rows 0 0", 0, no_record}, {"vcd 0 0", 0, no_record}, {"rows 0 100", 0, no_record},
    {"vcd 5 9", 0, no_record}, {"rows 3 3", 3, no_record}, {"vcd 3 3", 3, no_record},
    {"rows 2 1", 3, no_record}, {"vcd 2 1", 3, no_record}, {"rows 3 0", 3, no_record},
    {"vcd 1000000000000000000000000000000 1000000000000000000000000000001", 3, "spurshow:"},
    {"rows 18446744073709551616 18446744073709551619", 3, "spurshow:"},
    {"rows 9223372036854775808 9999999999999999999", 3, no_record}, {"vcd 0 10000000000000000000", 3, "spurshow:"},
    {"rows 4294967296 4294967298", 3, no_record}, {"vcd 256 258", 3, no_record},
    {"", 3, "spurshow:"}, {"rows", 3, "spurshow:"}, {"vcd", 3, "spurshow:"}, {"rows 0", 3, "spurshow:"},
    {"vcd 0", 3, "spurshow:"}, {"rows 0 1 2", 3, "spurshow:"}, {"vcd 0 1 2", 3, "spurshow:"},
    {"0 1", 3, "spurshow:"}, {"0 1 rows", 3, "spurshow:"}, {"columns 0 1", 3, "spurshow:"},
    {"ROWS 0 1", 3, "spurshow:"}, {"row 0 1", 3, "spurshow:"}, {"rowss 0 1", 3, "spurshow:"},
    {"'' 0 1", 3, "spurshow:"}, {"vcd1 0 1", 3, "spurshow:"}, {"' vcd' 0 1", 3, "spurshow:"},
    {"rows x 1", 3, "spurshow:"}, {"rows 0 x", 3, "spurshow:"}, {"vcd -1 1", 3, "spurshow:"},
    {"vcd 0 -1", 3, "spurshow:"}, {"rows '' 1", 3, "spurshow:"}, {"rows 0 ''", 3, "spurshow:"},
    {"rows +0 1", 3, "spurshow:"}, {"rows 0 1x", 3, "spurshow:"}, {"vcd 0x0 1", 3, "spurshow:"},
    {"vcd '0 1' 1", 3, "spurshow:"}, {"rows 1.0 2", 3, "spurshow:"}, {"rows 0 1 ''", 3, "spurshow:"},
};

void desk_show_words(void)
{
    uint8_t records[3 * RECORD] = {[19] = 1, [35] = 2};
    for (size_t i = 0; i < sizeof cases / sizeof cases[0]; i++) {
        struct said right = {{0}, cases[i].complaint};
        char words[256];
        snprintf(words, sizeof words, " %s", cases[i].words);
        desk_compare(desk.show, words, records, (size_t)cases[i].records * RECORD,
                     (struct feed){BY_FILE, 0}, &right, "a range without records, or words");
    }
    for (int i = 0; i < 4; i++) { /* numbers with zeros in front */
        struct buffer in = {records, sizeof records, 0};
        compare_show((char *[]){(char *)forms[i % 2], i < 2 ? "01" : "0000000000000000001",
                                "0002"},
                     &in, (struct feed){BY_FILE, 0}, "zeros in front");
    }
}

void desk_shows(struct rng *g)
{
    short_ones(g);
    long_ones(g);
    drips(g);
    held_open(g);
}

void desk_shows_met(void)
{
    printf("shown %lu, dumps among them %lu; no record in the range %lu, torn %lu, both (not compared) %lu, "
           "over 64 KiB %lu\nrecords: stamps that wrap %lu, cycles missing %lu, 2^31 apart %lu, further %lu, "
           "the same %lu, missing behind inactive lines %lu; spare bits %lu, RESET %lu\n",
           shown, dumps, none, torn, both, beyond_one_read, wraps, gaps, far, back, same, silent, spares,
           resets);
    desk_met("a dump", dumps);
    desk_met("no record in the range", none);
    desk_met("a torn end", torn);
    desk_met("a recording over 64 KiB", beyond_one_read);
    desk_met("a stamp that wraps", wraps);
    desk_met("cycles missing", gaps);
    desk_met("records 2^31 apart", far);
    desk_met("records further apart", back);
    desk_met("a stamp again", same);
    desk_met("cycles missing behind inactive lines", silent);
    desk_met("spare bits", spares);
    desk_met("RESET", resets);
}
