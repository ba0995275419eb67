/* The model of spurshow: records as rows, or as a Value Change Dump. */
#include <stdio.h>
#include <string.h>
#include "desk.h"

const char no_record[] = "spurshow: no record is in the range";
const char torn_end[] = "spurshow: the recording ends within a record";
const char too_many[] = "spurshow: more than 2^30 records";

/* The fields of a record in its order, and of how many lines each is: each line is a signal of the dump. */
enum { FIELDS = 15, LINES = 81 };
static const struct {
    const char *name;
    int bits;
} fields[FIELDS] = {
    {"RESET", 1}, {"RQST", 1}, {"ARB", 4}, {"START", 1}, {"ACK", 1},
    {"TM1", 1},   {"TM0", 1},  {"SP", 1},  {"SPV", 1},   {"AD", 32},
    {"VTM1", 1},  {"VTM0", 1}, {"VACK", 1}, {"VSACK", 1}, {"VAD", 33},
};

/* The 81 lines, a field's highest bit first. */
static void levels(const struct record *r, uint8_t *line)
{
    const uint64_t value[FIELDS] = {r->reset, r->rqst, r->arb, r->start, r->ack,
                                    r->tm1,   r->tm0,  r->sp,  r->spv,   r->ad,
                                    r->vtm1,  r->vtm0, r->vack, r->vsack, r->vad};
    for (int i = 0; i < FIELDS; i++)
        for (int bit = fields[i].bits - 1; bit >= 0; bit--)
            *line++ = value[i] >> bit & 1;
}

/* A number of up to 39 digits. */
static void say_long(struct buffer *out, unsigned __int128 n)
{
    char digits[40];
    size_t at = sizeof digits;
    do {
        digits[--at] = (char)('0' + (int)(n % 10));
        n /= 10;
    } while (n > 0);
    buffer_add(out, (const uint8_t *)digits + at, sizeof digits - at);
}

static void say_row(struct buffer *out, uint64_t place, uint64_t cycle, uint32_t gap,
                    const struct record *r, unsigned spare)
{
    buffer_say(out, "record %llu cycle %llu gap %lu ns ", (unsigned long long)place,
               (unsigned long long)cycle, (unsigned long)gap);
    say_long(out, (unsigned __int128)cycle * 100);
    buffer_say(out, " reset %u rqst %u arb %u start %u ack %u tm1 %u tm0 %u sp %u spv %u", r->reset,
               r->rqst, r->arb, r->start, r->ack, r->tm1, r->tm0, r->sp, r->spv);
    buffer_say(out, " ad %08lx vtm1 %u vtm0 %u vack %u vsack %u vad %09llx spare %u\n",
               (unsigned long)r->ad, r->vtm1, r->vtm0, r->vack, r->vsack,
               (unsigned long long)r->vad, spare);
}

enum { FIRST_CODE = 33 };

static void say_head(struct buffer *out)
{
    int code = FIRST_CODE;
    buffer_say(out, "$version Treadleoak SpurBus library $end\n$timescale 100 ns $end\n"
                    "$scope module spurbus $end\n");
    for (int i = 0; i < FIELDS; i++)
        for (int bit = fields[i].bits - 1; bit >= 0; bit--) {
            buffer_say(out, "$var wire 1 %c %s", code++, fields[i].name);
            if (fields[i].bits > 1)
                buffer_say(out, "[%d]", bit);
            buffer_say(out, " $end\n");
        }
    buffer_say(out, "$upscope $end\n$enddefinitions $end\n");
}

/* The time, and the lines that differ from the last ones, or all. */
static void say_cycle(struct buffer *out, uint64_t cycle, const struct record *last,
                      const struct record *r, int all)
{
    uint8_t before[LINES], now[LINES];
    levels(last, before);
    levels(r, now);
    buffer_say(out, "#%llu\n", (unsigned long long)cycle);
    for (int i = 0; i < LINES; i++)
        if (all || before[i] != now[i])
            buffer_say(out, "%d%c\n", now[i], FIRST_CODE + i);
}

int shower_fresh(struct shower *s, char **words, size_t count)
{
    *s = (struct shower){0};
    if (count != 3 || !desk_number(words[1], DIGITS, &s->from) ||
        !desk_number(words[2], DIGITS, &s->to))
        return 0;
    s->dump = strcmp(words[0], "vcd") == 0;
    return s->dump || strcmp(words[0], "rows") == 0;
}

int shower_done(const struct shower *s)
{
    return s->places > s->to || s->from > s->to;
}

void shower_one(struct shower *s, const uint8_t *bytes, struct buffer *out)
{
    static const struct record nothing;
    struct record r;
    unsigned spare = record_read(&r, bytes);
    uint32_t gap = s->places > 0 ? r.stamp - s->stamp : 0;
    s->cycle += gap;
    s->stamp = r.stamp;
    if (s->places >= s->from && s->places <= s->to) {
        if (!s->dump) {
            say_row(out, s->places, s->cycle, gap, &r, spare);
        } else {
            if (s->shown == 0)
                say_head(out);
            if (s->shown > 0 && gap > 1) {
                say_cycle(out, s->cycle - gap + 1, &s->last, &nothing, 0);
                s->last = nothing;
            }
            say_cycle(out, s->cycle, &s->last, &r, s->shown == 0);
        }
        s->last = r;
        s->shown++;
    }
    s->places++;
}

const char *shower_end(struct shower *s, int torn, struct buffer *out)
{
    if (s->dump && s->shown > 0)
        buffer_say(out, "#%llu\n", (unsigned long long)s->cycle + 1);
    if (torn && !shower_done(s))
        return torn_end;
    return s->shown == 0 ? no_record : NULL;
}

struct said show_program(char **words, size_t count, const uint8_t *bytes, size_t len)
{
    struct said s = {{0}, NULL};
    struct shower w;
    size_t at = 0;
    if (!shower_fresh(&w, words, count)) {
        s.complaint = "spurshow:";
        return s;
    }
    for (; len - at >= RECORD && !shower_done(&w); at += RECORD)
        shower_one(&w, bytes + at, &s.out);
    s.complaint = shower_end(&w, len - at > 0 && len - at < RECORD, &s.out);
    return s;
}
