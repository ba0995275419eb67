/* Calls, answers and records in words, for a disagreement's report. */
#include "describe.h"

static const char *const names[] = {
    "no operation", "pack", "unpack", "decode", "encode", "status", "parity", "contest",
    "fresh bus", "cycle", "set bus", "cache sizes", "set memory", "set copy", "read", "write",
    "evict", "states", "copies", "fresh judge", "judge", "set tally", "set judge",
    "judge and account", "account of a slot", "set account"};

static unsigned long long number(const uint8_t *b, int bytes)
{
    unsigned long long v = 0;
    for (int i = 0; i < bytes; i++)
        v = v << 8 | b[i];
    return v;
}

void say_hex(FILE *to, const uint8_t *bytes, size_t len)
{
    for (size_t i = 0; i < len; i++)
        fprintf(to, "%s%02X", i > 0 && i % 4 == 0 ? " " : "", bytes[i]);
}

void say_record(FILE *to, const uint8_t *bytes)
{
    struct record r;
    unsigned spare = record_read(&r, bytes);
    fprintf(to, "stamp %08lX", (unsigned long)r.stamp);
    const struct { const char *name; int on; } lines[] = {
        {"RESET", r.reset}, {"RQST", r.rqst}, {"START", r.start}, {"ACK", r.ack}, {"TM1", r.tm1},
        {"TM0", r.tm0}, {"SP", r.sp}, {"SPV", r.spv}, {"VTM1", r.vtm1}, {"VTM0", r.vtm0},
        {"VACK", r.vack}, {"VSACK", r.vsack}};
    for (size_t i = 0; i < sizeof lines / sizeof lines[0]; i++)
        if (lines[i].on)
            fprintf(to, " %s", lines[i].name);
    if (r.arb != 0 || r.start)
        fprintf(to, " ARB %d", r.arb);
    if (r.ad != 0 || r.start)
        fprintf(to, " AD %08lX", (unsigned long)r.ad);
    if (r.vad != 0)
        fprintf(to, " VAD %09llX", (unsigned long long)r.vad);
    if (spare != 0)
        fprintf(to, " spare %04X", spare);
}

static void say_bus(FILE *to, const uint8_t *b)
{
    fprintf(to, "wave %04llX settling %d turn %d owner %d limit %d %s owed %d age %d", number(b, 2),
            b[2], b[3], b[4], b[5], b[6] ? "open" : "idle", b[7], b[8]);
}

static void say_nodes(FILE *to, const uint8_t *c)
{
    int count = c[4] > 17 ? 17 : c[4];
    fprintf(to, " table of %d:", count);
    for (int i = 0; i < count; i++)
        if (c[5 + i] != 0)
            fprintf(to, " %d(%s%s%d)", i, c[5 + i] >> 7 ? "wants " : "",
                    c[5 + i] >> 6 & 1 ? "holds " : "", c[5 + i] & 63);
}

void say_call(FILE *to, const uint8_t *c)
{
    static const char *const events[] = {"nothing", "strobe", "finish"};
    int known = c[0] < sizeof names / sizeof names[0];
    fprintf(to, "%d %s", c[0], known ? names[c[0]] : "no operation");
    switch (c[0]) {
    case 1: case 2:
        fprintf(to, " offset %d length %d", c[1], c[2]);
        if (c[0] == 1)
            fprintf(to, " stamp %08llX ARB %d AD %08llX VAD %llX", number(c + 4, 4), c[10],
                    number(c + 17, 4), number(c + 25, 8));
        break;
    case 3: fprintf(to, " TM1 %d TM0 %d AD %08llX", c[1], c[2], number(c + 3, 4)); break;
    case 4: fprintf(to, " write %d unit %d at %08llX", c[1], c[2] % 7, number(c + 3, 4)); break;
    case 5: fprintf(to, " TM1 %d TM0 %d", c[1], c[2]); break;
    case 6: fprintf(to, " of %08llX", number(c + 1, 4)); break;
    case 7: fprintf(to, " set %04llX", number(c + 1, 2)); break;
    case 8: case 19: fprintf(to, " limit %d", c[1]); break;
    case 9:
        fprintf(to, " reset %d event %s status %d", c[1] != 0, events[c[2] % 3], c[3] % 4);
        say_nodes(to, c);
        break;
    case 10: fputc(' ', to); say_bus(to, c + 16); break;
    case 11: fprintf(to, " memory %d states %llu copies %llu", c[1], number(c + 2, 2),
                     number(c + 4, 2)); break;
    case 12: fprintf(to, " block %d word %08llX", c[1] % 64, number(c + 2, 4)); break;
    case 13: fprintf(to, " slot %d block %d state %d copy %08llX", c[1] % 16, c[2] % 64, c[3],
                     number(c + 4, 4)); break;
    case 14: case 16: fprintf(to, " slot %d block %d", c[1], c[2]); break;
    case 15: fprintf(to, " slot %d block %d value %08llX", c[1], c[2], number(c + 3, 4)); break;
    case 17: case 18: fprintf(to, " block %d", c[1] % 64); break;
    case 20: case 23:
        fprintf(to, " %d bytes", c[1]);
        if (c[0] == 23)
            fprintf(to, ", %d entries", c[50]);
        for (int i = 0; i < 3 && (i + 1) * RECORD <= c[1]; i++) {
            fprintf(to, "; ");
            say_record(to, c + 2 + i * RECORD);
        }
        break;
    case 21: fprintf(to, " records %llu span %llu starts %llu acks %llu aborted %llu",
                     number(c + 1, 4), number(c + 5, 8), number(c + 13, 4), number(c + 17, 4),
                     number(c + 21, 4)); break;
    case 22: fprintf(to, " limit %d open %d age %llu words %d strobes %d turn %d ARB %d", c[1],
                     c[2] != 0, number(c + 3, 2), c[5], c[6], c[7], c[8]); break;
    case 24: fprintf(to, " slot %d, %d entries", c[1], c[2]); break;
    case 25: fprintf(to, " entry %d starts %llu busy %llu", c[1] % ENTRIES, number(c + 2, 4),
                     number(c + 6, 8)); break;
    }
}

/* Lane 3 first: halfword 1 is 1100. Bits above the four lanes would be wrong, and are told. */
static void say_lanes(FILE *to, uint8_t lanes)
{
    fprintf(to, " lanes ");
    for (int k = LANES; k-- > 0;)
        fputc('0' + (lanes >> k & 1), to);
    if (lanes >> LANES != 0)
        fprintf(to, " (%02X)", lanes);
}

void say_answer(FILE *to, const uint8_t *c, const uint8_t *a)
{
    static const char *const notes[] = {"none", "short", "extra", "stray"};
    static const char *const kinds[KINDS] = {"none", "8a", "8b", "8c"};
    if (c[0] == 18) {
        fprintf(to, "copies");
        return;
    }
    if (a[0] != 0)
        fprintf(to, "refused %d ", a[0]);
    switch (c[0]) {
    case 2: fprintf(to, "stamp %08llX ARB %d AD %08llX VAD %llX", number(a + 4, 4), a[10],
                    number(a + 17, 4), number(a + 25, 8)); break;
    case 3:
        fprintf(to, "write %d unit %d at %08llX", a[1], a[2], number(a + 3, 4));
        say_lanes(to, a[7]);
        break;
    case 4: fprintf(to, "TM1 %d TM0 %d AD %08llX", a[1], a[2], number(a + 3, 4)); break;
    case 5: fprintf(to, "status %d", a[1]); break;
    case 6: fprintf(to, "SP %d", a[1]); break;
    case 7: fprintf(to, "lines %d, winner %s %d", a[1], a[2] ? "is" : "none", a[3]); break;
    case 8: case 10: say_bus(to, a + 16); break;
    case 9:
        fprintf(to, "RQST %d START %d ACK %d starter %d status %d note %s; ", a[1], a[2], a[3],
                a[4], a[5], a[6] < 4 ? notes[a[6]] : "?");
        say_bus(to, a + 16);
        break;
    case 14: fprintf(to, "value %08llX", number(a + 1, 4)); break;
    case 17:
        fprintf(to, "memory %08llX states", number(a + 1, 4));
        for (int i = 0; i < SLOTS; i++)
            fprintf(to, " %d", a[5 + i]);
        break;
    case 24: fprintf(to, "starts %llu busy %llu", number(a + 1, 4), number(a + 5, 8)); break;
    case 20: case 23:
        fprintf(to, "rule %d kind %s (%d) record %llu span %llu; records %llu span %llu starts "
                    "%llu acks %llu aborted %llu open %d", a[1],
                a[31] < KINDS ? kinds[a[31]] : "?", a[31], number(a + 2, 4), number(a + 32, 8),
                number(a + 6, 4), number(a + 10, 8), number(a + 18, 4), number(a + 22, 4), number(a + 26, 4), a[30]);
        break;
    }
}
