/* Golden cases: 01's checked examples with answers written down by hand, not by the model, and
   small recordings for each rule with a near twin that conforms, for what a breach tells, for boot
   reports, for accounts, for byte lanes and for the watchdog.

   golden [--judge COMMAND] [--calls COMMAND] [--phases COMMAND] [--accounts COMMAND] */
#define _DEFAULT_SOURCE 1
#include <stdio.h>
#include <stdlib.h>
#include <string.h>
#include "describe.h"
#include "golden.h"

static unsigned long passed, failed;

enum { STEPS = 7000, MOST_TOLD = 40 };
static struct step steps[STEPS];
static size_t count;

void put(uint8_t *b, int at, int bytes, uint64_t v)
{
    for (int i = bytes; i-- > 0; v >>= 8)
        b[at + i] = (uint8_t)v;
}

struct step *call(const char *name, int op, int refusal)
{
    struct step *s = &steps[count++];
    if (count > STEPS) {
        fprintf(stderr, "more golden calls than there is room for\n");
        exit(2);
    }
    memset(s, 0, sizeof *s);
    s->name = name;
    s->call[0] = (uint8_t)op;
    if (op != 18) {
        s->answer[0] = (uint8_t)refusal;
        s->care[0] = 1;
    }
    return s;
}

void expect(struct step *s, int at, int bytes, uint64_t v)
{
    put(s->answer, at, bytes, v);
    memset(s->care + at, 1, (size_t)bytes);
}

static void pack_and_codes(void)
{
    static const uint8_t p1[] = {0xFF, 0xFF, 0xFF, 0xFE, 0x68};
    for (int at = 0; at <= 24; at += 8) {
        struct step *s = call("P1 pack", 1, 0);
        s->call[1] = (uint8_t)at;
        s->call[2] = 40;
        put(s->call, 4, 4, 0xFFFFFFFE);
        s->call[9] = 1;
        s->call[10] = 10;
        memset(s->answer + 1, 0xA5, 40);
        memset(s->answer + 1 + at, 0, 16);
        memcpy(s->answer + 1 + at, p1, sizeof p1);
        memset(s->care, 1, CALL);
    }
    struct step *s = call("P1 unpack", 2, 0);
    s->call[1] = 2;
    s->call[2] = 18;
    memcpy(s->call + 5, p1, sizeof p1);
    expect(s, 4, 4, 0xFFFFFFFE);
    expect(s, 8, 3, 0x00010A);
    expect(s, 11, 22, 0);
    static const struct {
        const char *name;
        uint8_t tm1, tm0;
        uint32_t ad;
        int no;
        uint8_t unit;
        uint32_t at;
        uint8_t lanes; /* 02, wish 4: all for a block, none for no meaning, 2 and 3 for halfword 1 */
    } codes[] = {
        {"P2 0000100E", 0, 0, 0x0000100E, 0, 5, 0x00001000, 0xF}, {"P2 1E", 0, 0, 0x1E, 0, 6, 0, 0xF},
        {"P2 3E", 0, 0, 0x3E, 4, 0, 0, 0x0}, {"P3", 1, 0, 0x00002003, 0, 1, 0x00002002, 0xC},
    };
    for (size_t i = 0; i < 4; i++) {
        s = call(codes[i].name, 3, codes[i].no);
        s->call[1] = codes[i].tm1;
        s->call[2] = codes[i].tm0;
        put(s->call, 3, 4, codes[i].ad);
        expect(s, 1, 1, codes[i].no ? 0 : codes[i].tm1);
        expect(s, 2, 1, codes[i].unit);
        expect(s, 3, 4, codes[i].at);
        expect(s, 7, 1, codes[i].lanes);
        if (codes[i].no)
            continue;
        s = call(codes[i].name, 4, 0); /* and back */
        s->call[1] = codes[i].tm1;
        s->call[2] = codes[i].unit;
        put(s->call, 3, 4, codes[i].at);
        expect(s, 1, 1, codes[i].tm1);
        expect(s, 2, 1, codes[i].tm0);
        expect(s, 3, 4, codes[i].ad);
    }
    static const uint32_t parity[3][2] = {{0, 0}, {0x80000000, 1}, {0xFFFFFFFF, 0}};
    for (int i = 0; i < 3; i++) {
        s = call("P4", 6, 0);
        put(s->call, 1, 4, parity[i][0]);
        expect(s, 1, 1, parity[i][1]);
    }
    static const uint32_t contest[3][3] = {{1 << 5 | 1 << 10, 1, 10}, {1, 1, 0}, {0, 0, 0}};
    for (int i = 0; i < 3; i++) {
        s = call("P5", 7, 0);
        put(s->call, 1, 2, contest[i][0]);
        expect(s, 1, 1, contest[i][2]);
        expect(s, 2, 1, contest[i][1]);
        expect(s, 3, 1, contest[i][2]);
    }
    for (int i = 0; i < 4; i++) {
        s = call("status", 5, 0);
        s->call[1] = (uint8_t)(i >> 1);
        s->call[2] = (uint8_t)(i & 1);
        expect(s, 1, 1, (uint64_t)i);
    }
}

/* P6: two records of inactive lines; the difference is the span. */
static void stamps(void)
{
    static const struct { uint32_t a, b; int rule; uint64_t span; } cases[] = {
        {0xFFFFFFFE, 3, 0, 5}, {0, 0x80000000, 0, 0x80000000}, {0, 0x80000001, 2, 0}, {7, 7, 2, 0}};
    for (int i = 0; i < 4; i++) {
        struct step *s = call("P6", 19, 0);
        s->call[1] = 16;
        s = call("P6", 20, 0);
        s->call[1] = 32;
        put(s->call, 2, 4, cases[i].a);
        put(s->call, 18, 4, cases[i].b);
        expect(s, 1, 1, (uint64_t)cases[i].rule);
        expect(s, 2, 4, cases[i].rule ? 1 : 0);
        expect(s, 6, 4, cases[i].rule ? 1 : 2);
        expect(s, 10, 8, cases[i].span);
        expect(s, 18, CALL - 18, 0); /* no START, no kind, and before rule 2 no span */
    }
}

static void fresh(const char *name, int limit)
{
    struct step *s = call(name, 8, 0);
    s->call[1] = (uint8_t)limit;
    expect(s, 16, 9, 0);
    expect(s, 20, 1, 255);
    expect(s, 21, 1, (uint64_t)limit);
}

/* One cycle: who wants, who holds, an event with success; RQST, START, ACK, starter, status. */
static void cycle(const char *name, unsigned wants, unsigned holds, int event, int rqst, int start,
                  int ack, int starter, int status)
{
    struct step *s = call(name, 9, 0);
    s->call[2] = (uint8_t)event;
    s->call[3] = 3;
    s->call[4] = 16;
    for (int i = 0; i < 16; i++)
        s->call[5 + i] = (uint8_t)((wants >> i & 1) << 7 | (holds >> i & 1) << 6 | 1);
    expect(s, 1, 1, (uint64_t)rqst);
    expect(s, 2, 1, (uint64_t)start);
    expect(s, 3, 1, (uint64_t)ack);
    expect(s, 4, 1, (uint64_t)starter);
    expect(s, 5, 1, (uint64_t)status);
    expect(s, 6, 1, 0);
}

static void cycles(void)
{
    unsigned a = 1u << 5, b = 1u << 10, c = 1u << 15;
    fresh("P7", 1);
    cycle("P7", a | b, 0, 0, 1, 0, 0, 255, 255);
    cycle("P7", a | b, 0, 0, 1, 0, 0, 255, 255);
    cycle("P7", a | b, 0, 0, 1, 1, 0, 10, 255);
    for (int n = 4; n <= 7; n++)
        cycle("P7", a | c, 0, 0, 1, 0, 0, 255, 255);
    cycle("P7", a | c, 0, 2, 1, 0, 1, 255, 3);
    cycle("P7", a | c, 0, 0, 0, 1, 0, 5, 255);
    cycle("P7", c, 0, 2, 1, 0, 1, 255, 3);
    cycle("P7", c, 0, 0, 1, 0, 0, 255, 255);
    cycle("P7", c, 0, 0, 0, 1, 0, 15, 255);

    fresh("P8", 1);
    cycle("P8", 1u << 7, 0, 0, 1, 0, 0, 255, 255);
    cycle("P8", 1u << 7, 0, 0, 1, 0, 0, 255, 255);
    cycle("P8", 1u << 7, 0, 0, 0, 1, 0, 7, 255);
    for (int n = 4; n <= 258; n++)
        cycle("P8", 0, 0, 0, 0, 0, 0, 255, 255);
    cycle("P8", 0, 0, 0, 0, 0, 1, 255, 1);
    cycle("P8", 0, 0, 0, 0, 0, 0, 255, 255);

    unsigned both = 1u << 4 | 1u << 12, holds = 1u << 12;
    fresh("hold", 2);
    cycle("hold", both, holds, 0, 1, 0, 0, 255, 255);
    cycle("hold", both, holds, 0, 1, 0, 0, 255, 255);
    cycle("hold", both, holds, 0, 1, 1, 0, 12, 255);
    cycle("hold", both, holds, 2, 1, 0, 1, 255, 3);
    cycle("hold", both, holds, 0, 1, 0, 0, 255, 255);
    cycle("hold", both, holds, 0, 1, 1, 0, 12, 255);
    cycle("hold", 1u << 4, 0, 2, 1, 0, 1, 255, 3);
    cycle("hold", 1u << 4, 0, 0, 1, 0, 0, 255, 255);
    cycle("hold", 1u << 4, 0, 0, 0, 1, 0, 4, 255);
}

static void states(int memory, int third, int fourth)
{
    struct step *s = call("P9", 17, 0);
    expect(s, 1, 4, (uint64_t)memory);
    expect(s, 5, 16, 0);
    s->answer[5 + 3] = (uint8_t)third;
    s->answer[5 + 4] = (uint8_t)fourth;
}

static void cache(void)
{
    struct step *s = call("P9", 12, 0);
    put(s->call, 2, 4, 7);
    s = call("P9 write", 15, 0);
    s->call[1] = 3;
    put(s->call, 3, 4, 9);
    states(7, 3, 0);
    s = call("P9 read", 14, 0);
    s->call[1] = 4;
    expect(s, 1, 4, 9);
    states(7, 2, 1);
    s = call("P9 evict", 16, 0);
    s->call[1] = 3;
    states(9, 0, 1);
}

static void through_calls(const char *command)
{
    struct buffer in = {0};
    struct result r;
    struct feed feed = {BY_FILE, 0};
    pack_and_codes();
    stamps();
    cycles();
    cache();
    golden_breach_calls();
    golden_account_calls();
    golden_lane_calls();
    golden_watchdog_calls();
    for (size_t i = 0; i < count; i++)
        buffer_add(&in, steps[i].call, CALL);
    run_bytes(command, in.bytes, in.len, feed, 60, &r);
    for (size_t i = 0; i < count; i++) {
        int same = r.out.len >= (i + 1) * CALL;
        for (int b = 0; b < CALL && same; b++)
            same = !steps[i].care[b] || r.out.bytes[i * CALL + (size_t)b] == steps[i].answer[b];
        passed += same ? 1 : 0;
        if (same)
            continue;
        if (++failed > MOST_TOLD)
            continue; /* counted, and not told */
        printf("%s: call %lu: ", steps[i].name, (unsigned long)i);
        say_call(stdout, steps[i].call);
        printf("\n  expected ");
        say_answer(stdout, steps[i].call, steps[i].answer);
        printf("\n  got ");
        if (r.out.len >= (i + 1) * CALL)
            say_answer(stdout, steps[i].call, r.out.bytes + i * CALL);
        else
            printf("no answer; %s", ending(&r));
        printf("\n");
    }
    result_free(&r);
    buffer_free(&in);
}

void golden_recording(const char *command, const char *name, const uint8_t *bytes, size_t len,
                      const char *text)
{
    struct result r;
    struct feed feed = {BY_FILE, 0};
    run_bytes(command, bytes, len, feed, 60, &r);
    if (!r.late && r.out.len == strlen(text) && memcmp(r.out.bytes, text, r.out.len) == 0) {
        passed++;
    } else {
        failed++;
        printf("%s: expected\n%sgot (%s)\n%.*s\n", name, text, ending(&r), (int)r.out.len,
               r.out.bytes == NULL ? "" : (const char *)r.out.bytes);
    }
    result_free(&r);
}

int main(int argc, char **argv)
{
    for (int i = 1; i + 1 < argc; i += 2) {
        if (strcmp(argv[i], "--judge") == 0) {
            golden_rules(argv[i + 1]);
            golden_breaches(argv[i + 1]);
            golden_watchdog(argv[i + 1]);
        } else if (strcmp(argv[i], "--calls") == 0)
            through_calls(argv[i + 1]);
        else if (strcmp(argv[i], "--phases") == 0)
            golden_phases(argv[i + 1]);
        else if (strcmp(argv[i], "--accounts") == 0) {
            golden_accounts(argv[i + 1]);
            golden_watchdog_accounts(argv[i + 1]);
        } else
            break;
    }
    printf("golden: %lu passed, %lu failed\n", passed, failed);
    return failed > 0 || passed == 0;
}
