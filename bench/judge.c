/* A plain judge of SpurBus recordings, to measure ours against: the same rules, the same two
   lines, hold limit 16; with the word 'accounts' also who used the bus (document 02, wish 3), a line
   for each slot. Standard input is read 64 KiB at a time.
   Exit status 0 conforming, 1 breach, 2 refused, 3 unreadable. */
#include <inttypes.h>
#include <stdint.h>
#include <stdio.h>
#include <string.h>
#include <unistd.h>

enum { LIMIT = 16, WATCHDOG = 256, SLOTS = 16 };
static const uint32_t MOST = (uint32_t)1 << 30;

/* The lines in bits 31 to 20 of a record's second word; AD begins in its low 20 bits. */
#define RESET 0x80000000u
#define RQST 0x40000000u
#define START 0x02000000u
#define ACK 0x01000000u
#define TM1 0x00800000u
#define TM0 0x00400000u
#define SP 0x00200000u
#define SPV 0x00100000u

struct state {
    uint32_t stamp, diff0; /* diff0: 1 until a first stamp is there */
    uint32_t rqst1, rqst2; /* RQST in the last cycle told, and one before it */
    uint32_t started;      /* a wave's START since the reset */
    uint32_t turn, arb, since;
    uint32_t open, age, words, strobes;
    uint32_t records, starts, acks, aborted;
    uint64_t span;
    /* For the accounts: the last wave's starter, and the span at the START of the open transfer. */
    uint32_t owner;
    uint64_t began;
};

struct entry {
    uint64_t busy;
    uint32_t starts;
};

static inline uint64_t big64(const uint8_t *p)
{
    uint64_t v;
    memcpy(&v, p, 8);
    return __builtin_bswap64(v);
}

/* The words of a START's transfer, 0 for a code without meaning. */
static inline uint32_t words_of(uint32_t lines, uint32_t ad)
{
    if ((lines & TM0) || (ad & 3) != 2)
        return 1;
    if (!(ad & 4))
        return 2;
    if (!(ad & 8))
        return 4;
    if (!(ad & 16))
        return 8;
    return ad & 32 ? 0 : 16;
}

/* Judges records up to the end or a breach, whose rule it gives; the state is that before it. Made
   twice, with an account and, NULL, without. */
static inline __attribute__((always_inline)) int judge_any(struct state *state, const uint8_t *p,
                                                           const uint8_t *end, struct entry *account)
{
    struct state s = *state;
    int rule = 0;
    for (; p < end; p += 16) {
        uint64_t high = big64(p), low = big64(p + 8);
        uint32_t stamp = (uint32_t)(high >> 32), lines = (uint32_t)high;
        uint32_t ad = lines << 12 | (uint32_t)(low >> 52);
        uint32_t diff = stamp - s.stamp;
        if (low & 0x7FFF) {
            rule = 1;
            break;
        }
        if (s.diff0)
            diff = 0;
        else if (diff - 1 > 0x7FFFFFFF) {
            rule = 2;
            break;
        }
        if (lines & RESET) {
            if (account && s.open)
                account[s.owner].busy += s.span + diff - s.began + 1;
            s.aborted += s.open;
            s.rqst1 = s.rqst2 = s.started = s.turn = s.open = 0;
            goto taken;
        }
        if ((lines & SPV) && __builtin_parity(ad) != ((lines & SP) != 0)) {
            rule = 3;
            break;
        }
        uint32_t rqst = lines & RQST;
        uint32_t before = diff == 1 ? s.rqst1 : 0; /* RQST one cycle before */
        if (lines & (START | ACK)) {
            uint32_t words = 1;
            uint32_t success = (lines & (TM1 | TM0)) == (TM1 | TM0);
            if (lines & START) {
                uint32_t arb = lines >> 26 & 15;
                if (s.open) {
                    rule = 4;
                    break;
                }
                if (lines & ACK) {
                    if (!success) {
                        rule = 6;
                        break;
                    }
                } else if ((words = words_of(lines, ad)) == 0) {
                    rule = 7;
                    break;
                }
                if (before ? !s.rqst2 || (s.turn && s.since < 2) : !s.started) {
                    rule = 8;
                    break;
                }
                if (s.rqst1 && diff != 1) {
                    rule = 9;
                    break;
                }
                if (before) {
                    if (s.turn && arb >= s.arb) {
                        if (arb > s.arb) {
                            rule = 10;
                            break;
                        }
                        if (s.turn >= LIMIT) {
                            rule = 11;
                            break;
                        }
                        s.turn++;
                    } else {
                        s.turn = 1;
                    }
                    s.arb = arb;
                    s.since = 0;
                    s.started = 1;
                    if (account)
                        s.owner = arb;
                }
                s.starts++;
                if (account) {
                    account[s.owner].starts++;
                    account[s.owner].busy += (lines & ACK) != 0;
                    s.began = s.span + diff;
                }
                if (lines & ACK) {
                    s.acks++;
                } else {
                    s.open = 1;
                    s.age = s.strobes = 0;
                    s.words = words;
                }
            } else {
                if (!s.open) {
                    rule = 5;
                    break;
                }
                if (s.rqst1 && (diff != 1 || !rqst)) {
                    rule = 9;
                    break;
                }
                if ((uint64_t)s.age + diff > WATCHDOG) {
                    rule = 12;
                    break;
                }
                if (success && s.strobes != s.words - 1) {
                    rule = 13;
                    break;
                }
                if (account)
                    account[s.owner].busy += s.span + diff - s.began + 1;
                s.since++;
                s.acks++;
                s.open = 0;
            }
        } else {
            if (s.rqst1 && (diff != 1 || !rqst)) {
                rule = 9;
                break;
            }
            if (s.open) {
                uint64_t age = (uint64_t)s.age + diff;
                if (age > WATCHDOG) {
                    rule = 12;
                    break;
                }
                if ((lines & TM0) && s.words > 1) {
                    if (s.strobes + 1 >= s.words) {
                        rule = 13;
                        break;
                    }
                    s.strobes++;
                    age = 0; /* the watchdog restarts with each word (document 02, wish 5) */
                }
                s.age = (uint32_t)age;
            }
            s.since++;
        }
        if (!before || !rqst)
            s.turn = 0; /* no wave, or one that begins here */
        s.rqst2 = before;
        s.rqst1 = rqst;
    taken:
        s.stamp = stamp;
        s.diff0 = 0;
        s.span += diff;
        s.records++;
    }
    *state = s;
    return rule;
}

static __attribute__((noinline)) int judge(struct state *s, const uint8_t *p, const uint8_t *end)
{
    return judge_any(s, p, end, NULL);
}

static __attribute__((noinline)) int judge_and_account(struct state *s, const uint8_t *p,
                                                       const uint8_t *end, struct entry *account)
{
    return judge_any(s, p, end, account);
}

/* A breach: its rule, 0 for none, rule 8 with its kind's letter; and the span at its record. */
struct breach {
    int rule;
    const char *kind;
    uint64_t span;
};

/* What a breach tells, from its record and the state before it. */
static struct breach told(const struct state *s, const uint8_t *p, int rule)
{
    uint32_t diff = s->diff0 ? 0 : (uint32_t)(big64(p) >> 32) - s->stamp;
    struct breach b = {rule, "", s->span + (rule > 2 ? diff : 0)};
    if (rule == 8)
        b.kind = diff != 1 || !s->rqst1 ? "a" : !s->rqst2 ? "b" : "c";
    return b;
}

static int say(const struct state *s, const struct entry *account, struct breach b, int refusal)
{
    char text[256 + 64 * SLOTS];
    int n = snprintf(text, sizeof text,
                     "records %" PRIu32 " span %" PRIu64 " starts %" PRIu32 " acks %" PRIu32
                     " aborted %" PRIu32 " open %" PRIu32 "\n",
                     s->records, s->span, s->starts, s->acks, s->aborted, s->open);
    if (b.rule)
        n += snprintf(text + n, sizeof text - (size_t)n,
                      "breach rule %d%s record %" PRIu32 " span %" PRIu64 "\n", b.rule, b.kind,
                      s->records, b.span);
    else if (refusal)
        n += snprintf(text + n, sizeof text - (size_t)n, "refused %d\n", refusal);
    else
        n += snprintf(text + n, sizeof text - (size_t)n, "conforming\n");
    for (int k = 0; account && k < SLOTS; k++)
        n += snprintf(text + n, sizeof text - (size_t)n,
                      "slot %d starts %" PRIu32 " busy %" PRIu64 "\n", k, account[k].starts,
                      account[k].busy);
    for (int at = 0; at < n;) {
        ssize_t w = write(1, text + at, (size_t)(n - at));
        if (w <= 0) {
            perror("standard output");
            return 3;
        }
        at += (int)w;
    }
    return b.rule ? 1 : refusal ? 2 : 0;
}

int main(int argc, char **argv)
{
    static uint8_t bytes[65536];
    static struct entry slots[SLOTS];
    struct entry *account = argc > 1 && strcmp(argv[1], "accounts") == 0 ? slots : NULL;
    struct state s = {.diff0 = 1};
    struct breach none = {0};
    size_t have = 0;
    for (;;) {
        ssize_t n = read(0, bytes + have, sizeof bytes - have);
        if (n < 0) {
            perror("standard input");
            return 3;
        }
        if (n == 0)
            return say(&s, account, none, have ? 1 : 0);
        have += (size_t)n;
        size_t whole = have / 16, room = MOST - s.records;
        uint32_t before = s.records;
        const uint8_t *end = bytes + 16 * (whole < room ? whole : room);
        int rule = account ? judge_and_account(&s, bytes, end, account) : judge(&s, bytes, end);
        if (rule)
            return say(&s, account, told(&s, bytes + 16 * (size_t)(s.records - before), rule), 0);
        if (whole > room)
            return say(&s, account, none, 8);
        have -= 16 * whole;
        memcpy(bytes, bytes + 16 * whole, have);
    }
}
