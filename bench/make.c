/* Makes a conforming recording with realistic traffic, the same each time:

   make MEBIBYTES [FILE [absent | near]]

   Waves of a few masters, single transfers and blocks with strobes, some holding, parking and
   attention cycles, slow slaves, a rare timeout and RESET, parity on half the transfers, inter-
   cache traffic beside. Cycles without any active line are left out.

   For the boot report's mark 0/0, a word write to F00xxxxx with AD5 to AD2 inactive: absent has no
   transfer to slot 0 at all; near has every transfer there, and each word write ends in an error.
   The records are the same otherwise. */
#include <stdint.h>
#include <stdio.h>
#include <stdlib.h>
#include <string.h>

#define RESET 0x80000000u
#define RQST 0x40000000u
#define START 0x02000000u
#define ACK 0x01000000u
#define TM1 0x00800000u
#define TM0 0x00400000u
#define SP 0x00200000u
#define SPV 0x00100000u

static uint64_t seed = 1986, left;
static uint32_t stamp;
static FILE *out;
static enum { ANY_ADDRESS, MARK_ABSENT, MARK_NEAR } kind_of_addresses;

static uint32_t below(uint32_t n)
{
    seed ^= seed << 13;
    seed ^= seed >> 7;
    seed ^= seed << 17;
    return (uint32_t)((seed >> 32) * n >> 32);
}

/* One cycle; it is left out where no line is active. */
static void cycle(uint32_t lines, uint32_t arb, uint32_t ad, int parity)
{
    uint64_t high, low, snoop = 0;
    if (lines != 0 && below(10) == 0)
        snoop = (uint64_t)below(16) << 33 | below(1u << 31);
    if (parity)
        lines |= SPV | (__builtin_parity(ad) ? SP : 0);
    if ((lines | arb | ad) != 0 && left > 0) {
        uint8_t bytes[16];
        high = (uint64_t)stamp << 32 | lines | arb << 26 | ad >> 12;
        low = (uint64_t)(ad & 0xFFF) << 52 | snoop << 15;
        for (int i = 0; i < 8; i++) {
            bytes[i] = (uint8_t)(high >> (56 - 8 * i));
            bytes[8 + i] = (uint8_t)(low >> (56 - 8 * i));
        }
        if (fwrite(bytes, 16, 1, out) != 1) {
            perror("output");
            exit(1);
        }
        left--;
    }
    stamp++;
}

static void idle(uint32_t rqst, uint32_t arb, uint32_t cycles)
{
    while (cycles-- > 0)
        cycle(rqst, rqst ? arb : 0, 0, 0);
}

/* The address as it is to be for the mark 0/0; only the low bits make a transfer's unit. */
static uint32_t addressed(uint32_t address)
{
    if (kind_of_addresses == MARK_NEAR)
        return address & 0xF00FFFC0;
    if (kind_of_addresses == MARK_ABSENT && (address & 0x0F000000) == 0)
        return address | 0x08000000;
    return address;
}

/* A START and what follows it up to its ACK; next is the ARB of the contest that goes on then. */
static void transfer(uint32_t rqst, uint32_t arb, uint32_t next)
{
    static const uint32_t marks[] = {0x02, 0x06, 0x0E, 0x1E}, words[] = {2, 4, 8, 16};
    uint32_t address = addressed(0xF0000000 + (below(1u << 26) << 2));
    uint32_t kind = below(100), parity = below(2);
    uint32_t write = below(3) == 0 ? TM1 : 0, strobes = 0, begin = stamp, data, status;
    if (kind < 2) {
        cycle(rqst | START | ACK | TM1 | TM0, arb, 0, 0);
        idle(rqst, next, 2);
        return;
    }
    if (kind < 40) {
        cycle(rqst | START | write, arb, address, (int)parity);
    } else if (kind < 46) {
        cycle(rqst | START | write | TM0, arb, address + below(4), (int)parity);
    } else if (kind < 50) {
        cycle(rqst | START | write, arb, address + 1 + 2 * below(2), (int)parity);
    } else {
        uint32_t size = below(10) < 6 ? 2 : below(4);
        cycle(rqst | START | write, arb, (address & ~(4 * words[size] - 1)) | marks[size],
              (int)parity);
        strobes = words[size] - 1;
    }
    if (below(5000) == 0) { /* nobody there: the watchdog */
        idle(rqst, next, 255);
        cycle(rqst | ACK | TM0, rqst ? next : 0, 0, 0);
        return;
    }
    idle(rqst, next, 2 + below(4));
    for (; strobes > 0; strobes--) {
        cycle(rqst | TM0, rqst ? next : 0, below(1u << 31), (int)parity);
        if (below(4) == 0)
            idle(rqst, next, 1 + below(2));
    }
    data = below(1u << 31);
    status = below(300) == 0 ? TM1 : TM1 | TM0;
    if (kind_of_addresses == MARK_NEAR && kind < 40 && write)
        status = TM1;
    cycle(rqst | ACK | status, rqst ? next : 0, data, (int)parity);
    while (stamp - begin < 3)
        idle(rqst, next, 1);
}

static uint32_t highest(uint32_t set)
{
    return 31 - (uint32_t)__builtin_clz(set);
}

static void wave(void)
{
    uint32_t set = 0;
    do
        set |= 1u << below(16);
    while (below(10) < 5);
    idle(RQST, highest(set), 2);
    while (set != 0) {
        uint32_t winner = highest(set), turns = below(12) == 0 ? 1 + below(4) : 1;
        for (; turns > 1; turns--)
            transfer(RQST, winner, winner);
        set &= ~(1u << winner);
        transfer(set ? RQST : 0, winner, set ? highest(set) : 0);
    }
}

static int read_words(int argc, char **argv)
{
    if (argc < 2 || argc > 4 || (left = strtoull(argv[1], NULL, 0) << 16) == 0)
        return 0;
    if (argc < 4)
        return 1;
    kind_of_addresses = strcmp(argv[3], "absent") == 0 ? MARK_ABSENT
                        : strcmp(argv[3], "near") == 0 ? MARK_NEAR
                                                       : ANY_ADDRESS;
    return kind_of_addresses != ANY_ADDRESS;
}

int main(int argc, char **argv)
{
    if (!read_words(argc, argv)) {
        fprintf(stderr, "make MEBIBYTES [FILE [absent | near]]\n");
        return 1;
    }
    out = argc >= 3 ? fopen(argv[2], "wb") : stdout;
    if (out == NULL) {
        perror(argv[2]);
        return 1;
    }
    stamp = 0xFF000000;
    cycle(RESET, 0, 0, 0);
    while (left > 0) {
        wave();
        for (uint32_t parked = below(4) == 0 ? 1 + below(3) : 0; parked > 0; parked--) {
            idle(0, 0, below(10));
            transfer(0, 0, 0);
        }
        idle(0, 0, below(3) == 0 ? below(200) : below(6));
        if (below(100000) == 0)
            cycle(RESET, 0, 0, 0);
    }
    if (fflush(out) != 0 || (argc >= 3 && fclose(out) != 0)) {
        perror("output");
        return 1;
    }
    return 0;
}
