/* The model in place of spurquote, spurseconds and spurfleet. */
#include <stdarg.h>
#include <stdio.h>
#include <stdlib.h>
#include <string.h>
#include "desk.h"

void buffer_say(struct buffer *b, const char *format, ...)
{
    char text[1024];
    va_list with;
    va_start(with, format);
    int n = vsnprintf(text, sizeof text, format, with);
    va_end(with);
    if (n < 0 || (size_t)n >= sizeof text) {
        fprintf(stderr, "no room for a line\n");
        exit(2);
    }
    buffer_add(b, (const uint8_t *)text, (size_t)n);
}

int desk_number(const char *word, size_t most, uint64_t *n)
{
    size_t len = strlen(word);
    *n = 0;
    if (len == 0 || len > most || strspn(word, "0123456789") < len)
        return 0;
    for (; *word != '\0'; word++) {
        unsigned digit = (unsigned)(*word - '0');
        *n = *n > (UINT64_MAX - digit) / 10 ? UINT64_MAX : 10 * *n + digit;
    }
    return 1;
}

/* The time of so many cycles of 100 ns. */
static void say_seconds(struct buffer *out, uint64_t cycles)
{
    buffer_say(out, "%llu.%07llu\n", (unsigned long long)(cycles / 10000000),
               (unsigned long long)(cycles % 10000000));
}

/* What demand 3 gives: (30 - s) x limit STARTs of others and, for a slot over 0, a parked one more; for each
   and for its own the 4,097 cycles that document 02's wish 5 makes of 257, the parked one costing one cycle. */
struct said quote_program(char **words, size_t count)
{
    struct said s = {{0}, NULL};
    uint64_t slot, limit;
    if (count != 2 || !desk_number(words[0], SIZE_MAX, &slot) ||
        !desk_number(words[1], SIZE_MAX, &limit)) {
        s.complaint = "spurquote:";
        return s;
    }
    if (slot > 15) {
        buffer_say(&s.out, "refused 2\n");
    } else if (limit < 1 || limit > 16) {
        buffer_say(&s.out, "refused 3\n");
    } else {
        uint64_t waves = (30 - slot) * limit, parked = slot > 0 ? 1 : 0;
        uint64_t cycles = LONGEST * (waves + 1) + parked;
        buffer_say(&s.out, "slot %u limit %u others %u cycles %u seconds ", (unsigned)slot,
                   (unsigned)limit, (unsigned)(waves + parked), (unsigned)cycles);
        say_seconds(&s.out, cycles);
    }
    return s;
}

enum { MOST_NUMBERS = 4096 };

struct said seconds_program(char **words, size_t count)
{
    struct said s = {{0}, NULL};
    for (size_t i = 0; i < count; i++) {
        uint64_t n;
        if (!desk_number(words[i], DIGITS, &n)) {
            s.complaint = "spurseconds:";
            break;
        }
        say_seconds(&s.out, n);
    }
    return s;
}

static int by_size(const void *a, const void *b)
{
    uint64_t x = *(const uint64_t *)a, y = *(const uint64_t *)b;
    return x < y ? -1 : x > y;
}

struct said fleet_program(char **words, size_t count)
{
    struct said s = {{0}, NULL};
    static uint64_t n[MOST_NUMBERS];
    unsigned __int128 sum = 0;
    int good = count <= MOST_NUMBERS;
    for (size_t i = 0; good && i < count; i++) {
        good = desk_number(words[i], DIGITS, &n[i]);
        sum += n[i];
    }
    if (!good) {
        s.complaint = "spurfleet:";
        return s;
    }
    if (count == 0) {
        buffer_say(&s.out, "count 0\n");
        return s;
    }
    qsort(n, count, sizeof n[0], by_size);
    buffer_say(&s.out, "count %lu least %llu median %llu greatest %llu mean %llu remainder %llu\n",
               (unsigned long)count, (unsigned long long)n[0],
               (unsigned long long)n[(count - 1) / 2], (unsigned long long)n[count - 1],
               (unsigned long long)(sum / count), (unsigned long long)(sum % count));
    return s;
}
