/* A recording, or a Value Change Dump of one, as samples: a line for each cycle with the 81 lines of the
   bus as 0 and 1, commas between, in the record's order.

   vcdsamples record FROM TO   the recording on standard input, its records from place FROM to TO; a missing
                               cycle is all zeros
   vcdsamples dump             a dump on standard input, from its first time to its last */
#include <stdint.h>
#include <stdio.h>
#include <stdlib.h>
#include <string.h>

enum { LINES = 81, RECORD = 16, WORD = 128 };

static void die(const char *why)
{
    fprintf(stderr, "vcdsamples: %s\n", why);
    exit(1);
}

static void sample(const char *lines, unsigned long long cycles)
{
    for (; cycles > 0; cycles--)
        for (int i = 0; i < LINES; i++)
            printf("%c%c", lines[i], i + 1 < LINES ? ',' : '\n');
}

static int of_record(unsigned long from, unsigned long to)
{
    unsigned char b[RECORD];
    uint32_t stamp = 0;
    char lines[LINES], none[LINES];
    memset(none, '0', LINES);
    for (unsigned long place = 0; place <= to && fread(b, RECORD, 1, stdin) == 1; place++) {
        uint32_t now = (uint32_t)b[0] << 24 | (uint32_t)b[1] << 16 | (uint32_t)b[2] << 8 | b[3];
        for (int i = 0; i < LINES; i++)
            lines[i] = (char)('0' + (b[(32 + i) / 8] >> (7 - (32 + i) % 8) & 1));
        if (place > from)
            sample(none, (uint32_t)(now - stamp - 1));
        if (place >= from)
            sample(lines, 1);
        stamp = now;
    }
    return 0;
}

/* The lines' names in the record's order, and their codes as the dump declares them. */
static char names[LINES][16], codes[LINES][WORD];

static void name_all(void)
{
    static const char *const order = "RESET RQST ARB4 START ACK TM1 TM0 SP SPV AD32 VTM1 VTM0 VACK VSACK VAD33";
    static const char *const wide[] = {"ARB", "AD", "VAD"};
    static const int bits[] = {4, 32, 33};
    char name[16];
    int at = 0, n;
    for (const char *p = order; sscanf(p, "%15s%n", name, &n) == 1; p += n) {
        int many = 0;
        for (int i = 0; i < 3; i++) {
            char told[16];
            snprintf(told, sizeof told, "%s%d", wide[i], bits[i]);
            if (strcmp(told, name) != 0)
                continue;
            many = 1;
            for (int bit = bits[i] - 1; bit >= 0; bit--)
                snprintf(names[at++], sizeof names[0], "%s[%d]", wide[i], bit);
        }
        if (!many)
            strcpy(names[at++], name);
    }
    if (at != LINES)
        die("the names aren't 81");
}

static int by_name(const char *name)
{
    for (int i = 0; i < LINES; i++)
        if (strcmp(names[i], name) == 0)
            return i;
    die("a signal that there isn't");
    return -1;
}

static int by_code(const char *code)
{
    for (int i = 0; i < LINES; i++)
        if (strcmp(codes[i], code) == 0)
            return i;
    die("a code that isn't declared");
    return -1;
}

static int word(char *to)
{
    return scanf("%127s", to) == 1;
}

/* A name may have a space before its number. */
static void declare(void)
{
    char kind[WORD], bits[WORD], code[WORD], name[2 * WORD] = "", more[WORD];
    if (!word(kind) || !word(bits) || !word(code))
        die("a declaration that ends");
    while (word(more) && strcmp(more, "$end") != 0 && strlen(name) < WORD)
        strcat(name, more);
    int i = by_name(name);
    if (strcmp(kind, "wire") != 0 || strcmp(bits, "1") != 0 || codes[i][0] != '\0')
        die("a declaration that isn't the line's");
    strcpy(codes[i], code);
}

static int of_dump(void)
{
    char token[WORD], lines[LINES];
    unsigned long long time = 0;
    int begun = 0;
    name_all();
    memset(lines, 'x', LINES);
    while (word(token)) {
        if (strcmp(token, "$var") == 0) {
            declare();
        } else if (token[0] == '$' && strcmp(token, "$end") != 0 && strcmp(token, "$dumpvars") != 0) {
            while (strcmp(token, "$end") != 0)
                if (!word(token))
                    die("a head that ends");
        } else if (token[0] == '#') {
            unsigned long long now = strtoull(token + 1, NULL, 10);
            if (begun && now < time)
                die("a time before the last");
            if (begun)
                sample(lines, now - time);
            time = now;
            begun = 1;
        } else if (token[0] == '0' || token[0] == '1') {
            lines[by_code(token + 1)] = token[0];
        } else if (token[0] != '$') {
            die("a word that isn't the dump's");
        }
    }
    return 0;
}

int main(int argc, char **argv)
{
    if (argc == 4 && strcmp(argv[1], "record") == 0)
        return of_record(strtoul(argv[2], NULL, 10), strtoul(argv[3], NULL, 10));
    if (argc == 2 && strcmp(argv[1], "dump") == 0)
        return of_dump();
    die("vcdsamples record FROM TO | dump");
}
