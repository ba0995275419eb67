/* The words of the boot report's program: LIMIT S/N .., their refusals in order, and what is no
   number or no mark. The expected lines are written down by hand from the paper. */
#define _DEFAULT_SOURCE 1
#include <stdio.h>
#include <stdlib.h>
#include <string.h>
#include <unistd.h>
#include "phases.h"

enum { LINE = 8192 };
#define TEN " 1/1 2/2 3/3 4/4 5/5 6/6 7/7 8/8 9/9 10/10"
#define THIRTY TEN TEN TEN

static const struct {
    const char *words, *lines; /* no lines: a complaint, and nothing on standard output */
} cases[] = {
    /* 9: no marks, or more than 32; 2: a slot or a number over 15; 3: a limit not 1 to 16 */
    {"16", "refused 9\n"},
    {"16" THIRTY " 0/0 0/0 0/0", "refused 9\n"},
    {"16" THIRTY THIRTY THIRTY THIRTY, "refused 9\n"},
    {"16 16/0", "refused 2\n"},
    {"16 0/16", "refused 2\n"},
    {"16 16/16", "refused 2\n"},
    {"16 1/1 2/2 3/17", "refused 2\n"},
    {"16 1/1 100/2", "refused 2\n"},
    {"16" THIRTY " 0/0 0/16", "refused 2\n"},
    {"0 1/1", "refused 3\n"},
    {"17 1/1", "refused 3\n"},
    {"000 1/1", "refused 3\n"},
    {"4294967312 1/1", "refused 3\n"},          /* 2^32 and 16 */
    {"18446744073709551617 1/1", "refused 3\n"}, /* 2^64 and 1 */
    {"340282366920938463463374607431768211457 1/1", "refused 3\n"},
    /* These are 1 or 3 to a build that keeps 8, 32 or 64 bits of a number. */
    {"16 257/1", "refused 2\n"},
    {"16 1/259", "refused 2\n"},
    {"16 4294967297/1", "refused 2\n"},
    {"16 1/18446744073709551619", "refused 2\n"},
    {"16 99999999999999999999999999/1", "refused 2\n"},
    /* The order: 9, 2, 3 */
    {"0", "refused 9\n"},
    {"17" THIRTY " 0/0 0/0 0/16", "refused 9\n"},
    {"16" THIRTY " 0/0 0/0 16/0", "refused 9\n"},
    {"0 16/0", "refused 2\n"},
    {"17 1/1 1/16", "refused 2\n"},
    /* What is no mark or no number, also where something else would be refused */
    {"16 1", ""}, {"16 /1", ""}, {"16 1/", ""}, {"16 /", ""}, {"16 ''", ""}, {"16 1/2/3", ""},
    {"16 1//2", ""}, {"16 -1/2", ""}, {"16 +1/2", ""}, {"16 1/-2", ""}, {"16 1/+2", ""},
    {"16 0x1/2", ""}, {"16 1/2x", ""}, {"16 x1/2", ""}, {"16 1x/2", ""}, {"16 ' 1/2'", ""},
    {"16 '1/2 '", ""}, {"16 '1 /2'", ""}, {"16 '1/ 2'", ""}, {"16 1:2", ""}, {"16 1.2", ""},
    {"16 a/b", ""}, {"16 '1/2 3/4'", ""}, {"16 1/1 x", ""}, {"16 x 1/1", ""}, {"16 1/1 ''", ""},
    {"16 1/2/", ""}, {"16 /1/2", ""}, {"16 16/0 x", ""}, {"0 1/1 x", ""},
    {"16" THIRTY " 0/0 0/0 x", ""}, {"16" THIRTY THIRTY " x", ""},
    {"x 1/1", ""}, {"'' 1/1", ""}, {"1/1", ""}, {"1/1 2/2", ""}, {"-1 1/1", ""}, {"+4 1/1", ""},
    {"4x 1/1", ""}, {"0x4 1/1", ""}, {"4.0 1/1", ""}, {"' 4' 1/1", ""}, {"x 16/0", ""}, {"x", ""},
    /* Each of these numbers is one: nothing is there to be read, so the first mark is absent. */
    {"1 0/0", "records 0\nrefused 10 place 0\n"},
    {"16 15/15", "records 0\nrefused 10 place 0\n"},
    {"00016 00/000000000000000000000000000000", "records 0\nrefused 10 place 0\n"},
    {"16 00000000000000000000000000000000000015/0015", "records 0\nrefused 10 place 0\n"},
    {"0000000000000000000000000000000000000016 1/1", "records 0\nrefused 10 place 0\n"},
    {"16" THIRTY " 0/0 0/0", "records 0\nrefused 10 place 0\n"},
};

/* Standard input is a file of a few records, or an empty one where the words are right; it isn't
   read where they are refused. */
static void one(const char *words, const char *lines)
{
    static const uint8_t records[3 * RECORD] = {[19] = 1, [35] = 2};
    char line[LINE];
    struct plan p = {.command = line, .out = -2, .seconds = options.seconds};
    struct result r;
    FILE *f = tmpfile();
    int empty = strncmp(lines, "records", 7) == 0;
    snprintf(line, sizeof line, "%s %s", options.program, words);
    if (f == NULL || write_all(fileno(f), records, empty ? 0 : sizeof records) != 0 ||
        lseek(fileno(f), 0, SEEK_SET) != 0) {
        perror("temporary file");
        exit(2);
    }
    p.in = fileno(f);
    run_plan(&p, &r);
    int same = !r.late && r.out.len == strlen(lines) &&
               (r.out.len == 0 || memcmp(r.out.bytes, lines, r.out.len) == 0);
    int told = (lines[0] == '\0') == (r.err.len > 0);
    int unread = lseek(fileno(f), 0, SEEK_CUR) == 0;
    if (!same || !told || !unread)
        printf("FAILED: words '%s'%s: expected\n%sgot (%s, %lu bytes on standard error)\n%.*s\n",
               words, unread ? "" : ", and it read", lines, ending(&r), (unsigned long)r.err.len,
               (int)r.out.len, r.out.bytes == NULL ? "" : (const char *)r.out.bytes);
    phases_outcome(same && told && unread);
    result_free(&r);
    fclose(f);
}

void phases_words(void)
{
    for (size_t i = 0; i < sizeof cases / sizeof cases[0]; i++)
        one(cases[i].words, cases[i].lines);
}
