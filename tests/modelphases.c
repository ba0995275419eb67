/* The model in place of the boot report's program: modelphases LIMIT [S/N ..], the recording on
   standard input. Its exit status is 0, as that of a Rattle program is. */
#include <stdio.h>
#include <stdlib.h>
#include <string.h>
#include <unistd.h>
#include "marks.h"

static int print(const char *text)
{
    size_t len = strlen(text), done = 0;
    while (done < len) {
        ssize_t n = write(1, text + done, len - done);
        if (n <= 0) {
            perror("standard output");
            return 0;
        }
        done += (size_t)n;
    }
    return 0;
}

static int say(const struct report *p, struct verdict v, int refusal)
{
    char text[REPORT_TEXT];
    report_text(p, v, refusal, text);
    return print(text);
}

/* The decimal number of so many digits, and 17 for all that are over 16; -1 if it is none. */
static int number(const char *digits, size_t len)
{
    int n = 0;
    if (len == 0 || strspn(digits, "0123456789") < len)
        return -1;
    for (size_t i = 0; i < len; i++)
        n = n > 16 ? 17 : 10 * n + (digits[i] - '0');
    return n > 16 ? 17 : n;
}

/* S/N, two decimal numbers. */
static int read_mark(const char *word, struct mark *mark)
{
    size_t len = strcspn(word, "/");
    if (word[len] != '/')
        return 0;
    int slot = number(word, len), n = number(word + len + 1, strlen(word + len + 1));
    *mark = (struct mark){(unsigned)slot, (unsigned)n};
    return slot >= 0 && n >= 0;
}

/* Reads until the report is complete, a record breaks a rule or the input ends. */
static int over_input(struct report *p)
{
    static uint8_t in[65536];
    size_t have = 0;
    for (;;) {
        ssize_t n = read(0, in + have, sizeof in - have);
        if (n < 0) {
            perror("standard input");
            return 0;
        }
        if (n == 0)
            return say(p, NO_BREACH, have != 0 ? 1 : 0);
        have += (size_t)n;
        size_t at = 0;
        for (; have - at >= RECORD; at += RECORD) {
            if (p->t.records == MOST_RECORDS)
                return say(p, NO_BREACH, 8);
            struct verdict v = report_one(p, in + at);
            if (v.rule != 0 || report_complete(p))
                return say(p, v, 0);
        }
        memmove(in, in + at, have - at);
        have -= at;
    }
}

int main(int argc, char **argv)
{
    size_t count = argc > 2 ? (size_t)argc - 2 : 0;
    struct mark *marks = calloc(count + 1, sizeof *marks);
    struct report p;
    char text[32];
    int limit = argc > 1 ? number(argv[1], strlen(argv[1])) : -1, words = marks != NULL && limit >= 0;
    for (size_t i = 0; words && i < count; i++)
        words = read_mark(argv[2 + i], &marks[i]);
    if (!words) {
        fprintf(stderr, "modelphases LIMIT [S/N ..]: the words are decimal numbers\n");
        return 0;
    }
    int refusal = report_fresh(&p, (unsigned)limit, marks, count);
    free(marks);
    if (refusal == 0)
        return over_input(&p);
    snprintf(text, sizeof text, "refused %d\n", refusal);
    return print(text);
}
