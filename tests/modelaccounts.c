/* The model in place of the accounts' program: the two lines of the judging program for the recording
   on standard input, then a line for each slot (document 02, wish 3), with the hold limit as its
   argument, 16 where there is none. Exit status as modeljudge's. */
#include <stdio.h>
#include <string.h>
#include <unistd.h>
#include "spur.h"

static int print(const char *text)
{
    size_t len = strlen(text), done = 0;
    while (done < len) {
        ssize_t n = write(1, text + done, len - done);
        if (n <= 0) {
            perror("standard output");
            return 0;
        }
        done += (size_t)n;
    }
    return 1;
}

/* The recording so far. */
struct counted {
    struct judge j;
    struct tally t;
    struct entry account[SLOTS];
};

static int say(const struct counted *c, struct verdict v, int refusal)
{
    char text[ACCOUNT_TEXT];
    judge_text(&c->t, c->j.open, v, refusal, text);
    size_t n = strlen(text);
    account_lines(c->account, text + n, sizeof text - n);
    return !print(text) ? 3 : v.rule != 0 ? 1 : refusal != 0 ? 2 : 0;
}

/* A decimal number of any length, and 17 for all that are over 16; -1 if it is none. */
static int number(const char *word)
{
    int n = 0;
    if (word[0] == '\0' || word[strspn(word, "0123456789")] != '\0')
        return -1;
    for (; *word != '\0'; word++)
        n = n > 16 ? 17 : 10 * n + (*word - '0');
    return n > 16 ? 17 : n;
}

static int over_input(struct counted *c)
{
    static uint8_t in[65536];
    size_t have = 0;
    for (;;) {
        ssize_t n = read(0, in + have, sizeof in - have);
        if (n < 0) {
            perror("standard input");
            return 3;
        }
        if (n == 0)
            return say(c, NO_BREACH, have != 0 ? 1 : 0);
        have += (size_t)n;
        size_t at = 0;
        for (; have - at >= RECORD; at += RECORD) {
            if (c->t.records == MOST_RECORDS)
                return say(c, NO_BREACH, 8);
            struct verdict v = account_one(&c->j, &c->t, c->account, in + at);
            if (v.rule != 0)
                return say(c, v, 0);
        }
        memmove(in, in + at, have - at);
        have -= at;
    }
}

int main(int argc, char **argv)
{
    int limit = argc > 1 ? number(argv[1]) : NO_LIMIT_GIVEN;
    static struct counted c;
    if (limit < 0) {
        fprintf(stderr, "the hold limit is a decimal number\n");
        return 3;
    }
    if (judge_fresh(&c.j, (unsigned)limit) != 0)
        return print("refused 3\n") ? 2 : 3;
    return over_input(&c);
}
