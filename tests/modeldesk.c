/* The model in place of the desk's programs: modeldesk quote SLOT LIMIT | seconds N .. | fleet N .. |
   show rows|vcd FROM TO | why LIMIT, the last two with the recording on standard input. */
#include <stdio.h>
#include <string.h>
#include <unistd.h>
#include "desk.h"

static void print(const uint8_t *bytes, size_t len)
{
    if (write_all(1, bytes, len) != 0)
        perror("standard output");
}

static int tell(struct said *s)
{
    print(s->out.bytes, s->out.len);
    buffer_free(&s->out);
    if (s->complaint != NULL)
        fprintf(stderr, "%s%s\n", s->complaint,
                s->complaint[strlen(s->complaint) - 1] == ':' ? " the words aren't right" : "");
    return 0;
}

/* Takes the whole records of each read; gives the bytes of a torn end, -1 where the reading fails. */
typedef int take(void *with, const uint8_t *bytes); /* 1 to stop */
static ssize_t over_input(take *one, void *with, int *stopped)
{
    static uint8_t in[65536];
    size_t have = 0;
    *stopped = 0;
    for (;;) {
        ssize_t n = read(0, in + have, sizeof in - have);
        if (n < 0)
            return -1;
        if (n == 0)
            return (ssize_t)have;
        have += (size_t)n;
        size_t at = 0;
        for (; have - at >= RECORD; at += RECORD)
            if (one(with, in + at)) {
                *stopped = 1;
                return 0;
            }
        memmove(in, in + at, have - at);
        have -= at;
    }
}

struct showing {
    struct shower w;
    struct buffer out;
    int full;
};

static int show_one(void *with, const uint8_t *bytes)
{
    struct showing *s = with;
    if (s->w.places == MOST_RECORDS) {
        s->full = 1;
        return 1;
    }
    shower_one(&s->w, bytes, &s->out);
    if (s->out.len > 30000) {
        print(s->out.bytes, s->out.len);
        s->out.len = 0;
    }
    return shower_done(&s->w);
}

static int show(char **words, size_t count)
{
    struct showing s = {0};
    int stopped = 0;
    if (!shower_fresh(&s.w, words, count))
        return tell(&(struct said){{0}, "spurshow:"});
    ssize_t torn = shower_done(&s.w) ? 0 : over_input(show_one, &s, &stopped);
    if (torn < 0) {
        perror("spurshow: standard input");
        return 0;
    }
    const char *complaint = shower_end(&s.w, torn > 0, &s.out);
    return tell(&(struct said){s.out, s.full ? too_many : complaint});
}

struct judging {
    struct judge j;
    struct tally t;
    struct verdict v;
    struct cause c;
    int full;
};

static int judge_next(void *with, const uint8_t *bytes)
{
    struct judging *w = with;
    struct judge before = w->j;
    w->full = w->t.records == MOST_RECORDS;
    if (w->full)
        return 1;
    w->v = judge_one(&w->j, &w->t, bytes);
    if (w->v.rule != 0)
        w->c = cause_of(&before, bytes, w->v);
    return w->v.rule != 0;
}

static int why(char **words, size_t count)
{
    struct judging w = {0};
    struct said s = {{0}, NULL};
    uint64_t limit;
    char text[TEXT];
    int stopped;
    if (count != 1 || !desk_number(words[0], SIZE_MAX, &limit)) {
        s.complaint = "spurwhy:";
        return tell(&s);
    }
    if (judge_fresh(&w.j, limit > 16 ? 17 : (unsigned)limit) != 0) {
        buffer_say(&s.out, "refused 3\n");
        return tell(&s);
    }
    ssize_t torn = over_input(judge_next, &w, &stopped);
    if (torn < 0) {
        perror("spurwhy: standard input");
        return 0;
    }
    judge_text(&w.t, w.j.open, w.v, w.full ? 8 : torn > 0 ? 1 : 0, text);
    buffer_say(&s.out, "%s", text);
    if (w.v.rule != 0)
        buffer_say(&s.out, "found %llu bound %llu\n", (unsigned long long)w.c.found,
                   (unsigned long long)w.c.bound);
    return tell(&s);
}

int main(int argc, char **argv)
{
    const char *form = argc > 1 ? argv[1] : "";
    char **words = argv + 2;
    size_t count = argc > 2 ? (size_t)argc - 2 : 0;
    struct said s = {{0}, "modeldesk: there is no such program"};
    if (strcmp(form, "show") == 0)
        return show(words, count);
    if (strcmp(form, "why") == 0)
        return why(words, count);
    if (strcmp(form, "quote") == 0)
        s = quote_program(words, count);
    else if (strcmp(form, "seconds") == 0)
        s = seconds_program(words, count);
    else if (strcmp(form, "fleet") == 0)
        s = fleet_program(words, count);
    return tell(&s);
}
