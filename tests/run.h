/* Running a program under test: a command for the shell, fed and read by us. */
#ifndef RUN_H
#define RUN_H

#include "make.h"

struct result {
    struct buffer out, err;
    int status;    /* as wait gives it */
    int late;      /* it didn't end in time and was ended */
    long memory;   /* the most resident, KiB */
};
/* How the input comes: from a file, through a pipe in pieces, or in drips: a pipe that gets its
   next piece only when the last has been read, so that no read sees more than one. */
enum way { BY_FILE, BY_PIPE, BY_DRIPS };
struct feed {
    enum way way;
    size_t piece;
};
void run_bytes(const char *command, const uint8_t *in, size_t len, struct feed feed, int seconds,
               struct result *r);
/* The general form: standard input and output are given (closed where -1, output captured where
   -2), and the writer, if any, runs in a process of its own. */
typedef void writer(int to, void *with);
struct plan {
    const char *command;
    int in, out;
    writer *write;
    void *with;
    int ignore_pipe; /* run with SIGPIPE ignored */
    int seconds;
};
void run_plan(const struct plan *p, struct result *r);
void result_free(struct result *r);
int write_all(int to, const uint8_t *bytes, size_t len); /* 0 if it could */
void drained(int to); /* waits until the pipe is empty, or has no reader any more */
const char *ending(const struct result *r); /* in words */

#endif
