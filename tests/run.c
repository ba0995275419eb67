/* Running a program under test. */
#define _DEFAULT_SOURCE 1
#include <errno.h>
#include <fcntl.h>
#include <poll.h>
#include <sched.h>
#include <signal.h>
#include <stdio.h>
#include <stdlib.h>
#include <string.h>
#include <sys/ioctl.h>
#include <sys/resource.h>
#include <sys/time.h>
#include <sys/wait.h>
#include <time.h>
#include <unistd.h>
#include "run.h"

static void die(const char *what)
{
    perror(what);
    exit(2);
}

int write_all(int to, const uint8_t *bytes, size_t len)
{
    while (len > 0) {
        ssize_t n = write(to, bytes, len);
        if (n < 0 && errno == EINTR)
            continue;
        if (n <= 0)
            return -1;
        bytes += n;
        len -= (size_t)n;
    }
    return 0;
}

static double now(void)
{
    struct timespec t;
    clock_gettime(CLOCK_MONOTONIC, &t);
    return (double)t.tv_sec + (double)t.tv_nsec / 1e9;
}

static void give(int fd, int as)
{
    if (fd < 0)
        close(as);
    else if (dup2(fd, as) < 0)
        _exit(126);
}

/* Descriptors of ours above the standard three aren't the program's. */
static void program(const struct plan *p, int in, int out, int err)
{
    setpgid(0, 0);
    signal(SIGPIPE, p->ignore_pipe ? SIG_IGN : SIG_DFL);
    give(out, 1);
    give(err, 2);
    give(in, 0);
    for (int fd = 3; fd < 64; fd++)
        close(fd);
    /* A plain command takes the shell's place, so that its own ending is seen. */
    size_t word = strcspn(p->command, " "), room = strlen(p->command) + 8;
    char *line = malloc(room);
    int plain = strpbrk(p->command, ";|&()<>\n") == NULL &&
                memchr(p->command, '=', word) == NULL;
    if (line == NULL)
        _exit(126);
    snprintf(line, room, "%s%s", plain ? "exec " : "", p->command);
    execl("/bin/sh", "sh", "-c", line, (char *)NULL);
    _exit(127);
}

/* Reads both outputs until they end or the time is over. */
static void collect(int out, int err, int seconds, struct result *r)
{
    struct pollfd fds[2] = {{out, POLLIN, 0}, {err, POLLIN, 0}};
    double end = now() + seconds;
    while (fds[0].fd >= 0 || fds[1].fd >= 0) {
        double left = end - now();
        static uint8_t bytes[65536];
        if (left <= 0) {
            r->late = 1;
            return;
        }
        if (poll(fds, 2, (int)(left * 1000) + 1) < 0 && errno != EINTR)
            die("poll");
        for (int i = 0; i < 2; i++) {
            if (fds[i].fd < 0 || !(fds[i].revents & (POLLIN | POLLHUP | POLLERR)))
                continue;
            ssize_t n = read(fds[i].fd, bytes, sizeof bytes);
            if (n > 0)
                buffer_add(i == 0 ? &r->out : &r->err, bytes, (size_t)n);
            else if (n == 0 || errno != EINTR)
                fds[i].fd = -1;
        }
    }
}

static pid_t feeder(const struct plan *p, int from, int to)
{
    pid_t pid = fork();
    if (pid < 0)
        die("fork");
    if (pid > 0)
        return pid;
    close(from);
    signal(SIGPIPE, SIG_IGN);
    p->write(to, p->with);
    _exit(0);
}

/* Waits for the program after its output ended; ends it if it goes on too long. */
static void reap(pid_t pid, const struct plan *p, double end, struct result *r)
{
    struct rusage use;
    for (;;) {
        pid_t got = wait4(pid, &r->status, r->late ? 0 : WNOHANG, &use);
        if (got == pid)
            break;
        if (got < 0 && errno != EINTR)
            die("wait");
        if (now() > end + p->seconds) {
            kill(-pid, SIGKILL);
            r->late = 1;
        }
        struct timespec t = {0, 200000};
        nanosleep(&t, NULL);
    }
    r->memory = use.ru_maxrss;
}

void run_plan(const struct plan *p, struct result *r)
{
    int in[2] = {-1, -1}, out[2], err[2], status;
    pid_t pid, fed = 0;
    double begin = now();
    *r = (struct result){0};
    fflush(NULL);
    if (p->write != NULL) {
        if (pipe(in) != 0)
            die("pipe");
    }
    if (pipe(out) != 0 || pipe(err) != 0)
        die("pipe");
    pid = fork();
    if (pid < 0)
        die("fork");
    if (pid == 0)
        program(p, p->write != NULL ? in[0] : p->in, p->out == -2 ? out[1] : p->out, err[1]);
    setpgid(pid, pid);
    close(out[1]);
    close(err[1]);
    if (p->write != NULL) {
        fed = feeder(p, in[0], in[1]);
        close(in[0]);
        close(in[1]);
    }
    collect(out[0], err[0], p->seconds, r);
    if (r->late)
        kill(-pid, SIGKILL);
    reap(pid, p, begin, r);
    close(out[0]);
    close(err[0]);
    if (fed != 0) {
        if (r->late)
            kill(fed, SIGKILL);
        waitpid(fed, &status, 0);
    }
}

struct pieces {
    const uint8_t *bytes;
    size_t len, piece;
    int drips;
};

void drained(int to)
{
    struct pollfd fd = {to, 0, 0};
    int held = 0;
    for (unsigned turn = 0; ioctl(to, FIONREAD, &held) == 0 && held > 0; turn++) {
        if (poll(&fd, 1, 0) > 0 && (fd.revents & POLLERR))
            return;
        if (turn < 50) {
            sched_yield();
        } else {
            struct timespec t = {0, 20000};
            nanosleep(&t, NULL);
        }
    }
}

static void write_pieces(int to, void *with)
{
    const struct pieces *p = with;
    for (size_t at = 0; at < p->len; at += p->piece) {
        size_t n = p->len - at < p->piece ? p->len - at : p->piece;
        if (write_all(to, p->bytes + at, n) != 0)
            return;
        if (p->drips)
            drained(to);
    }
}

void run_bytes(const char *command, const uint8_t *in, size_t len, struct feed feed, int seconds,
               struct result *r)
{
    struct plan p = {.command = command, .out = -2, .seconds = seconds};
    struct pieces pieces = {in, len, feed.piece, feed.way == BY_DRIPS};
    if (feed.way != BY_FILE) {
        p.write = write_pieces;
        p.with = &pieces;
        run_plan(&p, r);
        return;
    }
    FILE *f = tmpfile();
    if (f == NULL || write_all(fileno(f), in, len) != 0 || lseek(fileno(f), 0, SEEK_SET) != 0)
        die("temporary file");
    p.in = fileno(f);
    run_plan(&p, r);
    fclose(f);
}

void result_free(struct result *r)
{
    buffer_free(&r->out);
    buffer_free(&r->err);
}

const char *ending(const struct result *r)
{
    static char text[64];
    if (r->late)
        return "did not end in time";
    if (WIFSIGNALED(r->status))
        snprintf(text, sizeof text, "ended by signal %d", WTERMSIG(r->status));
    else
        snprintf(text, sizeof text, "exit status %d", WEXITSTATUS(r->status));
    return text;
}
