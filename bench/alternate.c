/* Runs two commands alternately on the same file as standard input and prints the ratio of their times.
 *
 *   alternate ROUNDS FILE COMMAND-A COMMAND-B
 *
 * A command is one string for the shell. Each round runs A and then B, or B and then A in every other round, so that neither
 * always finds what the other left. The times are user and system time of the command's process, as the system counts them;
 * printed are the least and the middle one of each, and the ratios A/B. The first round is not counted: it warms the file. */
#include <fcntl.h>
#include <stdio.h>
#include <stdlib.h>
#include <sys/resource.h>
#include <sys/wait.h>
#include <unistd.h>

enum { MOST_ROUNDS = 101 };

static double seconds(struct timeval t) { return (double)t.tv_sec + (double)t.tv_usec / 1e6; }

/* The processor time of one run; the program ends where a run can't be made or fails. */
static double run(const char *command, const char *file)
{
    pid_t child = fork();
    if (child < 0) { perror("fork"); exit(1); }
    if (child == 0) {
        int in = open(file, O_RDONLY), out = open("/dev/null", O_WRONLY);
        if (in < 0 || out < 0 || dup2(in, 0) < 0 || dup2(out, 1) < 0) { perror(file); _exit(127); }
        execl("/bin/sh", "sh", "-c", command, (char *)0);
        _exit(127);
    }
    int status = 0;
    struct rusage used;
    if (wait4(child, &status, 0, &used) < 0 || !WIFEXITED(status) || WEXITSTATUS(status) != 0) {
        fprintf(stderr, "failed: %s\n", command);
        exit(1);
    }
    return seconds(used.ru_utime) + seconds(used.ru_stime);
}

static int smaller_first(const void *a, const void *b)
{
    double x = *(const double *)a, y = *(const double *)b;
    return (x > y) - (x < y);
}

int main(int argc, char **argv)
{
    int rounds = argc == 5 ? atoi(argv[1]) : 0;
    if (rounds < 1 || rounds > MOST_ROUNDS) {
        fprintf(stderr, "usage: alternate ROUNDS FILE COMMAND-A COMMAND-B\n");
        return 2;
    }
    double a[MOST_ROUNDS], b[MOST_ROUNDS];
    run(argv[3], argv[2]);
    run(argv[4], argv[2]);
    for (int i = 0; i < rounds; i++) {
        if (i % 2 == 0) a[i] = run(argv[3], argv[2]);
        b[i] = run(argv[4], argv[2]);
        if (i % 2 == 1) a[i] = run(argv[3], argv[2]);
    }
    qsort(a, (size_t)rounds, sizeof *a, smaller_first);
    qsort(b, (size_t)rounds, sizeof *b, smaller_first);
    printf("least:  %.3f s and %.3f s, ratio %.2f\n", a[0], b[0], a[0] / b[0]);
    printf("middle: %.3f s and %.3f s, ratio %.2f\n", a[rounds / 2], b[rounds / 2], a[rounds / 2] / b[rounds / 2]);
    return 0;
}
