/* Looks in a picture (a PPM on standard input) for a row of pixels in which segments of one colour each stand
   side by side in the proportion of the numbers that are given, each edge within two pixels of where it belongs:

   barpixels LEAST NUMBER NUMBER ..

   LEAST is the least width of the whole in pixels. Thin lines between segments, of up to two pixels, count to
   neither. It says where, and its status is not 0 where there is no such row. */
#include <stdio.h>
#include <stdlib.h>
#include <string.h>

enum { MOST = 32, THIN = 2 };
struct run {
    int from, to; /* the pixel behind it */
    unsigned colour;
};

static int number(void)
{
    int n;
    int c;
    while ((c = getchar()) == ' ' || c == '\n' || c == '#')
        if (c == '#')
            while ((c = getchar()) != '\n' && c != EOF)
                continue;
    ungetc(c, stdin);
    if (scanf("%d", &n) != 1)
        exit(2);
    return n;
}

/* The runs of one colour in a row, thin ones left out. */
static int runs_of(const unsigned char *row, int width, struct run *runs)
{
    int count = 0;
    for (int x = 0; x < width;) {
        int from = x;
        unsigned colour = (unsigned)row[3 * x] << 16 | (unsigned)row[3 * x + 1] << 8 | row[3 * x + 2];
        while (x < width && ((unsigned)row[3 * x] << 16 | (unsigned)row[3 * x + 1] << 8 |
                             row[3 * x + 2]) == colour)
            x++;
        if (x - from > THIN)
            runs[count++] = (struct run){from, x, colour};
    }
    return count;
}

/* Whether the runs from the first on are the segments. */
static int fits(const struct run *runs, int count, const double *share, int segments, int least)
{
    if (count < segments)
        return 0;
    double left = runs[0].from, whole = runs[segments - 1].to - left, sum = 0;
    if (whole < least)
        return 0;
    for (int i = 0; i < segments; i++) {
        if (i > 0 && (runs[i].from - runs[i - 1].to > THIN || runs[i].colour == runs[i - 1].colour))
            return 0;
        double from = left + sum * whole, to = left + (sum + share[i]) * whole;
        if (runs[i].from - from > 2 || from - runs[i].from > 2 || runs[i].to - to > 2 ||
            to - runs[i].to > 2)
            return 0;
        sum += share[i];
    }
    return 1;
}

int main(int argc, char **argv)
{
    double share[MOST], all = 0;
    int segments = argc - 2, least = argc > 1 ? atoi(argv[1]) : 0;
    char magic[3] = "";
    if (segments < 1 || segments > MOST)
        return 2;
    for (int i = 0; i < segments; i++)
        all += share[i] = strtod(argv[i + 2], NULL);
    for (int i = 0; i < segments; i++)
        share[i] /= all;
    if (scanf("%2s", magic) != 1 || strcmp(magic, "P6") != 0)
        return 2;
    int width = number(), height = number();
    if (number() != 255 || width < 1 || height < 1)
        return 2;
    getchar();
    unsigned char *row = malloc((size_t)width * 3);
    struct run *runs = malloc((size_t)width * sizeof *runs);
    if (row == NULL || runs == NULL)
        return 2;
    for (int y = 0; y < height; y++) {
        if (fread(row, 3, (size_t)width, stdin) != (size_t)width)
            return 2;
        int count = runs_of(row, width, runs);
        for (int first = 0; first + segments <= count; first++)
            if (fits(runs + first, count - first, share, segments, least)) {
                printf("row %d:", y);
                for (int i = 0; i < segments; i++)
                    printf(" %d-%d", runs[first + i].from, runs[first + i].to);
                printf(" of %d\n", width);
                return 0;
            }
    }
    return 1;
}
