/* Counts series by the segments of their lines, through the C entry: how often chance draws a step.
 *
 *     counts MINUTES TOP SMOOTHING...      series of so many minutes, with samples from 0 to TOP
 *
 * prints a table with a line for each smoothing: how many of all series have a line of 1 segment, of 2, and so on; or "refused NUMBER PLACE". */
#include <errno.h>
#include <inttypes.h>
#include <stdio.h>
#include <stdlib.h>

#include <dawhikura.h>

/* No series with more minutes are counted. */
enum { MINUTES = 6 };

/* the number that an argument is, or the end of the program */
static uint64_t number(const char *argument, uint64_t most)
{
    char *rest;
    errno = 0;
    uint64_t x = strtoull(argument, &rest, 10);
    if (*argument < '0' || *argument > '9' || *rest || errno || x > most) {
        fprintf(stderr, "counts: %s is not a whole number from 0 to %" PRIu64 "\n", argument, most);
        exit(2);
    }
    return x;
}

static void print_columns(int64_t minutes)
{
    printf("smoothing");
    for (int64_t m = 1; m <= minutes; m++)
        printf("%9" PRId64, m);
    printf("\n");
}

int main(int argc, char **argv)
{
    uint64_t counts[MINUTES];
    if (argc < 4) {
        fprintf(stderr, "usage: counts MINUTES TOP SMOOTHING...\n");
        return 2;
    }
    size_t minutes = number(argv[1], SIZE_MAX);
    uint32_t top = (uint32_t)number(argv[2], UINT32_MAX);
    for (int i = 3; i < argc; i++)
        number(argv[i], UINT64_MAX); /* so that none is wrong below a part of the table */
    for (int i = 3; i < argc; i++) {
        uint64_t smoothing = number(argv[i], UINT64_MAX);
        int64_t r = dawhikura_step_counts(minutes, top, smoothing, counts, MINUTES);
        if (r < 0) {
            printf("refused %" PRId64 " %" PRId64 "\n", -r % 256, -r / 256);
            return 1;
        }
        if (i == 3)
            print_columns(r);
        printf("%9" PRIu64, smoothing);
        for (int64_t m = 1; m <= r; m++)
            printf("%9" PRIu64, counts[m - 1]);
        printf("\n");
    }
    return 0;
}
