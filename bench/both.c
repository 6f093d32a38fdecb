/* Two archives in one run: each list of each file is filtered by both in turn, in batches, and the quickest batch of each
 * counts. A machine whose pace changes from minute to minute slows both alike. Prints a row of Markdown for each file. */
#include <stdio.h>
#include <stdlib.h>
#include <string.h>
#include <time.h>

#include "../embed/c/turfsteeple.h"

typedef uint64_t filtering(const uint8_t *list, size_t list_length, uint8_t *out, size_t out_length);
filtering before_turfsteeple_filter, after_turfsteeple_filter;

enum { BATCHES = 25, LISTS = 1000 };
static const double BATCH = 200000; /* nanoseconds */

static uint8_t list[1 << 16], out[TURFSTEEPLE_LONGEST];

static double now(void) {
    struct timespec at;
    clock_gettime(CLOCK_MONOTONIC, &at);
    return (double)at.tv_sec * 1e9 + (double)at.tv_nsec;
}

static double batch(filtering *filter, size_t bytes, int calls) {
    const double start = now();
    for (int k = 0; k < calls; k++)
        filter(list, bytes, out, sizeof out);
    return (now() - start) / calls;
}

static int by_size(const void *a, const void *b) {
    const double x = *(const double *)a, y = *(const double *)b;
    return x < y ? -1 : x > y;
}

/* Sorts, too, so that the worst is the last. */
static double median(double *of, int count) {
    qsort(of, (size_t)count, sizeof *of, by_size);
    return (of[(count - 1) / 2] + of[count / 2]) / 2;
}

static double smaller(double a, double b) { return a < b ? a : b; }

static int row(const char *path) {
    static double before[LISTS], after[LISTS], ratio[LISTS];
    double all_before = 0, all_after = 0;
    int high, low, count = 0;
    FILE *file = fopen(path, "rb");
    if (file == NULL)
        return 1;
    for (; count < LISTS && (high = fgetc(file)) != EOF && (low = fgetc(file)) != EOF; count++) {
        const size_t bytes = (size_t)high * 256 + (size_t)low;
        if (fread(list, 1, bytes, file) != bytes)
            return 1;
        const int calls = 1 + (int)(BATCH / (batch(before_turfsteeple_filter, bytes, 8) + 1));
        before[count] = after[count] = 1e18;
        for (int k = 0; k < BATCHES; k++) {
            before[count] = smaller(before[count], batch(before_turfsteeple_filter, bytes, calls));
            after[count] = smaller(after[count], batch(after_turfsteeple_filter, bytes, calls));
        }
        ratio[count] = after[count] / before[count];
        all_before += before[count];
        all_after += after[count];
    }
    fclose(file);
    const double b = median(before, count), a = median(after, count), r = median(ratio, count);
    const char *name = strrchr(path, '/');
    printf("| %s | %.2f | %.2f | %.2f | %.2f | %.2f | %.2f |\n", name == NULL ? path : name + 1, b / 1000, a / 1000, a / b, r,
           ratio[count - 1], all_after / all_before);
    return 0;
}

int main(int argc, char **argv) {
    puts("| years | median before, µs | after | ratio | median of the lists' ratios | worst list | ratio of the sums |");
    puts("|---|---|---|---|---|---|---|");
    for (int k = 1; k < argc; k++)
        if (row(argv[k]) != 0)
            return 1;
    return 0;
}
