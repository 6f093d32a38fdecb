/* Filters each list of a file once under callgrind, with a dump of what was counted inside the call. The call is the
 * library's, or another with the same parameters that is named in its place (-DFILTER=..). */
#include <stdio.h>
#include <valgrind/callgrind.h>

#include "../embed/c/turfsteeple.h"

#ifdef FILTER
uint64_t FILTER(const uint8_t *list, size_t list_length, uint8_t *out, size_t out_length);
#else
#define FILTER turfsteeple_filter
#endif

static uint8_t list[1 << 16], out[TURFSTEEPLE_LONGEST];

static __attribute__((noinline)) void filter_once(size_t bytes) {
    CALLGRIND_ZERO_STATS;
    FILTER(list, bytes, out, sizeof out);
    CALLGRIND_DUMP_STATS;
}

int main(int argc, char **argv) {
    FILE *file = argc == 2 ? fopen(argv[1], "rb") : NULL;
    int high, low;
    if (file == NULL)
        return 1;
    while ((high = fgetc(file)) != EOF && (low = fgetc(file)) != EOF) {
        size_t bytes = (size_t)high * 256 + (size_t)low;
        if (fread(list, 1, bytes, file) != bytes)
            return 1;
        filter_once(bytes);
    }
    fclose(file);
    return 0;
}
