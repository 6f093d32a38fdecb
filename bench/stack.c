/* The stack that a filtering touches: a thread on a painted stack filters every list of the files named, and the
 * paint that is gone is measured, less what a thread that filters nothing takes. Prints the number of bytes. */
#include <pthread.h>
#include <stdio.h>
#include <stdlib.h>
#include <string.h>

#include "../embed/c/turfsteeple.h"

enum { STACK = 1 << 20, PAINT = 0xA5 };

static uint8_t lists[1 << 20], out[TURFSTEEPLE_LONGEST];
static size_t length;

static void *filter_all(void *filters) {
    if (filters != NULL)
        for (size_t at = 0; at + 2 <= length;) {
            size_t bytes = lists[at] * 256u + lists[at + 1];
            turfsteeple_filter(lists + at + 2, bytes, out, sizeof out);
            at += 2 + bytes;
        }
    return NULL;
}

/* The bytes of a painted stack that a thread touches. */
static size_t touched(uint8_t *stack, void *filters) {
    pthread_t thread;
    pthread_attr_t attributes;
    memset(stack, PAINT, STACK);
    if (pthread_attr_init(&attributes) || pthread_attr_setstack(&attributes, stack, STACK) ||
        pthread_create(&thread, &attributes, filter_all, filters) || pthread_join(thread, NULL))
        exit(1);
    size_t untouched = 0;
    while (untouched < STACK && stack[untouched] == PAINT)
        untouched++;
    return STACK - untouched;
}

int main(int argc, char **argv) {
    uint8_t *stack = aligned_alloc(4096, STACK);
    size_t most = 0;
    if (stack == NULL)
        return 1;
    for (int k = 1; k < argc; k++) {
        FILE *file = fopen(argv[k], "rb");
        if (file == NULL)
            return 1;
        length = fread(lists, 1, sizeof lists, file);
        fclose(file);
        size_t with = touched(stack, stack), without = touched(stack, NULL);
        if (with - without > most)
            most = with - without;
    }
    printf("%zu\n", most);
    return 0;
}
