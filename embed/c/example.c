/* Lists a year: reads records from standard input, or joins those of two files, terms and hours; filters them and
 * prints the listing; then, for a year that is open, what the first course's terms lead to. An example of embedding
 * the library in C. */
#include <stdio.h>
#include <stdlib.h>

#include "turfsteeple.h"

static unsigned two_bytes(const uint8_t *at) { return at[0] * 256u + at[1]; }

static void print_record(const uint8_t *record) {
    if (record[0] == 'T') {
        printf("T %u %u %u %u %u\n", record[1], two_bytes(record + 2), two_bytes(record + 4), two_bytes(record + 6),
               two_bytes(record + 8));
        return;
    }
    printf("C %u %u ", record[1], two_bytes(record + 2));
    const char *separator = "";
    for (unsigned term = 0; term < 16; term++)
        if (two_bytes(record + 4) >> term & 1) {
            printf("%s%u", separator, term);
            separator = ",";
        }
    printf("\n");
}

/* The answer of a filtering, or of a joining that is refused, in one line. */
static void print_answer(uint64_t answer) {
    static const char *const in_list[] = {
        "", [TURFSTEEPLE_IN_TERMS] = " in the terms' list", [TURFSTEEPLE_IN_HOURS] = " in the hours list"};
    unsigned number = turfsteeple_number(answer), detail = turfsteeple_detail(answer);
    unsigned long long value = turfsteeple_value(answer);
    if (number == 13)
        printf("NOPLAN %u %llu\n", detail, value);
    else if (number != 0)
        printf("REFUSED %u %llu%s\n", number, value, in_list[detail]);
    else
        printf("%s %llu\n", detail == TURFSTEEPLE_SETTLED ? "SETTLED" : "OPEN", value);
}

static void list_year(const uint8_t *list, size_t length) {
    uint8_t filtered[TURFSTEEPLE_LONGEST], placed[TURFSTEEPLE_LONGEST], again[TURFSTEEPLE_LONGEST];
    uint64_t answer = turfsteeple_filter(list, length, filtered, sizeof filtered);
    print_answer(answer);
    if (turfsteeple_number(answer) != 0)
        return;
    for (size_t at = 0; at < length; at += TURFSTEEPLE_RECORD)
        print_record(filtered + at);
    if (turfsteeple_detail(answer) == TURFSTEEPLE_SETTLED) {
        printf("imbalance %llu\n", (unsigned long long)turfsteeple_value(turfsteeple_imbalance(filtered, length)));
        return;
    }
    for (uint32_t term = 0; term < 16; term++)
        if (turfsteeple_narrow(filtered, length, TURFSTEEPLE_PLACE, 0, term, placed, sizeof placed) == 0) {
            printf("with course 0 in term %u: ", (unsigned)term);
            print_answer(turfsteeple_filter(placed, length, again, sizeof again));
        }
}

/* Reads the front of a file, as far as the buffer goes. */
static size_t read_file(const char *name, uint8_t *buffer, size_t room) {
    FILE *file = fopen(name, "rb");
    size_t length = file ? fread(buffer, 1, room, file) : 0;
    if (!file || ferror(file)) {
        perror(name);
        exit(EXIT_FAILURE);
    }
    fclose(file);
    return length;
}

/* Lists the year that two files give. Each buffer has a byte more than the longest list, so that a longer one is
 * refused. */
static void list_joined(const char *terms_name, const char *hours_name) {
    uint8_t terms[TURFSTEEPLE_LONGEST + 1], hours[TURFSTEEPLE_LONGEST_HOURS + 1], list[TURFSTEEPLE_LONGEST];
    size_t terms_length = read_file(terms_name, terms, sizeof terms);
    size_t hours_length = read_file(hours_name, hours, sizeof hours);
    uint64_t answer = turfsteeple_join(terms, terms_length, hours, hours_length, list, sizeof list);
    if (answer == 0)
        list_year(list, terms_length + hours_length);
    else
        print_answer(answer);
}

int main(int count, char **arguments) {
    if (count == 3) {
        list_joined(arguments[1], arguments[2]);
        return 0;
    }
    if (count != 1) {
        fprintf(stderr, "usage: %s [TERMS HOURS]\n", arguments[0]);
        return EXIT_FAILURE;
    }
    uint8_t list[TURFSTEEPLE_LONGEST + 1];
    size_t length = fread(list, 1, sizeof list, stdin);
    list_year(list, length);
    return 0;
}
