/* Turfsteeple for C: years of terms and courses, as lists of 16-byte records.
 *
 * A list is read, filtered or narrowed into a buffer that the caller lends, or measured; a list of terms and the
 * registrar's hours list are joined into one. Nothing is kept between calls, no memory is allocated, and every call
 * answers every input; calls from several threads do not disturb each other. No list may overlap the buffer that is
 * lent beside it, and a pointer is never null, not even with a length of 0. Link the archive that tools/archive
 * builds.
 *
 * Answers are packed into one number: number + 256 * detail + 65,536 * value.
 *
 *   number  0 done; 1 to 7 a list is refused at the record whose place in it is the value (from 0); a joining has
 *           the list as the detail
 *           9 the buffer is shorter than the list, or than both lists of a joining together
 *           10 no such course, term or kind of narrowing; 11 a bound outside the sizes; 12 the narrowing would
 *           empty a term list, cross a pair of bounds, or place a course in a term that its list lacks
 *           13 no plan: the detail is the rule, 1 to 12, and the value the round that found it
 *           14 no imbalance: a course has several terms, or the one placing is no plan
 *
 * The first refusal in rising number is the answer; a joining judges the whole list of terms first, then the hours
 * list, then the buffer. Whatever an answer does not name is 0. A call that is refused, or that finds no plan, leaves
 * the lent buffer as it was; one that is done fills as many bytes as the list has, or both lists of a joining
 * together, and touches none behind them.
 */
#ifndef TURFSTEEPLE_H
#define TURFSTEEPLE_H

#include <stddef.h>
#include <stdint.h>

#ifdef __cplusplus
extern "C" {
#endif

enum {
    TURFSTEEPLE_RECORD = 16,          /* bytes of a record */
    TURFSTEEPLE_LONGEST = 1280,       /* bytes of the longest list: 16 terms and 64 courses */
    TURFSTEEPLE_LONGEST_HOURS = 1024, /* bytes of the longest hours list: 64 courses */
};

/* The detail of a filtering that is done. */
enum { TURFSTEEPLE_SETTLED = 1, TURFSTEEPLE_OPEN = 2 };

/* The detail of a joining that is refused by 1 to 7: the list that its value is a place in. */
enum { TURFSTEEPLE_IN_TERMS = 1, TURFSTEEPLE_IN_HOURS = 2 };

/* Kinds of narrowing. Course and term numbers start at 0. */
enum {
    TURFSTEEPLE_PLACE = 0,              /* course a in term b alone */
    TURFSTEEPLE_BAR = 1,                /* course a not in term b */
    TURFSTEEPLE_RAISE_LOW_CREDITS = 2,  /* of term a to b */
    TURFSTEEPLE_LOWER_HIGH_CREDITS = 3, /* of term a to b */
    TURFSTEEPLE_RAISE_LOW_COUNT = 4,    /* of term a to b */
    TURFSTEEPLE_LOWER_HIGH_COUNT = 5,   /* of term a to b */
};

/* Reads the list: 0, or 1 to 7. */
uint64_t turfsteeple_read(const uint8_t *list, size_t list_length);

/* Filters the year of the list; its records go into out. The value is the number of rounds, the detail
 * whether every course has one term now (settled) or some have several (open). */
uint64_t turfsteeple_filter(const uint8_t *list, size_t list_length, uint8_t *out, size_t out_length);

/* Narrows the year of the list; its records go into out. A narrowing does not filter. */
uint64_t turfsteeple_narrow(const uint8_t *list, size_t list_length, uint32_t kind, uint32_t a, uint32_t b,
                            uint8_t *out, size_t out_length);

/* The imbalance of the year as it stands, as the value: the number of terms times the sum of squared term credits, less
 * the square of all credits. That is the sum, over all pairs of terms, of the squared difference of their credits: 0
 * exactly when all terms have equal credits, and at most 61,440,000,000, which 32 bits do not hold. */
uint64_t turfsteeple_imbalance(const uint8_t *list, size_t list_length);

/* Joins a list of terms and an hours list, which may be empty, to a year; its records, terms and then courses, go
 * into out. An hours record is 'H', the course's number, the edition (1 or 2) and a zero byte; then lecture hours,
 * laboratory hours and term list (bit j for term j), each of two bytes, the high one first; then zeros from byte 10.
 * The course's weight is the lecture hours plus half the laboratory hours, rounded down under edition 1 and up under
 * edition 2; one list may hold both.
 *
 * The list of terms is refused as by reading, and by 2 at a record that is no term's, a course's too. The hours list
 * is refused by 1 where it has over 1,024 bytes or no multiple of 16; then, record by record, by 2 for the letter, 3 a
 * number that is not the next, 4 the edition or a weight outside 1 to 1,000, 6 the term list, 7 a byte that must be
 * zero and is not. */
uint64_t turfsteeple_join(const uint8_t *terms, size_t terms_length, const uint8_t *hours, size_t hours_length,
                          uint8_t *out, size_t out_length);

/* The parts of an answer. */
static inline unsigned turfsteeple_number(uint64_t answer) { return (unsigned)(answer & 255); }
static inline unsigned turfsteeple_detail(uint64_t answer) { return (unsigned)(answer >> 8 & 255); }
static inline uint64_t turfsteeple_value(uint64_t answer) { return answer >> 16; }

#ifdef __cplusplus
}
#endif

#endif
