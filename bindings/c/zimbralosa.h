/* The library zimbralosa for C programs: x86-64 Linux, the archive target/staticlib/libzimbralosa.a.
 *
 *     cc -I bindings/c program.c target/staticlib/libzimbralosa.a
 *
 * The library lends nothing and keeps nothing: it works in the stores of the caller, has no heap and no state
 * between calls, and needs memcpy, memset and some stack only. Calls on different stores may run at once.
 *
 * Every pointer is followed by the number of things it points to. Stores of one call must not overlap, neither
 * with each other nor with the input, the variables or the counts. A length may be 0; the pointer is then not
 * followed, but it should not be a null pointer.
 *
 * docs/RULES.md has the rules, docs/FORMAT.md the input.
 */
#ifndef ZIMBRALOSA_H
#define ZIMBRALOSA_H

#include <stddef.h>
#include <stdint.h>

#ifdef __cplusplus
extern "C" {
#endif

/* A row in a store: 16 entries, then 1 for < 0 or 0 for <= 0.
 * Entry 0 is the constant, 1 to 8 the parameters, 9 to 14 the clocks, 15 the delay. The row says that the constant
 * plus the sum of entry times variable is <= 0 or < 0. */
#define ZIMBRALOSA_ROW 17
/* The most rows of a set, and the least length of a work store and of the result store. */
#define ZIMBRALOSA_MOST_ROWS 128
#define ZIMBRALOSA_LEAST (ZIMBRALOSA_MOST_ROWS * ZIMBRALOSA_ROW)

/* What both functions return. */
enum zimbralosa_outcome {
    ZIMBRALOSA_FOUND = 0,      /* the region was found; the variables were removed */
    ZIMBRALOSA_NO_FRAME = 1,   /* input above 65,536 bytes, or a line that is no frame */
    ZIMBRALOSA_ORDER = 2,      /* a frame missing, repeated or out of order; a 129th row frame */
    ZIMBRALOSA_HEADER = 3,     /* a header number outside its range */
    ZIMBRALOSA_REFERENCE = 4,  /* a reference number outside its range */
    ZIMBRALOSA_UNDECLARED = 5, /* a location, owner, entry, reset bit or flag that is not declared, a clock in the
                                  initial constraint; in a removal a flag or a variable number */
    ZIMBRALOSA_TERMS = 6,      /* number of terms, a coefficient or the order of entries wrong */
    ZIMBRALOSA_INITIAL = 7,    /* the reference breaks the initial constraint */
    ZIMBRALOSA_START = 8,      /* the reference breaks the invariant of location 0 with all clocks 0 */
    ZIMBRALOSA_TOO_LARGE = 9,  /* an entry beyond 1,000,000,000 on either side */
    ZIMBRALOSA_TOO_MANY = 10,  /* a set would exceed 128 rows */
    ZIMBRALOSA_NO_ROOM = 11,   /* the row store or the roll cannot take the next state */
    ZIMBRALOSA_BUDGET = 12,    /* a successor is due and the budget is used */
    ZIMBRALOSA_SHORT = 13      /* a work store or the result store is below ZIMBRALOSA_LEAST numbers */
};

/* A state on the roll: its location, the place of its first row in the row store, its number of rows. */
struct zimbralosa_record {
    size_t location;
    size_t first;
    size_t rows;
};

/* The region of a model.
 *
 * input    the model in the hex exchange, at most 65,536 bytes (more is outcome 1)
 * first    work store, at least ZIMBRALOSA_LEAST numbers (fewer is outcome 13)
 * second   work store, likewise
 * rows     the rows of the states; any length, also 0. Its whole rows count, length / 17 of them; a store that is
 *          too small for a state is outcome 11
 * result   takes the region, at least ZIMBRALOSA_LEAST numbers (fewer is outcome 13)
 * roll     a record for each state; any length, also 0 (outcome 11)
 * budget   the most successors that may begin, over all attempts; 0 allows the start state alone
 * counts   if it has at least 4 numbers the first four are written, after every outcome:
 *          [0] states kept in the last attempt, [1] new attempts begun, [2] successors begun, [3] rows of the
 *          region. A shorter one is left as it was
 *
 * Afterwards:
 *   0         the region stands in the first counts[3] * 17 numbers of result, the rest of it as it was
 *   9 to 12   result as it was, counts[3] is 0, the other counts as they stood
 *   0, 9-12   first, second and rows: whole rows all zero; every record of roll zero
 *   1-8, 13   all counts 0 and no store changed
 * Numbers beyond a store's last whole row (from length - length % 17 on) are never touched.
 *
 * Returns the outcome. 13 is judged first, then the input, then the search. */
uint8_t zimbralosa_region(const uint8_t *input, size_t input_length,
                          int32_t *first, size_t first_length,
                          int32_t *second, size_t second_length,
                          int32_t *rows, size_t rows_length,
                          int32_t *result, size_t result_length,
                          struct zimbralosa_record *roll, size_t roll_length,
                          size_t budget,
                          uint64_t *counts, size_t counts_length);

/* Removal of variables from the rows at the front of a store.
 *
 * first      at least ZIMBRALOSA_LEAST numbers (fewer is outcome 13); its first `count` rows are given. An entry may
 *            be any number, a flag is 0 or 1 (else outcome 5)
 * second     work store, at least ZIMBRALOSA_LEAST numbers (fewer is outcome 13)
 * count      at most 128 (more is outcome 10)
 * variables  entry numbers 1 to 15 (others are outcome 5), removed in this order; one may be named again
 * answer     if it has at least 2 numbers the first two are written, after every outcome: [0] is 1 if the rows
 *            stand in the second store and 0 if in the first, [1] is their number. A shorter one is left as it was
 *
 * Afterwards:
 *   0             the rows stand at the front of that store, as a set in order; the rest of its whole rows and all
 *                 whole rows of the other store are zero. After an odd number of variables it is the second store
 *   9, 10 from    both stores all zero in their whole rows; answer is 0, 0
 *   a step
 *   5, 10 from    both stores as they were; answer is 0, 0
 *   count, 13
 * Numbers beyond a store's last whole row are never touched.
 *
 * Returns the outcome: 0, 5, 9, 10 or 13. 13 is judged first, then 10 for count, then 5, then the steps; within a
 * step 9, then 10. */
uint8_t zimbralosa_remove(int32_t *first, size_t first_length,
                          int32_t *second, size_t second_length,
                          size_t count,
                          const uint8_t *variables, size_t variables_length,
                          uint64_t *answer, size_t answer_length);

#ifdef __cplusplus
}
#endif

#endif
