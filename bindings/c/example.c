/* The region of a model, and a removal: example MODEL.hex */
#include <inttypes.h>
#include <stdio.h>

#include "zimbralosa.h"

/* As the program lends them. */
enum { ROWS = 900, RECORDS = 256, BUDGET = 100000, MOST_INPUT = 65536 };

/* One byte more than is allowed, so that a longer file is refused and not cut. */
static uint8_t input[MOST_INPUT + 1];
static int32_t first[ZIMBRALOSA_LEAST], second[ZIMBRALOSA_LEAST], result[ZIMBRALOSA_LEAST];
static int32_t rows[ROWS * ZIMBRALOSA_ROW];
static struct zimbralosa_record roll[RECORDS];

static void print_row(const int32_t *row)
{
    static const char *const names[16] = {"",   "p1", "p2", "p3", "p4", "p5", "p6", "p7",
                                          "p8", "x1", "x2", "x3", "x4", "x5", "x6", "d"};
    printf(" ");
    for (int entry = 1; entry < 16; entry++) {
        if (row[entry] != 0)
            printf(" %+" PRId32 " %s", row[entry], names[entry]);
    }
    if (row[0] != 0)
        printf(" %+" PRId32, row[0]);
    printf(" %s 0\n", row[16] == 1 ? "<" : "<=");
}

static void print_rows(const int32_t *store, uint64_t count)
{
    for (uint64_t row = 0; row < count; row++)
        print_row(store + row * ZIMBRALOSA_ROW);
}

static size_t read_input(const char *path)
{
    FILE *file = fopen(path, "rb");
    if (file == NULL)
        return 0;
    size_t length = fread(input, 1, sizeof input, file);
    fclose(file);
    return length;
}

/* x1 - p1 <= 0 and p2 - x1 < 0, without x1: p2 - p1 < 0. */
static void removal(void)
{
    const uint8_t variables[] = {9};
    uint64_t answer[2];
    first[1] = -1;
    first[9] = 1;
    first[ZIMBRALOSA_ROW + 2] = 1;
    first[ZIMBRALOSA_ROW + 9] = -1;
    first[ZIMBRALOSA_ROW + 16] = 1;
    uint8_t outcome = zimbralosa_remove(first, ZIMBRALOSA_LEAST, second, ZIMBRALOSA_LEAST, 2, variables, 1, answer, 2);
    printf("removal: outcome %u, in the second store %" PRIu64 ", rows %" PRIu64 "\n", (unsigned)outcome, answer[0], answer[1]);
    print_rows(answer[0] == 1 ? second : first, answer[1]);
}

int main(int argc, char **argv)
{
    if (argc != 2) {
        fprintf(stderr, "example MODEL.hex\n");
        return 2;
    }
    uint64_t counts[4];
    uint8_t outcome = zimbralosa_region(input, read_input(argv[1]), first, ZIMBRALOSA_LEAST, second, ZIMBRALOSA_LEAST,
                                        rows, ROWS * ZIMBRALOSA_ROW, result, ZIMBRALOSA_LEAST, roll, RECORDS, BUDGET,
                                        counts, 4);
    printf("outcome %u\n", (unsigned)outcome);
    printf("states %" PRIu64 ", new attempts %" PRIu64 ", successors %" PRIu64 ", rows %" PRIu64 "\n",
           counts[0], counts[1], counts[2], counts[3]);
    print_rows(result, counts[3]);
    /* Both work stores are zero again, or were never touched. */
    removal();
    return 0;
}
