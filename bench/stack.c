/* Bytes of stack that one call of the library takes, return address included: stack MODEL.hex ..
 * A thread paints its unused stack, calls, and the paint that is gone is counted. */
#include <pthread.h>
#include <stdio.h>
#include <string.h>

#include "zimbralosa.h"

enum { STACK = 1 << 20, ROWS = 900, RECORDS = 256, BUDGET = 100000, PAINT = 0xA5, MARGIN = 4096 };

static _Alignas(4096) uint8_t stack[STACK];
static uint8_t input[65536 + 1];
static size_t input_length;
static int32_t first[ZIMBRALOSA_LEAST], second[ZIMBRALOSA_LEAST], result[ZIMBRALOSA_LEAST];
static int32_t rows[ROWS * ZIMBRALOSA_ROW];
static struct zimbralosa_record roll[RECORDS];
static uint64_t counts[4];
static uint8_t *before;
static uint8_t outcome;

static void *call(void *nothing)
{
    uint8_t *here;
    /* The margin lies below this frame; a call reaches far beyond it. */
    __asm__ volatile("mov %%rsp, %0" : "=r"(here));
    memset(stack, PAINT, (size_t)(here - stack) - MARGIN);
    outcome = zimbralosa_region(input, input_length, first, ZIMBRALOSA_LEAST, second, ZIMBRALOSA_LEAST, rows,
                                ROWS * ZIMBRALOSA_ROW, result, ZIMBRALOSA_LEAST, roll, RECORDS, BUDGET, counts, 4);
    before = here;
    return nothing;
}

static int measure(const char *path)
{
    FILE *file = fopen(path, "rb");
    pthread_attr_t attributes;
    pthread_t thread;
    size_t untouched = 0;
    if (file == NULL)
        return 1;
    input_length = fread(input, 1, sizeof input, file);
    fclose(file);
    if (pthread_attr_init(&attributes) != 0 || pthread_attr_setstack(&attributes, stack, STACK) != 0 ||
        pthread_create(&thread, &attributes, call, NULL) != 0 || pthread_join(thread, NULL) != 0)
        return 1;
    while (untouched < STACK && stack[untouched] == PAINT)
        untouched++;
    printf("%s,%u,%zu\n", path, (unsigned)outcome, (size_t)(before - (stack + untouched)));
    return 0;
}

int main(int argc, char **argv)
{
    int failed = 0;
    printf("model,outcome,bytes\n");
    for (int model = 1; model < argc; model++)
        failed |= measure(argv[model]);
    return failed;
}
