/*
 * An example of the needs: asks what stack a module needs, lends a body exactly so many slots, and runs it, which never
 * overflows them; then runs it on one slot less, where it may.
 *
 *     need MODULE [FUNCTION INT..]
 *
 * Without a function the entry is run. A body that needs over 64 frames or over 4,096 slots is not run: no stack is enough.
 * The exit status is 1 where nothing was run, and 3 where the first run ended in 20.
 */
#include <stdio.h>
#include <stdlib.h>

#include "limpetskein.h"

enum { ARGUMENTS = 8, CELLS = 64, ALLOWANCE = 1000000 };

static uint8_t module[LIMPETSKEIN_LONGEST_MODULE + 1];
static uint8_t room[LIMPETSKEIN_MOST_LABELS * LIMPETSKEIN_ROOM_PER_LABEL];
static uint8_t report[LIMPETSKEIN_LONGEST_REPORT];
static uint8_t payloads[8 * LIMPETSKEIN_MOST_SLOTS];
static uint8_t types[LIMPETSKEIN_MOST_SLOTS];
static uint8_t heap[LIMPETSKEIN_CELL * CELLS];
static uint8_t blocks[LIMPETSKEIN_BLOCK * CELLS];
static uint8_t arg_types[ARGUMENTS];
static uint8_t arg_payloads[8 * ARGUMENTS];

static uint32_t word(const uint8_t *at)
{
    return at[0] | (uint32_t)at[1] << 8 | (uint32_t)at[2] << 16 | (uint32_t)at[3] << 24;
}

/* One byte past the longest module is read, so that a longer file is refused. */
static int read_module(const char *name, size_t *length)
{
    FILE *file = fopen(name, "rb");
    if (file == NULL)
        return 0;
    *length = fread(module, 1, sizeof module, file);
    int is_read = !ferror(file);
    fclose(file);
    return is_read;
}

static void put_argument(int i, uint32_t value)
{
    arg_types[i] = LIMPETSKEIN_INT;
    for (int byte = 0; byte < 4; byte++)
        arg_payloads[8 * i + byte] = (uint8_t)(value >> (8 * byte));
}

/* A run on so many slots, and no more. */
static uint32_t run(size_t length, uint32_t body, size_t arguments, uint32_t slots)
{
    uint64_t steps = 0, height = 0;
    uint32_t answer = limpetskein_run(module, length, body, arg_types, arguments, arg_payloads, 8 * arguments, 0, ALLOWANCE,
                                      payloads, 8 * (size_t)slots, types, slots, heap, sizeof heap, blocks, sizeof blocks,
                                      &steps, &height);
    printf("on %lu slots: %lu\n", (unsigned long)slots, (unsigned long)answer);
    return answer;
}

static void say_refused(uint32_t answer, uint32_t body)
{
    printf("refused: %lu", (unsigned long)answer);
    if (answer == LIMPETSKEIN_NO_TYPING || answer == LIMPETSKEIN_CALLS_LOOP)
        printf(body == LIMPETSKEIN_ENTRY ? " entry" : " function %lu", (unsigned long)body);
    putchar('\n');
}

/* Runs a body on as many slots as it needs, then on one less. */
static int try_need(size_t length, uint32_t body, size_t arguments, const uint8_t *need)
{
    uint32_t slots = word(need), frames = word(need + 4);
    printf("need %lu, frames %lu\n", (unsigned long)slots, (unsigned long)frames);
    if (frames > LIMPETSKEIN_MOST_FRAMES || slots > LIMPETSKEIN_MOST_SLOTS) {
        printf("no stack is enough\n");
        return 1;
    }
    uint32_t answer = run(length, body, arguments, slots);
    if (slots > 0)
        run(length, body, arguments, slots - 1);
    return answer == LIMPETSKEIN_STACK_OVERFLOW ? 3 : 0;
}

int main(int argc, char **argv)
{
    size_t length = 0, arguments = argc > 3 ? (size_t)argc - 3 : 0;
    uint64_t written = 0;
    uint32_t body = 0;
    if (argc < 2 || arguments > ARGUMENTS || !read_module(argv[1], &length)) {
        fprintf(stderr, "usage: need MODULE [FUNCTION INT..]\n");
        return 2;
    }
    uint32_t answer = limpetskein_need(module, length, room, sizeof room, report, sizeof report, &body, &written);
    if (answer != LIMPETSKEIN_DONE) {
        say_refused(answer, body);
        return 1;
    }
    uint32_t started = argc > 2 ? (uint32_t)strtoul(argv[2], NULL, 10) : LIMPETSKEIN_ENTRY;
    /* the entry's need comes first, then that of function 0 */
    uint64_t at = LIMPETSKEIN_NEED_PER_BODY * (uint64_t)(uint32_t)(started + 1);
    if (at >= written) {
        fprintf(stderr, "need: no function %s\n", argv[2]);
        return 1;
    }
    for (size_t i = 0; i < arguments; i++)
        put_argument((int)i, (uint32_t)strtoul(argv[3 + i], NULL, 10));
    return try_need(length, started, arguments, report + at);
}
