/*
 * An example host: checks a recipe, then runs its function 0 for all pixels of a row in one call.
 *
 *     host [-p PROFILE] MODULE PIXEL...
 *
 * Function 0 takes three ints, a pixel, a black point and a gain, and returns an int, as samples/parameters.lsk
 * does. A recipe of edition 4 finds a heap of 64 cells, for a curve as a structure say.
 *
 * PROFILE is the number of the scan's profile, 0 where none is named. A recipe of edition 4 may be made for one
 * profile; on a scan of another it stops with 17. A recipe that is for any profile runs on every scan.
 *
 * The host prints the row that comes out; or it stops with the number, which is also its exit status, and where the
 * recipe stopped at a pixel it says at which, counted from 0.
 */
#include <stdio.h>
#include <stdlib.h>
#include <string.h>

#include "limpetskein.h"

enum { PARAMETERS = 3, PIXELS = 4096, SLOTS = 64, CELLS = 64, ALLOWANCE = 10000, BLACK = 16, GAIN = 2, FAILED = 1000 };

static uint8_t module[LIMPETSKEIN_LONGEST_MODULE + 1];
static uint8_t room[LIMPETSKEIN_MOST_LABELS * LIMPETSKEIN_ROOM_PER_LABEL];
static uint8_t arg_payloads[8 * PARAMETERS * PIXELS];
static uint8_t values[8 * PIXELS];
static uint8_t payloads[8 * SLOTS];
static uint8_t types[SLOTS];
static uint8_t heap[LIMPETSKEIN_CELL * CELLS];
static uint8_t blocks[LIMPETSKEIN_BLOCK * CELLS];

static void put_int(uint8_t *payload, uint32_t value)
{
    for (int i = 0; i < 8; i++)
        payload[i] = i < 4 ? (uint8_t)(value >> (8 * i)) : 0;
}

static uint32_t get_int(const uint8_t *payload)
{
    uint32_t value = 0;
    for (int i = 3; i >= 0; i--)
        value = value << 8 | payload[i];
    return value;
}

/* One byte past the longest module is read, so that a longer file is refused. */
static int read_module(const char *name, size_t *length)
{
    FILE *file = fopen(name, "rb");
    if (file == NULL)
        return 0;
    *length = fread(module, 1, sizeof module, file);
    int is_read = !ferror(file);
    fclose(file);
    return is_read;
}

static void put_pixel(size_t i, uint32_t pixel)
{
    uint8_t *row = arg_payloads + 8 * PARAMETERS * i;
    put_int(row, pixel);
    put_int(row + 8, BLACK);
    put_int(row + 16, GAIN);
}

/*
 * Answers 0 with the values of so many pixels, or the number; *done is how many pixels finished. Every pixel has the
 * function's type of result, so the slot that the last one left tells it.
 */
static uint32_t run_row(size_t length, uint32_t profile, size_t pixels, uint64_t *done)
{
    struct limpetskein_call call = {
        .module = module,
        .module_len = length,
        .function = 0,
        .arg_payloads = arg_payloads,
        .arg_payloads_len = 8 * PARAMETERS * pixels,
        .profile = profile,
        .allowance = ALLOWANCE,
        .payloads = payloads,
        .payloads_len = sizeof payloads,
        .types = types,
        .types_len = sizeof types,
        .heap = heap,
        .heap_len = sizeof heap,
        .blocks = blocks,
        .blocks_len = sizeof blocks,
        .out = values,
        .out_len = 8 * pixels,
    };
    uint32_t answer = limpetskein_call_map(&call);
    *done = call.rows;
    if (answer == LIMPETSKEIN_DONE && pixels > 0 && types[0] != LIMPETSKEIN_INT)
        return FAILED;
    return answer;
}

static void print_row(size_t pixels)
{
    for (size_t i = 0; i < pixels; i++)
        printf(i + 1 < pixels ? "%lu " : "%lu\n", (unsigned long)get_int(values + 8 * i));
}

/* A recipe that was refused stopped at no pixel. */
static void print_stop(uint32_t answer, uint64_t done)
{
    printf("stopped with %lu", (unsigned long)answer);
    if (answer == LIMPETSKEIN_ALLOWANCE_USED_UP || (answer >= LIMPETSKEIN_STACK_OVERFLOW && answer != FAILED))
        printf(" at pixel %lu", (unsigned long)done);
    printf("\n");
}

int main(int argc, char **argv)
{
    size_t length = 0, pixels = 0;
    uint32_t profile = 0, body = 0;
    uint64_t done = 0;
    if (argc > 2 && strcmp(argv[1], "-p") == 0) {
        profile = (uint32_t)strtoul(argv[2], NULL, 10);
        argc -= 2;
        argv += 2;
    }
    if (argc < 2 || argc > 2 + PIXELS || !read_module(argv[1], &length)) {
        fprintf(stderr, "usage: host [-p PROFILE] MODULE PIXEL...\n");
        return EXIT_FAILURE;
    }
    for (; argv[2 + pixels] != NULL; pixels++)
        put_pixel(pixels, (uint32_t)strtoul(argv[2 + pixels], NULL, 10));
    uint32_t answer = limpetskein_check(module, length, room, sizeof room, &body);
    if (answer == LIMPETSKEIN_NO_TYPING)
        printf("body %lu has no typing\n", (unsigned long)body);
    if (answer == LIMPETSKEIN_DONE)
        answer = run_row(length, profile, pixels, &done);
    if (answer == LIMPETSKEIN_DONE)
        print_row(pixels);
    else
        print_stop(answer, done);
    return (int)answer;
}
