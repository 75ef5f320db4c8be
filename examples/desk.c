/*
 * An example of the writer: reads a module, changes one constant, writes the module anew and checks it.
 *
 *     desk MODULE CONSTANT VALUE [FILE]
 *
 * CONSTANT is the number of an int constant. The desk prints the new module's length and what the check answers, and keeps
 * the module in FILE; or it stops with the number, which is also its exit status.
 */
#include <stdio.h>
#include <stdlib.h>

#include "limpetskein.h"

enum { FAILED = 1000 };

static uint8_t module[LIMPETSKEIN_LONGEST_MODULE + 1];
static uint8_t saved[LIMPETSKEIN_LONGEST_MODULE];
static uint8_t room[LIMPETSKEIN_MOST_LABELS * LIMPETSKEIN_ROOM_PER_LABEL];

static uint32_t word(size_t at)
{
    uint32_t value = 0;
    for (int i = 3; i >= 0; i--)
        value = value << 8 | module[at + i];
    return value;
}

/* One byte past the longest module is read, so that a longer file is refused. */
static int read_module(const char *name, size_t *length)
{
    FILE *file = fopen(name, "rb");
    if (file == NULL)
        return 0;
    *length = fread(module, 1, sizeof module, file);
    int is_read = !ferror(file);
    fclose(file);
    return is_read;
}

static int keep(const char *name, size_t length)
{
    FILE *file = fopen(name, "wb");
    if (file == NULL)
        return 0;
    int is_kept = fwrite(saved, 1, length, file) == length;
    return fclose(file) == 0 && is_kept;
}

/* Puts a value into an int constant of a module that was checked. */
static int change(uint32_t constant, uint32_t value)
{
    size_t at = word(12) + LIMPETSKEIN_CONSTANT * (size_t)constant;
    if (constant >= word(8) || word(at) != LIMPETSKEIN_INT)
        return 0;
    for (int i = 0; i < 4; i++)
        module[at + 4 + i] = (uint8_t)(value >> (8 * i));
    return 1;
}

/*
 * Writes the module, in its own edition, from its sections, which the header counts. Only edition 4 has structures, and
 * longer records of functions, with a profile each.
 */
static uint32_t write_module(uint64_t *length)
{
    int is_edition_4 = word(0) == 4;
    size_t constants = LIMPETSKEIN_CONSTANT * word(8);
    size_t functions = (is_edition_4 ? LIMPETSKEIN_FUNCTION_4 : LIMPETSKEIN_FUNCTION) * word(16);
    size_t labels = LIMPETSKEIN_LABEL * word(24);
    size_t structures = is_edition_4 ? LIMPETSKEIN_STRUCTURE * word(48) : 0;
    const uint8_t *at = module + word(12), *code = at + constants + functions + labels;
    return limpetskein_write(word(0), at, constants, at + constants, functions, at + constants + functions, labels,
                             code + word(32), structures, code, word(32), word(40), saved, sizeof saved, length);
}

int main(int argc, char **argv)
{
    size_t length = 0;
    uint64_t written = 0;
    uint32_t body = 0;
    if (argc < 4 || !read_module(argv[1], &length)) {
        fprintf(stderr, "usage: desk MODULE CONSTANT VALUE [FILE]\n");
        return EXIT_FAILURE;
    }
    uint32_t answer = limpetskein_check(module, length, room, sizeof room, &body);
    if (answer == LIMPETSKEIN_DONE && !change((uint32_t)strtoul(argv[2], NULL, 10), (uint32_t)strtoul(argv[3], NULL, 10)))
        answer = FAILED;
    if (answer == LIMPETSKEIN_DONE)
        answer = write_module(&written);
    if (answer == LIMPETSKEIN_DONE) {
        answer = limpetskein_check(saved, (size_t)written, room, sizeof room, &body);
        printf("%lu bytes written and checked with %lu\n", (unsigned long)written, (unsigned long)answer);
    }
    if (answer == LIMPETSKEIN_DONE && argc > 4 && !keep(argv[4], (size_t)written))
        answer = FAILED;
    if (answer != LIMPETSKEIN_DONE)
        printf("stopped with %lu\n", (unsigned long)answer);
    return (int)answer;
}
