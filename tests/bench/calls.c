#include "calls.h"

#include <stdio.h>
#include <stdlib.h>
#include <string.h>
#include <time.h>

const Side library = SIDE(limpetskein, limpetskein_map);

static void load_module(const char *directory, const char *name, File *module) {
    char path[1000];
    snprintf(path, sizeof path, "%s/%s.lsk", directory, name);
    FILE *file = fopen(path, "rb");
    if (file == NULL) {
        perror(path);
        exit(2);
    }
    module->length = fread(module->file, 1, sizeof module->file, file);
    fclose(file);
}

void load(const char *directory, const Row *row, File *file) {
    if (has_line(row))
        file->length = spell(line_of(row->module), file->file);
    else
        load_module(directory, row->module, file);
}

const char *called(const Side *side, const Row *row) {
    if (has_line(row))
        return side->formula_name;
    if (converts(row))
        return row->kind == UP ? side->up_name : side->down_name;
    if (row->kind == MAP && side->map != NULL)
        return side->map_name;
    return row->kind == CHECK ? side->check_name : row->kind == WRITE ? side->write_name : side->run_name;
}

void lend(Lent *lent) { memset(lent, 0xA5, sizeof *lent); }

// A run on the row's slots and cells, of a scan of profile 0. Where it has no cells, no heap is lent.
static void run(const Side *side, const Row *row, const File *module, uint32_t function, const uint8_t *types,
                const uint8_t *payloads, uint32_t arguments, uint64_t allowance, Lent *lent) {
    lent->answers |= side->run(module->file, module->length, function, types, arguments, payloads, 8 * arguments, 0,
                               allowance, lent->payloads + GUARD, 8 * row->slots, lent->types + GUARD, row->slots,
                               row->cells ? lent->heap + GUARD : NULL, LIMPETSKEIN_CELL * row->cells,
                               row->cells ? lent->blocks + GUARD : NULL, LIMPETSKEIN_BLOCK * row->cells, &lent->steps,
                               &lent->height);
    lent->all_steps += lent->steps;
}

// A pixel's channels, three ints: the arguments of a recipe's function 0.
enum { CHANNELS = 3, PIXEL = 8 * CHANNELS };

static uint32_t next(uint32_t random) { return random * 1664525u + 1013904223u; }

static void put_pixel(uint8_t *pixel, uint32_t random) {
    memset(pixel, 0, PIXEL);
    for (int i = 0; i < CHANNELS; i++)
        pixel[8 * i] = random >> (24 - 8 * i);
}

static void run_pixel(const Side *side, const Row *row, const File *module, const uint8_t *pixel, uint64_t allowance,
                      Lent *lent) {
    static const uint8_t types[CHANNELS] = {LIMPETSKEIN_INT, LIMPETSKEIN_INT, LIMPETSKEIN_INT};
    run(side, row, module, 0, types, pixel, CHANNELS, allowance, lent);
}

static void run_recipe(const Side *side, const Row *row, const File *module, uint64_t allowance, uint32_t random,
                       Lent *lent) {
    uint8_t pixel[PIXEL];
    put_pixel(pixel, random);
    run_pixel(side, row, module, pixel, allowance, lent);
    lent->all_values += lent->payloads[GUARD] | lent->payloads[GUARD + 1] << 8;
}

// The row's pixels, made once a seed: making them is no part of what is measured.
static const uint8_t *pixels(uint32_t seed) {
    static uint8_t made[PIXELS * PIXEL];
    static uint32_t made_of;
    static int is_made;
    if (is_made && made_of == seed)
        return made;
    is_made = 1;
    made_of = seed;
    for (int i = 0; i < PIXELS; i++) {
        seed = next(seed);
        put_pixel(made + i * PIXEL, seed);
    }
    return made;
}

// The values go where a module is written.
_Static_assert(8 * PIXELS <= LIMPETSKEIN_LONGEST_MODULE, "the output holds a row's values");

// The whole row in one call, on the row's slots and cells.
static void map(const Side *side, const Row *row, const File *module, const uint8_t *from, uint64_t allowance,
                Lent *lent) {
    lent->answers |= side->map(module->file, module->length, 0, 0, from, PIXELS * PIXEL, lent->out + GUARD, 8 * PIXELS,
                               allowance, lent->payloads + GUARD, 8 * row->slots, lent->types + GUARD, row->slots,
                               row->cells ? lent->heap + GUARD : NULL, LIMPETSKEIN_CELL * row->cells,
                               row->cells ? lent->blocks + GUARD : NULL, LIMPETSKEIN_BLOCK * row->cells, &lent->done);
}

// The same by a run for each pixel, as a host without a map calls it: up to the first that does not finish.
static void run_pixels(const Side *side, const Row *row, const File *module, const uint8_t *from, uint64_t allowance,
                       Lent *lent) {
    for (lent->done = 0; lent->done < PIXELS; lent->done++) {
        run_pixel(side, row, module, from + lent->done * PIXEL, allowance, lent);
        if (lent->answers != LIMPETSKEIN_DONE)
            break;
        memcpy(lent->out + GUARD + 8 * lent->done, lent->payloads + GUARD, 8);
    }
}

static void map_row(const Side *side, const Row *row, const File *module, uint32_t seed, uint64_t allowance,
                    Lent *lent) {
    (side->map != NULL ? map : run_pixels)(side, row, module, pixels(seed), allowance, lent);
    // a map tells none of these
    lent->steps = lent->height = lent->all_steps = 0;
}

uint32_t checksum(const Lent *lent) {
    uint32_t sum = 0;
    for (int i = 0; i < PIXELS; i++) {
        uint32_t value;
        memcpy(&value, lent->out + GUARD + 8 * i, sizeof value);
        sum = 31 * sum + value;
    }
    return sum;
}

// A run of a function that does not exist: 12, after the whole module was read.
static void open_only(const Side *side, const File *module, Lent *lent) {
    lent->answers |= side->run(module->file, module->length, LIMPETSKEIN_ENTRY - 1, NULL, 0, NULL, 0, 0, 1, NULL, 0,
                               NULL, 0, NULL, 0, NULL, 0, &lent->steps, &lent->height);
}

static uint32_t word(const File *module, size_t at) {
    return module->file[at] | module->file[at + 1] << 8 | module->file[at + 2] << 16 |
           (uint32_t)module->file[at + 3] << 24;
}

// The module's own sections, by the offsets in its header.
static void write_again(const Side *side, const File *module, Lent *lent) {
    size_t constants = word(module, 12), functions = word(module, 20), labels = word(module, 28);
    size_t code = word(module, 36), structures = code + word(module, 32);
    const uint8_t *file = module->file;
    lent->answers |= side->write(word(module, 0), file + constants, functions - constants, file + functions,
                                 labels - functions, file + labels, code - labels, file + structures,
                                 module->length - structures, file + code, structures - code, word(module, 40),
                                 lent->out + GUARD, LIMPETSKEIN_LONGEST_MODULE, &lent->written);
}

void compile(const Side *side, const File *line, size_t room, Lent *lent) {
    lent->answers |= side->formula(line->file, line->length, lent->out + GUARD, room, &lent->written);
}

void convert(const Side *side, Kind kind, const File *module, size_t room, Lent *lent) {
    lent->answers |=
        (kind == UP ? side->up : side->down)(module->file, module->length, lent->out + GUARD, room, &lent->written);
}

void turn(const Side *side, const Row *row, const File *file, uint32_t calls, uint64_t allowance, uint32_t seed,
          Lent *lent) {
    lent->answers = 0;
    lent->all_steps = lent->all_values = 0;
    for (uint32_t i = 0; i < calls; i++) {
        switch (row->kind) {
        case RUN:
        case HEAP:
            run(side, row, file, LIMPETSKEIN_ENTRY, NULL, NULL, 0, allowance, lent);
            break;
        case RECIPE:
            seed = next(seed);
            run_recipe(side, row, file, allowance, seed, lent);
            break;
        case MAP:
            map_row(side, row, file, seed, allowance, lent);
            break;
        case CHECK:
            lent->answers |= side->check(file->file, file->length, lent->room + GUARD, ROOM, &lent->body);
            break;
        case WRITE:
            write_again(side, file, lent);
            break;
        case UP:
        case DOWN:
            convert(side, row->kind, file, LIMPETSKEIN_LONGEST_MODULE, lent);
            break;
        case FORMULA:
        case REFUSED:
            compile(side, file, LIMPETSKEIN_LONGEST_FORMULA, lent);
            break;
        default:
            open_only(side, file, lent);
        }
    }
}

double seconds(void) {
    struct timespec t;
    clock_gettime(CLOCK_THREAD_CPUTIME_ID, &t);
    return t.tv_sec + t.tv_nsec * 1e-9;
}
