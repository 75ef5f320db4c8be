// Calls of one side, the library or the C, on a row's module or line and lent memory.
#ifndef CALLS_H
#define CALLS_H

#include <stddef.h>

#include "limpetskein.h"
#include "lines.h"
#include "rows.h"

// The functions, and their names in the program. The C has no map, NULL here: its run is called a pixel at a time.
typedef struct {
    __typeof__(limpetskein_check) *check;
    __typeof__(limpetskein_run) *run;
    __typeof__(limpetskein_write) *write;
    __typeof__(limpetskein_formula) *formula;
    __typeof__(limpetskein_to_edition_4) *up;
    __typeof__(limpetskein_to_edition_3) *down;
    __typeof__(limpetskein_map) *map;
    const char *check_name, *run_name, *write_name, *formula_name, *up_name, *down_name, *map_name;
} Side;

// The functions whose names begin with this, and a map or NULL.
#define SIDE(name, its_map)                                                                                        \
    {                                                                                                              \
        name##_check, name##_run, name##_write, name##_formula, name##_to_edition_4, name##_to_edition_3, its_map, \
            #name "_check", #name "_run", #name "_write", #name "_formula", #name "_to_edition_4",                 \
            #name "_to_edition_3", #its_map                                                                        \
    }

extern const Side library;

// A module, or a formula line.
typedef struct {
    uint8_t file[LIMPETSKEIN_LONGEST_MODULE];
    size_t length;
} File;

// The row's line, or its module in a directory; without it the program ends.
void load(const char *directory, const Row *row, File *file);

enum { GUARD = 64, ROOM = LIMPETSKEIN_MOST_LABELS * LIMPETSKEIN_ROOM_PER_LABEL };

enum { CELLS = LIMPETSKEIN_CELL * LIMPETSKEIN_MOST_CELLS, BLOCKS = LIMPETSKEIN_BLOCK * LIMPETSKEIN_MOST_CELLS };

// All that a side is lent, with bytes around that must stay, and all that it gives. done: the rows of a map.
typedef struct {
    uint8_t payloads[GUARD + 8 * LIMPETSKEIN_MOST_SLOTS + GUARD], types[GUARD + LIMPETSKEIN_MOST_SLOTS + GUARD];
    uint8_t room[GUARD + ROOM + GUARD], out[GUARD + LIMPETSKEIN_LONGEST_MODULE + GUARD];
    uint8_t heap[GUARD + CELLS + GUARD], blocks[GUARD + BLOCKS + GUARD];
    uint64_t steps, height, all_steps, all_values, written, done;
    uint32_t body, answers;
} Lent;

// The name of the function that a row calls.
const char *called(const Side *side, const Row *row);

// The memory as it is before the first call.
void lend(Lent *lent);

// A turn: this many calls, of a map this many times the same row. A recipe gets other arguments in each call, or for
// each pixel of the row, which depend on the seed alone.
void turn(const Side *side, const Row *row, const File *file, uint32_t calls, uint64_t allowance, uint32_t seed,
          Lent *lent);

// Of the values of a row of pixels, for another program to compute from its own: a change of order changes it too.
uint32_t checksum(const Lent *lent);

// A formula line, with so many bytes of output lent.
void compile(const Side *side, const File *line, size_t room, Lent *lent);

// A conversion of this kind, in the same way.
void convert(const Side *side, Kind kind, const File *module, size_t room, Lent *lent);

// The thread's own time.
double seconds(void);

#endif
