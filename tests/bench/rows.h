// The rows of the benchmark.
#ifndef ROWS_H
#define ROWS_H

#include <stdint.h>

typedef enum { RUN, RECIPE, MAP, HEAP, CHECK, OPENING, WRITE, UP, DOWN, FORMULA, REFUSED, KINDS } Kind;

// What the rows of a kind have in common. limit: the most machine instructions, as a ratio to C. again_limit: the most
// of a row that is the one before it again, as a ratio to that row; 0 where this has no limit.
typedef struct {
    const char *name, *unit;
    double limit, again_limit;
    uint32_t answer;
} Group;

// A row: its module, or the name of its line; the slots that are lent; a limit of its own, or 0. again: it is the row
// before it in edition 1, the same program with the same instructions; on a heap, with more blocks. cells: those that
// are lent. pairs: of new and delete, or rounds with gcnew, in a call; 0 where something else is measured.
typedef struct {
    const char *name, *module;
    Kind kind;
    uint32_t slots;
    double limit;
    int again;
    uint32_t cells, pairs;
} Row;

enum { ROWS = 63 };

// The pixels of a row that is mapped.
enum { PIXELS = 4096 };

extern const Group groups[KINDS];
extern const Row rows[ROWS];

// A row's limit: its own, or its kind's.
double limit_of(const Row *row);

// Does it compile a formula line?
int has_line(const Row *row);

// Does it convert a module, from edition 3 to 4 (UP) or from 4 to 3 (DOWN)?
int converts(const Row *row);

// The most nanoseconds that a formula line may take.
double most_time(const Row *row);

#endif
