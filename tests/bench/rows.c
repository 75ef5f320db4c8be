#include "rows.h"

#include "limpetskein.h"

// The first formula line, and the longest ones.
enum { FIRST_LINE = 54 };
static const double first_line_time = 1000, line_time = 60000;

const Group groups[KINDS] = {
    [RUN] = {"runs", "a step", 1.25, 1.3, LIMPETSKEIN_DONE},
    [RECIPE] = {"recipes", "a call", 1.3, 0, LIMPETSKEIN_DONE},
    [MAP] = {"a row of 4,096 pixels", "a pixel", 0.8, 0, LIMPETSKEIN_DONE},
    [HEAP] = {"heap", "each", 3, 1.05, LIMPETSKEIN_DONE},
    [CHECK] = {"checks", "a call", 1.5, 0, LIMPETSKEIN_DONE},
    [OPENING] = {"openings", "a call", 1.3, 0, LIMPETSKEIN_NO_SUCH_FUNCTION},
    [WRITE] = {"writes", "a call", 1.5, 0, LIMPETSKEIN_DONE},
    [UP] = {"conversions to edition 4", "a call", 1.5, 0, LIMPETSKEIN_DONE},
    [DOWN] = {"conversions to edition 3", "a call", 1.5, 0, LIMPETSKEIN_DONE},
    [FORMULA] = {"formula lines", "a call", 2, 0, LIMPETSKEIN_DONE},
    [REFUSED] = {"lines not in the grammar", "a call", 2, 0, LIMPETSKEIN_NOT_IN_GRAMMAR},
};

// W1's check judges three instructions: what it costs is opening the file, clearing tables and calls.
#define SHORTEST_LIMIT 2.25

// Two thirds of a run of 8 steps, and all of its opening, are the header's tests, the records and the call itself, which the C does in one
// function.
#define SHORT_LIMIT 1.35
#define SHORT_OPENING_LIMIT 1.4

// What a row of pixels saves of a recipe of 250 steps is its opening, a tenth of it: the rest is the machine's steps, on both sides.
#define LONG_PIXEL_LIMIT 1.05

// In edition 1 the library puts the code in keys before a run or a check, in an array that is cleared first: 512 bytes
// for short code. The C translates in the pass that tests the code, and clears nothing.
#define OLD_RECIPE_LIMIT 1.75
#define OLD_CHECK_LIMIT 2

// A run with as many cells as the small program lends.
#define ON_HEAP .kind = HEAP, .slots = 35, .cells = 1024

// The same with slots for managed pointers.
#define ON_MANAGED_HEAP .kind = HEAP, .slots = 4096, .cells = 1024

// A formula line, by its name in lines.c.
#define LINE(name, its_kind) {name, name, .kind = its_kind}

const Row rows[ROWS] = {
    {"counting loop on int", "loop-int", .kind = RUN, .slots = 4096},
    {"the same in edition 1", "loop-int-edition-1", .kind = RUN, .slots = 4096, .again = 1},
    {"counting loop on long", "loop-long", .kind = RUN, .slots = 4096},
    {"recursive calls", "recursion", .kind = RUN, .slots = 4096},
    {"double curve", "curve", .kind = RUN, .slots = 4096},
    {"pointers", "pointers", .kind = RUN, .slots = 4096},
    {"calls with pointer parameters", "pointer-calls", .kind = RUN, .slots = 4096},
    {"8 steps", "recipe-8", .kind = RECIPE, .slots = 35, .limit = SHORT_LIMIT},
    {"40 steps", "recipe-40", .kind = RECIPE, .slots = 35},
    {"the same in edition 1", "recipe-40-edition-1", .kind = RECIPE, .slots = 35, .again = 1, .limit = OLD_RECIPE_LIMIT},
    {"250 steps", "recipe-250", .kind = RECIPE, .slots = 35},
    {"8 steps on 4,096 slots", "recipe-8", .kind = RECIPE, .slots = 4096},
    {"8 steps and 1,024 cells", "recipe-8", .kind = RECIPE, .slots = 35, .cells = 1024},
    {"8 steps", "recipe-8", .kind = MAP, .slots = 35},
    {"40 steps", "recipe-40", .kind = MAP, .slots = 35},
    {"the same in edition 1", "recipe-40-edition-1", .kind = MAP, .slots = 35, .again = 1},
    {"250 steps", "recipe-250", .kind = MAP, .slots = 35, .limit = LONG_PIXEL_LIMIT},
    {"8 steps on 4,096 slots", "recipe-8", .kind = MAP, .slots = 4096},
    {"8 steps and 1,024 cells", "recipe-8", .kind = MAP, .slots = 35, .cells = 1024},
    {"a pair of new and delete, no block alive", "pairs", ON_HEAP, .pairs = 200000},
    {"a pair, 100 blocks alive", "pairs-100", ON_HEAP, .again = 1, .pairs = 200000},
    {"a pair, 1,000 blocks alive", "pairs-1000", ON_HEAP, .again = 1, .pairs = 200000},
    {"a pair, 1,000 blocks alive and a short hole", "pairs-hole", ON_HEAP, .pairs = 2000},
    {"a step of a curve in a structure", "heap-curve", ON_HEAP},
    {"a gcnew, no managed block alive", "gcnew", ON_MANAGED_HEAP, .pairs = 200000},
    {"a gcnew, 100 managed blocks alive", "gcnew-100", ON_MANAGED_HEAP, .pairs = 20000},
    {"a gcnew, 1,000 managed blocks alive", "gcnew-1000", ON_MANAGED_HEAP, .pairs = 5000},
    {"a gcnew, each 100th frees half of 200", "gcnew-half-200", ON_MANAGED_HEAP, .pairs = 20000},
    {"a gcnew, each 500th frees half of 1,000", "gcnew-half-1000", ON_MANAGED_HEAP, .pairs = 5000},
    {"two gcnew, of which one must pack", "gcnew-pack", ON_MANAGED_HEAP, .pairs = 5000},
    {"W1", "w1", .kind = CHECK, .limit = SHORTEST_LIMIT},
    {"the recipe of 40 steps", "recipe-40", .kind = CHECK},
    {"the same in edition 1", "recipe-40-edition-1", .kind = CHECK, .limit = OLD_CHECK_LIMIT, .again = 1},
    {"all counts at their limits", "full", .kind = CHECK},
    {"one-byte instructions, 256 labels on the last", "last-labels", .kind = CHECK},
    {"the same without labels", "no-labels", .kind = CHECK},
    {"backward chain of 256 labels", "chain", .kind = CHECK},
    {"2,679 joins", "joins", .kind = CHECK},
    {"the recipe of 8 steps", "recipe-8", .kind = OPENING, .limit = SHORT_OPENING_LIMIT},
    {"the recipe of 40 steps", "recipe-40", .kind = OPENING},
    {"the same in edition 1", "recipe-40-edition-1", .kind = OPENING, .again = 1},
    {"all counts at their limits", "full", .kind = OPENING},
    {"one-byte instructions, 256 labels on the last", "last-labels", .kind = OPENING},
    {"the same without labels", "no-labels", .kind = OPENING},
    {"the recipe of 40 steps", "recipe-40", .kind = WRITE},
    {"all counts at their limits", "full", .kind = WRITE},
    {"the recipe of 8 steps", "recipe-8", .kind = UP},
    {"the recipe of 40 steps", "recipe-40", .kind = UP},
    {"the recipe of 250 steps", "recipe-250", .kind = UP},
    {"all counts at their limits", "full", .kind = UP},
    {"the recipe of 8 steps", "recipe-8-edition-4", .kind = DOWN},
    {"the recipe of 40 steps", "recipe-40-edition-4", .kind = DOWN},
    {"the recipe of 250 steps", "recipe-250-edition-4", .kind = DOWN},
    {"all counts at their limits", "full-edition-4", .kind = DOWN},
    LINE("(r*3+g)/4", FORMULA),
    LINE("60 bytes", FORMULA),
    LINE("256 bytes, 16 deep", FORMULA),
    LINE("256 bytes, 64 brackets", FORMULA),
    LINE("255 minuses and a name", FORMULA),
    LINE("128 numbers and their signs", FORMULA),
    LINE("128 names and their signs", FORMULA),
    LINE("a number with 246 leading zeros", FORMULA),
    LINE("256 opening brackets", REFUSED),
};

double limit_of(const Row *row) { return row->limit > 0 ? row->limit : groups[row->kind].limit; }

int has_line(const Row *row) { return row->kind == FORMULA || row->kind == REFUSED; }

int converts(const Row *row) { return row->kind == UP || row->kind == DOWN; }

double most_time(const Row *row) { return row == &rows[FIRST_LINE] ? first_line_time : line_time; }
