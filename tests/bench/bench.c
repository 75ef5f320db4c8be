// Compares the library and the C of baseline on every row, every formula line and some more conversions, and measures
// them on every row.
//
//     bench MODULES [ROUNDS]           times, the smallest of so many rounds
//     bench MODULES --count            machine instructions by callgrind; 1 if a ratio is over its limit
//     bench MODULES --checksums        the C's values of each row of pixels, for a program that computes them too
//     bench MODULES --turn ROW SIDE    what is counted: a turn of one side
#include <stdio.h>
#include <stdlib.h>
#include <string.h>

#include "baseline/baseline.h"
#include "calls.h"

// Allowances: for the whole of a run, and for as many steps of it as are counted.
static const uint64_t whole = 1ull << 40, counted_steps = 1000000;

enum { SEED = 12345, ROUNDS = 30 };

enum { LIBRARY, BASELINE, SIDES };

static const Side baseline = SIDE(baseline, NULL);
static const Side *const sides[SIDES] = {[LIBRARY] = &library, [BASELINE] = &baseline};

static File files[ROWS];
static Lent lent[SIDES];

// How many calls are compared and counted: a recipe's depend on its arguments.
static uint32_t counted_calls(int i) { return rows[i].kind == RECIPE ? 1000 : 1; }

// What a turn's figures are divided by: pairs, pixels, steps or calls.
static double units(int i, int s, uint32_t calls) {
    if (rows[i].pairs)
        return (double)calls * rows[i].pairs;
    if (rows[i].kind == MAP)
        return (double)calls * PIXELS;
    return rows[i].kind == RUN || rows[i].kind == HEAP ? (double)lent[s].all_steps : calls;
}

// ---- comparing

// Are all that both were lent and gave the same after a turn, and the answers those that are wanted?
static int same(const char *group, const char *name, uint32_t answer) {
    int equal = !memcmp(&lent[LIBRARY], &lent[BASELINE], sizeof(Lent));
    if (equal && lent[BASELINE].answers == answer)
        return 1;
    printf("DIFFERENT in %s, %s: answers %u and %u, wanted %u%s\n", group, name, lent[LIBRARY].answers,
           lent[BASELINE].answers, answer, equal ? "" : "; what was lent or given differs");
    return 0;
}

static int same_row(int i) {
    const Group *group = &groups[rows[i].kind];
    return same(group->name, rows[i].name, group->answer);
}

// Call by call, on memory lent anew.
static int compare(int i) {
    for (uint32_t k = 0; k < counted_calls(i); k++) {
        for (int s = 0; s < SIDES; s++) {
            lend(&lent[s]);
            turn(sides[s], &rows[i], &files[i], 1, whole, SEED + k, &lent[s]);
        }
        if (!same_row(i))
            return 0;
    }
    return 1;
}

static int compare_line(const Line *line, size_t room, uint32_t answer) {
    File file;
    file.length = spell(line, file.file);
    for (int s = 0; s < SIDES; s++) {
        lend(&lent[s]);
        lent[s].answers = 0;
        compile(sides[s], &file, room, &lent[s]);
    }
    return same("lines", line->name, answer);
}

// With the room that serves every line; of one that is written, with just its length, with a byte less, and with none.
static int compare_rooms(const Line *line) {
    if (!compare_line(line, LIMPETSKEIN_LONGEST_FORMULA, line->answer))
        return 0;
    if (line->answer != LIMPETSKEIN_DONE)
        return compare_line(line, 0, line->answer);
    size_t length = lent[BASELINE].written;
    return compare_line(line, length, LIMPETSKEIN_DONE) &&
           compare_line(line, length - 1, LIMPETSKEIN_OUTPUT_TOO_SHORT) &&
           compare_line(line, 0, LIMPETSKEIN_OUTPUT_TOO_SHORT);
}

static int compare_conversion(const char *name, Kind kind, const File *file, size_t room, uint32_t answer) {
    for (int s = 0; s < SIDES; s++) {
        lend(&lent[s]);
        lent[s].answers = 0;
        convert(sides[s], kind, file, room, &lent[s]);
    }
    return same(groups[kind].name, name, answer);
}

// What was just converted to this edition gives, converted back, the file's bytes.
static int compare_back(const char *name, Kind back, const File *file) {
    File converted;
    converted.length = lent[BASELINE].written;
    memcpy(converted.file, lent[BASELINE].out + GUARD, converted.length);
    if (!compare_conversion(name, back, &converted, file->length, LIMPETSKEIN_DONE))
        return 0;
    if (lent[BASELINE].written == file->length && !memcmp(lent[BASELINE].out + GUARD, file->file, file->length))
        return 1;
    printf("DIFFERENT in %s, %s: not the bytes that were converted before\n", groups[back].name, name);
    return 0;
}

// A row's conversion with room for all, and back; with just the length, with a byte less, and with none; and the other
// one, which is for another edition.
static int compare_conversions(int i) {
    const char *name = rows[i].name;
    Kind kind = rows[i].kind, other = kind == UP ? DOWN : UP;
    const File *file = &files[i];
    if (!compare_conversion(name, kind, file, LIMPETSKEIN_LONGEST_MODULE, LIMPETSKEIN_DONE))
        return 0;
    size_t length = lent[BASELINE].written;
    return compare_back(name, other, file) && compare_conversion(name, kind, file, length, LIMPETSKEIN_DONE) &&
           compare_conversion(name, kind, file, length - 1, LIMPETSKEIN_OUTPUT_TOO_SHORT) &&
           compare_conversion(name, kind, file, 0, LIMPETSKEIN_OUTPUT_TOO_SHORT) &&
           compare_conversion(name, other, file, LIMPETSKEIN_LONGEST_MODULE, LIMPETSKEIN_OTHER_EDITION);
}

// All of that, before anything is measured.
static int compare_all(void) {
    for (int i = 0; i < ROWS; i++) {
        if (!compare(i) || (converts(&rows[i]) && !compare_conversions(i)))
            return 0;
        // a structure has no place in edition 3
        if (rows[i].kind == HEAP && !compare_conversion(rows[i].name, DOWN, &files[i], 0, LIMPETSKEIN_NOT_IN_EDITION_3))
            return 0;
    }
    for (int i = 0; i < LINES; i++)
        if (!compare_rooms(&lines[i]))
            return 0;
    return 1;
}

// ---- times

static double timed(int s, int i, uint32_t calls) {
    double from = seconds();
    turn(sides[s], &rows[i], &files[i], calls, whole, SEED, &lent[s]);
    return seconds() - from;
}

// Rounds over all rows, so that a noisy moment of the machine does not meet one row alone. A turn takes a millisecond
// or more. smallest: seconds a unit.
static int time_all(int rounds, double smallest[ROWS][SIDES]) {
    uint32_t calls[ROWS];
    for (int i = 0; i < ROWS; i++) {
        calls[i] = 1;
        while (timed(BASELINE, i, calls[i]) < 1e-3)
            calls[i] *= 2;
        smallest[i][LIBRARY] = smallest[i][BASELINE] = 1e9;
    }
    for (int r = 0; r < rounds; r++)
        for (int i = 0; i < ROWS; i++) {
            for (int s = 0; s < SIDES; s++)
                lend(&lent[s]);
            for (int k = 0; k < SIDES; k++) {
                int s = (r + k) % SIDES;
                double t = timed(s, i, calls[i]);
                t /= units(i, s, calls[i]);
                smallest[i][s] = t < smallest[i][s] ? t : smallest[i][s];
            }
            if (!same_row(i))
                return 0;
        }
    return 1;
}

// ---- machine instructions

// Pairs are known of whole runs.
static void counted_turn(int i, int s) {
    uint64_t allowance = rows[i].pairs ? whole : counted_steps;
    turn(sides[s], &rows[i], &files[i], counted_calls(i), allowance, SEED, &lent[s]);
}

// Instructions between a call of the row's function and its return, by callgrind on a program that does the turn. Its
// environment is empty, so that its stack begins at the same place each time.
static double counted(const char *program, const char *directory, int i, int s) {
    char command[3000], line[500];
    unsigned long long count = 0;
    snprintf(command, sizeof command,
             "env -i PATH=\"$PATH\" valgrind --tool=callgrind --callgrind-out-file=/dev/null --toggle-collect=%s "
             "'%s' '%s' --turn %d %d 2>&1",
             called(sides[s], &rows[i]), program, directory, i, s);
    FILE *output = popen(command, "r");
    while (output != NULL && fgets(line, sizeof line, output)) {
        const char *at = strstr(line, "Collected : ");
        if (at != NULL)
            sscanf(at, "Collected : %llu", &count);
    }
    if (output == NULL || pclose(output) != 0 || count == 0) {
        printf("no count from: %s\n", command);
        exit(2);
    }
    counted_turn(i, s);
    return (double)count / units(i, s, counted_calls(i));
}

// ---- for other programs

// A line for each row of pixels: its module's name and the checksum.
static void print_checksums(void) {
    for (int i = 0; i < ROWS; i++)
        if (rows[i].kind == MAP) {
            turn(sides[BASELINE], &rows[i], &files[i], 1, whole, SEED, &lent[BASELINE]);
            printf("%s %u\n", rows[i].module, checksum(&lent[BASELINE]));
        }
}

// ---- the table

// Of a row that is the one before it again: the ratios to that, of the library and of the C; 1 if the library's is over
// its limit.
static int print_again(int i, double figures[ROWS][SIDES], int limits) {
    double ratio = figures[i][LIBRARY] / figures[i - 1][LIBRARY], limit = groups[rows[i].kind].again_limit;
    int over = limit > 0 && ratio > limit;
    printf("  %.2f of %s", ratio, rows[i].kind == HEAP ? "fewer blocks" : "edition 3");
    if (limits && limit > 0)
        printf(", limit %.2f%s", limit, over ? " OVER" : "");
    printf(" (C %.2f)", figures[i][BASELINE] / figures[i - 1][BASELINE]);
    return over;
}

// How many ratios have limits.
static int limited(void) {
    int count = ROWS;
    for (int i = 0; i < ROWS; i++)
        count += rows[i].again && groups[rows[i].kind].again_limit > 0;
    return count;
}

// Prints all rows; how many ratios are over their limits. Where ratios have none, formula lines have one of their times.
static int print(const char *what, double scale, double figures[ROWS][SIDES], int limits) {
    int over = 0;
    for (int i = 0; i < ROWS; i++) {
        const Group *group = &groups[rows[i].kind];
        if (i == 0 || rows[i].kind != rows[i - 1].kind) {
            char title[100];
            snprintf(title, sizeof title, "%s, %s %s", group->name, what, group->unit);
            printf("%s%-48s %10s %10s  ratio%s\n", i ? "\n" : "", title, "library", "C", limits ? "  limit" : "");
        }
        double ours = scale * figures[i][LIBRARY], c = scale * figures[i][BASELINE], ratio = ours / c;
        int decimals = rows[i].kind == RUN || rows[i].kind == HEAP ? 2 : 1;
        printf("  %-46s %10.*f %10.*f  %5.2f", rows[i].name, decimals, ours, decimals, c, ratio);
        double limit = limit_of(&rows[i]);
        if (limits)
            printf("  %5.2f%s", limit, ratio > limit ? "  OVER" : "");
        else if (has_line(&rows[i]))
            printf("  of at most %.0f%s", most_time(&rows[i]), ours > most_time(&rows[i]) ? "  OVER" : "");
        if (rows[i].again)
            over += print_again(i, figures, limits);
        printf("\n");
        over += ratio > limit;
    }
    return over;
}

int main(int argc, char **argv) {
    static double figures[ROWS][SIDES];
    const char *what = argc > 2 ? argv[2] : "";
    int rounds = *what ? atoi(what) : ROUNDS;
    if (argc < 2 || (rounds < 1 && strcmp(what, "--count") && strcmp(what, "--checksums") && strcmp(what, "--turn"))) {
        fprintf(stderr, "usage: bench MODULES [ROUNDS | --count | --checksums]\n");
        return 2;
    }
    for (int i = 0; i < ROWS; i++)
        load(argv[1], &rows[i], &files[i]);
    if (argc == 5 && !strcmp(what, "--turn")) {
        counted_turn(atoi(argv[3]), atoi(argv[4]));
        return 0;
    }
    if (!strcmp(what, "--checksums")) {
        print_checksums();
        return 0;
    }
    if (!compare_all())
        return 1;
    if (!strcmp(what, "--count")) {
        for (int i = 0; i < ROWS; i++)
            for (int s = 0; s < SIDES; s++)
                figures[i][s] = counted(argv[0], argv[1], i, s);
        int over = print("instructions", 1, figures, 1);
        printf("\n%d of %d ratios are over their limits\n", over, limited());
        return over > 0;
    }
    if (!time_all(rounds, figures))
        return 1;
    print("ns", 1e9, figures, 0);
    return 0;
}
