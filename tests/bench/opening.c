// Opens large modules with 256 labels on the last instruction, and the same modules without labels. Prints the ratio of
// the times, and fails where it is over the limit.
//
//     opening MODULES
#include <stdio.h>

#include "calls.h"

static const double limit = 2;

enum { LABELS, NONE, BOTH, PAIRS = 2, ROUNDS = 1000 };

// The modules of a pair are measured in turn, in so many rounds or for so many seconds; the smallest time counts.
static const double most_seconds = 1;

static const Row pairs[PAIRS][BOTH] = {
    {{"one-byte instructions", "last-labels", .kind = OPENING}, {"", "no-labels", .kind = OPENING}},
    {{"five-byte instructions", "last-labels-wide", .kind = OPENING}, {"", "no-labels-wide", .kind = OPENING}},
};

static File files[BOTH];
static Lent lent;

static double timed(const Row *pair, int m, uint32_t calls) {
    double from = seconds();
    turn(&library, &pair[m], &files[m], calls, 1, 0, &lent);
    return seconds() - from;
}

// Is the module opened, so that the answer is that there is no such function?
static int opens(const Row *pair, int m) {
    lend(&lent);
    turn(&library, &pair[m], &files[m], 1, 1, 0, &lent);
    if (lent.answers == LIMPETSKEIN_NO_SUCH_FUNCTION)
        return 1;
    printf("DIFFERENT in %s: answer %u\n", pair[m].module, lent.answers);
    return 0;
}

static double ratio(const Row *pair) {
    double smallest[BOTH] = {1e9, 1e9}, from = seconds();
    uint32_t calls = 1;
    while (timed(pair, NONE, calls) < 2e-4)
        calls *= 2;
    for (int r = 0; r < ROUNDS && seconds() - from < most_seconds; r++)
        for (int k = 0; k < BOTH; k++) {
            int m = (r + k) % BOTH;
            double t = timed(pair, m, calls) / calls;
            smallest[m] = t < smallest[m] ? t : smallest[m];
        }
    double ratio = smallest[LABELS] / smallest[NONE];
    printf("%s: %.2f us with 256 labels, %.2f us without, ratio %.2f%s\n", pair->name, 1e6 * smallest[LABELS],
           1e6 * smallest[NONE], ratio, ratio > limit ? " OVER" : "");
    return ratio;
}

int main(int argc, char **argv) {
    double ratios[PAIRS];
    int over = 0;
    if (argc != 2) {
        fprintf(stderr, "usage: opening MODULES\n");
        return 2;
    }
    for (int i = 0; i < PAIRS; i++) {
        for (int m = 0; m < BOTH; m++) {
            load(argv[1], &pairs[i][m], &files[m]);
            if (!opens(pairs[i], m))
                return 1;
        }
        ratios[i] = ratio(pairs[i]);
        over += ratios[i] > limit;
    }
    printf("256 labels against none: %.2f with %s, %.2f with %s; limit %.0f\n", ratios[0], pairs[0]->name, ratios[1],
           pairs[1]->name, limit);
    return over > 0;
}
