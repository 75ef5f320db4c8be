// Calls limpetskein_formula with each line on a painted stack, and looks how deep it was overwritten. Prints the most
// bytes that a call took, and fails where that is over the limit.
#include <stdio.h>
#include <string.h>
#include <ucontext.h>

#include "limpetskein.h"
#include "lines.h"

enum { LIMIT = 32 * 1024, STACK = 1 << 20, PAINT = 0xA5 };

static uint8_t stack[STACK];
static ucontext_t outside, inside;

// The call, and what it gives. begin: where the frames of what it calls begin.
static uint8_t text[LINE_ROOM], out[LIMPETSKEIN_LONGEST_FORMULA];
static size_t length, room;
static uint32_t answer;
static const uint8_t *begin;

static void call(void) {
    uint64_t written;
    begin = __builtin_frame_address(0);
    answer = limpetskein_formula(text, length, out, room, &written);
}

// Bytes from the frame of the caller, which is counted, to the lowest one that is not painted.
static size_t taken(void) {
    memset(stack, PAINT, STACK);
    getcontext(&inside);
    inside.uc_stack.ss_sp = stack;
    inside.uc_stack.ss_size = STACK;
    inside.uc_link = &outside;
    makecontext(&inside, call, 0);
    swapcontext(&outside, &inside);
    const uint8_t *lowest = stack;
    while (*lowest == PAINT)
        lowest++;
    return (size_t)(begin - lowest);
}

// With room for the module, then with none.
static int measure(const Line *line, size_t *bytes) {
    length = spell(line, text);
    room = sizeof out;
    *bytes = taken();
    if (answer != line->answer) {
        printf("DIFFERENT in %s: answer %u, wanted %u\n", line->name, answer, line->answer);
        return 0;
    }
    room = 0;
    size_t without = taken();
    *bytes = without > *bytes ? without : *bytes;
    printf("%6zu bytes: %s%s\n", *bytes, line->name, *bytes > LIMIT ? " OVER" : "");
    return 1;
}

int main(void) {
    size_t most = 0;
    const char *most_name = "";
    for (int i = 0; i < LINES; i++) {
        size_t bytes;
        if (!measure(&lines[i], &bytes))
            return 1;
        if (bytes > most) {
            most = bytes;
            most_name = lines[i].name;
        }
    }
    printf("at most %zu bytes of stack, with %s; limit %d\n", most, most_name, LIMIT);
    return most > LIMIT;
}
