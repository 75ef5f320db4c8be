// Formula lines with what they answer: rows of the benchmark name some, all are compared and put on the painted stack.
#ifndef LINES_H
#define LINES_H

#include <stddef.h>
#include <stdint.h>

// `before` so many times, `middle`, `after` so many times.
typedef struct {
    const char *name, *before;
    size_t before_times;
    const char *middle, *after;
    size_t after_times;
    uint32_t answer;
} Line;

enum { LINES = 41, LINE_ROOM = 512 };

extern const Line lines[LINES];

// The line of this name; without it the program ends.
const Line *line_of(const char *name);

// The line's bytes, at most LINE_ROOM; answers their number.
size_t spell(const Line *line, uint8_t *text);

#endif
