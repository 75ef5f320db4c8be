#include "lines.h"

#include <stdio.h>
#include <stdlib.h>
#include <string.h>

#include "limpetskein.h"

enum {
    DONE = LIMPETSKEIN_DONE,
    LONG = LIMPETSKEIN_LINE_TOO_LONG,
    BAD = LIMPETSKEIN_NOT_IN_GRAMMAR,
    DEEP = LIMPETSKEIN_TOO_DEEP,
    WIDE = LIMPETSKEIN_TOO_MANY_OPERANDS
};

#define OPEN16 "(((((((((((((((("
#define CLOSE16 "))))))))))))))))"

const Line lines[LINES] = {
    // usual ones
    {"(r*3+g)/4", "", 0, "(r*3+g)/4", "", 0, DONE},
    {"60 bytes", "", 0, "(r*299 + g*587 + b*114 + 500)/1000*(255 - b)/255 + (16 - -g)", "", 0, DONE},
    {"a name", "", 0, "b", "", 0, DONE},
    {"a quotient by zero", "", 0, "1/0", "", 0, DONE},
    {"minuses after signs", "", 0, "6/-2--r*- -3", "", 0, DONE},
    {"spaces", "", 0, " - ( 007 ) ", "", 0, DONE},
    // 256 bytes
    {"256 bytes, 16 deep", OPEN16 "r" CLOSE16 "+", 7, "((((((((g)))))))) ", "", 0, DONE},
    {"256 bytes, 64 brackets", "(r)+(1)*", 31, "(g)/(7) ", "", 0, DONE},
    {"255 minuses and a name", "-", 255, "r", "", 0, DONE},
    {"128 numbers and their signs", "1+2*", 63, "3--4", "", 0, DONE},
    {"128 names and their signs", "r*g-", 63, "b/-r", "", 0, DONE},
    {"a number with 246 leading zeros", "0", 246, "4294967295", "", 0, DONE},
    {"255 spaces and a name", " ", 255, "r", "", 0, DONE},
    {"256 opening brackets", "(", 256, "", "", 0, BAD},
    {"256 minuses", "-", 256, "", "", 0, BAD},
    {"127 deep", "(", 127, "r ", ")", 127, DEEP},
    {"127 deep, and one closing bracket more", "(", 127, "r", ")", 128, BAD},
    {"257 bytes", "-", 256, "r", "", 0, LONG},
    {"257 bytes not in the grammar", "(", 257, "", "", 0, LONG},
    // at the limits of depth and operands
    {"16 deep", "(", 16, "r", ")", 16, DONE},
    {"17 deep", "(", 17, "r", ")", 17, DEEP},
    {"17 deep, with a bracket too many", "(", 17, "r", ")", 18, BAD},
    {"17 deep, and a number too large", "(", 17, "4294967296", ")", 17, BAD},
    {"31 operands", "r+r*(", 15, "r", ")", 15, DONE},
    {"32 operands", "r+r*(", 15, "r+r", ")", 15, DONE},
    {"33 operands", "r+r*(", 15, "r+r*r", ")", 15, WIDE},
    {"33 operands, 16 deep", "1-g/(", 16, "b", ")", 16, WIDE},
    {"35 operands, 17 deep", "r+r*(", 17, "r", ")", 17, DEEP},
    // not in the grammar
    {"nothing", "", 0, "", "", 0, BAD},
    {"a space", "", 0, " ", "", 0, BAD},
    {"a number too large", "", 0, "4294967296", "", 0, BAD},
    {"a number of 65 bits", "", 0, "18446744073709551616", "", 0, BAD},
    {"two numbers", "", 0, "1 2", "", 0, BAD},
    {"a product without its sign", "", 0, "2r", "", 0, BAD},
    {"brackets side by side", "", 0, "(r)(g)", "", 0, BAD},
    {"empty brackets", "", 0, "()", "", 0, BAD},
    {"a sign before", "", 0, "+5", "", 0, BAD},
    {"a sign behind", "", 0, "r*", "", 0, BAD},
    {"a closing bracket", "", 0, "r)", "", 0, BAD},
    {"a capital", "", 0, "R", "", 0, BAD},
    {"an end of line", "", 0, "r\n", "", 0, BAD},
};

const Line *line_of(const char *name) {
    for (int i = 0; i < LINES; i++)
        if (!strcmp(lines[i].name, name))
            return &lines[i];
    fprintf(stderr, "no line %s\n", name);
    exit(2);
}

static uint8_t *repeat(uint8_t *to, const char *part, size_t times) {
    size_t length = strlen(part);
    for (; times; times--, to += length)
        memcpy(to, part, length);
    return to;
}

size_t spell(const Line *line, uint8_t *text) {
    uint8_t *end = repeat(text, line->before, line->before_times);
    end = repeat(end, line->middle, 1);
    end = repeat(end, line->after, line->after_times);
    return (size_t)(end - text);
}
