// Compiles a formula line: one pass by recursive descent puts code and constants into local arrays, then the module is
// written.
#include "baseline.h"
#include "module.h"

enum { LONGEST_LINE = LIMPETSKEIN_LONGEST_LINE, DEEPEST = 16 };

// A sign stands between two leaves, numbers or names. Each byte makes at most one instruction, and those of leaves have
// four bytes more; then comes `ret`. Eight bytes are stored at once, and the next instruction goes over what is left.
enum { MOST_LEAVES = LONGEST_LINE / 2, CODE = LONGEST_LINE + 4 * MOST_LEAVES + 1, WIDTH = 5, STORED = 8 };

typedef struct {
    uint8_t text[LONGEST_LINE + 1]; // the line, and a byte that no line holds
    uint8_t constants[CONSTANT * MOST_LEAVES], code[CODE + STORED];
    uint32_t constant_count, deepest, most_operands;
} Formula;

// The next byte of the line, and the place of the next instruction.
typedef struct {
    const uint8_t *at;
    uint8_t *code;
} Cursor;

// Where a line that is not in the grammar is read on: nothing can follow.
static const uint8_t nowhere[1];

// What a byte is where a factor begins. A name is 1 and its parameter; 0 is none of these.
enum { NAMES = 3, DIGIT, OPEN, SPACE, DASH };
static const uint8_t kinds[256] = {
    ['r'] = 1, ['g'] = 2, ['b'] = 3, ['0' ... '9'] = DIGIT, ['('] = OPEN, [' '] = SPACE, ['-'] = DASH,
};

// The opcodes of signs, those of products last.
static const uint8_t opcodes[256] = {['+'] = ADD, ['-'] = SUB, ['*'] = MUL, ['/'] = DIV};

static Cursor sum(Cursor c, Formula *f, uint32_t depth, uint32_t operands);

static inline void write64(uint8_t *at, uint64_t v) { memcpy(at, &v, 8); }

// An instruction with its word, which puts an operand onto those that wait.
static inline Cursor operand(Cursor c, Formula *f, uint32_t operands, uint32_t opcode, uint32_t number) {
    if (unlikely(operands >= f->most_operands))
        f->most_operands = operands + 1;
    write64(c.code, opcode | (uint64_t)number << 8);
    c.code += WIDTH;
    return c;
}

// c is at its first digit. After the zeros nine digits are always under 32 bits, and ten under 64.
static inline Cursor number(Cursor c, Formula *f, uint32_t operands) {
    while (*c.at == '0')
        c.at++;
    const uint8_t *first = c.at;
    uint64_t value = 0;
    for (uint32_t digit; (digit = *c.at - (uint32_t)'0') <= 9; c.at++)
        value = 10 * value + digit;
    uint32_t k = f->constant_count++;
    const uint32_t constant[CONSTANT / 4] = {INT, (uint32_t)value, 0};
    memcpy(f->constants + CONSTANT * k, constant, CONSTANT);
    if (unlikely(c.at - first > 9) && (c.at - first > 10 || value > UINT32_MAX))
        c.at = nowhere;
    return operand(c, f, operands, PUSH, k);
}

static inline Cursor bracketed(Cursor c, Formula *f, uint32_t depth, uint32_t operands) {
    if (unlikely(depth >= f->deepest))
        f->deepest = depth + 1;
    c = sum(c, f, depth + 1, operands);
    c.at = likely(*c.at == ')') ? c.at + 1 : nowhere;
    return c;
}

// A number, a name or a sum in brackets, with the minuses and spaces before it and the spaces after it.
static inline Cursor factor(Cursor c, Formula *f, uint32_t depth, uint32_t operands) {
    uint32_t minuses = 0, kind;
    for (; (kind = kinds[*c.at]) >= SPACE; c.at++)
        minuses += kind - SPACE;
    if (kind - 1 < NAMES) {
        c.at++;
        c = operand(c, f, operands, LOAD, kind - 1);
    } else if (kind == DIGIT)
        c = number(c, f, operands);
    else if (kind == OPEN)
        c = bracketed((Cursor){c.at + 1, c.code}, f, depth, operands);
    else
        c.at = nowhere;
    if (unlikely(minuses)) {
        write64(c.code, NEG * 0x0101010101010101u);
        if (unlikely(minuses > 8))
            memset(c.code, NEG, minuses);
        c.code += minuses;
    }
    while (*c.at == ' ')
        c.at++;
    return c;
}

static inline Cursor product(Cursor c, Formula *f, uint32_t depth, uint32_t operands) {
    c = factor(c, f, depth, operands);
    uint8_t opcode;
    while ((opcode = opcodes[*c.at]) >= MUL) {
        c.at++;
        c = factor(c, f, depth, operands + 1);
        *c.code++ = opcode;
    }
    return c;
}

static Cursor sum(Cursor c, Formula *f, uint32_t depth, uint32_t operands) {
    c = product(c, f, depth, operands);
    uint8_t opcode;
    while ((opcode = opcodes[*c.at]) != 0) {
        c.at++;
        c = product(c, f, depth, operands + 1);
        *c.code++ = opcode;
    }
    return c;
}

uint32_t baseline_formula(const uint8_t *text, size_t length, uint8_t *out, size_t out_len, uint64_t *written) {
    if (unlikely(length > LONGEST_LINE))
        return LIMPETSKEIN_LINE_TOO_LONG;
    if (unlikely(length == 0))
        return LIMPETSKEIN_NOT_IN_GRAMMAR;
    Formula f;
    memcpy(f.text, text, length);
    f.text[length] = 0;
    f.constant_count = f.deepest = f.most_operands = 0;
    Cursor c = sum((Cursor){f.text, f.code}, &f, 0, 0);
    if (unlikely(c.at != f.text + length))
        return LIMPETSKEIN_NOT_IN_GRAMMAR;
    if (unlikely(f.deepest > DEEPEST))
        return LIMPETSKEIN_TOO_DEEP;
    if (unlikely(f.most_operands > MOST_OPERANDS))
        return LIMPETSKEIN_TOO_MANY_OPERANDS;
    *c.code++ = RET;
    uint32_t constants = CONSTANT * f.constant_count, code = (uint32_t)(c.code - f.code);
    uint32_t function_at = HEADER + constants, code_at = function_at + FUNCTION, total = code_at + code;
    if (unlikely(out_len < total))
        return LIMPETSKEIN_OUTPUT_TOO_SHORT;
    // header, and the record of a function of three ints that returns an int
    const uint32_t header[HEADER / 4] = {3, total, f.constant_count, HEADER, 1, function_at, 0, code_at, code, code_at,
                                         0, 0};
    const uint32_t function[FUNCTION / 4] = {0, code, 3 | INT << 8 | INT << 16 | INT << 24, INT, 0};
    memcpy(out, header, HEADER);
    memcpy(out + HEADER, f.constants, constants);
    memcpy(out + function_at, function, FUNCTION);
    memcpy(out + code_at, f.code, code);
    *written = total;
    return LIMPETSKEIN_DONE;
}
