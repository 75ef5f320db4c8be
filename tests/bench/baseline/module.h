// What reader, writer, converter, checker and machine share: the module file's layout, and a module that was opened.
#ifndef MODULE_H
#define MODULE_H

#include <stddef.h>
#include <stdint.h>
#include <string.h>

#include "limpetskein.h"

#define likely(x) __builtin_expect(!!(x), 1)
#define unlikely(x) __builtin_expect(!!(x), 0)

enum { MOST_CONSTANTS = 1024, MOST_FUNCTIONS = 128, LONGEST_CODE = 16384 };
enum { MOST_LOCALS = 16, MOST_OPERANDS = 32, MOST_FRAMES = 64 };

// A bit for each place of the code, and for its end.
enum { BITMAP = LONGEST_CODE / 64 + 1 };

// Lengths of the file's header and of the records of its sections.
enum { HEADER = 48, HEADER_4 = 56, CONSTANT = 12, FUNCTION = 20, FUNCTION_4 = 24, LABEL = 8, STRUCTURE = 12 };

// In a function's record, after its place and its length in the code. Edition 4 has a profile.
enum { PARAMETERS = 8, RETURNS = 9, PARAMETER_TYPES = 10, PROFILE = 20 };

// Numbers, then pointers: those of edition 4 that are managed have a type of their own.
enum { INT = LIMPETSKEIN_INT, LONG = LIMPETSKEIN_LONG, DOUBLE = LIMPETSKEIN_DOUBLE, POINTER = LIMPETSKEIN_POINTER,
       MANAGED };

// A typing's pointer to a type is that type with the first bit, a managed one with both; the others name the type.
enum { POINTER_TO = 0x80, MANAGED_TO = 0xC0, TARGET = 0x3F };

// The type in a slot of a value of this type of a signature: 80 to BF are 7, C0 to FF are 8.
static inline uint32_t slot_type(uint32_t type) { return type < POINTER_TO ? type : 5 + (type >> 6); }

#define ENTRY LIMPETSKEIN_ENTRY

enum {
    PUSH = 0x01, POP, LOAD, STORE, LEA, FLEA,
    TLOAD = 0x07, TSTORE, COPY, SWAP, ADD, SUB, MUL, IMUL, DIV, IDIV, MOD, IMOD, NEG, INC, DEC, AND, OR, XOR, NOT,
    SHL, SAL, SHR, SAR, CMP, ICMP, JMP, JE, JNE, JA, JAE, JB, JBE, CALL, RET,
    TOI = 0x2B, TOL = 0x2C, TOD = 0x2E, NULL_POINTER = 0x30, NEW, DELETE, GCNULL, GCNEW
};

// What inc and dec of edition 1 become: numbers that no file has.
enum { INC_TOP = 0x29, DEC_TOP = 0x2A };

// The sections of a module, in the lent file or lent each, and their counts.
typedef struct {
    const uint8_t *constants, *functions, *labels, *code;
    uint32_t constant_count, function_count, label_count, code_length, entry_length;
    uint32_t edition, structure_count; // edition 4 has structures
    const uint8_t *structures;
    uint32_t function_size; // the bytes of a function's record
} Module;

static inline uint32_t read32(const uint8_t *at) {
    uint32_t v;
    memcpy(&v, at, 4);
    return v;
}

static inline uint64_t read64(const uint8_t *at) {
    uint64_t v;
    memcpy(&v, at, 8);
    return v;
}

// The record of a function that there is.
static inline const uint8_t *function_at(const Module *m, uint32_t i) {
    return m->functions + (size_t)m->function_size * i;
}

// The cells of a block of this type; 0 where there is no such type.
static inline uint32_t type_width(const Module *m, uint32_t type) {
    if (type == INT || type == LONG || type == DOUBLE)
        return 1;
    uint32_t i = type - LIMPETSKEIN_FIRST_STRUCTURE;
    return i < m->structure_count ? m->structures[STRUCTURE * i] : 0;
}

static inline int has_bit(const uint64_t *bitmap, uint32_t place) {
    return (int)(bitmap[place >> 6] >> (place & 63)) & 1;
}

// Refusals 1 to 9, or 0 and the module. starts: BITMAP words to work in. translated: LONGEST_CODE bytes, where the code
// of an edition 1 module is put in edition 3's numbers.
uint32_t open_module(const uint8_t *file, size_t length, Module *module, uint64_t *starts, uint8_t *translated);

// Of an edition 4 file with a whole header: refusals 3 to 9, then 18, or 0 and the module, which edition 3 can hold.
uint32_t open_for_edition_3(const uint8_t *file, size_t length, Module *module, uint64_t *starts);

// Refusals 6 to 9, or 0, of sections within their limits, the entry no longer than the code.
uint32_t test_sections(const Module *module, uint64_t *starts);

// The same of edition 1; the module's code is then the translated one.
uint32_t test_old_sections(Module *module, uint8_t *translated);

// The same of edition 4.
uint32_t test_new_sections(const Module *module);

#endif
