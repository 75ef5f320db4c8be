// Opens a module, and tests the sections of one that is to be written, in one pass over its code. Short code is walked
// by plain branches, with a byte for each place; longer code 64 bytes at a time, into a bitmap of instruction starts.
// Bodies and labels are then looked up there.
#include <emmintrin.h>

#include "module.h"

enum { SHORT_CODE = 1024 };

// In both callers, the opening and the test of sections alone.
#define INLINE inline __attribute__((always_inline))

// Opcodes as bits: those with an operand, and all.
#define WIDE_OPCODES 0x000000FF0000003Aull
#define OPCODES 0x000059FFFFFFFFBEull

// The same of edition 4.
#define NEW_WIDE_OPCODES (WIDE_OPCODES | 1ull << FLEA | 1ull << NEW | 1ull << GCNEW)
#define NEW_OPCODES (OPCODES | NEW_WIDE_OPCODES | 1ull << NULL_POINTER | 1ull << DELETE | 1ull << GCNULL)

// Types of constants, as bits. A function may also return nothing, 0.
#define NUMBER_TYPES (1u << INT | 1u << LONG | 1u << DOUBLE)

// Eight type bytes at once: those of the parameters are types or pointers to them, the others are zero.
static inline int parameters_are_good(uint64_t types, uint32_t count) {
    const uint64_t ones = 0x0101010101010101ull;
    uint64_t plain = types & ones * 0x7F, used = count ? ~0ull >> (64 - 8 * count) : 0;
    uint64_t other = (plain ^ ones * INT) + ones * 0x7F;
    other &= (plain ^ ones * LONG) + ones * 0x7F;
    other &= (plain ^ ones * DOUBLE) + ones * 0x7F;
    other &= ones * 0x80;
    return !((other & used) | (types & ~used));
}

// ---- short code

// Row 9, of a byte for each place that is 1 where an instruction starts.
static INLINE uint32_t test_labels(const Module *m, const uint8_t *starts) {
    const uint8_t *at = m->labels;
    for (uint32_t i = 0; i < m->label_count; i++, at += LABEL) {
        uint32_t owner = read32(at), target = read32(at + 4), from = 0, to = m->entry_length;
        if (owner != ENTRY) {
            if (unlikely(owner >= m->function_count))
                return LIMPETSKEIN_BAD_LABEL;
            const uint8_t *f = function_at(m, owner);
            from = read32(f);
            to = from + read32(f + 4);
        }
        if (unlikely(target < from || target >= to || !starts[target]))
            return LIMPETSKEIN_BAD_LABEL;
    }
    return 0;
}

// Rows 8 and 9, of code with these opcodes, of which these take an operand. starts: a byte for each place. A processor
// learns the branches when the same module comes again.
static INLINE uint32_t walk_code(const Module *m, uint8_t *starts, uint64_t opcodes, uint64_t wide, uint32_t last) {
    uint32_t place = 0, end = m->entry_length;
    const uint8_t *at = m->functions;
    if (m->label_count)
        memset(starts, 0, m->code_length);
    for (uint32_t i = 0;; i++, at += m->function_size) {
        while (place < end) {
            uint32_t op = m->code[place];
            if (unlikely(op > last))
                return LIMPETSKEIN_BAD_CODE;
            starts[place] = 1;
            if (wide >> op & 1) {
                __asm__("" : "+r"(place)); // keeps this a branch
                place += 5;
            } else {
                if (unlikely(!(opcodes >> op & 1)))
                    return LIMPETSKEIN_BAD_CODE;
                place += 1;
            }
        }
        if (unlikely(place != end))
            return LIMPETSKEIN_BAD_CODE;
        if (i == m->function_count)
            break;
        end += read32(at + 4);
    }
    return test_labels(m, starts);
}

// Its bytes would make a large frame of the caller's.
static __attribute__((noinline)) uint32_t test_short_code(const Module *m) {
    uint8_t starts[SHORT_CODE + 1];
    return walk_code(m, starts, OPCODES, WIDE_OPCODES, TOD);
}

// ---- longer code

#define AT_MOST(v, c) _mm_cmpeq_epi8(_mm_subs_epu8((v), _mm_set1_epi8(c)), _mm_setzero_si128())
#define FROM(c) _mm_sub_epi8(bytes, _mm_set1_epi8(c))
#define IS(c) _mm_cmpeq_epi8(bytes, _mm_set1_epi8(c))

// Of 16 bytes: which would take an operand, and which are no opcodes.
static inline void classify(const uint8_t *at, uint32_t *wide, uint32_t *unknown) {
    __m128i bytes = _mm_loadu_si128((const __m128i *)at);
    __m128i w = _mm_or_si128(_mm_or_si128(IS(PUSH), AT_MOST(FROM(LOAD), LEA - LOAD)), AT_MOST(FROM(JMP), CALL - JMP));
    __m128i known = _mm_or_si128(AT_MOST(FROM(PUSH), LEA - PUSH), AT_MOST(FROM(TLOAD), RET - TLOAD));
    known = _mm_or_si128(known, _mm_or_si128(AT_MOST(FROM(TOI), TOL - TOI), IS(TOD)));
    *wide = (uint32_t)_mm_movemask_epi8(w);
    *unknown = (uint32_t)_mm_movemask_epi8(known) ^ 0xFFFFu;
}

// The bytes of a block of 64 that are no starts: those before the next start, and the four after each start with an
// operand, as far as the block goes. last: the start whose operand goes to the block's end or past it, or 0.
static inline uint64_t operand_bytes(uint64_t wide, uint32_t next, uint64_t *last) {
    uint64_t start = 1ull << next, operands = start - 1;
    do {
        uint64_t from = wide & (0 - start), first = from & (0 - from);
        *last = first;
        start = first << 5;
        operands |= start - (first << 1);
    } while (start);
    return operands;
}

// The bitmap of instruction starts, with the bit of the code's end; 0 for row 8.
static inline int find_starts(const uint8_t *code, uint32_t length, uint64_t *starts) {
    uint32_t next = 0, block; // next: the next start, counted from the block's
    uint64_t last;
    for (block = 0; block + 64 <= length; block += 64) {
        uint32_t w0, w1, w2, w3, u0, u1, u2, u3;
        classify(code + block, &w0, &u0);
        classify(code + block + 16, &w1, &u1);
        classify(code + block + 32, &w2, &u2);
        classify(code + block + 48, &w3, &u3);
        uint64_t wide = (uint64_t)(w0 | w1 << 16) | (uint64_t)(w2 | w3 << 16) << 32;
        uint64_t unknown = (uint64_t)(u0 | u1 << 16) | (uint64_t)(u2 | u3 << 16) << 32;
        uint64_t found = ~operand_bytes(wide, next, &last);
        next = last ? (uint32_t)__builtin_ctzll(last) + 5 - 64 : 0;
        if (unknown & found)
            return 0;
        starts[block >> 6] = found;
    }
    uint32_t left = length - block, i = 0;
    uint64_t wide = 0, unknown = 0;
    for (; i + 16 <= left; i += 16) {
        uint32_t w, u;
        classify(code + block + i, &w, &u);
        wide |= (uint64_t)w << i;
        unknown |= (uint64_t)u << i;
    }
    if (i < left) { // the code's last 16 bytes: it is not short
        uint32_t w, u, rest = left - i;
        classify(code + length - 16, &w, &u);
        wide |= (uint64_t)(w >> (16 - rest)) << i;
        unknown |= (uint64_t)(u >> (16 - rest)) << i;
    }
    uint64_t end = 1ull << left;
    if (next > left)
        return 0;
    uint64_t found = ~operand_bytes(wide, next, &last);
    found &= end | (end - 1);
    if (!(found & end) || (unknown & found & (end - 1)))
        return 0;
    starts[block >> 6] = found;
    return 1;
}

static INLINE uint32_t test_long_code(const Module *m, uint64_t *starts) {
    if (unlikely(!find_starts(m->code, m->code_length, starts)))
        return LIMPETSKEIN_BAD_CODE;
    const uint8_t *at = m->functions;
    for (uint32_t i = 0; i < m->function_count; i++, at += m->function_size)
        if (unlikely(!has_bit(starts, read32(at))))
            return LIMPETSKEIN_BAD_CODE;
    at = m->labels;
    for (uint32_t i = 0; i < m->label_count; i++, at += LABEL) {
        uint32_t owner = read32(at), target = read32(at + 4), from, to;
        if (owner == ENTRY) {
            from = 0;
            to = m->entry_length;
        } else {
            if (unlikely(owner >= m->function_count))
                return LIMPETSKEIN_BAD_LABEL;
            const uint8_t *f = function_at(m, owner);
            from = read32(f);
            to = from + read32(f + 4);
        }
        if (unlikely(target < from || target >= to || !has_bit(starts, target)))
            return LIMPETSKEIN_BAD_LABEL;
    }
    return 0;
}

// ---- sections

// Row 6.
static INLINE uint32_t has_bad_constant(const Module *m) {
    const uint8_t *at = m->constants;
    uint32_t bad = 0;
    for (uint32_t i = 0; i < m->constant_count; i++, at += CONSTANT) {
        uint32_t type = read32(at);
        bad |= (type > DOUBLE) | !(NUMBER_TYPES >> (type & 31) & 1) | ((type == INT) & (read32(at + 8) != 0));
    }
    return bad;
}

// Rows 6 and 7.
static INLINE uint32_t test_records(const Module *m) {
    if (unlikely(has_bad_constant(m)))
        return LIMPETSKEIN_BAD_CONSTANT;

    // bodies follow each other from the entry's end to the code's
    uint32_t end = m->entry_length, bad = 0;
    const uint8_t *at = m->functions;
    for (uint32_t i = 0; i < m->function_count; i++, at += m->function_size) {
        uint32_t start = read32(at), body_length = read32(at + 4), parameters = at[PARAMETERS], returns = at[RETURNS];
        uint64_t types = read64(at + PARAMETER_TYPES);
        bad |= (start != end) | (body_length - 1 >= LONGEST_CODE) | (parameters > 8) | (returns > DOUBLE) |
               !((NUMBER_TYPES | 1) >> (returns & 31) & 1) | at[18] | at[19];
        end += body_length;
        bad |= end > m->code_length;
        if (unlikely(bad))
            return LIMPETSKEIN_BAD_FUNCTION;
        if (unlikely(!parameters_are_good(types, parameters)))
            return LIMPETSKEIN_BAD_FUNCTION;
    }
    return unlikely(end != m->code_length) ? LIMPETSKEIN_BAD_FUNCTION : 0;
}

static INLINE uint32_t test_records_and_code(const Module *m, uint64_t *starts) {
    uint32_t refusal = test_records(m);
    if (unlikely(refusal))
        return refusal;
    return m->code_length <= SHORT_CODE ? test_short_code(m) : test_long_code(m, starts);
}

uint32_t test_sections(const Module *module, uint64_t *starts) { return test_records_and_code(module, starts); }

// ---- edition 1

// Its opcodes, from 1 on; as bits, those with an operand; and all in edition 3's numbers.
enum { OLD_OPCODES = 0x25 };
#define OLD_WIDE_OPCODES 0x00000003FC00001Aull
static const uint8_t new_number[] = {
    0, PUSH, POP, LOAD, STORE, ADD, SUB, MUL, IMUL, DIV, IDIV, MOD, IMOD, NEG, INC_TOP, DEC_TOP, AND, OR, XOR,
    NOT, SHL, SAL, SHR, SAR, CMP, ICMP, JMP, JE, JNE, JA, JAE, JB, JBE, CALL, RET, TOI, TOL, TOD};

// Rows 8 and 9, as of short code whatever the length. A copy of the code gets the new numbers on the way.
static INLINE uint32_t test_old_code(const Module *m, uint8_t *translated) {
    uint8_t starts[LONGEST_CODE];
    uint32_t place = 0, end = m->entry_length;
    const uint8_t *at = m->functions;
    if (m->label_count)
        memset(starts, 0, m->code_length);
    if (m->code_length)
        memcpy(translated, m->code, m->code_length);
    for (uint32_t i = 0;; i++, at += m->function_size) {
        while (place < end) {
            uint32_t op = m->code[place];
            if (unlikely(op - 1 >= OLD_OPCODES))
                return LIMPETSKEIN_BAD_CODE;
            starts[place] = 1;
            translated[place] = new_number[op];
            if (OLD_WIDE_OPCODES >> op & 1) {
                __asm__("" : "+r"(place)); // keeps this a branch
                place += 5;
            } else
                place += 1;
        }
        if (unlikely(place != end))
            return LIMPETSKEIN_BAD_CODE;
        if (i == m->function_count)
            break;
        end += read32(at + 4);
    }
    return test_labels(m, starts);
}

__attribute__((noinline)) uint32_t test_old_sections(Module *m, uint8_t *translated) {
    uint32_t refusal = test_records(m);
    if (unlikely(refusal))
        return refusal;
    const uint8_t *at = m->functions;
    for (uint32_t i = 0; i < m->function_count; i++, at += m->function_size)
        if (unlikely(read64(at + PARAMETER_TYPES) & 0x8080808080808080ull))
            return LIMPETSKEIN_BAD_FUNCTION;
    refusal = test_old_code(m, translated);
    m->code = translated;
    return refusal;
}

// ---- edition 4

static uint32_t is_good_structure(const uint8_t *at) {
    uint32_t count = at[0], bad = count - 1 >= 8;
    for (uint32_t i = 0; i < 8; i++) {
        uint32_t type = at[1 + i];
        bad |= i < count ? (type > DOUBLE) | !(NUMBER_TYPES >> (type & 31) & 1) : type != 0;
    }
    return !(bad | at[9] | at[10] | at[11]);
}

static uint32_t is_structure_pointer(const Module *m, uint32_t type) {
    return type >= POINTER_TO && (type & TARGET) - LIMPETSKEIN_FIRST_STRUCTURE < m->structure_count;
}

static uint32_t is_number(uint32_t type) { return type <= DOUBLE && NUMBER_TYPES >> type & 1; }

// A pointer to a number is returned if it is managed: any other may be to a slot that is gone.
static uint32_t is_good_signature(const Module *m, const uint8_t *at) {
    uint32_t count = at[PARAMETERS], returns = at[RETURNS];
    uint32_t is_good = returns == 0 || is_number(returns) || is_structure_pointer(m, returns);
    is_good |= returns >= MANAGED_TO && is_number(returns & TARGET);
    uint32_t bad = (count > 8) | !is_good;
    for (uint32_t i = 0; i < 8; i++) {
        uint32_t type = at[PARAMETER_TYPES + i];
        is_good = is_number(type) || is_structure_pointer(m, type);
        is_good |= type >= POINTER_TO && is_number(type & TARGET);
        bad |= i < count ? !is_good : type != 0;
    }
    return !(bad | at[18] | at[19]);
}

__attribute__((noinline)) uint32_t test_new_sections(const Module *m) {
    uint8_t starts[LONGEST_CODE];
    if (unlikely(has_bad_constant(m)))
        return LIMPETSKEIN_BAD_CONSTANT;
    for (uint32_t i = 0; i < m->structure_count; i++)
        if (unlikely(!is_good_structure(m->structures + STRUCTURE * i)))
            return LIMPETSKEIN_BAD_CONSTANT;
    uint32_t end = m->entry_length;
    const uint8_t *at = m->functions;
    for (uint32_t i = 0; i < m->function_count; i++, at += m->function_size) {
        uint32_t body_length = read32(at + 4);
        if (unlikely(read32(at) != end || body_length - 1 >= LONGEST_CODE || !is_good_signature(m, at)))
            return LIMPETSKEIN_BAD_FUNCTION;
        end += body_length;
        if (unlikely(end > m->code_length))
            return LIMPETSKEIN_BAD_FUNCTION;
    }
    if (unlikely(end != m->code_length))
        return LIMPETSKEIN_BAD_FUNCTION;
    return walk_code(m, starts, NEW_OPCODES, NEW_WIDE_OPCODES, GCNEW);
}

// ---- opening

// Rows 3 to 5, or 0 and where the sections are. The edition is a constant in each caller.
static INLINE uint32_t find_sections(const uint8_t *file, size_t length, uint32_t edition, Module *m) {
    if (unlikely(read32(file + 4) != length))
        return LIMPETSKEIN_OTHER_LENGTH;
    uint32_t nc = read32(file + 8), nf = read32(file + 16), nl = read32(file + 24);
    uint32_t code_length = read32(file + 32), entry_length = read32(file + 40);
    uint32_t header = edition == 4 ? HEADER_4 : HEADER, nz = edition == 4 ? read32(file + 48) : 0;
    uint32_t size = edition == 4 ? FUNCTION_4 : FUNCTION;
    if (unlikely((nc > MOST_CONSTANTS) | (nf > MOST_FUNCTIONS) | (nl > LIMPETSKEIN_MOST_LABELS) |
                 (nz > LIMPETSKEIN_MOST_STRUCTURES) | (code_length > LONGEST_CODE) | (read32(file + 44) != 0)))
        return LIMPETSKEIN_OVER_LIMIT;
    uint32_t functions = header + CONSTANT * nc, labels = functions + size * nf, code_at = labels + LABEL * nl;
    uint32_t structures = code_at + code_length, structures_at = edition == 4 ? read32(file + 52) : structures;
    if (unlikely((read32(file + 12) != header) | (read32(file + 20) != functions) | (read32(file + 28) != labels) |
                 (read32(file + 36) != code_at) | (structures_at != structures) |
                 (structures + STRUCTURE * nz != length) | (entry_length > code_length)))
        return LIMPETSKEIN_NOT_PACKED;
    *m = (Module){file + header, file + functions, file + labels, file + code_at, nc, nf, nl, code_length,
                  entry_length,  edition,          nz,            file + structures, size};
    return 0;
}

static __attribute__((noinline)) uint32_t open_old(const uint8_t *file, size_t length, Module *m, uint8_t *translated) {
    uint32_t refusal = find_sections(file, length, 1, m);
    return unlikely(refusal) ? refusal : test_old_sections(m, translated);
}

static __attribute__((noinline)) uint32_t open_new(const uint8_t *file, size_t length, Module *m) {
    if (unlikely(length < HEADER_4))
        return LIMPETSKEIN_TOO_SHORT;
    uint32_t refusal = find_sections(file, length, 4, m);
    return unlikely(refusal) ? refusal : test_new_sections(m);
}

static INLINE uint32_t has_profile(const Module *m) {
    const uint8_t *at = m->functions;
    uint32_t profiles = 0;
    for (uint32_t i = 0; i < m->function_count; i++, at += FUNCTION_4)
        profiles |= read32(at + PROFILE);
    return profiles;
}

// Without structures the records are tested as in edition 3, and so is the code, unless they have a type or an opcode
// of edition 4.
uint32_t open_for_edition_3(const uint8_t *file, size_t length, Module *m, uint64_t *starts) {
    uint32_t refusal = find_sections(file, length, 4, m);
    if (unlikely(refusal))
        return refusal;
    if (likely(!(m->structure_count | has_profile(m)))) {
        refusal = test_records_and_code(m, starts);
        if (likely(refusal != LIMPETSKEIN_BAD_CODE && refusal != LIMPETSKEIN_BAD_FUNCTION))
            return refusal;
    }
    refusal = test_new_sections(m);
    return refusal ? refusal : LIMPETSKEIN_NOT_IN_EDITION_3;
}

uint32_t open_module(const uint8_t *file, size_t length, Module *module, uint64_t *starts, uint8_t *translated) {
    if (unlikely(length < HEADER))
        return LIMPETSKEIN_TOO_SHORT;
    uint32_t edition = read32(file);
    if (unlikely(edition != 3)) {
        if (edition == 1)
            return open_old(file, length, module, translated);
        return edition == 4 ? open_new(file, length, module) : LIMPETSKEIN_OTHER_EDITION;
    }
    uint32_t refusal = find_sections(file, length, 3, module);
    return unlikely(refusal) ? refusal : test_records_and_code(module, starts);
}
