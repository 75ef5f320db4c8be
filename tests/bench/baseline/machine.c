// Runs a body of a module: the lent code is interpreted in place, by computed goto, with every test of the rules at
// every instruction. Values are in the lent slots only.
#include <emmintrin.h>

#include "baseline.h"
#include "heap.h"

// A frame. Those that wait also have where they go on, and what the running one has in registers.
typedef struct {
    const uint8_t *pc, *end;
    uint32_t body, bottom, local_count; // bottom: its first slot, to which it returns
    uint8_t *first_operand;
    uint8_t returns;
    uint16_t local[MOST_LOCALS]; // slots
} Frame;

static inline void write64(uint8_t *at, uint64_t v) { memcpy(at, &v, 8); }

static inline double read_double(const uint8_t *at) {
    double v;
    memcpy(&v, at, 8);
    return v;
}

// Every NaN is written as one pattern.
static inline void write_double(uint8_t *at, double v) {
    uint64_t bits;
    memcpy(&bits, &v, 8);
    if (unlikely(v != v))
        bits = 0x7FF8000000000000ull;
    memcpy(at, &bits, 8);
}

// Is the double, once cut, in the range of toi, of tol? No NaN is.
static inline int fits_int(double v) { return v > -2147483649.0 && v < 4294967296.0; }
static inline int fits_long(double v) { return v >= -9223372036854775808.0 && v < 18446744073709551616.0; }

// The pattern of a double in range.
static inline uint32_t double_to_int(double v) { return (uint32_t)(int64_t)v; }

static inline uint64_t double_to_long(double v) {
    if (v < 9223372036854775808.0)
        return (uint64_t)(int64_t)v;
    return (uint64_t)(int64_t)(v - 9223372036854775808.0) ^ (1ull << 63);
}

// Is a function of edition 4 made for another profile?
static inline int is_for_another(const uint8_t *function, uint32_t profile) {
    uint32_t its = read32(function + PROFILE);
    return its != 0 && its != profile;
}

// A moment: the body's end, the allowance, else one instruction; its opcode is one, as the reader found.
#define NEXT                                                  \
    do {                                                      \
        if (unlikely(pc == end))                              \
            goto at_end;                                      \
        if (unlikely(__builtin_sub_overflow(left, 1, &left))) \
            goto used_up;                                     \
        goto *instruction[*pc];                               \
    } while (0)

#define RAISE(number)                  \
    do {                               \
        answer = LIMPETSKEIN_##number; \
        goto raised;                   \
    } while (0)

// Slots by number, and operands from the top: payloads, types.
#define PAYLOAD(slot) (payloads + 8 * (slot))
#define TOP (sp - 8)
#define SECOND (sp - 16)
#define TOP_TYPE tp[-1]
#define SECOND_TYPE tp[-2]
#define DROP(n) (sp -= 8 * (n), tp -= (n))
#define GROW (sp += 8, tp++)

#define NEED_ONE                       \
    if (unlikely(tp == first_operand)) \
    goto stack_empty
// as a difference, which is also right for a null pointer, as which no slots may be lent
#define NEED_TWO                                 \
    if (unlikely(first_operand - (tp - 1) >= 0)) \
    goto stack_empty
#define NEED_SLOT              \
    if (unlikely(tp == limit)) \
    goto stack_overflow
#define OPERAND read32(pc + 1)

// An instruction on two operands of one number type, given by what it does to ints, longs and doubles.
#define BINARY(name, ints, longs, doubles)                      \
    name: {                                                     \
        NEED_TWO;                                               \
        uint8_t top_type = TOP_TYPE, second_type = SECOND_TYPE; \
        if (unlikely(second_type != top_type))                  \
            goto mixed_types;                                   \
        if (likely(top_type == INT)) {                          \
            uint32_t b = read32(TOP), a = read32(SECOND), v;    \
            ints;                                               \
            write64(SECOND, v);                                 \
        } else if (likely(top_type == DOUBLE)) {                \
            doubles;                                            \
        } else {                                                \
            if (unlikely(top_type >= POINTER))                  \
                RAISE(POINTER_INVALIDFORPOINTER);               \
            uint64_t b = read64(TOP), a = read64(SECOND), v;    \
            longs;                                              \
            write64(SECOND, v);                                 \
        }                                                       \
        DROP(1);                                                \
        pc++;                                                   \
        NEXT;                                                   \
    }

#define ON_DOUBLES(op) write_double(SECOND, read_double(SECOND) op read_double(TOP))
#define NO_DOUBLES RAISE(DOUBLE_INVALIDFORDOUBLE)
#define NOT_ZERO          \
    if (unlikely(b == 0)) \
    RAISE(ARITHMETIC_DIVIDEBYZERO)

#define ORDER(a, b) ((uint32_t)((a) > (b)) - (uint32_t)((a) < (b)))

// Pointers are compared without sign.
#define COMPARE(name, Int, Long)                                  \
    name: {                                                       \
        NEED_TWO;                                                 \
        uint8_t type = TOP_TYPE;                                  \
        if (unlikely(type != SECOND_TYPE))                        \
            RAISE(STACK_DIFFERENTTYPE);                           \
        uint32_t v;                                               \
        if (likely(type == INT)) {                                \
            Int b = (Int)read32(TOP), a = (Int)read32(SECOND);    \
            v = ORDER(a, b);                                      \
        } else if (type == DOUBLE) {                              \
            double b = read_double(TOP), a = read_double(SECOND); \
            if (unlikely(__builtin_isunordered(a, b)))            \
                RAISE(DOUBLE_UNORDERED);                          \
            v = ORDER(a, b);                                      \
        } else if (type == LONG) {                                \
            Long b = (Long)read64(TOP), a = (Long)read64(SECOND); \
            v = ORDER(a, b);                                      \
        } else {                                                  \
            uint64_t b = read64(TOP), a = read64(SECOND);         \
            v = ORDER(a, b);                                      \
        }                                                         \
        write64(SECOND, v);                                       \
        SECOND_TYPE = INT;                                        \
        DROP(1);                                                  \
        pc++;                                                     \
        NEXT;                                                     \
    }

// What a pointer names is counted up or down.
#define COUNT(name, op)                                   \
    name: {                                               \
        NEED_ONE;                                         \
        if (unlikely(TOP_TYPE < POINTER))                 \
            RAISE(POINTER_NOTPOINTER);                    \
        uint64_t slot = read64(TOP);                      \
        uint8_t *cell = PAYLOAD(slot);                    \
        uint32_t type;                                    \
        if (unlikely(slot >= (size_t)(tp - types) - 1)) { \
            Number number = heap_number(&blocks, slot);   \
            if (unlikely(answer = number.answer))         \
                goto raised;                              \
            cell = number.cell;                           \
            type = number.type;                           \
        } else                                            \
            type = types[slot];                           \
        if (likely(type == INT))                          \
            write64(cell, (uint32_t)(read32(cell) op 1)); \
        else if (type == DOUBLE)                          \
            write_double(cell, read_double(cell) op 1.0); \
        else if (type == LONG)                            \
            write64(cell, read64(cell) op 1);             \
        else                                              \
            RAISE(POINTER_INVALIDFORPOINTER);             \
        DROP(1);                                          \
        pc++;                                             \
        NEXT;                                             \
    }

// The top operand itself is counted up or down: edition 1, which has no pointers.
#define COUNT_TOP(name, op)                             \
    name: {                                             \
        NEED_ONE;                                       \
        uint8_t type = TOP_TYPE;                        \
        if (type == INT)                                \
            write64(TOP, (uint32_t)(read32(TOP) op 1)); \
        else if (type == DOUBLE)                        \
            write_double(TOP, read_double(TOP) op 1.0); \
        else                                            \
            write64(TOP, read64(TOP) op 1);             \
        pc++;                                           \
        NEXT;                                           \
    }

// A double on top is cut, or is out of range, for which edition 1 has the top bit alone.
#define CUT(fits, pattern, top_bit)    \
    do {                               \
        double v = read_double(TOP);   \
        if (likely(fits(v)))           \
            write64(TOP, pattern(v));  \
        else if (m.edition == 1)       \
            write64(TOP, top_bit);     \
        else                           \
            RAISE(CONVERT_OUTOFRANGE); \
    } while (0)

// The label that the operand names, which is the body's own.
#define OWN_LABEL                                                   \
    uint32_t n = OPERAND;                                           \
    const uint8_t *label = labels + LABEL * (size_t)n;              \
    if (unlikely(n >= label_count || read32(label) != frame->body)) \
    RAISE(LABEL_OUTOFRANGE)

#define BRANCH(name, condition)            \
    name: {                                \
        OWN_LABEL;                         \
        NEED_ONE;                          \
        if (unlikely(TOP_TYPE != INT))     \
            RAISE(STACK_DIFFERENTTYPE);    \
        uint32_t v = read32(TOP);          \
        DROP(1);                           \
        if (condition) {                   \
            pc = code + read32(label + 4); \
            NEXT;                          \
        }                                  \
        pc += 5;                           \
        NEXT;                              \
    }

uint32_t baseline_run(const uint8_t *module, size_t module_len, uint32_t function, const uint8_t *arg_types,
                      size_t arg_types_len, const uint8_t *arg_payloads, size_t arg_payloads_len, uint32_t profile,
                      uint64_t allowance, uint8_t *const payloads, size_t payloads_len, uint8_t *const types,
                      size_t types_len, uint8_t *heap, size_t heap_len, uint8_t *table, size_t table_len,
                      uint64_t *steps, uint64_t *height) {
    static const void *const instruction[64] = {
        [PUSH] = &&push, [POP] = &&pop, [LOAD] = &&load, [STORE] = &&store, [LEA] = &&lea, [TLOAD] = &&tload,
        [TSTORE] = &&tstore, [COPY] = &&copy, [SWAP] = &&swap, [ADD] = &&add, [SUB] = &&sub, [MUL] = &&mul,
        [IMUL] = &&imul, [DIV] = &&div, [IDIV] = &&idiv, [MOD] = &&mod, [IMOD] = &&imod, [NEG] = &&neg, [INC] = &&inc,
        [DEC] = &&dec, [AND] = &&and, [OR] = &&or, [XOR] = &&xor, [NOT] = &&not, [SHL] = &&shl, [SAL] = &&sal,
        [SHR] = &&shr, [SAR] = &&sar, [CMP] = &&cmp, [ICMP] = &&icmp, [JMP] = &&jmp, [JE] = &&je, [JNE] = &&jne,
        [JA] = &&ja, [JAE] = &&jae, [JB] = &&jb, [JBE] = &&jbe, [CALL] = &&call, [RET] = &&ret, [TOI] = &&toi,
        [TOL] = &&tol, [TOD] = &&tod, [FLEA] = &&flea, [NULL_POINTER] = &&null_pointer, [NEW] = &&new,
        [DELETE] = &&delete, [GCNULL] = &&gcnull, [GCNEW] = &&gcnew, [INC_TOP] = &&inc_top, [DEC_TOP] = &&dec_top,
        [0] = &&no_opcode, [0x2D] = &&no_opcode, [0x2F] = &&no_opcode, [0x35 ... 63] = &&no_opcode};

    Frame frames[MOST_FRAMES];
    Heap blocks;
    uint64_t starts[BITMAP];
    uint8_t translated[LONGEST_CODE];
    Module m;
    uint32_t answer = open_module(module, module_len, &m, starts, translated);
    if (unlikely(answer))
        return answer;

    size_t capacity = payloads_len / 8;
    if (types_len < capacity)
        capacity = types_len;
    if (capacity > LIMPETSKEIN_MOST_SLOTS)
        capacity = LIMPETSKEIN_MOST_SLOTS;
    const uint8_t *const code = m.code, *const constants = m.constants;
    const uint8_t *const labels = m.labels;
    const uint32_t constant_count = m.constant_count, function_count = m.function_count, label_count = m.label_count;

    // the first frame
    Frame *frame = frames;
    size_t used = 0;
    uint32_t local_count;
    const uint8_t *pc, *end;
    uint64_t left = allowance;
    if (function == ENTRY) {
        if (arg_types_len | arg_payloads_len)
            return LIMPETSKEIN_BAD_ARGUMENTS;
        frame->returns = 0;
        local_count = 0;
        pc = code;
        end = code + m.entry_length;
    } else {
        if (unlikely(function >= function_count))
            return LIMPETSKEIN_NO_SUCH_FUNCTION;
        const uint8_t *f = function_at(&m, function);
        uint32_t n = f[PARAMETERS], bad = 0;
        if (unlikely(arg_types_len != n || arg_payloads_len != 8 * (size_t)n))
            return LIMPETSKEIN_BAD_ARGUMENTS;
        for (uint32_t i = 0; i < n; i++) {
            uint32_t type = arg_types[i];
            bad |= (type != f[PARAMETER_TYPES + i]) | (type >= POINTER_TO) |
                   ((type == INT) & (read32(arg_payloads + 8 * i + 4) != 0));
        }
        if (unlikely(bad))
            return LIMPETSKEIN_BAD_ARGUMENTS;
        if (unlikely(m.edition == 4 && is_for_another(f, profile)))
            return LIMPETSKEIN_OTHER_PROFILE;
        if (unlikely(n > capacity)) {
            heap_start(&blocks, &m, heap, heap_len, table, table_len, payloads, types);
            answer = LIMPETSKEIN_STACK_OVERFLOW;
            goto out;
        }
        for (uint32_t i = 0; i < n; i++) {
            write64(payloads + 8 * i, read64(arg_payloads + 8 * i));
            types[i] = arg_types[i];
            frame->local[i] = (uint16_t)i;
        }
        used = n;
        local_count = n;
        frame->returns = f[RETURNS];
        pc = code + read32(f);
        end = pc + read32(f + 4);
    }
    heap_start(&blocks, &m, heap, heap_len, table, table_len, payloads, types);
    frame->body = function;
    frame->bottom = 0;
    // payload and type of the first free slot; types of the frame's first operand and of the slot past the capacity
    uint8_t *sp = payloads + 8 * used, *tp = types + used, *first_operand = tp, *const limit = types + capacity;

    NEXT;

push: {
    uint32_t n = OPERAND;
    if (unlikely(n >= constant_count))
        RAISE(CONSTANTPOOL_OUTOFRANGE);
    NEED_SLOT;
    const uint8_t *constant = constants + CONSTANT * (size_t)n;
    uint64_t payload = read64(constant + 4);
    uint8_t type = constant[0];
    write64(sp, payload);
    *tp = type;
    GROW;
    pc += 5;
    NEXT;
}
pop:
    NEED_ONE;
    DROP(1);
    pc++;
    NEXT;
load: {
    uint32_t n = OPERAND;
    if (unlikely(n >= local_count))
        RAISE(LOCALVARIABLE_OUTOFRANGE);
    NEED_SLOT;
    size_t slot = frame->local[n];
    write64(sp, read64(PAYLOAD(slot)));
    *tp = types[slot];
    GROW;
    pc += 5;
    NEXT;
}
store: {
    uint32_t n = OPERAND;
    if (likely(n < local_count)) {
        NEED_ONE;
        size_t slot = frame->local[n];
        if (unlikely(types[slot] != TOP_TYPE))
            RAISE(STACK_DIFFERENTTYPE);
        DROP(1);
        write64(PAYLOAD(slot), read64(sp));
    } else { // the top operand becomes the next local
        if (unlikely(n != local_count || n >= MOST_LOCALS))
            RAISE(LOCALVARIABLE_INVALIDINDEX);
        NEED_ONE;
        frame->local[n] = (uint16_t)(tp - 1 - types);
        local_count++;
        first_operand = tp;
    }
    pc += 5;
    NEXT;
}
lea: {
    uint32_t n = OPERAND;
    if (unlikely(n >= local_count))
        RAISE(LOCALVARIABLE_OUTOFRANGE);
    NEED_SLOT;
    write64(sp, frame->local[n]);
    *tp = POINTER;
    GROW;
    pc += 5;
    NEXT;
}
tload: {
    NEED_ONE;
    if (unlikely(TOP_TYPE < POINTER))
        RAISE(POINTER_NOTPOINTER);
    uint64_t slot = read64(TOP);
    if (unlikely(slot >= (size_t)(tp - types) - 1)) {
        Number number = heap_number(&blocks, slot);
        if (unlikely(answer = number.answer))
            goto raised;
        write64(TOP, read64(number.cell));
        TOP_TYPE = (uint8_t)number.type;
        pc++;
        NEXT;
    }
    write64(TOP, read64(PAYLOAD(slot)));
    TOP_TYPE = types[slot];
    pc++;
    NEXT;
}
tstore: {
    NEED_TWO;
    if (unlikely(SECOND_TYPE < POINTER))
        RAISE(POINTER_NOTPOINTER);
    uint64_t slot = read64(SECOND);
    if (unlikely(slot >= (size_t)(tp - types) - 2)) {
        Number number = heap_number(&blocks, slot);
        if (unlikely(answer = number.answer))
            goto raised;
        if (unlikely(number.type != TOP_TYPE))
            RAISE(STACK_DIFFERENTTYPE);
        write64(number.cell, read64(TOP));
        DROP(2);
        pc++;
        NEXT;
    }
    if (unlikely(types[slot] != TOP_TYPE))
        RAISE(STACK_DIFFERENTTYPE);
    write64(PAYLOAD(slot), read64(TOP));
    DROP(2);
    pc++;
    NEXT;
}
copy:
    NEED_ONE;
    NEED_SLOT;
    write64(sp, read64(TOP));
    *tp = TOP_TYPE;
    GROW;
    pc++;
    NEXT;
swap: {
    NEED_TWO;
    if (unlikely(TOP_TYPE != SECOND_TYPE))
        RAISE(STACK_DIFFERENTTYPE);
    uint64_t b = read64(TOP), a = read64(SECOND);
    write64(TOP, a);
    write64(SECOND, b);
    pc++;
    NEXT;
}

    BINARY(add, v = a + b, v = a + b, ON_DOUBLES(+))
    BINARY(sub, v = a - b, v = a - b, ON_DOUBLES(-))
    BINARY(mul, v = a * b, v = a * b, ON_DOUBLES(*))
    BINARY(imul, v = a * b, v = a * b, ON_DOUBLES(*))
    BINARY(div, NOT_ZERO; v = a / b, NOT_ZERO; v = a / b, ON_DOUBLES(/))
    BINARY(idiv, NOT_ZERO; v = b == ~0u ? -a : (uint32_t)((int32_t)a / (int32_t)b),
           NOT_ZERO; v = b == ~0ull ? -a : (uint64_t)((int64_t)a / (int64_t)b), ON_DOUBLES(/))
    BINARY(mod, NOT_ZERO; v = a % b, NOT_ZERO; v = a % b, NO_DOUBLES)
    BINARY(imod, NOT_ZERO; v = b == ~0u ? 0 : (uint32_t)((int32_t)a % (int32_t)b),
           NOT_ZERO; v = b == ~0ull ? 0 : (uint64_t)((int64_t)a % (int64_t)b), NO_DOUBLES)
    BINARY(and, v = a & b, v = a & b, NO_DOUBLES)
    BINARY(or, v = a | b, v = a | b, NO_DOUBLES)
    BINARY(xor, v = a ^ b, v = a ^ b, NO_DOUBLES)
    BINARY(shl, v = b < 32 ? a << b : 0, v = b < 64 ? a << b : 0, NO_DOUBLES)
    BINARY(sal, v = b < 32 ? a << b : 0, v = b < 64 ? a << b : 0, NO_DOUBLES)
    BINARY(shr, v = b < 32 ? a >> b : 0, v = b < 64 ? a >> b : 0, NO_DOUBLES)
    BINARY(sar, v = (uint32_t)((int32_t)a >> (b < 31 ? b : 31)), v = (uint64_t)((int64_t)a >> (b < 63 ? b : 63)),
           NO_DOUBLES)

mixed_types:
    answer = TOP_TYPE >= POINTER || SECOND_TYPE >= POINTER ? LIMPETSKEIN_POINTER_INVALIDFORPOINTER
                                                           : LIMPETSKEIN_STACK_DIFFERENTTYPE;
    goto raised;

neg: {
    NEED_ONE;
    uint8_t type = TOP_TYPE;
    if (type == INT)
        write64(TOP, (uint32_t)-read32(TOP));
    else if (type == DOUBLE)
        write_double(TOP, -read_double(TOP));
    else if (type == LONG)
        write64(TOP, -read64(TOP));
    else
        RAISE(POINTER_INVALIDFORPOINTER);
    pc++;
    NEXT;
}
not: {
    NEED_ONE;
    uint8_t type = TOP_TYPE;
    if (type == INT)
        write64(TOP, (uint32_t)~read32(TOP));
    else if (type == LONG)
        write64(TOP, ~read64(TOP));
    else {
        answer = type >= POINTER ? LIMPETSKEIN_POINTER_INVALIDFORPOINTER : LIMPETSKEIN_DOUBLE_INVALIDFORDOUBLE;
        goto raised;
    }
    pc++;
    NEXT;
}

    COUNT(inc, +)
    COUNT(dec, -)
    COUNT_TOP(inc_top, +)
    COUNT_TOP(dec_top, -)
    COMPARE(cmp, uint32_t, uint64_t)
    COMPARE(icmp, int32_t, int64_t)

jmp: {
    OWN_LABEL;
    pc = code + read32(label + 4);
    NEXT;
}
    BRANCH(je, v == 0)
    BRANCH(jne, v != 0)
    BRANCH(ja, v == 1)
    BRANCH(jae, v != ~0u)
    BRANCH(jb, v == ~0u)
    BRANCH(jbe, v != 1)

call: {
    uint32_t n = OPERAND;
    if (unlikely(n >= function_count))
        RAISE(FUNCTION_OUTOFRANGE);
    const uint8_t *f = function_at(&m, n);
    uint32_t parameters = f[PARAMETERS];
    if (unlikely((size_t)(tp - first_operand) < parameters))
        goto stack_empty;
    size_t bottom = (size_t)(tp - types) - parameters;
    uint32_t bad = 0;
    for (uint32_t i = 0; i < parameters; i++)
        bad |= slot_type(f[PARAMETER_TYPES + i]) ^ types[bottom + i];
    if (unlikely(bad))
        RAISE(STACK_DIFFERENTTYPE);
    if (unlikely(frame == frames + MOST_FRAMES - 1))
        goto stack_overflow;
    frame->pc = pc + 5;
    frame->end = end;
    frame->local_count = local_count;
    frame->first_operand = first_operand;
    frame++;
    frame->body = n;
    frame->bottom = (uint32_t)bottom;
    frame->returns = f[RETURNS];
    // eight locals at once; those past the parameters are not looked at
    __m128i slots = _mm_add_epi16(_mm_set1_epi16((short)bottom), _mm_set_epi16(7, 6, 5, 4, 3, 2, 1, 0));
    _mm_storeu_si128((__m128i *)frame->local, slots);
    local_count = parameters;
    first_operand = tp;
    pc = code + read32(f);
    end = pc + read32(f + 4);
    NEXT;
}
ret: {
    uint8_t returns = frame->returns;
    size_t bottom = frame->bottom;
    if (unlikely(frame->body == ENTRY))
        RAISE(FUNCTION_TOPOFCALLSTACK);
    if (returns) {
        NEED_ONE;
        uint8_t kind = (uint8_t)slot_type(returns);
        if (unlikely(TOP_TYPE != kind))
            RAISE(STACK_DIFFERENTTYPE);
        write64(PAYLOAD(bottom), read64(TOP));
        types[bottom] = kind;
        sp = PAYLOAD(bottom + 1);
        tp = types + bottom + 1;
    } else {
        sp = PAYLOAD(bottom);
        tp = types + bottom;
    }
    if (unlikely(frame == frames)) {
        answer = LIMPETSKEIN_DONE;
        goto done;
    }
    frame--;
    pc = frame->pc;
    end = frame->end;
    local_count = frame->local_count;
    first_operand = frame->first_operand;
    NEXT;
}
toi: {
    NEED_ONE;
    uint8_t type = TOP_TYPE;
    if (type == DOUBLE)
        CUT(fits_int, double_to_int, 1u << 31);
    else if (type == LONG)
        write64(TOP, read32(TOP));
    else if (type >= POINTER)
        RAISE(POINTER_INVALIDFORPOINTER);
    TOP_TYPE = INT;
    pc++;
    NEXT;
}
tol: {
    NEED_ONE;
    uint8_t type = TOP_TYPE;
    if (type == DOUBLE)
        CUT(fits_long, double_to_long, 1ull << 63);
    else if (type >= POINTER)
        RAISE(POINTER_INVALIDFORPOINTER);
    TOP_TYPE = LONG;
    pc++;
    NEXT;
}
tod: {
    NEED_ONE;
    uint8_t type = TOP_TYPE;
    if (type == INT)
        write_double(TOP, (double)read32(TOP));
    else if (type == LONG)
        write_double(TOP, (double)read64(TOP));
    else if (type >= POINTER)
        RAISE(POINTER_INVALIDFORPOINTER);
    TOP_TYPE = DOUBLE;
    pc++;
    NEXT;
}

null_pointer:
    NEED_SLOT;
    write64(sp, LIMPETSKEIN_NULL);
    *tp = POINTER;
    GROW;
    pc++;
    NEXT;
new: {
    uint32_t type = OPERAND, width = type_width(&m, type);
    if (unlikely(!width))
        RAISE(TYPE_OUTOFRANGE);
    NEED_SLOT;
    write64(sp, heap_new(&blocks, type, width));
    *tp = POINTER;
    GROW;
    pc += 5;
    NEXT;
}
delete: {
    NEED_ONE;
    if (unlikely(TOP_TYPE != POINTER))
        RAISE(POINTER_NOTPOINTER);
    uint64_t address = read64(TOP);
    if (unlikely(address != LIMPETSKEIN_NULL && !heap_delete(&blocks, address)))
        RAISE(POINTER_UNKNOWNADDRESS);
    DROP(1);
    pc++;
    NEXT;
}
gcnull:
    NEED_SLOT;
    write64(sp, LIMPETSKEIN_NULL);
    *tp = MANAGED;
    GROW;
    pc++;
    NEXT;
gcnew: {
    uint32_t type = OPERAND, width = type_width(&m, type);
    if (unlikely(!width))
        RAISE(TYPE_OUTOFRANGE);
    NEED_SLOT;
    write64(sp, heap_gcnew(&blocks, type, width, tp));
    *tp = MANAGED;
    GROW;
    pc += 5;
    NEXT;
}
flea: {
    uint32_t field = OPERAND;
    NEED_ONE;
    if (unlikely(TOP_TYPE < POINTER))
        RAISE(POINTER_NOTPOINTER);
    Address address = heap_field(&blocks, read64(TOP), (size_t)(tp - types) - 1, field);
    if (unlikely(answer = address.answer))
        goto raised;
    write64(TOP, address.address);
    pc += 5;
    NEXT;
}

no_opcode:
    __builtin_unreachable();
at_end:
    answer = frame->body == ENTRY ? LIMPETSKEIN_DONE : LIMPETSKEIN_FUNCTION_NORETINSTRUCTION;
    goto done;
used_up:
    left = 0;
    answer = LIMPETSKEIN_ALLOWANCE_USED_UP;
    goto done;
stack_overflow:
    RAISE(STACK_OVERFLOW);
stack_empty:
    RAISE(STACK_EMPTY);
raised:
    left++; // a raise counts no step
done:
    used = (size_t)(tp - types);
out:
    memset(payloads + 8 * used, 0, 8 * (capacity - used));
    memset(types + used, 0, capacity - used);
    *steps = allowance - left;
    *height = used;
    return answer;
}
