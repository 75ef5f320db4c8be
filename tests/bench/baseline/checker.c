// Checks a module: each body in one pass over its reached instructions. The lent room is the only table of typings: the
// working state is a label record, a join compares two records.
#include <emmintrin.h>

#include "baseline.h"
#include "module.h"

// A label record: 1, the counts of locals and operands, their types.
enum { RECORD = 64, REACHED = 0, LOCAL_COUNT = 1, OPERAND_COUNT = 2, LOCAL_TYPES = 16, OPERAND_TYPES = 32 };

typedef union {
    uint8_t bytes[RECORD];
    __m128i quarters[4];
} State;

static inline int is_same(const uint8_t *record, const State *s) {
    __m128i x = _mm_cmpeq_epi8(_mm_loadu_si128((const __m128i *)record), s->quarters[0]);
    x = _mm_and_si128(x, _mm_cmpeq_epi8(_mm_loadu_si128((const __m128i *)(record + 16)), s->quarters[1]));
    x = _mm_and_si128(x, _mm_cmpeq_epi8(_mm_loadu_si128((const __m128i *)(record + 32)), s->quarters[2]));
    x = _mm_and_si128(x, _mm_cmpeq_epi8(_mm_loadu_si128((const __m128i *)(record + 48)), s->quarters[3]));
    return _mm_movemask_epi8(x) == 0xFFFF;
}

// 83, 84 or 86, C3, C4 or C6: neither null nor a structure's.
static inline int points_to_number(uint8_t type) {
    uint32_t target = type & TARGET;
    return type >= POINTER_TO && target - 1 < DOUBLE;
}

// Are both pointers, managed or not?
static inline int can_be_compared(uint8_t a, uint8_t b) { return a >= POINTER_TO && b >= POINTER_TO && (a ^ b) < 0x40; }

#define FAIL return 0
#define SAVE (s.bytes[LOCAL_COUNT] = (uint8_t)locals, s.bytes[OPERAND_COUNT] = (uint8_t)operands)
#define OPERAND read32(m->code + place + 1)

// Is there a typing of the body from start to end? Bit p of labelled is set where a label is on place p, and first[p]
// is then the first such label, whose record stands for all of that place.
static int type_body(const Module *m, uint8_t *room, uint32_t body, uint32_t start, uint32_t end,
                     const uint64_t *labelled, const uint16_t *first) {
    uint16_t waiting[LIMPETSKEIN_MOST_LABELS];
    uint32_t waiting_count = 0;
    State s;
    memset(&s, 0, RECORD);
    s.bytes[REACHED] = 1;
    uint8_t returns = 0;
    if (body != ENTRY) {
        const uint8_t *f = function_at(m, body);
        returns = f[RETURNS];
        s.bytes[LOCAL_COUNT] = f[PARAMETERS];
        memcpy(s.bytes + LOCAL_TYPES, f + PARAMETER_TYPES, 8);
    }
    uint8_t *local = s.bytes + LOCAL_TYPES, *operand = s.bytes + OPERAND_TYPES;
    uint32_t locals = s.bytes[LOCAL_COUNT], operands = 0;
    uint32_t place = start;
    for (;;) {
        // comes to place with this state
        if (place == end) {
            if (body != ENTRY)
                FAIL;
            goto next;
        }
        if (has_bit(labelled, place)) {
            uint8_t *record = room + RECORD * (uint32_t)first[place];
            SAVE;
            if (record[REACHED]) {
                if (!is_same(record, &s))
                    FAIL;
                goto next;
            }
            memcpy(record, &s, RECORD);
        }
    walk: {
        uint32_t op = m->code[place], n, type;
        switch (op) {
        case PUSH:
            n = OPERAND;
            if (n >= m->constant_count || operands >= MOST_OPERANDS)
                FAIL;
            operand[operands++] = m->constants[CONSTANT * n];
            place += 5;
            continue;
        case POP:
            if (!operands)
                FAIL;
            operand[--operands] = 0;
            place++;
            continue;
        case LOAD:
            n = OPERAND;
            if (n >= locals || operands >= MOST_OPERANDS)
                FAIL;
            operand[operands++] = local[n];
            place += 5;
            continue;
        case STORE:
            n = OPERAND;
            if (n < locals) {
                if (!operands || operand[operands - 1] != local[n])
                    FAIL;
                operand[--operands] = 0;
            } else {
                if (n != locals || n >= MOST_LOCALS || !operands)
                    FAIL;
                local[locals++] = operand[operands - 1];
                memset(operand, 0, MOST_OPERANDS);
                operands = 0;
            }
            place += 5;
            continue;
        case LEA:
            n = OPERAND;
            if (n >= locals || operands >= MOST_OPERANDS || local[n] >= POINTER_TO)
                FAIL;
            operand[operands++] = local[n] | POINTER_TO;
            place += 5;
            continue;
        case TLOAD:
            if (!operands || !points_to_number(operand[operands - 1]))
                FAIL;
            operand[operands - 1] &= TARGET;
            place++;
            continue;
        case TSTORE:
            if (operands < 2 || !points_to_number(operand[operands - 2]) ||
                (operand[operands - 2] & TARGET) != operand[operands - 1])
                FAIL;
            operand[operands - 1] = operand[operands - 2] = 0;
            operands -= 2;
            place++;
            continue;
        case COPY:
            if (!operands || operands >= MOST_OPERANDS)
                FAIL;
            operand[operands] = operand[operands - 1];
            operands++;
            place++;
            continue;
        case SWAP:
            if (operands < 2 || operand[operands - 1] != operand[operands - 2])
                FAIL;
            place++;
            continue;
        case ADD: case SUB: case MUL: case IMUL: case DIV: case IDIV:
            if (operands < 2 || (type = operand[operands - 1]) >= POINTER_TO || type != operand[operands - 2])
                FAIL;
            operand[--operands] = 0;
            place++;
            continue;
        case MOD: case IMOD: case AND: case OR: case XOR: case SHL: case SAL: case SHR: case SAR:
            if (operands < 2 || (type = operand[operands - 1]) >= DOUBLE || type != operand[operands - 2])
                FAIL;
            operand[--operands] = 0;
            place++;
            continue;
        case NEG:
            if (!operands || operand[operands - 1] >= POINTER_TO)
                FAIL;
            place++;
            continue;
        case INC: case DEC:
            if (!operands || !points_to_number(operand[operands - 1]))
                FAIL;
            operand[--operands] = 0;
            place++;
            continue;
        case INC_TOP: case DEC_TOP: // of edition 1, which has no pointers
            if (!operands)
                FAIL;
            place++;
            continue;
        case NOT:
            if (!operands || operand[operands - 1] >= DOUBLE)
                FAIL;
            place++;
            continue;
        case CMP: case ICMP:
            if (operands < 2)
                FAIL;
            if (operand[operands - 1] != operand[operands - 2] &&
                (m->edition != 4 || !can_be_compared(operand[operands - 1], operand[operands - 2])))
                FAIL;
            operand[--operands] = 0;
            operand[operands - 1] = INT;
            place++;
            continue;
        case JMP: case JE: case JNE: case JA: case JAE: case JB: case JBE: {
            n = OPERAND;
            if (n >= m->label_count || read32(m->labels + LABEL * n) != body)
                FAIL;
            if (op != JMP) {
                if (!operands || operand[operands - 1] != INT)
                    FAIL;
                operand[--operands] = 0;
            }
            uint32_t target = first[read32(m->labels + LABEL * n + 4)];
            uint8_t *record = room + RECORD * target;
            SAVE;
            if (record[REACHED]) {
                if (!is_same(record, &s))
                    FAIL;
            } else {
                memcpy(record, &s, RECORD);
                waiting[waiting_count++] = (uint16_t)target;
            }
            if (op == JMP)
                goto next;
            place += 5;
            continue;
        }
        case CALL: {
            n = OPERAND;
            if (n >= m->function_count)
                FAIL;
            const uint8_t *f = function_at(m, n);
            uint32_t parameters = f[PARAMETERS];
            if (operands < parameters)
                FAIL;
            operands -= parameters;
            for (uint32_t i = 0; i < parameters; i++) {
                if (operand[operands + i] != f[PARAMETER_TYPES + i])
                    FAIL;
                operand[operands + i] = 0;
            }
            if (f[RETURNS]) {
                if (operands >= MOST_OPERANDS)
                    FAIL;
                operand[operands++] = f[RETURNS];
            }
            place += 5;
            continue;
        }
        case RET:
            if (body == ENTRY)
                FAIL;
            if (returns && (!operands || operand[operands - 1] != returns))
                FAIL;
            goto next;
        case TOI: case TOL: case TOD:
            if (!operands || operand[operands - 1] >= POINTER_TO)
                FAIL;
            operand[operands - 1] = op == TOI ? INT : op == TOL ? LONG : DOUBLE;
            place++;
            continue;
        case NULL_POINTER: case GCNULL:
            if (operands >= MOST_OPERANDS)
                FAIL;
            operand[operands++] = op == GCNULL ? MANAGED_TO : POINTER_TO;
            place++;
            continue;
        case NEW: case GCNEW:
            n = OPERAND;
            if (operands >= MOST_OPERANDS || !type_width(m, n))
                FAIL;
            operand[operands++] = (uint8_t)((op == GCNEW ? MANAGED_TO : POINTER_TO) | n);
            place += 5;
            continue;
        case DELETE:
            if (!operands || operand[operands - 1] < POINTER_TO || operand[operands - 1] >= MANAGED_TO)
                FAIL;
            operand[--operands] = 0;
            place++;
            continue;
        case FLEA: {
            n = OPERAND;
            if (!operands || (type = operand[operands - 1]) < POINTER_TO)
                FAIL;
            uint32_t target = type & TARGET;
            if (target < LIMPETSKEIN_FIRST_STRUCTURE)
                FAIL;
            const uint8_t *fields = m->structures + STRUCTURE * (target - LIMPETSKEIN_FIRST_STRUCTURE);
            if (n >= fields[0])
                FAIL;
            operand[operands - 1] = (uint8_t)(fields[1 + n] | (type - target));
            place += 5;
            continue;
        }
        }
        __builtin_unreachable(); // the reader met no other opcode
    }
    next:
        if (!waiting_count)
            return 1;
        {
            uint32_t label = waiting[--waiting_count];
            memcpy(&s, room + RECORD * label, RECORD);
            locals = s.bytes[LOCAL_COUNT];
            operands = s.bytes[OPERAND_COUNT];
            place = read32(m->labels + LABEL * label + 4);
            goto walk;
        }
    }
}

uint32_t baseline_check(const uint8_t *module, size_t module_len, uint8_t *room, size_t room_len, uint32_t *body) {
    uint64_t starts[BITMAP], labelled[BITMAP];
    uint16_t first[LONGEST_CODE];
    uint8_t translated[LONGEST_CODE];
    Module m;
    uint32_t refusal = open_module(module, module_len, &m, starts, translated);
    if (unlikely(refusal))
        return refusal;
    if (unlikely(room_len / RECORD < m.label_count))
        return LIMPETSKEIN_ROOM_TOO_SHORT;
    memset(room, 0, RECORD * (size_t)m.label_count);
    memset(labelled, 0, 8 * ((size_t)(m.code_length >> 6) + 1));
    for (uint32_t i = m.label_count; i-- > 0;) {
        uint32_t place = read32(m.labels + LABEL * i + 4);
        labelled[place >> 6] |= 1ull << (place & 63);
        first[place] = (uint16_t)i;
    }
    uint32_t start = 0, end = m.entry_length, b = ENTRY;
    for (;;) {
        if (!type_body(&m, room, b, start, end, labelled, first)) {
            memset(room, 0, RECORD * (size_t)m.label_count);
            *body = b;
            return LIMPETSKEIN_NO_TYPING;
        }
        b++; // from the entry to function 0
        if (b == m.function_count)
            break;
        start = end;
        end += read32(function_at(&m, b) + 4);
    }
    for (uint32_t i = 0; i < m.label_count; i++) {
        uint32_t shown = first[read32(m.labels + LABEL * i + 4)];
        if (shown != i)
            memcpy(room + RECORD * i, room + RECORD * shown, RECORD);
    }
    return LIMPETSKEIN_DONE;
}
