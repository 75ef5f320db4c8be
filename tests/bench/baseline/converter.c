// Converts modules between editions 3 and 4: all tests first, then a header, the function records one by one and a copy
// of each other section.
#include "baseline.h"
#include "copy.h"
#include "module.h"

#define INLINE inline __attribute__((always_inline))

// Refusals 1 and 2 of a module that must be of this edition, or 0.
static INLINE uint32_t test_edition(const uint8_t *module, size_t length, uint32_t edition) {
    if (unlikely(length < HEADER))
        return LIMPETSKEIN_TOO_SHORT;
    uint32_t its = read32(module);
    if (unlikely(its == 4 && length < HEADER_4))
        return LIMPETSKEIN_TOO_SHORT;
    return unlikely(its != edition) ? LIMPETSKEIN_OTHER_EDITION : 0;
}

// With profile 0 in edition 4, without a profile in edition 3.
static INLINE void put_functions(uint8_t *to, const Module *m, uint32_t edition) {
    const uint8_t *from = m->functions;
    for (uint32_t i = 0; i < m->function_count; i++) {
        memcpy(to, from, FUNCTION);
        if (edition == 4)
            memset(to + PROFILE, 0, FUNCTION_4 - PROFILE);
        from += edition == 4 ? FUNCTION : FUNCTION_4;
        to += edition == 4 ? FUNCTION_4 : FUNCTION;
    }
}

// Refusal 16, or 0 and the module in this edition, a constant in each caller.
static INLINE uint32_t put_module(const Module *m, uint32_t edition, uint8_t *out, size_t out_len, uint64_t *written) {
    uint32_t constants_at = edition == 4 ? HEADER_4 : HEADER, size = edition == 4 ? FUNCTION_4 : FUNCTION;
    uint32_t functions_at = constants_at + CONSTANT * m->constant_count;
    uint32_t labels_at = functions_at + size * m->function_count, code_at = labels_at + LABEL * m->label_count;
    uint32_t length = code_at + m->code_length;
    if (unlikely(out_len < length))
        return LIMPETSKEIN_OUTPUT_TOO_SHORT;
    // the last two words, of edition 4: no structures, which would stand at the end
    const uint32_t header[HEADER_4 / 4] = {
        edition, length, m->constant_count, constants_at, m->function_count, functions_at, m->label_count, labels_at,
        m->code_length, code_at, m->entry_length, 0, 0, length};
    memcpy(out, header, constants_at);
    put(out + constants_at, m->constants, CONSTANT * m->constant_count);
    put_functions(out + functions_at, m, edition);
    put(out + labels_at, m->labels, length - labels_at); // and the code behind them
    *written = length;
    return LIMPETSKEIN_DONE;
}

uint32_t baseline_to_edition_4(const uint8_t *module, size_t module_len, uint8_t *out, size_t out_len,
                               uint64_t *written) {
    uint64_t starts[BITMAP];
    Module m;
    uint32_t refusal = test_edition(module, module_len, 3);
    if (likely(!refusal))
        refusal = open_module(module, module_len, &m, starts, NULL);
    return unlikely(refusal) ? refusal : put_module(&m, 4, out, out_len, written);
}

uint32_t baseline_to_edition_3(const uint8_t *module, size_t module_len, uint8_t *out, size_t out_len,
                               uint64_t *written) {
    uint64_t starts[BITMAP];
    Module m;
    uint32_t refusal = test_edition(module, module_len, 4);
    if (likely(!refusal))
        refusal = open_for_edition_3(module, module_len, &m, starts);
    return unlikely(refusal) ? refusal : put_module(&m, 3, out, out_len, written);
}
