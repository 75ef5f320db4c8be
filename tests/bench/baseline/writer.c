// Writes a module: all tests first, then the header and a copy of each section.
#include "baseline.h"
#include "copy.h"
#include "module.h"

uint32_t baseline_write(uint32_t edition, const uint8_t *constants, size_t constants_len, const uint8_t *functions,
                        size_t functions_len, const uint8_t *labels, size_t labels_len, const uint8_t *structures,
                        size_t structures_len, const uint8_t *code, size_t code_len, uint32_t entry_length,
                        uint8_t *out, size_t out_len, uint64_t *written) {
    if (unlikely(edition != 3 && edition != 1 && edition != 4))
        return LIMPETSKEIN_OTHER_EDITION;
    uint32_t size = edition == 4 ? FUNCTION_4 : FUNCTION;
    size_t nc = constants_len / CONSTANT, nl = labels_len / LABEL, nz = structures_len / STRUCTURE;
    size_t nf = edition == 4 ? functions_len / FUNCTION_4 : functions_len / FUNCTION;
    if (unlikely((nc > MOST_CONSTANTS) | (nf > MOST_FUNCTIONS) | (nl > LIMPETSKEIN_MOST_LABELS) |
                 (nz > (edition == 4 ? LIMPETSKEIN_MOST_STRUCTURES : 0)) | (code_len > LONGEST_CODE)))
        return LIMPETSKEIN_OVER_LIMIT;
    if (unlikely((nc * CONSTANT != constants_len) | (nf * size != functions_len) | (nl * LABEL != labels_len) |
                 (nz * STRUCTURE != structures_len) | (entry_length > code_len)))
        return LIMPETSKEIN_NOT_PACKED;
    uint32_t code_length = (uint32_t)code_len;
    Module m = {constants,    functions,    labels,  code,         (uint32_t)nc, (uint32_t)nf, (uint32_t)nl,
                code_length,  entry_length, edition, (uint32_t)nz, structures,   size};
    uint64_t starts[BITMAP];
    uint8_t translated[LONGEST_CODE];
    uint32_t refusal = likely(edition == 3) ? test_sections(&m, starts)
                       : edition == 1       ? test_old_sections(&m, translated)
                                            : test_new_sections(&m);
    if (unlikely(refusal))
        return refusal;
    uint32_t header_length = edition == 4 ? HEADER_4 : HEADER;
    uint32_t functions_at = header_length + (uint32_t)constants_len, labels_at = functions_at + (uint32_t)functions_len;
    uint32_t code_at = labels_at + (uint32_t)labels_len, structures_at = code_at + code_length;
    uint32_t length = structures_at + (uint32_t)structures_len;
    if (unlikely(out_len < length))
        return LIMPETSKEIN_OUTPUT_TOO_SHORT;
    const uint32_t header[HEADER / 4] = {
        edition, length, m.constant_count, header_length, m.function_count, functions_at, m.label_count, labels_at,
        code_length, code_at, entry_length, 0};
    memcpy(out, header, HEADER);
    if (unlikely(edition == 4)) {
        const uint32_t more[2] = {m.structure_count, structures_at};
        memcpy(out + HEADER, more, HEADER_4 - HEADER);
        put(out + structures_at, structures, structures_len);
    }
    uint8_t *at = out + header_length;
    at = put(at, constants, constants_len);
    at = put(at, functions, functions_len);
    at = put(at, labels, labels_len);
    put(at, code, code_len);
    *written = length;
    return LIMPETSKEIN_DONE;
}
