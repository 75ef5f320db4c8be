// Copies of a module's sections.
#ifndef COPY_H
#define COPY_H

#include <emmintrin.h>
#include <stddef.h>
#include <stdint.h>
#include <string.h>

enum { LONG_COPY = 1024 };

// Long copies by 64 bytes: those of the C library may count as many machine instructions as bytes.
static inline uint8_t *put(uint8_t *to, const uint8_t *from, size_t length) {
    uint8_t *end = to + length;
    if (length >= LONG_COPY)
        for (; length >= 64; length -= 64, from += 64, to += 64)
            for (int i = 0; i < 64; i += 16)
                _mm_storeu_si128((__m128i *)(to + i), _mm_loadu_si128((const __m128i *)(from + i)));
    if (length)
        memcpy(to, from, length);
    return end;
}

#endif
