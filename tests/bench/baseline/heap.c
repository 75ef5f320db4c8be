// Blocks of a lent heap. Free cells are zero at all times, and so are the entries after the live ones.
#include <emmintrin.h>

#include "heap.h"

enum { SERIAL = 0, FIRST = 8, TYPE = 16, BLOCK = LIMPETSKEIN_BLOCK, CELL = LIMPETSKEIN_CELL };
enum { FIRST_STRUCTURE = LIMPETSKEIN_FIRST_STRUCTURE, TYPES = FIRST_STRUCTURE + LIMPETSKEIN_MOST_STRUCTURES };
enum { MOST = LIMPETSKEIN_MOST_CELLS, WORDS = MOST / 64 };

// In the table, the type of a managed block has this bit.
enum { LISTED_MANAGED = 64, LISTED_TYPE = LISTED_MANAGED - 1 };

static const uint64_t serial_limit = 0xFFFFFFFFFFFFull;

static inline void write64(uint8_t *at, uint64_t v) { memcpy(at, &v, 8); }

// A structure's record: its count of fields, then their types.
static inline const uint8_t *fields_of(const Heap *h, uint32_t type) {
    return h->module->structures + STRUCTURE * (size_t)(type - FIRST_STRUCTURE);
}

// The type of a live block, managed or not.
static inline uint32_t type_of(const uint8_t *entry) { return entry[TYPE] & LISTED_TYPE; }

// The cells of a live block, of a type that there is.
static inline size_t width_of(const Heap *h, uint32_t type) {
    return type < FIRST_STRUCTURE ? 1 : fields_of(h, type)[0];
}

void heap_clear(Heap *h, size_t cells_len, size_t table_len) {
    size_t cells = cells_len / CELL, entries = table_len / BLOCK, capacity = cells < entries ? cells : entries;
    h->capacity = capacity < MOST ? capacity : MOST;
    if (h->capacity) {
        memset(h->cells, 0, CELL * h->capacity);
        memset(h->table, 0, BLOCK * h->capacity);
    }
}

// ---- entries

// The entry of a serial, or NULL. Serials rise: it stands below the serial, and fewer than next - serial are after it.
static inline uint8_t *look_for(const Heap *h, uint64_t serial) {
    if (serial >= h->next)
        return NULL;
    uint64_t after = h->next - serial;
    size_t from = after < h->count ? h->count - after : 0, to = serial < h->count ? serial : h->count;
    while (from < to) {
        size_t middle = from + (to - from) / 2;
        uint8_t *entry = h->table + BLOCK * middle;
        uint64_t found = read64(entry + SERIAL);
        if (found == serial)
            return entry;
        if (found < serial)
            from = middle + 1;
        else
            to = middle;
    }
    return NULL;
}

// The same, first where it stands if no later block is gone.
static inline uint8_t *find(const Heap *h, uint64_t serial) {
    uint64_t after = h->next - serial;
    if (likely(after - 1 < h->count)) {
        uint8_t *entry = h->table + BLOCK * (h->count - after);
        if (likely(read64(entry + SERIAL) == serial))
            return entry;
    }
    return look_for(h, serial);
}

// ---- new

// By type number, a block's cells as bits.
static inline void find_masks(const Module *m, uint8_t masks[TYPES]) {
    masks[INT] = masks[LONG] = masks[DOUBLE] = 1;
    for (uint32_t i = 0; i < m->structure_count; i++)
        masks[FIRST_STRUCTURE + i] = (uint8_t)((1u << m->structures[STRUCTURE * i]) - 1);
}

// The cells that are taken, as bits.
static inline void mark(const Heap *h, uint64_t *taken) {
    uint8_t masks[TYPES];
    find_masks(h->module, masks);
    const uint8_t *at = h->table, *end = at + BLOCK * h->count;
    for (; at < end; at += BLOCK) {
        size_t first = read64(at + FIRST), shift = first & 63;
        uint64_t mask = masks[type_of(at)];
        taken[first >> 6] |= mask << shift;
        if (unlikely(shift > 56))
            taken[(first >> 6) + 1] |= mask >> (64 - shift);
    }
}

// The lowest run of free cells, where there may be one below the top. Cells from the top on are free, also those past
// the capacity.
static __attribute__((noinline)) size_t search(Heap *h, uint32_t width) {
    uint64_t taken[WORDS + 2];
    size_t words = h->top / 64 + 1, word = h->low / 64;
    memset(taken, 0, 8 * (words + 1));
    mark(h, taken);
    while (!~taken[word])
        word++;
    h->low = 64 * word + (size_t)__builtin_ctzll(~taken[word]);
    for (;; word++) {
        uint64_t free = ~taken[word], next = ~taken[word + 1], runs = free;
        for (uint32_t i = 1; i < width && runs; i++)
            runs &= free >> i | next << (64 - i);
        if (runs)
            return 64 * word + (size_t)__builtin_ctzll(runs);
    }
}

// Where a block of this width goes; past the capacity where there is no run.
static inline size_t place_of(Heap *h, uint32_t width) {
    return likely(h->low == h->top) ? h->top : search(h, width);
}

// A block of this type as listed from this cell on.
static inline uint64_t give(Heap *h, uint32_t type, size_t first, size_t end) {
    uint8_t *entry = h->table + BLOCK * h->count++;
    uint64_t serial = h->next++;
    write64(entry + SERIAL, serial);
    write64(entry + FIRST, first);
    write64(entry + TYPE, type);
    if (first == h->low)
        h->low = end;
    if (end > h->top)
        h->top = end;
    return serial << 16;
}

uint64_t heap_new(Heap *h, uint32_t type, uint32_t width) {
    if (unlikely(h->next >= serial_limit))
        return LIMPETSKEIN_NULL;
    size_t first = place_of(h, width), end = first + width;
    return likely(end <= h->capacity) ? give(h, type, first, end) : LIMPETSKEIN_NULL;
}

// ---- delete

// One to eight cells, some of them twice.
static inline void clear_cells(uint8_t *at, size_t count) {
    const __m128i zero = _mm_setzero_si128();
    uint8_t *end = at + CELL * count;
    if (count == 1) {
        write64(at, 0);
        return;
    }
    _mm_storeu_si128((__m128i *)at, zero);
    _mm_storeu_si128((__m128i *)(end - 16), zero);
    if (count > 4) {
        _mm_storeu_si128((__m128i *)(at + 16), zero);
        _mm_storeu_si128((__m128i *)(end - 32), zero);
    }
}

int heap_delete(Heap *h, uint64_t address) {
    uint8_t *entry = find(h, address >> 16);
    if (unlikely(!entry || address & 0xFFFF || entry[TYPE] & LISTED_MANAGED))
        return 0;
    size_t first = read64(entry + FIRST), width = width_of(h, entry[TYPE]), end = first + width;
    clear_cells(h->cells + CELL * first, width);
    uint8_t *last = h->table + BLOCK * --h->count;
    if (entry < last)
        memmove(entry, entry + BLOCK, (size_t)(last - entry));
    memset(last, 0, BLOCK);
    if (first < h->low)
        h->low = first;
    if (end == h->top)
        h->top = first;
    return 1;
}

// ---- gcnew

// Sets the bit of the managed block that this address is to; 1 where it was not set.
static inline size_t hold(const Heap *h, uint64_t address, uint64_t *held) {
    const uint8_t *entry = find(h, address >> 16);
    if (unlikely(!entry || !(entry[TYPE] & LISTED_MANAGED)))
        return 0;
    size_t i = (size_t)(entry - h->table) / BLOCK;
    uint64_t word = held[i >> 6], bit = 1ull << (i & 63);
    held[i >> 6] = word | bit;
    return !(word & bit);
}

// The bits of all managed blocks that these slots hold, by entry; how many.
static inline size_t find_held(const Heap *h, size_t height, uint64_t *held) {
    const __m128i managed = _mm_set1_epi8(MANAGED);
    const uint8_t *payloads = h->payloads, *types = h->types;
    size_t slot = 0, live = 0;
    for (; slot + 16 <= height; slot += 16) {
        __m128i found = _mm_cmpeq_epi8(_mm_loadu_si128((const __m128i *)(types + slot)), managed);
        for (uint32_t bits = (uint32_t)_mm_movemask_epi8(found); bits; bits &= bits - 1)
            live += hold(h, read64(payloads + 8 * (slot + (size_t)__builtin_ctz(bits))), held);
    }
    for (; slot < height; slot++)
        if (types[slot] == MANAGED)
            live += hold(h, read64(payloads + 8 * slot), held);
    return live;
}

static inline int is_dead(const Heap *h, const uint64_t *held, size_t i) {
    return h->table[BLOCK * i + TYPE] & LISTED_MANAGED && !has_bit(held, (uint32_t)i);
}

// Frees the blocks that are not held: their cells first, from the last given on, then their entries.
static inline void free_others(Heap *h, const uint64_t *held) {
    size_t count = h->count, first_dead = count;
    for (size_t i = count; i-- > 0;) {
        if (likely(!is_dead(h, held, i)))
            continue;
        uint8_t *entry = h->table + BLOCK * i;
        size_t first = read64(entry + FIRST), width = width_of(h, type_of(entry));
        clear_cells(h->cells + CELL * first, width);
        h->low = first < h->low ? first : h->low;
        h->top = first + width == h->top ? first : h->top;
        h->managed--;
        first_dead = i;
    }
    uint8_t *to = h->table + BLOCK * first_dead;
    for (size_t i = first_dead; i < count; i++)
        if (!is_dead(h, held, i)) {
            memcpy(to, h->table + BLOCK * i, BLOCK);
            to += BLOCK;
        }
    h->count = (size_t)(to - h->table) / BLOCK;
    memset(to, 0, BLOCK * (count - h->count));
}

static inline void free_dead(Heap *h, size_t height) {
    uint64_t held[WORDS];
    if (!h->managed)
        return;
    memset(held, 0, 8 * ((h->count + 63) / 64));
    if (find_held(h, height, held) < h->managed)
        free_others(h, held);
}

static inline void copy_cells(uint8_t *to, const uint8_t *from, size_t count) {
    for (size_t i = 0; i < count; i++)
        write64(to + CELL * i, read64(from + CELL * i));
}

// Puts all blocks side by side from cell 0 on, by serial. Those at the table's start that lie so stay; the others are
// laid side by side elsewhere, and then copied behind them.
static __attribute__((noinline)) void pack(Heap *h) {
    uint8_t apart[CELL * MOST], *to = apart, *entry = h->table, *end = h->table + BLOCK * h->count;
    size_t cell = 0;
    for (; entry < end && read64(entry + FIRST) == cell; entry += BLOCK)
        cell += width_of(h, type_of(entry));
    size_t start = cell;
    for (; entry < end; entry += BLOCK) {
        size_t width = width_of(h, type_of(entry));
        copy_cells(to, h->cells + CELL * read64(entry + FIRST), width);
        write64(entry + FIRST, cell);
        to += CELL * width;
        cell += width;
    }
    if (cell > start)
        memcpy(h->cells + CELL * start, apart, CELL * (cell - start));
    if (h->top > cell)
        memset(h->cells + CELL * cell, 0, CELL * (h->top - cell));
    h->low = h->top = cell;
}

uint64_t heap_gcnew(Heap *h, uint32_t type, uint32_t width, const uint8_t *types_end) {
    free_dead(h, (size_t)(types_end - h->types));
    size_t first = place_of(h, width);
    if (unlikely(first + width > h->capacity)) {
        pack(h);
        first = h->top;
    }
    if (unlikely(first + width > h->capacity || h->next >= serial_limit))
        return LIMPETSKEIN_NULL;
    h->managed++;
    return give(h, LISTED_MANAGED | type, first, first + width);
}

// ---- addresses

Number heap_number(const Heap *h, uint64_t address) {
    const uint8_t *entry = find(h, address >> 16);
    if (unlikely(!entry))
        return (Number){NULL, 0, address == LIMPETSKEIN_NULL ? LIMPETSKEIN_POINTER_NULLPOINTER
                                                             : LIMPETSKEIN_POINTER_UNKNOWNADDRESS};
    uint32_t type = type_of(entry), offset = address & 0xFFFF;
    uint8_t *cell = h->cells + CELL * read64(entry + FIRST);
    if (likely(type >= FIRST_STRUCTURE)) {
        const uint8_t *fields = fields_of(h, type);
        if (likely(offset - 1 < fields[0]))
            return (Number){cell + CELL * (offset - 1), fields[offset], 0};
        return (Number){NULL, 0, offset ? LIMPETSKEIN_POINTER_UNKNOWNADDRESS : LIMPETSKEIN_POINTER_WHOLESTRUCTURE};
    }
    return (Number){cell, type, offset ? LIMPETSKEIN_POINTER_UNKNOWNADDRESS : 0};
}

Address heap_field(const Heap *h, uint64_t address, size_t slots, uint32_t field) {
    const uint8_t *entry = find(h, address >> 16);
    if (unlikely(!entry))
        return (Address){0, address == LIMPETSKEIN_NULL ? LIMPETSKEIN_POINTER_NULLPOINTER
                            : address < slots           ? LIMPETSKEIN_POINTER_NOTSTRUCTURE
                                                        : LIMPETSKEIN_POINTER_UNKNOWNADDRESS};
    uint32_t type = type_of(entry), offset = address & 0xFFFF;
    size_t count = type < FIRST_STRUCTURE ? 0 : fields_of(h, type)[0];
    if (likely(!offset && field < count))
        return (Address){address + 1 + field, 0};
    if (offset > count)
        return (Address){0, LIMPETSKEIN_POINTER_UNKNOWNADDRESS};
    return (Address){0, offset || !count ? LIMPETSKEIN_POINTER_NOTSTRUCTURE : LIMPETSKEIN_FIELD_OUTOFRANGE};
}
