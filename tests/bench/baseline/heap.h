// The lent heap of a run: cells of 8 bytes, and a table of 24-byte entries that lists the live blocks by serial.
#ifndef HEAP_H
#define HEAP_H

#include "module.h"

// low: no cell below it is free; top: no block reaches past it. managed: how many blocks are managed. payloads, types:
// the slots, in which managed blocks are held.
typedef struct {
    uint8_t *cells, *table;
    size_t capacity, count, low, top, managed;
    uint64_t next; // the next block's serial
    const Module *module;
    const uint8_t *payloads, *types;
} Heap;

// A number's cell and type, and an address of the heap; or an exception's number, else 0.
typedef struct {
    uint8_t *cell;
    uint32_t type, answer;
} Number;

typedef struct {
    uint64_t address;
    uint32_t answer;
} Address;

// Clears what is lent, up to the smaller number of whole cells and entries.
void heap_clear(Heap *heap, size_t cells_len, size_t table_len);

// A heap without blocks.
static inline void heap_start(Heap *heap, const Module *module, uint8_t *cells, size_t cells_len, uint8_t *table,
                              size_t table_len, const uint8_t *payloads, const uint8_t *types) {
    *heap = (Heap){cells, table, 0, 0, 0, 0, 0, 1, module, payloads, types};
    if (unlikely(cells_len))
        heap_clear(heap, cells_len, table_len);
}

// The address of a new block of this many cells, or null.
uint64_t heap_new(Heap *heap, uint32_t type, uint32_t width);

// The same of a managed block, where the slots' types end here: blocks that no slot holds are freed, and where there is
// then no run for the new one, the others are packed.
uint64_t heap_gcnew(Heap *heap, uint32_t type, uint32_t width, const uint8_t *types_end);

// Frees the block that new gave this address for; 0 where there is none.
int heap_delete(Heap *heap, uint64_t address);

// The number that an address of no slot is to: 36, 33 or 50.
Number heap_number(const Heap *heap, uint64_t address);

// A field of what an address is to: 36, 33, 39 or 38. slots: those left under the pointer.
Address heap_field(const Heap *heap, uint64_t address, size_t slots, uint32_t field);

#endif
