/*
 * limpetskein.h: for C, the check of a module, of the whole or of the one body that was edited, the stack that it needs,
 * the run of one of its bodies, the map of one of its functions over a row of pixels, the writer of modules, the compiler
 * of formula lines, and the conversion of modules between editions 3 and 4.
 *
 * Link with target/staticlib/liblimpetskein.a (`tools/library`; x86-64 Linux).
 *
 * The functions take any bytes, any numbers and any lengths, always return, and test for
 * themselves whatever they depend on. They allocate nothing, keep nothing between calls and
 * hold no pointer after they return: every byte that they read or write is lent by the caller
 * and stays the caller's. Calls on memory of their own may go on at the same time.
 *
 * What the caller owes:
 *   - A slice is a pointer and a number of bytes. All of them can be read and, where the pointer
 *     is not const, written. With length 0 the pointer may be null.
 *   - A slice that is written overlaps no other slice, and neither body, first, steps, height, rows nor written.
 *   - body, first, steps, height, rows and written are not null, are aligned and do not overlap each other.
 *   - Nothing else writes these bytes during the call.
 *
 * Numbers are little endian. Bodies are numbered as in the module's function section.
 */
#ifndef LIMPETSKEIN_H
#define LIMPETSKEIN_H

#include <stddef.h>
#include <stdint.h>

#ifdef __cplusplus
extern "C" {
#endif

/* The entry as a body's number, to run it and as what is named with 11 and 47. It takes no arguments. */
#define LIMPETSKEIN_ENTRY 0xFFFFFFFFu

/* Limits of the format. */
#define LIMPETSKEIN_LONGEST_MODULE 34040 /* bytes */
#define LIMPETSKEIN_MOST_CONSTANTS 1024
#define LIMPETSKEIN_MOST_FUNCTIONS 128
#define LIMPETSKEIN_MOST_LABELS 256
#define LIMPETSKEIN_MOST_STRUCTURES 16 /* of edition 4; the others have none */
#define LIMPETSKEIN_MOST_CODE 16384 /* bytes */
#define LIMPETSKEIN_ROOM_PER_LABEL 64 /* bytes of checking room */
#define LIMPETSKEIN_LONGEST_RECORD 137 /* bytes of the record of a module's bodies: 9, and one for each function */
#define LIMPETSKEIN_NEED_PER_BODY 8 /* bytes of the report of needs for the entry and for each function */
#define LIMPETSKEIN_LONGEST_REPORT 1032 /* bytes of the report of needs */
#define LIMPETSKEIN_MOST_FRAMES 64    /* that live at once in a run */
#define LIMPETSKEIN_MOST_SLOTS 4096   /* a larger lent stack is used up to here */
#define LIMPETSKEIN_MOST_CELLS 4096   /* and a larger lent heap */

/* Bytes of a module's header and of a record of its tables; those of edition 4 that differ are named so. */
#define LIMPETSKEIN_HEADER 48
#define LIMPETSKEIN_HEADER_4 56
#define LIMPETSKEIN_CONSTANT 12
#define LIMPETSKEIN_FUNCTION 20
#define LIMPETSKEIN_FUNCTION_4 24
#define LIMPETSKEIN_LABEL 8
#define LIMPETSKEIN_STRUCTURE 12

/* Bytes of a heap's cell, and of the entry of a block. */
#define LIMPETSKEIN_CELL 8
#define LIMPETSKEIN_BLOCK 24

/* The first structure's type number; the next ones follow. */
#define LIMPETSKEIN_FIRST_STRUCTURE 10

/* Added to the type number of a managed block, one that gcnew gave, where it is listed. */
#define LIMPETSKEIN_MANAGED 64

/* Limits of formula lines, and what serves every run of what they compile to. */
#define LIMPETSKEIN_LONGEST_LINE 256     /* bytes */
#define LIMPETSKEIN_LONGEST_FORMULA 2373 /* bytes of the module of a line */
#define LIMPETSKEIN_FORMULA_ALLOWANCE 257
#define LIMPETSKEIN_FORMULA_SLOTS 35

/* Type bytes of slots and arguments. */
#define LIMPETSKEIN_INT 3     /* 32 bits; the payload's upper four bytes are zero */
#define LIMPETSKEIN_LONG 4    /* 64 bits */
#define LIMPETSKEIN_DOUBLE 6  /* the bits of an IEEE 754 double */
#define LIMPETSKEIN_POINTER 7 /* an address: see below */
#define LIMPETSKEIN_MANAGED_POINTER 8 /* an address as well, from gcnew or gcnull; edition 4 only */

/*
 * Addresses, the payloads of pointers of both types. Below 65,536: the number of a slot, from 0, the deepest.
 * LIMPETSKEIN_NULL: null. Else a block of the heap, by its serial times 65,536, plus 0 for the whole block or 1 + field
 * for a structure's field.
 */
#define LIMPETSKEIN_NULL 0xFFFFFFFFFFFFFFFFull

/*
 * Answers. A call gives the first in number order that holds; of a formula line and of a conversion 16 comes last, of a
 * check with a record 16 comes behind 10 and before 11, of the report of needs behind 11 and 47, of the check of a body 11
 * comes behind 12 and 45, and the number of a map's first row that does not finish comes behind what is refused before any
 * row.
 */
enum {
    LIMPETSKEIN_DONE = 0, /* checks: accepted. need: accepted, and the report is written. run: finished. map: every row
                             finished. write, formula and conversions: written */

    /* The module can't be read: checks, need, run, map and conversions. 2 and 4 to 9 also: these tables are no module:
       write. */
    LIMPETSKEIN_TOO_SHORT = 1,     /* under 48 bytes; under 56 in edition 4 */
    LIMPETSKEIN_OTHER_EDITION = 2, /* the edition is none of 1, 3 and 4; a conversion: it is not the one that is
                                      converted */
    LIMPETSKEIN_OTHER_LENGTH = 3,  /* the total length word differs from the lent length */
    LIMPETSKEIN_OVER_LIMIT = 4,    /* a count or the code length is over its limit, or word 44 is not zero; write: a
                                      structure for edition 1 or 3 */
    LIMPETSKEIN_NOT_PACKED = 5,    /* an offset, the sections' sum, or an entry longer than the code; write: part
                                      of a record at a table's end */
    LIMPETSKEIN_BAD_CONSTANT = 6,  /* a constant of another type, an int with upper bytes set, or a bad structure */
    LIMPETSKEIN_BAD_FUNCTION = 7,  /* a bad function record, an undeclared structure in one, or bodies that don't
                                      fill the code */
    LIMPETSKEIN_BAD_CODE = 8,      /* an unknown opcode, or an instruction crossing its body's end */
    LIMPETSKEIN_BAD_LABEL = 9,     /* a label with no such owner, or not on an instruction start of it */

    /* Checks and need only. */
    LIMPETSKEIN_ROOM_TOO_SHORT = 10, /* checking room under 64 bytes per label */
    LIMPETSKEIN_NO_TYPING = 11,      /* some body has no consistent typing; *body is the first. Check of a body: by the
                                        record some body has none; *first is the first */
    LIMPETSKEIN_RECORD_DIFFERS = 45, /* check of a body: a count, offset or length other than this module's record has,
                                        or a byte over 1 */

    /* Need only. */
    LIMPETSKEIN_CALLS_LOOP = 47, /* from some body a chain of reached calls comes back to a body on it, so that no stack
                                    is known to be enough; *body is the first such body, on the loop or leading to it */

    /* Run and map only: it did not start. 12 also: the check of a body. */
    LIMPETSKEIN_NO_SUCH_FUNCTION = 12,
    LIMPETSKEIN_BAD_ARGUMENTS = 13, /* not 8 payload bytes per type byte, other types than declared, an int with
                                       upper bits, a pointer parameter, managed or not, or arguments for the entry; map:
                                       an output or rows of another length, a pointer parameter, no result, the entry,
                                       or, at its row, an int with upper bits */
    LIMPETSKEIN_OTHER_PROFILE = 17, /* the function was made for another profile */

    /* Write, formula and conversions, the check with a record, and need. */
    LIMPETSKEIN_OUTPUT_TOO_SHORT = 16, /* there is a module, a record or a report to write, and the output is shorter than
                                          it */

    /* To edition 3 only. */
    LIMPETSKEIN_NOT_IN_EDITION_3 = 18, /* a profile that is not 0, a structure, or a type byte or opcode that edition 3
                                          lacks */

    /* Run and map only: it stopped, a map at a row. Of an accepted module only 0, 15, 20, 24 and 35, in editions 3 and
       4 also 44, and in edition 4 also 33 and 36, come from a run that started. */
    LIMPETSKEIN_ALLOWANCE_USED_UP = 15,
    LIMPETSKEIN_STACK_OVERFLOW = 20, /* no free slot, a 65th frame, or arguments that don't fit. limpetskein_need tells
                                        how many slots keep it away */
    LIMPETSKEIN_STACK_EMPTY = 21,
    LIMPETSKEIN_STACK_DIFFERENTTYPE = 22,
    LIMPETSKEIN_CONSTANTPOOL_OUTOFRANGE = 23,
    LIMPETSKEIN_ARITHMETIC_DIVIDEBYZERO = 24, /* of an int or a long */
    LIMPETSKEIN_LOCALVARIABLE_OUTOFRANGE = 25,
    LIMPETSKEIN_LOCALVARIABLE_INVALIDINDEX = 26,
    LIMPETSKEIN_LABEL_OUTOFRANGE = 27,
    LIMPETSKEIN_FUNCTION_OUTOFRANGE = 28,
    LIMPETSKEIN_FUNCTION_NORETINSTRUCTION = 29,
    LIMPETSKEIN_FUNCTION_TOPOFCALLSTACK = 30,
    LIMPETSKEIN_POINTER_NOTPOINTER = 31, /* a number where a pointer is wanted; delete: of type 8 too */
    LIMPETSKEIN_POINTER_INVALIDFORPOINTER = 32,
    LIMPETSKEIN_POINTER_UNKNOWNADDRESS = 33, /* no slot in use, no live block, no field of it; delete: not what new gave */
    LIMPETSKEIN_DOUBLE_INVALIDFORDOUBLE = 34,
    LIMPETSKEIN_DOUBLE_UNORDERED = 35, /* cmp or icmp of two doubles, one of them a NaN */
    LIMPETSKEIN_POINTER_NULLPOINTER = 36,     /* null or gcnull, followed */
    LIMPETSKEIN_TYPE_OUTOFRANGE = 37,         /* new or gcnew of a type that there is not */
    LIMPETSKEIN_FIELD_OUTOFRANGE = 38,        /* flea of a field that the structure does not have */
    LIMPETSKEIN_POINTER_NOTSTRUCTURE = 39,    /* flea of what is no structure */
    LIMPETSKEIN_CONVERT_OUTOFRANGE = 44,      /* toi or tol of a double that is a NaN or out of range; not in
                                                 edition 1, which gives the top bit alone */
    LIMPETSKEIN_POINTER_WHOLESTRUCTURE = 50,  /* tload, tstore, inc or dec of a whole structure */

    /* Formula only. */
    LIMPETSKEIN_LINE_TOO_LONG = 40,    /* over 256 bytes, whatever they are */
    LIMPETSKEIN_NOT_IN_GRAMMAR = 41,   /* no formula, however deep brackets may be; or a number over 4294967295 */
    LIMPETSKEIN_TOO_DEEP = 42,         /* brackets in brackets, over 16 deep */
    LIMPETSKEIN_TOO_MANY_OPERANDS = 43 /* over 32 operands would wait on the stack at once */
};

/*
 * Checks a module: 0 to 11.
 *
 *   room   64 bytes for each label of the module; LIMPETSKEIN_MOST_LABELS times 64 serve every module.
 *   *body  written with 11 only: the first body without typing, the entry before the functions.
 *
 * The room after the call:
 *   1 to 10  unchanged.
 *   11       the first 64 bytes per label are zero, the rest is unchanged.
 *   0        for label i, at 64 i: byte 0 is 1 if the label is reached, byte 1 the count of locals, byte 2 of
 *            operands; bytes 16 to 31 the local types, 32 to 63 the operand types, deepest first (3, 4, 6; hex 83,
 *            84, 86 for a pointer to one, 8A to 99 for one to structure 10 to 25, 80 for null; hex 40 more, C3, C4, C6,
 *            CA to D9 and C0, for a managed one); zeros elsewhere, and all zero if not reached. The rest is unchanged.
 */
uint32_t limpetskein_check(const uint8_t *module, size_t module_len, uint8_t *room, size_t room_len, uint32_t *body);

/*
 * Checks a module as limpetskein_check does, and writes a record of its bodies: 0 to 10, 16, 11, in this order.
 *
 *   record    9 bytes and one for each function; LIMPETSKEIN_LONGEST_RECORD serve every module.
 *   *body     written with 11 only, as by limpetskein_check.
 *   *written  written with 0 only: the record's length. With 11 the record is as long.
 *
 * The room after the call is as limpetskein_check leaves it, with 16 unchanged. The record after the call:
 *   1 to 10, 16  unchanged.
 *   0, 11        two words, the count of bodies (functions + 1) and 8; then a byte for each body, the entry's first, 1 if
 *                it has a typing, else 0, with 11 also for those behind *body. The rest is unchanged.
 */
uint32_t limpetskein_check_recording(const uint8_t *module, size_t module_len, uint8_t *room, size_t room_len,
                                     uint8_t *record, size_t record_len, uint32_t *body, uint64_t *written);

/*
 * Checks one body of a module, beside a record: 0 to 9, 12, 45, 11, in this order. It needs no room and writes no label
 * records.
 *
 *   body    its number, or LIMPETSKEIN_ENTRY.
 *   record  of the module's exact length, as limpetskein_check_recording wrote it for the module before the edit, or as
 *           this call left it then.
 *   *first  written with 11 only: the first body whose byte is 0 now, often another than the one that was named.
 *
 * The record after the call:
 *   1 to 9, 12, 45  unchanged.
 *   0, 11           the named body's byte is 1 if it has a typing, else 0. All other bytes are unchanged.
 *
 * The other bodies are not looked at: the record is believed. The answer and *first are those of limpetskein_check, given
 * room, if the record is one of the module before the edit, and the two modules have the same edition, constant types,
 * structures, signatures and other bodies, their labels the same by number and place within the body. Constants' payloads
 * and functions' profiles may differ. The record is then one of the new module, so the next edit may follow. After any
 * other change, as of the count of functions or constants, a full check is due.
 */
uint32_t limpetskein_check_body(const uint8_t *module, size_t module_len, uint32_t body, uint8_t *record,
                                size_t record_len, uint32_t *first);

/*
 * Checks a module as limpetskein_check does, and reports the stack that it needs: 0 to 11, 47, 16, in this order.
 *
 *   report    8 bytes for the entry and for each function; LIMPETSKEIN_LONGEST_REPORT serve every module.
 *   *body     written with 11, as by limpetskein_check, and with 47: the first body from which a chain of reached calls
 *             comes back to a body on it, the entry before the functions.
 *   *written  written with 0 only: the report's length, 8 bytes a body.
 *
 * The room after the call is as limpetskein_check leaves it; with 47 and 16 the module was accepted, and the room has its
 * labels' records. The report after the call:
 *   1 to 11, 47, 16  unchanged.
 *   0                for the entry, at 0, and for function k, at 8 (k + 1), two words: the slots that it needs, counted from
 *                    its first argument, and the frames that live at once, its own among them. The rest is unchanged.
 *
 * A run of this body on at least so many slots, where the frames are at most LIMPETSKEIN_MOST_FRAMES, never ends in 20,
 * whatever its arguments, the scan's profile, the allowance and the heap are. Both are the most over all ways that the code
 * can go, whatever branches would decide; slots buried under locals count, code that is not reached does not, and flow goes
 * on past a call whose callee never returns. A need over LIMPETSKEIN_MOST_SLOTS, or frames over 64, are told as they are:
 * then no stack is known to be enough. The heap is no part of it.
 */
uint32_t limpetskein_need(const uint8_t *module, size_t module_len, uint8_t *room, size_t room_len, uint8_t *report,
                          size_t report_len, uint32_t *body, uint64_t *written);

/*
 * Runs a body of a module, checked or not: 0 to 9, 12, 13, 15, 17, 20 to 39, 44, 50.
 *
 *   function      its number, or LIMPETSKEIN_ENTRY.
 *   arg_types     a type byte for each argument, parameter 0 first.
 *   arg_payloads  8 bytes for each argument, in the same order.
 *   profile       the scan's. A function that was made for another one is refused with 17. A function of edition 4
 *                 names in its record the profile that it was made for, 0 for any; functions of other editions and
 *                 the entry are for any, and functions that are called are not asked. A scan may have profile 0.
 *   allowance     the most steps that it may count.
 *   payloads      8 bytes a slot. types: a byte a slot. The capacity is the smaller number of whole slots,
 *                 at most LIMPETSKEIN_MOST_SLOTS.
 *   heap          8 bytes a cell. blocks: 24 bytes an entry. The heap's capacity is the smaller number of whole cells
 *                 and entries, at most LIMPETSKEIN_MOST_CELLS. Where none is lent, new and gcnew give null.
 *   *steps        the instructions counted; *height: the slots in use at the end. Both are written with 0, 15,
 *                 20 to 39, 44 and 50 only.
 *
 * The slots after the call:
 *   1 to 9, 12, 13, 17       unchanged.
 *   0, 15, 20 to 39, 44, 50  slots 0 to the height, deepest first, as the run left them; from the height to the
 *                            capacity zero; payload and type bytes past the capacity unchanged. What the slots held
 *                            before does not matter: a run starts empty, or with its arguments.
 *
 * The heap after the call:
 *   1 to 9, 12, 13, 17       unchanged.
 *   0, 15, 20 to 39, 44, 50  the entries list the live blocks by serial (serial, first cell, type number, 8 bytes each;
 *                            LIMPETSKEIN_MANAGED is added to a managed block's type number, and such a block stays
 *                            until a gcnew finds no slot of type 8 that holds its serial) and are zero after these; the
 *                            cells of a live block hold its fields' payloads, an int's upper four bytes zero, and all
 *                            other cells are zero; what lies past the capacity is
 *                            unchanged. So it is in every edition. What the heap held before does not matter: a run
 *                            starts without blocks, and what it leaves is for the host to read. A later run frees it.
 *
 * A function that finished leaves the returned value alone in slot 0, height 1, or nothing, height 0.
 */
uint32_t limpetskein_run(const uint8_t *module, size_t module_len, uint32_t function, const uint8_t *arg_types,
                         size_t arg_types_len, const uint8_t *arg_payloads, size_t arg_payloads_len,
                         uint32_t profile, uint64_t allowance, uint8_t *payloads, size_t payloads_len,
                         uint8_t *types, size_t types_len, uint8_t *heap, size_t heap_len, uint8_t *blocks,
                         size_t blocks_len, uint64_t *steps, uint64_t *height);

/*
 * Runs a function of a module, checked or not, for each pixel of a row: 0 to 9, 12, 13, 15, 17, 20 to 39, 44, 50.
 *
 *   function      its number. It has a result, and no parameter is a pointer.
 *   profile       the scan's, as for a run.
 *   arg_payloads  the rows of arguments, one behind the other: 8 bytes for each parameter, parameter 0 first, under the
 *                 types that the function declares. A function without parameters has none here.
 *   out           8 bytes for each row, and so it says how many rows there are. Written for each row that finished: the
 *                 payload that it returned.
 *   allowance     the most steps that a row may count; each has the whole of it.
 *   payloads, types, heap, blocks  slots and heap as for a run. All rows use them, one after the other.
 *   *rows         written with every answer: how many rows finished.
 *
 * Row i is the run of the function on the i-th row of arguments. The first row that does not finish ends the call, and
 * its number is the answer; *rows is the number of rows before it, and so which row it is, counted from 0. The rows
 * behind it are not looked at. With 0 every row finished; where there is none, nothing is run.
 *
 * Refusals before any row, in this order: 1 to 9; 12; 13; 17. This 13 is an output that is no multiple of 8 bytes, rows
 * of arguments that are not 8 bytes for each parameter of each row, a pointer parameter, or a function without a
 * result, as the entry is. *rows is 0. An int with upper bits in its payload is 13 at its row, which then is not run; so
 * it comes behind 17. A map tells no steps and no height.
 *
 * The output after the call:
 *   a refusal before any row  unchanged.
 *   else                      the payloads of the rows that finished, and past them unchanged.
 *
 * The slots and the heap after the call are as a run leaves them, the last that was made: that of the row that stopped,
 * or else of the last that finished. Where none was made they are unchanged: with a refusal before any row, with 13 at
 * row 0, and without rows. Every row starts without blocks: what a returned pointer points to is there for the last row
 * only.
 */
uint32_t limpetskein_map(const uint8_t *module, size_t module_len, uint32_t function, uint32_t profile,
                         const uint8_t *arg_payloads, size_t arg_payloads_len, uint8_t *out, size_t out_len,
                         uint64_t allowance, uint8_t *payloads, size_t payloads_len, uint8_t *types, size_t types_len,
                         uint8_t *heap, size_t heap_len, uint8_t *blocks, size_t blocks_len, uint64_t *rows);

/*
 * The same two calls with named members, for a host that would rather not count nineteen arguments:
 *
 *     struct limpetskein_call call = {.module = file, .module_len = length, .function = LIMPETSKEIN_ENTRY,
 *                                     .allowance = 1000000, .payloads = payloads, .payloads_len = sizeof payloads,
 *                                     .types = types, .types_len = sizeof types};
 *     uint32_t number = limpetskein_call_run(&call);
 *
 * Members that are not named are 0: no arguments, no heap, function 0, a scan of profile 0, no rows. steps, height and
 * rows are written as *steps, *height and *rows are: a run that is refused leaves steps and height as they were. A run
 * does not touch out, out_len and rows; limpetskein_call_map does not touch arg_types, arg_types_len, steps and height.
 */
struct limpetskein_call {
    const uint8_t *module;
    size_t module_len;
    uint32_t function;
    const uint8_t *arg_types;
    size_t arg_types_len;
    const uint8_t *arg_payloads;
    size_t arg_payloads_len;
    uint32_t profile;
    uint64_t allowance;
    uint8_t *payloads;
    size_t payloads_len;
    uint8_t *types;
    size_t types_len;
    uint8_t *heap;
    size_t heap_len;
    uint8_t *blocks;
    size_t blocks_len;
    uint64_t steps;
    uint64_t height;
    uint8_t *out;
    size_t out_len;
    uint64_t rows;
};

static inline uint32_t limpetskein_call_run(struct limpetskein_call *c) {
    return limpetskein_run(c->module, c->module_len, c->function, c->arg_types, c->arg_types_len, c->arg_payloads,
                           c->arg_payloads_len, c->profile, c->allowance, c->payloads, c->payloads_len, c->types,
                           c->types_len, c->heap, c->heap_len, c->blocks, c->blocks_len, &c->steps, &c->height);
}

static inline uint32_t limpetskein_call_map(struct limpetskein_call *c) {
    return limpetskein_map(c->module, c->module_len, c->function, c->profile, c->arg_payloads, c->arg_payloads_len,
                           c->out, c->out_len, c->allowance, c->payloads, c->payloads_len, c->types, c->types_len,
                           c->heap, c->heap_len, c->blocks, c->blocks_len, &c->rows);
}

/*
 * Writes the module of these tables: 0, 2, 4 to 9, 16.
 *
 *   edition       1, 3 or 4: whose opcode numbers the code has. In edition 1 no parameter is a pointer; only edition 4
 *                 has structures.
 *   constants     12 bytes each: type word (3, 4, 6), 8-byte payload.
 *   functions     20 bytes each: start, length, parameter count, return type, eight parameter types, two zeros; in
 *                 edition 4 24, with the profile that the function is made for, 0 for any, behind these. Type bytes are
 *                 those of label records, but for 80 and C0 hex, and 83, 84 and 86 hex are for parameters only.
 *   labels        8 bytes each: owner's function number, or LIMPETSKEIN_ENTRY; place in the code.
 *   structures    12 bytes each: field count (1 to 8), eight field types (3, 4, 6, unused 0), three zeros.
 *   code          the entry's body, then the functions' in order, without gaps.
 *   entry_length  the bytes of the entry's body.
 *   *written      written with 0 only: the module's length, which is 48, or 56 in edition 4, and the lengths of the
 *                 tables and the code.
 *
 * The tables are those of the module file. 2 and 4 to 9 are given exactly where a check or a run would refuse the
 * module of these tables with this number, 5 where a table ends in part of a record, and 4 for a structure in another
 * edition than 4; a table's count is that of its whole records. No typing is asked: what the check refuses with 11 is written.
 *
 * The output after the call:
 *   2, 4 to 9, 16  unchanged.
 *   0              the module, and past it unchanged. It can be read, and its edition, sections and entry length are
 *                  those that were lent. Tables cut from a module that can be read give that module's bytes again.
 */
uint32_t limpetskein_write(uint32_t edition, const uint8_t *constants, size_t constants_len,
                           const uint8_t *functions, size_t functions_len, const uint8_t *labels, size_t labels_len,
                           const uint8_t *structures, size_t structures_len, const uint8_t *code, size_t code_len,
                           uint32_t entry_length, uint8_t *out, size_t out_len, uint64_t *written);

/*
 * Compiles a formula line, such as (r*3+g)/4, to a module: 0, 16, 40 to 43.
 *
 *   line      unsigned decimal numbers up to 4294967295, leading zeros allowed; the names r, g, b; the signs + - * /;
 *             brackets, up to 16 deep; minuses before a number, a name, a bracket or a minus; spaces (byte 20 hex)
 *             anywhere but inside a number. Products go before sums, equal ranks from the left, and a minus belongs to
 *             what follows it: -r*3 is (-r)*3. No other byte, no end of line, no sign left out: 2r is 41.
 *   *written  written with 0 only: the module's length, at most LIMPETSKEIN_LONGEST_FORMULA.
 *
 * The order of the refusals is 40, 41, 42, 43, 16. So 41 is given also where the line is too deep.
 *
 * The output after the call:
 *   16, 40 to 43  unchanged.
 *   0             the module, and past it unchanged. It has no entry code, no labels, a constant for each number, and
 *                 function 0: three ints r, g, b, parameters 0 to 2, to an int. The check accepts it. Run on three ints
 *                 with LIMPETSKEIN_FORMULA_ALLOWANCE steps and LIMPETSKEIN_FORMULA_SLOTS slots, or more, function 0
 *                 finishes with the line's value in unsigned 32-bit arithmetic that wraps (-1 is 4294967295, and / cuts
 *                 the quotient), or stops with 24 where any quotient in the line is by zero.
 *
 * Brackets are read at most 16 deep, whatever the line is. The most of the thread's stack that was measured for a call
 * is 6,284 bytes, for 256 bytes at depth 16; the tests refuse over 32 KB.
 */
uint32_t limpetskein_formula(const uint8_t *line, size_t line_len, uint8_t *out, size_t out_len, uint64_t *written);

/*
 * Converts a module of edition 3 to edition 4, its functions for any profile: 0 to 9, 16. And a module of edition 4 to
 * edition 3: 0 to 9, 18, 16, in this order.
 *
 *   module    any that can be read; no typing is asked.
 *   *written  written with 0 only: the length of the new module.
 *
 * Constants, labels, code and entry are the same; places do not change. A module of edition 4 can't become one of
 * edition 3 (18) where a function is made for a profile or has a managed pointer in its signature, a structure is
 * declared, used or not, or an instruction is `flea`, `null`, `new`, `delete`, `gcnull` or `gcnew`, also one that is
 * never reached.
 *
 * The output after the call:
 *   1 to 9, 16, 18  unchanged.
 *   0               the new module, and past it unchanged. It can be read. Converted back it has the same bytes as
 *                   before, both ways. Its runs answer as those of the old module do, with the same steps, slots and
 *                   heap, whatever the scan's profile is.
 *                   The check of the module of edition 4 answers as that of the module of edition 3, label records
 *                   included, wherever the latter is accepted or has neither cmp nor icmp. Edition 4's take any two
 *                   pointers of type 7, so what only these keep from being accepted in edition 3 is accepted in edition
 *                   4.
 */
uint32_t limpetskein_to_edition_4(const uint8_t *module, size_t module_len, uint8_t *out, size_t out_len,
                                  uint64_t *written);

uint32_t limpetskein_to_edition_3(const uint8_t *module, size_t module_len, uint8_t *out, size_t out_len,
                                  uint64_t *written);

#ifdef __cplusplus
}
#endif

#endif
