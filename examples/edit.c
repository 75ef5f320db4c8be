/*
 * An example of the check of what was edited: checks a module and keeps a record of its bodies, changes bytes of the code,
 * checks the bodies that they are in, one by one, and then the whole module, which agrees.
 *
 *     edit MODULE [PLACE VALUE]..
 *
 * PLACE counts from the start of the code, VALUE is the byte put there. Each edit is a line: the body and what the check of
 * it answers, with 11 the first body without typing. The exit status is 1 where the full check does not agree.
 */
#include <stdio.h>
#include <stdlib.h>

#include "limpetskein.h"

static uint8_t module[LIMPETSKEIN_LONGEST_MODULE + 1];
static uint8_t room[LIMPETSKEIN_MOST_LABELS * LIMPETSKEIN_ROOM_PER_LABEL];
static uint8_t record[LIMPETSKEIN_LONGEST_RECORD];

static uint32_t word(size_t at)
{
    uint32_t value = 0;
    for (int i = 3; i >= 0; i--)
        value = value << 8 | module[at + i];
    return value;
}

/* One byte past the longest module is read, so that a longer file is refused. */
static int read_module(const char *name, size_t *length)
{
    FILE *file = fopen(name, "rb");
    if (file == NULL)
        return 0;
    *length = fread(module, 1, sizeof module, file);
    int is_read = !ferror(file);
    fclose(file);
    return is_read;
}

/* The body that has this place of the code. A function's record begins with its start and its length. */
static uint32_t body_at(uint32_t place)
{
    size_t stride = word(0) == 4 ? LIMPETSKEIN_FUNCTION_4 : LIMPETSKEIN_FUNCTION;
    for (uint32_t i = 0; i < word(16); i++) {
        size_t at = word(20) + stride * i;
        if (place >= word(at) && place - word(at) < word(at + 4))
            return i;
    }
    return LIMPETSKEIN_ENTRY;
}

static void say(const char *what, uint32_t answer, uint32_t body)
{
    printf("%s %lu", what, (unsigned long)answer);
    if (answer == LIMPETSKEIN_NO_TYPING)
        printf(body == LIMPETSKEIN_ENTRY ? " entry" : " function %lu", (unsigned long)body);
}

/* An edit, and whether the full check agrees with the check of the body that it is in. */
static int edit(size_t length, uint64_t record_length, uint32_t place, uint8_t value)
{
    uint32_t body = body_at(place), first = 0, untyped = 0;
    module[word(36) + place] = value;
    uint32_t answer = limpetskein_check_body(module, length, body, record, (size_t)record_length, &first);
    uint32_t full = limpetskein_check(module, length, room, sizeof room, &untyped);
    if (body == LIMPETSKEIN_ENTRY)
        printf("entry edited: ");
    else
        printf("function %lu edited: ", (unsigned long)body);
    say("its check", answer, first);
    say(", the full check", full, untyped);
    putchar('\n');
    return answer == full && (answer != LIMPETSKEIN_NO_TYPING || first == untyped);
}

int main(int argc, char **argv)
{
    size_t length = 0;
    uint64_t written = 0;
    uint32_t body = 0;
    if (argc < 2 || argc % 2 != 0 || !read_module(argv[1], &length)) {
        fprintf(stderr, "usage: edit MODULE [PLACE VALUE]..\n");
        return 2;
    }
    uint32_t answer = limpetskein_check_recording(module, length, room, sizeof room, record, sizeof record, &body, &written);
    say("checked:", answer, body);
    putchar('\n');
    if (answer != LIMPETSKEIN_DONE)
        return answer == LIMPETSKEIN_NO_TYPING ? 0 : 1;
    int agree = 1;
    for (int i = 2; i + 1 < argc; i += 2) {
        uint32_t place = (uint32_t)strtoul(argv[i], NULL, 10);
        if (place < word(32))
            agree &= edit(length, written, place, (uint8_t)strtoul(argv[i + 1], NULL, 0));
    }
    return agree ? 0 : 1;
}
