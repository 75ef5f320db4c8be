// One call on a module, for counting: `needs check FILE`, or `needs need FILE`. The report of needs has no counterpart in the C: it is
// measured beside the library's own check, which it makes too.
#include <stdio.h>
#include <string.h>

#include "limpetskein.h"

static uint8_t module[LIMPETSKEIN_LONGEST_MODULE];
static uint8_t room[LIMPETSKEIN_MOST_LABELS * LIMPETSKEIN_ROOM_PER_LABEL];
static uint8_t report[LIMPETSKEIN_LONGEST_REPORT];

int main(int argc, char **argv)
{
    uint32_t body = 0, answer;
    uint64_t written = 0;
    FILE *file = argc == 3 ? fopen(argv[2], "rb") : NULL;
    if (file == NULL) {
        fprintf(stderr, "usage: needs check|need FILE\n");
        return 2;
    }
    size_t length = fread(module, 1, sizeof module, file);
    fclose(file);
    if (strcmp(argv[1], "check") == 0)
        answer = limpetskein_check(module, length, room, sizeof room, &body);
    else
        answer = limpetskein_need(module, length, room, sizeof room, report, sizeof report, &body, &written);
    return answer == LIMPETSKEIN_DONE || answer == LIMPETSKEIN_CALLS_LOOP ? 0 : 1;
}
