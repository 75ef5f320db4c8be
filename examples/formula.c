/*
 * An example of formula lines: compiles a line, checks the module, and runs it on a pixel.
 *
 *     formula LINE RED GREEN BLUE
 *
 * The example prints the module's length and the value that comes out; or it stops with the number, which is also its
 * exit status.
 */
#include <stdio.h>
#include <stdlib.h>
#include <string.h>

#include "limpetskein.h"

enum { CHANNELS = 3, FAILED = 1000 };

static uint8_t module[LIMPETSKEIN_LONGEST_FORMULA];
static uint8_t payloads[8 * LIMPETSKEIN_FORMULA_SLOTS];
static uint8_t types[LIMPETSKEIN_FORMULA_SLOTS];

static void put_int(uint8_t *payload, uint32_t value)
{
    for (int i = 0; i < 8; i++)
        payload[i] = i < 4 ? (uint8_t)(value >> (8 * i)) : 0;
}

static uint32_t get_int(const uint8_t *payload)
{
    uint32_t value = 0;
    for (int i = 3; i >= 0; i--)
        value = value << 8 | payload[i];
    return value;
}

/* Compiles and checks. The module of a line has no labels, so its check needs no room. */
static uint32_t compile(const char *line, size_t *length)
{
    uint64_t written = 0;
    uint32_t body = 0;
    uint32_t answer = limpetskein_formula((const uint8_t *)line, strlen(line), module, sizeof module, &written);
    if (answer != LIMPETSKEIN_DONE)
        return answer;
    *length = (size_t)written;
    return limpetskein_check(module, *length, NULL, 0, &body);
}

/*
 * Takes the value out and answers 0, or answers the number: 24 where the line divides by zero. The module of a line is
 * for any profile, so the call names none.
 */
static uint32_t run_pixel(size_t length, const uint32_t channels[CHANNELS], uint32_t *value)
{
    static const uint8_t arg_types[CHANNELS] = {LIMPETSKEIN_INT, LIMPETSKEIN_INT, LIMPETSKEIN_INT};
    uint8_t arg_payloads[8 * CHANNELS];
    for (int i = 0; i < CHANNELS; i++)
        put_int(arg_payloads + 8 * i, channels[i]);
    struct limpetskein_call call = {
        .module = module,
        .module_len = length,
        .arg_types = arg_types,
        .arg_types_len = sizeof arg_types,
        .arg_payloads = arg_payloads,
        .arg_payloads_len = sizeof arg_payloads,
        .allowance = LIMPETSKEIN_FORMULA_ALLOWANCE,
        .payloads = payloads,
        .payloads_len = sizeof payloads,
        .types = types,
        .types_len = sizeof types,
    };
    uint32_t answer = limpetskein_call_run(&call);
    if (answer != LIMPETSKEIN_DONE)
        return answer;
    if (call.height != 1 || types[0] != LIMPETSKEIN_INT)
        return FAILED;
    *value = get_int(payloads);
    return LIMPETSKEIN_DONE;
}

int main(int argc, char **argv)
{
    uint32_t channels[CHANNELS], value = 0;
    size_t length = 0;
    if (argc != 2 + CHANNELS) {
        fprintf(stderr, "usage: formula LINE RED GREEN BLUE\n");
        return EXIT_FAILURE;
    }
    for (int i = 0; i < CHANNELS; i++)
        channels[i] = (uint32_t)strtoul(argv[2 + i], NULL, 10);
    uint32_t answer = compile(argv[1], &length);
    if (answer == LIMPETSKEIN_DONE) {
        printf("%lu bytes written and checked\n", (unsigned long)length);
        answer = run_pixel(length, channels, &value);
    }
    if (answer == LIMPETSKEIN_DONE)
        printf("%lu\n", (unsigned long)value);
    else
        printf("stopped with %lu\n", (unsigned long)answer);
    return (int)answer;
}
