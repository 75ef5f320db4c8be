// The C that the library's speed is measured against: the same six calls, the same refusals and the same lent bytes,
// written to be fast. The library's seventh, a map, is measured against a run for each pixel. Nothing is proved of it;
// tests/run compares it with the second program.
#ifndef BASELINE_H
#define BASELINE_H

#include "limpetskein.h"

__typeof__(limpetskein_check) baseline_check;
__typeof__(limpetskein_run) baseline_run;
__typeof__(limpetskein_write) baseline_write;
__typeof__(limpetskein_formula) baseline_formula;
__typeof__(limpetskein_to_edition_4) baseline_to_edition_4;
__typeof__(limpetskein_to_edition_3) baseline_to_edition_3;

#endif
