/* The tank's objects, which both files share. */
#ifndef TANK_H
#define TANK_H

#include <stdbool.h>
#include <stdint.h>

#include "cedratcleat.h"

/* what `part` is of `all`, in percent */
#define PERCENT(part, all) (100 * (part) / (all))

__mutex pump_guard;

extern int32_t level;
extern int32_t share;
extern bool pumping;

#endif
