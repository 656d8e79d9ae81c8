/* A boiler: what its units share. Temperatures are in tenths of a degree, powers in watts. */
#ifndef BOILER_H
#define BOILER_H

#include <stdbool.h>
#include <stdint.h>

#include "cedratcleat.h"

/* The tasks, the more urgent the greater. */
enum { PRIORITY_SAFETY = 200, PRIORITY_SENSORS = 80, PRIORITY_BURNER = 50, PRIORITY_DISPLAY = 5 };

enum { POWER_MOST = 24000, COLDEST = -400, HOTTEST = 1500 };

typedef enum { FLOW, RETURN, FLUE, SENSORS } sensor;

typedef enum { LOCK_NONE, LOCK_FLAME, LOCK_FLUE, LOCK_FLOW, LOCK_SENSOR } interlock;

typedef enum { BURNER_OFF, BURNER_PURGE, BURNER_IGNITE, BURNER_HEAT } burner_phase;

/* The temperatures, the interlock, and what the burner does. */
__mutex boiler_guard;

/* sensors.c */
extern int16_t temperatures[SENSORS];
extern bool sensor_broken[SENSORS];

/* burner.c */
extern interlock locked_by;
extern burner_phase phase;
extern int32_t power;
extern int32_t energy;

static inline int32_t between(int32_t value, int32_t least, int32_t most)
{
    if (value < least)
        return least;
    return value > most ? most : value;
}

#endif
