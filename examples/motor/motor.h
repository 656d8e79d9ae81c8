/* A motor's controller: what its units share. */
#ifndef MOTOR_H
#define MOTOR_H

#include <stdbool.h>
#include <stdint.h>

#include "cedratcleat.h"

/* The tasks, the more urgent the greater: three interrupts, the control loop and the main loop. */
enum {
    PRIORITY_CURRENT = 250,
    PRIORITY_ENCODER = 240,
    PRIORITY_SERIAL = 230,
    PRIORITY_CONTROL = 100,
    PRIORITY_MAIN = 1
};

enum { SPEED_LIMIT = 6000, DUTY_LIMIT = 1000, GAIN_SETS = 8 };

typedef enum { DRIVE_IDLE, DRIVE_RUN, DRIVE_FAULT } drive_state;

typedef struct {
    int16_t proportional;
    int16_t integral;
} gain_set;

/* Interrupts are off while this is held. */
__mutex irq;
/* What the main loop wants of the control loop. */
__mutex wish;

/* encoder.c */
uint32_t encoder_pulses(void);
int32_t encoder_speed(void);

/* serial.c */
bool serial_get(uint8_t *byte);
bool serial_put(uint8_t byte);

/* drive.c */
extern uint32_t drive_trips;
void drive_want(int32_t speed);
void drive_tune(const gain_set *gains);
void drive_restart(void);
drive_state drive_now(void);

static inline int32_t limited(int32_t value, int32_t limit)
{
    if (value > limit)
        return limit;
    if (value < -limit)
        return -limit;
    return value;
}

#endif
