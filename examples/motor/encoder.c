/* The encoder: an interrupt at each edge, and the speed from the time between two of them. */
#include "motor.h"

enum { EDGE = 1, TIMEOUT = 2, TICKS_PER_MINUTE = 60000000 / 64, SHORTEST = 100 };

static volatile uint16_t timer_capture;
static volatile uint8_t timer_status;

static uint32_t pulses;
static uint16_t last_edge;
/* in ticks; 0 where the motor stands */
static uint32_t period;

__task(PRIORITY_ENCODER) void encoder_interrupt(void)
{
    while (true) {
        uint8_t status = timer_status;

        __lock(irq);
        if (status & EDGE) {
            uint16_t edge = timer_capture;
            uint16_t ticks = (uint16_t)(edge - last_edge);

            last_edge = edge;
            pulses++;
            /* (two edges that are nearer are a bounce) */
            if (ticks >= SHORTEST)
                period = ticks;
        }
        if (status & TIMEOUT)
            period = 0;
        __unlock(irq);
        __yield();
    }
}

uint32_t encoder_pulses(void)
{
    uint32_t now;

    __lock(irq);
    now = pulses;
    __unlock(irq);
    return now;
}

static uint32_t encoder_period(void)
{
    uint32_t now;

    __lock(irq);
    now = period;
    __unlock(irq);
    return now;
}

/* In turns per minute. */
int32_t encoder_speed(void)
{
    if (encoder_period() == 0)
        return 0;
    return (int32_t)(TICKS_PER_MINUTE / encoder_period());
}
