/* The drive: the interrupt of the current's comparator, and the control loop of the speed. */
#include "motor.h"

enum { INTEGRAL_LIMIT = 256000, RAMP = 50, TRIPS_LIMIT = 5 };

static volatile uint16_t pwm_duty;
static volatile bool pwm_enabled;
static volatile bool current_high;

uint32_t drive_trips;

static drive_state state = DRIVE_IDLE;
static int32_t wanted;
static gain_set tuned = { 40, 4 };
/* of the control loop alone */
static int32_t ramped;
static int32_t integral;

int main(void)
{
    pwm_duty = 0;
    pwm_enabled = false;
    drive_trips = 0;
    return 0;
}

__task(PRIORITY_CURRENT) void current_interrupt(void)
{
    while (true) {
        if (current_high) {
            __lock(irq);
            pwm_enabled = false;
            state = DRIVE_FAULT;
            drive_trips++;
            __unlock(irq);
        }
        __yield();
    }
}

void drive_want(int32_t speed)
{
    __lock(wish);
    wanted = limited(speed, SPEED_LIMIT);
    __unlock(wish);
}

void drive_tune(const gain_set *gains)
{
    __lock(wish);
    tuned.proportional = gains->proportional;
    tuned.integral = gains->integral;
    __unlock(wish);
}

void drive_restart(void)
{
    __lock(irq);
    if (state == DRIVE_FAULT && drive_trips < TRIPS_LIMIT)
        state = DRIVE_IDLE;
    __unlock(irq);
}

drive_state drive_now(void)
{
    drive_state now;

    __lock(irq);
    now = state;
    __unlock(irq);
    return now;
}

static uint16_t duty_for(int32_t error, const gain_set *gains)
{
    int32_t output;

    integral = limited(integral + error * gains->integral, INTEGRAL_LIMIT);
    output = (error * gains->proportional + integral) / 256;
    return output < 0 ? 0 : (uint16_t)limited(output, DUTY_LIMIT);
}

__task(PRIORITY_CONTROL) void control(void)
{
    while (true) {
        int32_t speed = limited(encoder_speed(), 2 * SPEED_LIMIT);
        gain_set gains = { 0, 0 };
        uint16_t duty;

        __lock(wish);
        ramped = limited(ramped + limited(wanted - ramped, RAMP), SPEED_LIMIT);
        gains.proportional = tuned.proportional;
        gains.integral = tuned.integral;
        __unlock(wish);

        duty = duty_for(ramped - speed, &gains);
        __lock(irq);
        if (state == DRIVE_IDLE && ramped != 0)
            state = DRIVE_RUN;
        pwm_duty = state == DRIVE_RUN ? duty : 0;
        pwm_enabled = state == DRIVE_RUN;
        __unlock(irq);
        __yield();
    }
}
