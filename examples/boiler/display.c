/* The display: pages of a number each, and the mean of the sensors that work. */
#include "boiler.h"

enum { PAGES = 4, DIGITS = 6, JOULES_PER_WATT_HOUR = 3600 };

static volatile uint8_t segments[DIGITS];
static volatile bool button;

static uint8_t page;

static void show(int32_t value)
{
    uint8_t i;

    for (i = 0; i < DIGITS; i++) {
        segments[i] = (uint8_t)(value % 10);
        value = value / 10;
    }
}

/* Of flow and return, or of the one that works. */
static int32_t mean(void)
{
    int32_t sum = 0;
    uint8_t working = 0;

    __lock(boiler_guard);
    if (!sensor_broken[FLOW]) {
        sum = temperatures[FLOW];
        working++;
    }
    if (!sensor_broken[RETURN]) {
        sum = sum + temperatures[RETURN];
        working++;
    }
    __unlock(boiler_guard);
    return working == 0 ? 0 : sum / working;
}

static int32_t lock_number(void)
{
    interlock now;

    __lock(boiler_guard);
    now = locked_by;
    __unlock(boiler_guard);
    return now;
}

__task(PRIORITY_DISPLAY) void display(void)
{
    while (true) {
        if (button)
            page = (uint8_t)((page + 1) % PAGES);
        switch (page) {
        case 0:
            show(mean());
            break;
        case 1:
            show(lock_number());
            break;
        case 2:
            show(power);
            break;
        default:
            show(energy / JOULES_PER_WATT_HOUR);
            break;
        }
        __yield();
    }
}
