/* The burner: the interlocks, the phases from purge to flame, and how much it heats. */
#include "boiler.h"

enum { PURGE_TURNS = 30, IGNITE_TURNS = 5, FLOW_MOST = 950, FLUE_MOST = 1200, SPREAD = 30, GAIN = 120 };

static volatile bool gas_valve;
static volatile bool igniter;
static volatile bool flame;
static volatile uint8_t fan;
static volatile bool reset_button;

interlock locked_by = LOCK_NONE;
burner_phase phase = BURNER_OFF;
int32_t power;
/* in joules, since the boiler was switched on */
int32_t energy;

static uint8_t turns;
static int16_t wanted = 600;
static uint16_t starts;

static interlock interlock_now(void)
{
    uint8_t i;

    for (i = 0; i < SENSORS; i++)
        if (sensor_broken[i])
            return LOCK_SENSOR;
    if (temperatures[FLOW] > FLOW_MOST)
        return LOCK_FLOW;
    if (temperatures[FLUE] > FLUE_MOST)
        return LOCK_FLUE;
    return phase == BURNER_HEAT && !flame ? LOCK_FLAME : LOCK_NONE;
}

/* It shuts the gas, whatever the burner's task does. */
__task(PRIORITY_SAFETY) void safety(void)
{
    while (true) {
        interlock now;

        __lock(boiler_guard);
        now = interlock_now();
        if (now != LOCK_NONE) {
            gas_valve = false;
            locked_by = now;
        }
        if (locked_by != LOCK_NONE)
            phase = BURNER_OFF;
        if (reset_button && now == LOCK_NONE)
            locked_by = LOCK_NONE;
        __unlock(boiler_guard);
        __yield();
    }
}

static bool waited(uint8_t least)
{
    if (turns < least) {
        turns++;
        return false;
    }
    turns = 0;
    return true;
}

static void start(void)
{
    phase = BURNER_PURGE;
    turns = 0;
    starts++;
}

static void heat(void)
{
    int32_t lacking = wanted - temperatures[FLOW];

    power = between(lacking * GAIN, POWER_MOST / 5, POWER_MOST);
    fan = (uint8_t)(power * 255 / POWER_MOST);
    energy = energy + power;
    if (temperatures[FLOW] > wanted + SPREAD)
        phase = BURNER_OFF;
}

/* A second of the burner. */
static void turn(void)
{
    switch (phase) {
    case BURNER_OFF:
        power = 0;
        if (locked_by == LOCK_NONE && temperatures[FLOW] < wanted - SPREAD)
            start();
        break;
    case BURNER_PURGE:
        fan = 255;
        if (waited(PURGE_TURNS))
            phase = BURNER_IGNITE;
        break;
    case BURNER_IGNITE:
        if (waited(IGNITE_TURNS))
            phase = flame ? BURNER_HEAT : BURNER_OFF;
        break;
    default:
        heat();
        break;
    }
    igniter = phase == BURNER_IGNITE;
    gas_valve = phase == BURNER_IGNITE || phase == BURNER_HEAT;
}

__task(PRIORITY_BURNER) void burn(void)
{
    while (true) {
        int32_t knob = __input(0, 255);

        __lock(boiler_guard);
        wanted = (int16_t)(300 + knob * 500 / 255);
        turn();
        __unlock(boiler_guard);
        __yield();
    }
}
