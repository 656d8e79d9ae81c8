/* The pump: it empties the tank, which nothing keeps the display from seeing. */
#include "tank.h"

int32_t level = 4;
bool pumping = false;

__task(3) void drain(void)
{
    for (;;) {
        level = 0;
        __lock(pump_guard);
        pumping = true;
        __unlock(pump_guard);
        __yield();
    }
}

__task(2) void watch(void)
{
    for (;;) {
        __lock(pump_guard);
        if (pumping && __input(0, 1) == 1)
            pumping = false;
        __unlock(pump_guard);
        __yield();
    }
}
