/* The wheels' task: `rate` is here what the speed gains in a period. */
#include "wheel.h"

struct wheel left;
struct wheel right;

static int32_t rate = 2;

__task(2) void drive(void)
{
    for (;;) {
        __lock(wheel_guard);
        left.now = bounded(left.now + rate);
        right.now = bounded(right.now + rate);
        left.turns = (left.turns + 1) % 1000;
        __unlock(wheel_guard);
        __yield();
    }
}
