/* The display's task. Its `rate` is never set, so the division is an error: that of another unit does not count. */
#include "wheel.h"

static int32_t rate;
int32_t share;

__task(1) void show(void)
{
    for (;;) {
        __lock(wheel_guard);
        share = bounded(left.now) + left.turns / rate;
        __unlock(wheel_guard);
        __yield();
    }
}
