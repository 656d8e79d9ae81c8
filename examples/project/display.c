/* The display: it shows what one litre is of all, in percent. */
#include "tank.h"

int32_t share = 0;

__task(1) void show(void)
{
    for (;;) {
        if (level != 0)
            share = PERCENT(1, level);
        __yield();
    }
}
