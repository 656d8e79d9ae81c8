/* What is set up before the tasks begin. `rate` is a name of this unit alone. */
#include "wheel.h"

static int32_t rate;

int main(void)
{
    rate = 5;
    left.turns = rate;
    right.turns = rate;
    return 0;
}
