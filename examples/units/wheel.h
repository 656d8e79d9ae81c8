/* The wheels, which all units of the project share. */
#ifndef WHEEL_H
#define WHEEL_H

#include <stdint.h>

#include "cedratcleat.h"

typedef int32_t speed;

struct wheel {
    speed now;
    int32_t turns;
};

enum { FASTEST = 40 };

__mutex wheel_guard;

extern struct wheel left;
extern struct wheel right;

static inline speed bounded(speed wanted)
{
    return wanted > FASTEST ? FASTEST : wanted;
}

#endif
