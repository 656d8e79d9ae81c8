/* The serial port: an interrupt, and a ring buffer for each direction. */
#include "motor.h"

enum { RING_SIZE = 32, RING_MASK = RING_SIZE - 1, RECEIVED = 1, EMPTY = 2 };

typedef struct {
    uint8_t bytes[RING_SIZE];
    uint8_t first;
    uint8_t count;
} ring;

static volatile uint8_t uart_status;
static volatile uint8_t uart_received;
static volatile uint8_t uart_sent;

static ring received;
static ring sent;
static uint16_t lost;

static bool ring_put(ring *to, uint8_t byte)
{
    if (to->count >= RING_SIZE)
        return false;
    to->bytes[(to->first + to->count) & RING_MASK] = byte;
    to->count++;
    return true;
}

static bool ring_get(ring *from, uint8_t *byte)
{
    if (from->count == 0)
        return false;
    *byte = from->bytes[from->first & RING_MASK];
    from->first = (uint8_t)((from->first + 1) & RING_MASK);
    from->count--;
    return true;
}

__task(PRIORITY_SERIAL) void serial_interrupt(void)
{
    while (true) {
        uint8_t status = uart_status;
        uint8_t byte = 0;

        __lock(irq);
        if ((status & RECEIVED) && !ring_put(&received, uart_received))
            lost++;
        if ((status & EMPTY) && ring_get(&sent, &byte))
            uart_sent = byte;
        __unlock(irq);
        __yield();
    }
}

bool serial_get(uint8_t *byte)
{
    bool got;

    __lock(irq);
    got = ring_get(&received, byte);
    __unlock(irq);
    return got;
}

bool serial_put(uint8_t byte)
{
    bool done;

    __lock(irq);
    done = ring_put(&sent, byte);
    __unlock(irq);
    return done;
}
