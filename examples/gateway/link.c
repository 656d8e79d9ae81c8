/* Both controllers, and the state of the link to bus B, which falls with errors and rises with what is sent well. */
#include "gateway.h"

enum { RECEIVED = 1, SENT = 2, FAILED = 4, LENGTH = 15, PASSIVE_AT = 128, OFF_AT = 256, REST = 20 };

static volatile uint8_t a_status;
static volatile uint16_t a_id;
static volatile uint8_t a_control;
static volatile uint8_t a_data[FRAME_BYTES];

static volatile uint8_t b_status;
static volatile uint16_t b_id;
static volatile uint8_t b_control;
static volatile uint8_t b_data[FRAME_BYTES];

static link_state state = LINK_DOWN;
static uint16_t errors;
static uint8_t resting;
static uint16_t lost;

static void read_frame(frame *it)
{
    uint8_t i;

    it->id = a_id & 0x7ff;
    it->length = a_control & LENGTH;
    for (i = 0; i < it->length; i++)
        it->data[i] = a_data[i];
}

__task(PRIORITY_RECEIVE) void receive(void)
{
    while (true) {
        if (a_status & RECEIVED) {
            frame it = { 0 };

            read_frame(&it);
            if (!queue_put_received(&it))
                lost++;
        }
        __yield();
    }
}

static void write_frame(const frame *it)
{
    uint8_t i;

    for (i = 0; i < FRAME_BYTES; i++)
        b_data[i] = it->data[i];
    b_control = it->length;
    b_id = it->id;
}

__task(PRIORITY_TRANSMIT) void transmit(void)
{
    while (true) {
        frame it = { 0 };
        uint8_t status = b_status;

        if (status & (SENT | FAILED))
            link_note((status & FAILED) == 0);
        if (queue_get_routed(&it))
            write_frame(&it);
        __yield();
    }
}

/* What came of a frame that was sent: an error counts for eight that went well. */
void link_note(bool well)
{
    __lock(link_guard);
    if (!well && errors < OFF_AT)
        errors = (uint16_t)(errors + 8);
    else if (well && errors > 0)
        errors--;
    __unlock(link_guard);
}

bool link_may_send(void)
{
    bool may;

    __lock(link_guard);
    may = state == LINK_UP || state == LINK_PASSIVE;
    __unlock(link_guard);
    return may;
}

/* The next state; a link that is off rests, and begins anew with an empty queue. */
static link_state next_state(void)
{
    switch (state) {
    case LINK_DOWN:
        errors = 0;
        return LINK_UP;
    case LINK_UP:
        return errors >= PASSIVE_AT ? LINK_PASSIVE : LINK_UP;
    case LINK_PASSIVE:
        if (errors >= OFF_AT) {
            queue_flush();
            resting = REST;
            return LINK_OFF;
        }
        return errors < PASSIVE_AT ? LINK_UP : LINK_PASSIVE;
    default:
        if (resting > 0)
            resting--;
        return resting == 0 ? LINK_DOWN : LINK_OFF;
    }
}

__task(PRIORITY_SUPERVISE) void supervise(void)
{
    while (true) {
        __lock(link_guard);
        state = next_state();
        __unlock(link_guard);
        __yield();
    }
}
