/* A gateway between two buses: what its units share. */
#ifndef GATEWAY_H
#define GATEWAY_H

#include <stdbool.h>
#include <stdint.h>

#include "cedratcleat.h"

/* The tasks, the more urgent the greater. */
enum { PRIORITY_RECEIVE = 40, PRIORITY_TRANSMIT = 30, PRIORITY_ROUTE = 20, PRIORITY_SUPERVISE = 10 };

enum { FRAME_BYTES = 8, ROUTES = 12, DIAGNOSTIC_ID = 0x700 };

typedef struct {
    uint16_t id;
    uint8_t length;
    uint8_t data[FRAME_BYTES];
} frame;

typedef enum { LINK_DOWN, LINK_UP, LINK_PASSIVE, LINK_OFF } link_state;

/* Both queues; the routing table; the state of the link. */
__mutex queue_guard;
__mutex route_guard;
__mutex link_guard;

/* queue.c */
bool queue_put_received(const frame *from);
bool queue_get_received(frame *to);
bool queue_put_routed(const frame *from);
bool queue_get_routed(frame *to);
void queue_flush(void);

/* routes.c */
bool route_apply(frame *it);
bool route_set(uint8_t number, uint16_t from, uint16_t to);

/* link.c */
void link_note(bool well);
bool link_may_send(void);

static inline void frame_copy(frame *to, const frame *from)
{
    uint8_t i;

    to->id = from->id;
    to->length = from->length;
    for (i = 0; i < FRAME_BYTES; i++)
        to->data[i] = from->data[i];
}

#endif
