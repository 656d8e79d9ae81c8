/* The routing table: the frames of bus A that go to bus B, and under which identifier. */
#include "gateway.h"

typedef struct {
    bool used;
    uint16_t from;
    uint16_t to;
    uint32_t hits;
} route;

static route routes[ROUTES];
static uint32_t dropped;

int main(void)
{
    route_set(0, 0x100, 0x180);
    route_set(1, 0x101, 0x181);
    route_set(2, 0x2f0, 0x0f0);
    return 0;
}

/* Gives the frame the identifier that it has on bus B. */
bool route_apply(frame *it)
{
    uint8_t i;

    __lock(route_guard);
    for (i = 0; i < ROUTES; i++) {
        if (routes[i].used && routes[i].from == it->id) {
            it->id = routes[i].to;
            routes[i].hits++;
            return true;
        }
    }
    dropped++;
    __unlock(route_guard);
    return false;
}

bool route_set(uint8_t number, uint16_t from, uint16_t to)
{
    if (number >= ROUTES)
        return false;
    __lock(route_guard);
    routes[number].used = to != 0;
    routes[number].from = from;
    routes[number].to = to;
    routes[number].hits = 0;
    __unlock(route_guard);
    return true;
}

static uint16_t word_at(const frame *it, uint8_t at)
{
    return (uint16_t)(it->data[at] << 8 | it->data[at + 1]);
}

__task(PRIORITY_ROUTE) void route_frames(void)
{
    frame it = { 0 };

    while (true) {
        if (!queue_get_received(&it))
            __yield();
        else if (it.id == DIAGNOSTIC_ID && it.length >= 5)
            route_set(it.data[0], word_at(&it, 1), word_at(&it, 3));
        else if (route_apply(&it))
            queue_put_routed(&it);
    }
}
