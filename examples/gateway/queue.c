/* The queues of frames: what came from bus A, and what goes to bus B. */
#include "gateway.h"

enum { QUEUE_SIZE = 16 };

typedef struct {
    frame frames[QUEUE_SIZE];
    uint8_t first;
    uint8_t count;
} queue;

static queue received;
static queue routed;

static bool put(queue *to, const frame *from)
{
    if (to->count >= QUEUE_SIZE)
        return false;
    frame_copy(&to->frames[(to->first + to->count) % QUEUE_SIZE], from);
    to->count++;
    return true;
}

static bool get(queue *from, frame *to)
{
    if (from->count == 0)
        return false;
    frame_copy(to, &from->frames[from->first]);
    from->first = (uint8_t)((from->first + 1) % QUEUE_SIZE);
    from->count--;
    return true;
}

bool queue_put_received(const frame *from)
{
    bool done;

    __lock(queue_guard);
    done = put(&received, from);
    __unlock(queue_guard);
    return done;
}

bool queue_get_received(frame *to)
{
    bool got;

    __lock(queue_guard);
    got = get(&received, to);
    __unlock(queue_guard);
    return got;
}

bool queue_put_routed(const frame *from)
{
    bool done;

    __lock(queue_guard);
    done = put(&routed, from);
    __unlock(queue_guard);
    return done;
}

/* The next frame, where the link may send one: else it stays in its queue. */
bool queue_get_routed(frame *to)
{
    bool got = false;

    __lock(queue_guard);
    if (link_may_send())
        got = get(&routed, to);
    __unlock(queue_guard);
    return got;
}

void queue_flush(void)
{
    __lock(queue_guard);
    routed.first = 0;
    routed.count = 0;
    __unlock(queue_guard);
}
