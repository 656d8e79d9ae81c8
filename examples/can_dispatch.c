/* Messages of a CAN bus: the interrupt's task puts them into one of four mailboxes under a mutex, and the dispatcher
   takes them out, keeps the last speed and marks which nodes were heard.

   The report shows two real errors. SHIFT in `1 << node`: the node 31 moves the bit into the sign of an int, which
   C99 6.5.7 leaves undefined; `1u << node` has none. DIV in `distance / ticks`: a message may bring the ticks 0.
   There is no other alarm: `length` is cut before it is a bound of the loop, and `node` is masked. */
enum { MAILBOXES = 4, BYTES = 8 };

struct message {
    unsigned short id;
    unsigned char length;
    unsigned char bytes[BYTES];
    _Bool full;
};

static struct message mailbox[MAILBOXES];
static unsigned lost, unknown;
static int heard;
static int speed;
__mutex bus;

static void put(unsigned short id, unsigned char length)
{
    struct message *m = &mailbox[id & (MAILBOXES - 1)];
    int i;

    if (m->full) {
        lost++;
        return;
    }
    m->id = id;
    m->length = length > BYTES ? BYTES : length;
    for (i = 0; i < BYTES; i++)
        m->bytes[i] = (unsigned char)__input(0, 255);
    m->full = 1;
}

static void dispatch(struct message *m)
{
    int node = m->id & 31;

    heard = heard | 1 << node;
    switch (m->id >> 8) {
    case 1:
        if (m->length >= 2) {
            int distance = m->bytes[0] * 100;
            int ticks = m->bytes[1];

            speed = distance / ticks;
        }
        break;
    case 2:
        speed = 0;
        break;
    default:
        unknown++;
    }
    m->full = 0;
}

__task(240) void interrupt(void)
{
    while (1) {
        __lock(bus);
        put((unsigned short)__input(0, 2047), (unsigned char)__input(0, 15));
        __unlock(bus);
        __yield();
    }
}

__task(30) void dispatcher(void)
{
    while (1) {
        int i;

        for (i = 0; i < MAILBOXES; i++) {
            __lock(bus);
            if (mailbox[i].full)
                dispatch(&mailbox[i]);
            __unlock(bus);
        }
        __yield();
    }
}
