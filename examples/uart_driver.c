/* A serial port: the task of its interrupt moves bytes between the registers and two buffers, and the main loop echoes
   what came, in upper case. The receive buffer is locked on both sides, the transmit buffer is not.

   The report shows a real error. The main loop appends to the transmit buffer without the mutex: it has read `count`
   and is interrupted, the interrupt takes a byte out and stores `count - 1`, and then the main loop stores its own
   `count + 1`: the byte that is gone is counted again, and sent twice. RACE at each of these accesses to `transmit`.
   There is no other alarm: what becomes a subscript is masked, and `count` wraps in unsigned arithmetic. The registers
   are volatile: each read gives any value of its type. */
enum { MASK = 15, READY = 1, EMPTY = 2 };

struct buffer {
    unsigned char bytes[16];
    unsigned first, count;
};

static volatile unsigned char status_register;
static volatile unsigned char data_register;
static struct buffer receive, transmit;
static unsigned overruns;
__mutex port;

static void append(struct buffer *b, unsigned char byte)
{
    b->bytes[(b->first + b->count) & MASK] = byte;
    b->count++;
}

static unsigned char removed(struct buffer *b)
{
    unsigned char byte = b->bytes[b->first & MASK];

    b->first = b->first + 1u;
    b->count--;
    return byte;
}

static unsigned char upper(unsigned char c)
{
    return c >= 'a' && c <= 'z' ? (unsigned char)(c - 'a' + 'A') : c;
}

__task(255) void interrupt(void)
{
    while (1) {
        __lock(port);
        if (status_register & READY) {
            if (receive.count > MASK)
                overruns++;
            else
                append(&receive, data_register);
        }
        if ((status_register & EMPTY) && transmit.count)
            data_register = removed(&transmit);
        __unlock(port);
        __yield();
    }
}

__task(1) void echo(void)
{
    while (1) {
        unsigned char byte = 0;
        int got = 0;

        __lock(port);
        if (receive.count) {
            byte = removed(&receive);
            got = 1;
        }
        __unlock(port);
        if (got && transmit.count <= MASK)
            append(&transmit, upper(byte));
    }
}
