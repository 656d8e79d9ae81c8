/* A ring buffer that one task fills and another empties, each under the mutex.

   The report has no alarm. The subscripts stay below CAPACITY, since `first` is only ever stored after `% CAPACITY`;
   `count` wraps in unsigned arithmetic and is no subscript; and each access to the ring and to the checksum stands
   under the mutex. A buffer without one is unguarded_buffer.c. */
typedef unsigned char byte;
typedef struct ring ring;

enum size { CAPACITY = 32 };

struct ring {
    byte bytes[CAPACITY];
    unsigned first, count;
    unsigned long lost;
};

__mutex guard;
static ring received;
static unsigned checksum;

static int put(ring *to, byte b)
{
    if (to->count == CAPACITY) {
        to->lost += 1ul;
        return 0;
    }
    to->bytes[(to->first + to->count) % CAPACITY] = b;
    to->count++;
    return 1;
}

static int take(ring *from, byte *b)
{
    if (!from->count)
        return 0;
    *b = from->bytes[from->first];
    from->first = (from->first + 1) % CAPACITY;
    --from->count;
    return 1;
}

__task(200) void receive(void)
{
    while (1) {
        byte b = (byte)__input(0, 255);

        __lock(guard);
        if (!put(&received, b))
            checksum = 0;
        __unlock(guard);
        __yield();
    }
}

__task(100) void process(void)
{
    byte b = '\0';
    int got;

    do {
        __lock(guard);
        got = take(&received, &b);
        if (got)
            checksum = (checksum * 31u ^ b) & 0xffffu;
        __unlock(guard);
        if (!got)
            __yield();
    } while (1);
}
