/* A buffer of samples that two tasks fill, with no mutex round it.

   The report shows a real error, and how it comes. `push` tests `used < CAPACITY`, and stores at `used` afterwards. The
   task `slow` has made the test with 7 and is interrupted before the store: `fast` pushes, and `used` is 8. Then `slow`
   stores at the subscript 8, outside the array: INDEX in `samples[used]`. RACE stands at each access to `used` and
   `samples` of which both tasks may be at one at a time.
   OVERFLOW at `used + 1` is none: `used` comes to 9 at most, but by bounds alone each task may add to what the other
   has stored. With a mutex round `push` and `drain`, as in ring_buffer.c, no alarm is left. */
enum { CAPACITY = 8 };

static int samples[CAPACITY];
static int used;
static long total;

static int push(int sample)
{
    if (used < CAPACITY) {
        samples[used] = sample;
        used = used + 1;
        return 1;
    }
    return 0;
}

static void drain(void)
{
    int i;

    total = 0;
    for (i = 0; i < CAPACITY; i++)
        total = (total + samples[i]) / 2;
    used = 0;
}

__task(20) void fast(void)
{
    while (1) {
        if (!push(__input(0, 4095)))
            drain();
        __yield();
    }
}

__task(10) void slow(void)
{
    while (1) {
        push(__input(-100, 100));
        __yield();
    }
}
