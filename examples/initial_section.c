/* An initial section, `main`, that runs before all tasks: it fills a table of sensors, chooses a scale, and tells the
   tasks by pointers which sensors they read.

   The report shows a real error. `main` sets the second sensor's pointer only where the board has one: DEREF at
   `spare->channel`, where it may still be null. The second DEREF, at `spare->last`, is none: a run that comes so far
   has passed the first, but the analysis keeps nothing of that.
   The quotients by `scale` have no DIV: `main` has stored 100 or 250 there, and no task stores to it. Likewise `chosen`
   points to a sensor on both ways, and has no DEREF. */
enum { SENSORS = 3 };

struct sensor {
    unsigned char channel;
    int offset;
    int last;
};

static struct sensor sensors[SENSORS];
static struct sensor *chosen;
static struct sensor *spare;
static int scale;
static volatile unsigned short converters[8];

static void set_up(struct sensor *s, unsigned char channel, int offset)
{
    s->channel = channel & 7u;
    s->offset = offset;
    s->last = 0;
}

int main(void)
{
    int board = __input(0, 2);

    set_up(&sensors[0], 0, -12);
    set_up(&sensors[1], 3, 0);
    set_up(&sensors[2], 7, 40);
    if (board == 0) {
        scale = 100;
        chosen = &sensors[0];
    } else {
        scale = 250;
        chosen = &sensors[1];
    }
    if (board == 2)
        spare = &sensors[2];
    return 0;
}

__task(30) void measure(void)
{
    while (1) {
        int value = converters[chosen->channel] + chosen->offset;

        chosen->last = value * 10 / scale;
        __yield();
    }
}

__task(20) void compare(void)
{
    while (1) {
        int value = converters[spare->channel];

        spare->last = value * 10 / scale;
        __yield();
    }
}
