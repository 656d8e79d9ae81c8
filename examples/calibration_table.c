/* A sensor's raw value to a temperature, by a table of points and a straight line between two of them.

   The report shows a real error. INDEX in `interpolated` at `raw[at + 1]` and `celsius[at + 1]`: for the value 4095 the
   search ends at the last point, and there is none behind it. (`at < POINTS - 2` in the search ends it one point
   earlier.)
   DIV in the quotient is none in this table, whose points all differ: the analysis knows for each of two points a set
   of values, and not that the one is above the other. */
enum { POINTS = 6 };

static const int raw[POINTS] = {0, 400, 900, 1500, 2600, 4095};
static const short celsius[POINTS] = {-40, 0, 25, 60, 100, 150};
static volatile unsigned short converter;
static short temperature;
static _Bool hot;
__mutex shared;

static int segment(int value)
{
    int at = 0;

    while (at < POINTS - 1 && value >= raw[at + 1])
        at++;
    return at;
}

static short interpolated(int value)
{
    int at = segment(value);
    int width = raw[at + 1] - raw[at];
    int rise = celsius[at + 1] - celsius[at];

    return (short)(celsius[at] + (value - raw[at]) * rise / width);
}

__task(20) void measure(void)
{
    while (1) {
        short now = interpolated(converter & 0xfff);

        __lock(shared);
        temperature = now;
        __unlock(shared);
        __yield();
    }
}

__task(10) void supervise(void)
{
    while (1) {
        __lock(shared);
        if (temperature > 120)
            hot = 1;
        else if (temperature < 110)
            hot = 0;
        __unlock(shared);
        __yield();
    }
}
