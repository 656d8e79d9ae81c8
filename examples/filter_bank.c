/* A bank of four low-pass filters in fixed point with 8 fraction bits; the odd ones are followed by a moving average.

   The report shows one real error. SHIFT in `x << FRACTION`: a sample below 0 is shifted to the left, which C99 6.5.7
   leaves undefined. (`x * (1 << FRACTION)` has no such error.)
   The rest is what the analysis cannot tell. OVERFLOW three times in `low_pass`: that a filter's state stays near its
   samples follows from how `error` and `state` go together, and each is known by its bounds alone. OVERFLOW at the sum
   of the average: how often the loop adds is not counted. DEREF in `average`: of the offset of `history + i` all
   distances between the histories of the four filters are kept, and in between stand other members. */
# 1 "filter_bank.h"
typedef signed short sample_t;
typedef signed int accumulator_t;
enum { CHANNELS = 4, WINDOW = 1 << 3, FRACTION = 8 };

struct filter {
    accumulator_t state;
    sample_t coefficient;
    struct {
        sample_t history[8];
        unsigned char next;
    } window;
};
# 27 "filter_bank.c"
static struct filter bank[CHANNELS] = {
    {0, 32, {{0}, 0}},
    {0, 64, {{0}, 0}},
    {0, 96, {{0}, 0}},
    {0, 128, {{0}, 0}},
};
static const sample_t limits[2] = {-2048, 2047};
static volatile sample_t input[CHANNELS];
static sample_t output[CHANNELS];
extern unsigned int saturations;
unsigned int saturations = 0u;

static inline sample_t clamped(accumulator_t value)
{
    if (value < limits[0]) {
        saturations++;
        return limits[0];
    } else if (value > limits[1]) {
        saturations++;
        return limits[1];
    }
    return (sample_t)value;
}

static sample_t low_pass(struct filter *const filter, sample_t x)
{
    accumulator_t error = ((accumulator_t)x << FRACTION) - filter->state;

    filter->state += (error >> FRACTION) * filter->coefficient;
    return clamped(filter->state >> FRACTION);
}

static sample_t average(struct filter *filter, sample_t x)
{
    accumulator_t sum = 0;
    unsigned char i;

    filter->window.history[filter->window.next] = x;
    filter->window.next = (unsigned char)((filter->window.next + 1) % WINDOW);
    for (i = 0; i < WINDOW; ++i)
        sum += *(filter->window.history + i);
    return clamped(sum / (accumulator_t)(sizeof(filter->window.history) / sizeof(sample_t)));
}

__task(10) void filters(void)
{
    for (;;) {
        for (int channel = 0; channel < CHANNELS; channel++) {
            sample_t x = input[channel], y;

            y = low_pass(&bank[channel], x);
            output[channel] = channel & 1 ? average(&bank[channel], y) : y;
        }
        __yield();
    }
}
