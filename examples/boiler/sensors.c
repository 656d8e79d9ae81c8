/* The sensors: each goes through a median of three, a moving average and the table of its resistor. */
#include "boiler.h"

enum { WEIGHT = 8, STEP = 64, POINTS = 17, ADC_START = 640, ADC_MOST = 1023, SHORTED = 8, BROKEN = 1015 };

typedef struct {
    uint16_t last[3];
    uint16_t mean;
} filter;

static volatile uint16_t adc_result[SENSORS];

/* by the converter's value, in steps of 64 */
static const int16_t resistor_table[POINTS] = {
    1500, 1240, 990, 850, 750, 670, 600, 540, 480, 430, 370, 310, 250, 180, 90, -60, -400
};

int16_t temperatures[SENSORS];
bool sensor_broken[SENSORS];

static filter filters[SENSORS];

/* Nothing is hot before the first values are there. */
int main(void)
{
    uint8_t i;

    for (i = 0; i < SENSORS; i++) {
        filters[i].last[0] = ADC_START;
        filters[i].last[1] = ADC_START;
        filters[i].last[2] = ADC_START;
        filters[i].mean = ADC_START;
    }
    return 0;
}

static uint16_t median(const uint16_t *last)
{
    uint16_t least = last[0] < last[1] ? last[0] : last[1];
    uint16_t most = last[0] < last[1] ? last[1] : last[0];

    if (last[2] < least)
        return least;
    return last[2] > most ? most : last[2];
}

/* A moving average, in which a value counts for an eighth. */
static uint16_t average(filter *of, uint16_t value)
{
    of->mean = (uint16_t)(((WEIGHT - 1) * of->mean + value) / WEIGHT);
    return of->mean;
}

static uint16_t filtered(filter *of, uint16_t value)
{
    of->last[0] = of->last[1];
    of->last[1] = of->last[2];
    of->last[2] = value;
    return average(of, median(of->last));
}

/* Between two points of the table. */
static int16_t temperature_of(uint16_t value)
{
    uint16_t point = value / STEP;
    int32_t low = resistor_table[point];
    int32_t high = resistor_table[point + 1];

    return (int16_t)(low + (high - low) * (value % STEP) / STEP);
}

__task(PRIORITY_SENSORS) void measure(void)
{
    uint8_t i;

    while (true) {
        for (i = 0; i < SENSORS; i++) {
            uint16_t raw = adc_result[i];
            int16_t now = temperature_of(filtered(&filters[i], raw));

            __lock(boiler_guard);
            temperatures[i] = now;
            sensor_broken[i] = raw < SHORTED || raw > BROKEN;
            __unlock(boiler_guard);
        }
        __yield();
    }
}
