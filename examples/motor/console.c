/* The main loop: commands of a letter behind a number, as `1500s`, and what it answers. */
#include "motor.h"

enum { NUMBER_LIMIT = 1000 };

static const gain_set gain_sets[GAIN_SETS] = {
    { 20, 1 }, { 30, 2 }, { 40, 4 }, { 50, 5 }, { 60, 6 }, { 80, 8 }, { 100, 10 }, { 120, 12 }
};

static uint16_t number;
static uint16_t refused;

static void answer(uint16_t value)
{
    uint16_t scale = 10000;

    while (scale != 0) {
        serial_put((uint8_t)('0' + value / scale % 10));
        scale = scale / 10;
    }
    serial_put('\n');
}

static void obey(uint8_t letter)
{
    switch (letter) {
    case 's':
        drive_want(number);
        break;
    case 'g':
        drive_tune(&gain_sets[number % 10]);
        break;
    case 'r':
        drive_restart();
        break;
    case 'c':
        drive_trips = 0;
        break;
    case 'p':
        answer((uint16_t)encoder_pulses());
        break;
    case 'q':
        answer((uint16_t)drive_now());
        break;
    default:
        refused++;
        break;
    }
}

__task(PRIORITY_MAIN) void console(void)
{
    uint8_t byte = 0;

    while (true) {
        if (!serial_get(&byte)) {
            __yield();
        } else if (byte >= '0' && byte <= '9') {
            if (number < NUMBER_LIMIT)
                number = (uint16_t)(10 * number + (byte - '0'));
        } else {
            obey(byte);
            number = 0;
        }
    }
}
