/* A speed controller: proportional and integral part, each saturated, in fixed point with 8 fraction bits. The wanted
   speed is set by a less urgent task; both gains are set once, before the tasks begin.

   The report has no alarm. The error is cut to its bounds before it is multiplied, and the integral is cut before it is
   stored, so each product and sum stays far inside an int. The gains are the values that `main` gives them: no task
   stores to them. */
enum { ERROR_LIMIT = 2000, INTEGRAL_LIMIT = 1000000, DUTY_LIMIT = 1023 };

static int proportional, integral_gain;
static int integral;
static int wanted;
static volatile short encoder;
static volatile int duty;
__mutex setting;

static int cut(int value, int limit)
{
    if (value > limit)
        return limit;
    if (value < -limit)
        return -limit;
    return value;
}

static int step(int error)
{
    int output;

    error = cut(error, ERROR_LIMIT);
    integral = cut(integral + error * integral_gain, INTEGRAL_LIMIT);
    output = (error * proportional + integral) / 256;
    return cut(output, DUTY_LIMIT);
}

int main(void)
{
    proportional = 160;
    integral_gain = 12;
    integral = 0;
    wanted = 0;
    return 0;
}

__task(90) void control(void)
{
    while (1) {
        int goal;

        __lock(setting);
        goal = wanted;
        __unlock(setting);
        duty = step(goal - encoder);
        __yield();
    }
}

__task(10) void operate(void)
{
    while (1) {
        int speed = __input(-5000, 5000);

        __lock(setting);
        wanted = speed;
        __unlock(setting);
        __yield();
    }
}
