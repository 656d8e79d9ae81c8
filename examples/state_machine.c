/* The states of a motor's start and stop, with a fault state that the stop button leaves.

   The report has no alarm. `duty` is at most twice an unsigned short, and falls only while it is above 0; `ticks` and
   `faults` are unsigned shorts, which wrap where they are stored; and the motor's inputs are volatile, so that each
   read gives any value of its type. Nothing is shared: there is one task. */
typedef enum state { IDLE, STARTING, RUNNING, STOPPING = 8, FAULT } state_t;

struct inputs {
    _Bool start, stop;
    int current;
};

enum { LEAST_CURRENT = 20, GREATEST_CURRENT = 900, TICKS = 50 };

static volatile struct inputs in;
static state_t state = IDLE;
static unsigned short ticks, faults;
long duty;

static void enter(state_t next)
{
    state = next;
    ticks = 0;
}

static void step(void)
{
    int current = in.current;

    switch (state) {
    case IDLE:
        duty = 0;
        if (in.start && !in.stop)
            enter(STARTING);
        break;
    case STARTING:
        duty = ticks * 2L;
        if (current > GREATEST_CURRENT) {
            enter(FAULT);
            break;
        }
        if (++ticks >= TICKS)
            enter(RUNNING);
        break;
    case RUNNING:
        if (current < LEAST_CURRENT || current > GREATEST_CURRENT)
            enter(FAULT);
        else if (in.stop)
            enter(STOPPING);
        else
            duty = 100;
        break;
    case STOPPING:
        duty = duty > 0 ? duty - 1 : 0;
        if (duty)
            break;
        enter(IDLE);
        break;
    case FAULT:
        faults++;
    default:
        duty = 0;
        if (in.stop) {
            int wait;

            for (wait = 0; wait < 10; wait++) {
                if (wait == 5)
                    continue;
                __yield();
            }
            enter(IDLE);
        }
    }
}

int main(void)
{
    state = IDLE;
    faults = 0;
    return 0;
}

__task(5) void machine(void)
{
    while (1) {
        step();
        __yield();
    }
}
