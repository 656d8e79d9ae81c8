/* A bus that two tasks use. The less urgent one takes the mutex. The more urgent one does not wait: it asks by
   `__islocked` whether the bus is in use, and where it is not, it uses the bus without taking the mutex. While it runs
   on, the less urgent task cannot take it: so nothing is touched by both at a time.

   The report shows a real error in the last part of the urgent task, which goes on after it has waited, when the other
   may long hold the mutex: RACE at its store to `requests` and at the other's accesses to it. The accesses before the
   wait have no RACE. `divisor` is 0 while the other task has the mutex and 4 else, so what the urgent task reads after
   `!__islocked` is 4, and its quotient has no DIV. */
static int divisor = 4;
static int bytes_sent;
static int requests;
static unsigned short rate;
__mutex bus;

static int cut(int value)
{
    return value < 0 ? 0 : value > 10000 ? 10000 : value;
}

__task(60) void urgent(void)
{
    while (1) {
        if (!__islocked(bus)) {
            rate = (unsigned short)(40000 / divisor);
            bytes_sent = cut(bytes_sent + 1);
            __yield();
            requests = 0;
        }
        __yield();
    }
}

__task(5) void background(void)
{
    while (1) {
        __lock(bus);
        divisor = 0;
        bytes_sent = cut(bytes_sent + __input(1, 64));
        requests = cut(requests + 1);
        divisor = 4;
        __unlock(bus);
        __yield();
    }
}
