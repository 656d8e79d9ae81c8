/* A watchdog: two workers count their rounds, and the most urgent task looks whether both went on, writes a fault into
   a log where one did not, and stops the outputs.

   The report shows a real error. `write_log` takes the mutex of the log, and so does `dump` before it calls it: LOCK
   at that `__lock`, where the dumping task takes what it holds already. (The log's own subscript is in its bounds.)
   There is no other alarm: the counters wrap in unsigned arithmetic, and all that tasks share stands under a mutex. */
enum { WORKERS = 2, ENTRIES = 8, PATIENCE = 3 };

static unsigned rounds[WORKERS];
static unsigned seen[WORKERS];
static unsigned quiet[WORKERS];
static _Bool stopped;
static int entries[ENTRIES];
static unsigned next_entry;
static volatile int console;
__mutex counters;
__mutex log_of_faults;

static void write_log(int code)
{
    __lock(log_of_faults);
    entries[next_entry] = code;
    next_entry = (next_entry + 1u) % ENTRIES;
    __unlock(log_of_faults);
}

static void dump(void)
{
    unsigned i;

    __lock(log_of_faults);
    for (i = 0; i < ENTRIES; i++)
        console = entries[i];
    if (console == -1)
        write_log(99);
    __unlock(log_of_faults);
}

static void alive(unsigned worker)
{
    __lock(counters);
    rounds[worker]++;
    __unlock(counters);
}

__task(100) void watch(void)
{
    while (1) {
        unsigned i;

        for (i = 0; i < WORKERS; i++) {
            unsigned now;

            __lock(counters);
            now = rounds[i];
            __unlock(counters);
            quiet[i] = now == seen[i] ? quiet[i] + 1u : 0u;
            seen[i] = now;
            if (quiet[i] == PATIENCE) {
                write_log((int)i);
                stopped = 1;
            }
        }
        __yield();
    }
}

__task(50) void first_worker(void)
{
    while (1) {
        alive(0);
        __yield();
    }
}

__task(40) void second_worker(void)
{
    while (1) {
        alive(1);
        if (__input(0, 9) == 0)
            dump();
        __yield();
    }
}
