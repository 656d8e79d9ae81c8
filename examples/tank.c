/* Levels of a tank: the loop reads under the mutex, the last line does not, so its DIV and RACE are real. */
__mutex m;
int fill = 1, rate;
__task(1) void pump(void) { __lock(m); fill = 0; fill = __input(1, 9); __unlock(m); }
__task(1) void show(void) {
    int i, v;
    __lock(m); v = fill; __unlock(m);
    for (i = 0; i < 3; i = i + 1) rate = 90 / (v + i);
    rate = 90 / fill;
}
