/* The task divides by x, which is 0: an alarm DIV at the sign /. */
int x;

__task(1) void t(void)
{
    x = 1 / x;
}
