/* A ring buffer between an interrupt's task and a main loop, with one mutex for the buffer and one for the log of lost
   bytes. The report has no alarm, and yet the program may come to stand still: `receive` takes the mutex of the buffer
   and then that of the log, `process` that of the log and then that of the buffer. Where `process` holds the log and
   `receive` takes the buffer, each waits for what the other holds. `waits` lists the second lock of each; with both
   in one order it lists none. */
typedef unsigned char byte;

enum size { CAPACITY = 16 };

__mutex buffer;
__mutex journal;
static byte bytes[CAPACITY];
static unsigned first, count, lost, reported;

/* an interrupt: a byte has come */
__task(200) void receive(void)
{
    while (1) {
        byte b = (byte)__input(0, 255);

        __lock(buffer);
        if (count < CAPACITY) {
            bytes[(first + count) % CAPACITY] = b;
            count++;
        } else {
            __lock(journal);
            lost++;
            __unlock(journal);
        }
        __unlock(buffer);
        __yield();
    }
}

/* in the background: tells what was lost, and empties the buffer */
__task(100) void process(void)
{
    while (1) {
        __lock(journal);
        if (lost != reported) {
            reported = lost;
            __lock(buffer);
            first = 0;
            count = 0;
            __unlock(buffer);
        }
        __unlock(journal);
        __yield();
    }
}
