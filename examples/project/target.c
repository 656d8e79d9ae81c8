/* What a target gives: here a computer with one thread, which runs each task up to its first wait. */
#include "tank.h"

#include <setjmp.h>
#include <stdio.h>

void drain(void);
void watch(void);
void show(void);

static jmp_buf waits;

void cedratcleat_lock(cedratcleat_mutex *mutex) { mutex->held = 1; }
void cedratcleat_unlock(cedratcleat_mutex *mutex) { mutex->held = 0; }
int cedratcleat_islocked(const cedratcleat_mutex *mutex) { return mutex->held; }
void cedratcleat_yield(void) { longjmp(waits, 1); }
int cedratcleat_input(int least, int greatest) { return greatest > least ? greatest : least; }

static void run(void (*task)(void))
{
    if (setjmp(waits) == 0)
        task();
}

int main(void)
{
    run(show);
    run(drain);
    run(watch);
    printf("share %d level %d pumping %d\n", (int)share, (int)level, (int)pumping);
    return 0;
}
