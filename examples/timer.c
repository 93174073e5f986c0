/* A timer and a console driver by interrupts: a dot for each 10000 counts, and what is typed meanwhile. */
#include "interrupt.h"
#include "print.h"
#include "r4k_cp0.h"

#define PERIOD 10000

static volatile unsigned ticks;
static volatile unsigned char typed[16]; /* a ring: the handler puts, main takes */
static volatile unsigned put_at, take_at;

void interrupt(unsigned cause)
{
    if (cause & CAUSE_CODE) {
        R4K_HALT = cause;
    } else if (cause & CAUSE_IP7) {
        ticks++;
        write_cp0(CP0_COMPARE, read_cp0(CP0_COMPARE) + PERIOD); /* which takes the interrupt back */
    } else {
        while (R4K_CSTAT & 1)
            typed[put_at++ % sizeof typed] = R4K_IN; /* the line falls with the last byte */
    }
}

int main(void)
{
    unsigned shown = 0;
    write_cp0(CP0_COMPARE, PERIOD);
    write_cp0(CP0_STATUS, STATUS_BEV | STATUS_IM7 | STATUS_IM2 | STATUS_IE);
    while (shown < 5) {
        if (shown != ticks) {
            R4K_OUT = '.';
            shown++;
        }
        if (take_at != put_at)
            R4K_OUT = typed[take_at++ % sizeof typed];
    }
    print("\n");
    return shown;
}
