/* The program of both tasks: they print in turns, and wait for each other by the clock alone. Linked at 00400000. */
#define TURN ((volatile unsigned *)0x00402000) /* in a page that both tasks have */

static void call(unsigned number, unsigned argument)
{
    register unsigned v0 __asm__("$2") = number;
    register unsigned a0 __asm__("$4") = argument;
    __asm__ volatile("syscall" : "+r"(v0) : "r"(a0) : "memory");
}

__attribute__((section(".text.first"))) void task(unsigned me)
{
    for (int round = 0; round < 4; round++) {
        while (*TURN != me)
            ; /* the kernel takes the processor away */
        call(1, 'a' + me);
        *TURN = !me;
    }
    call(2, 0);
}
