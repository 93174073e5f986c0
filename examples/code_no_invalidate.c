/* A function that is written while the program runs, where the instruction cache still has it as it was: old. */
#include "print.h"
#include "r4k_cache.h"

/* Two words in a line of their own, behind the vectors: at 80000200. */
__asm__(".pushsection .patched, \"ax\"\n"
        ".set noreorder\n"
        "answer: jr $ra\n"
        "li $v0, 0\n"
        ".balign 32\n"
        ".set reorder\n"
        ".popsection");
extern unsigned answer[2];

static unsigned call(void)
{
    return ((unsigned (*)(void))answer)();
}

static void patch(unsigned number)
{
    answer[1] = 0x24020000 | number; /* li $v0, number */
    write_back(answer, 8);           /* fetches do not look into the data cache */
}

int main(void)
{
    print_number(call());
    patch(1);
    print_number(call());
    patch(2);
    print_number(call());
    print("\n");
    return 0;
}
