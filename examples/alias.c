/* A page that is mapped at two addresses of different colours, of which neither sees what the other's line has: owed. */
#include "print.h"
#include "r4k_cache.h"

#define FRAME 0x00020000u
#define ONE ((volatile char *)0xc0000000u)
#define TWO ((volatile char *)0xc0001000u) /* bit 12 is 1, and in ONE it is 0 */

int main(void)
{
    unsigned page = FRAME >> 12 << 6 | PAGE_CACHED | PAGE_DIRTY | PAGE_VALID | PAGE_GLOBAL;
    empty_tlb();
    write_pair(0, 0xc0000000u, page, page);
    ONE[0] = 'o';
    ONE[1] = 'k';
    ONE[2] = '\0';
    barrier();
    print("[");
    print((const char *)TWO);
    print("]\n");
    return 0;
}
