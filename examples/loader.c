/* A loader: a program of one sector is read from the disk by DMA and called; then another, at the same address. */
#include "print.h"
#include "r4k_cache.h"

#define SECTOR 512
#define PHYSICAL(address) ((unsigned)(address) & 0x1fffffff)

/* Where the programs are run: at 80010000, with lines of its own. */
static unsigned area[SECTOR / 4] __attribute__((section(".bss.dma"), aligned(32)));

static void load(unsigned sector, void *to)
{
    flush(to, SECTOR); /* the disk writes memory: no line of it may be in the data cache by then */
    R4K_SECT = sector;
    R4K_ADDR = PHYSICAL(to);
    barrier();
    R4K_CMD = 1;
    while (!(R4K_DSTAT & 2))
        ;
    R4K_DSTAT = 0;
    barrier();
    discard_code(to, SECTOR); /* and the instruction cache has the program before, which is no more */
}

static unsigned call(void)
{
    return ((unsigned (*)(void))area)();
}

int main(void)
{
    load(0, area);
    print_number(call());
    load(1, area);
    print(" ");
    print_number(call());
    print("\n");
    return 0;
}
