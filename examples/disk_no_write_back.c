/* The disk driver without the write-back, so that the disk gets what memory had before the stores: owed, at its first beat. */
#include "print.h"
#include "r4k_cache.h"

#define SECTOR 512
#define PHYSICAL(address) ((unsigned)(address) & 0x1fffffff)

/* The buffer has its lines for itself. It stands at 80010000. */
static char buffer[SECTOR] __attribute__((section(".bss.dma"), aligned(32)));
static unsigned held; /* the sector that the buffer has */

static void transfer(unsigned command, unsigned sector, void *at)
{
    R4K_SECT = sector;
    R4K_ADDR = PHYSICAL(at);
    barrier();
    R4K_CMD = command;
    while (!(R4K_DSTAT & 2))
        ;
    R4K_DSTAT = 0;
    barrier();
    held = sector;
}

static void disk_write(unsigned sector)
{
    transfer(2, sector, buffer);
}

static void disk_read(unsigned sector)
{
    flush(buffer, SECTOR); /* the disk writes memory: no line of the buffer may be in the cache by then */
    transfer(1, sector, buffer);
}

static void put(const char *text)
{
    char *at = buffer;
    while ((*at++ = *text++))
        ;
}

static void show(void)
{
    print_number(held);
    print(" <");
    print(buffer);
    print(">\n");
}

int main(void)
{
    put("written by the processor");
    disk_write(1);
    disk_read(0);
    show();
    disk_read(1);
    show();
    return 0;
}
