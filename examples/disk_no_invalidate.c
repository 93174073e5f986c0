/* The disk driver without the invalidation, so that the processor reads its copy from before the disk wrote memory: old. */
#include "print.h"
#include "r4k_cache.h"

#define SECTOR 512
#define PHYSICAL(address) ((unsigned)(address) & 0x1fffffff)

/* The buffer has its lines for itself. It stands at 80010000. */
static char buffer[SECTOR] __attribute__((section(".bss.dma"), aligned(32)));
static unsigned held; /* the sector that the buffer has */

static void transfer(unsigned command, unsigned sector, void *at)
{
    R4K_SECT = sector;
    R4K_ADDR = PHYSICAL(at);
    barrier();
    R4K_CMD = command;
    while (!(R4K_DSTAT & 2))
        ;
    R4K_DSTAT = 0;
    barrier();
    held = sector;
}

static void disk_write(unsigned sector)
{
    write_back(buffer, SECTOR); /* the disk reads memory: what was stored has to be there */
    transfer(2, sector, buffer);
}

static void disk_read(unsigned sector)
{
    transfer(1, sector, buffer);
}

static void put(const char *text)
{
    char *at = buffer;
    while ((*at++ = *text++))
        ;
}

static void show(void)
{
    print_number(held);
    print(" <");
    print(buffer);
    print(">\n");
}

int main(void)
{
    put("written by the processor");
    disk_write(1);
    disk_read(0);
    show();
    disk_read(1);
    show();
    return 0;
}
