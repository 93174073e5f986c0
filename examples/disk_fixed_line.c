/* The disk driver with a line's length written into it: right where lines have 32 bytes, and owed where they have 16. */
#include "print.h"
#include "r4k_cache.h"

#define SECTOR 512
#define LINE 32
#define PHYSICAL(address) ((unsigned)(address) & 0x1fffffff)

/* The buffer has its lines for itself. It stands at 80010000. */
static char buffer[SECTOR] __attribute__((section(".bss.dma"), aligned(32)));
static unsigned held; /* the sector that the buffer has */

static void transfer(unsigned command, unsigned sector, void *at)
{
    R4K_SECT = sector;
    R4K_ADDR = PHYSICAL(at);
    barrier();
    R4K_CMD = command;
    while (!(R4K_DSTAT & 2))
        ;
    R4K_DSTAT = 0;
    barrier();
    held = sector;
}

static void disk_write(unsigned sector)
{
    for (unsigned at = 0; at < SECTOR; at += LINE)
        cache_op(HIT_WRITEBACK_D, buffer + at);
    transfer(2, sector, buffer);
}

static void disk_read(unsigned sector)
{
    for (unsigned at = 0; at < SECTOR; at += LINE)
        cache_op(HIT_WRITEBACK_INVALIDATE_D, buffer + at);
    transfer(1, sector, buffer);
}

static void put(const char *text)
{
    char *at = buffer;
    while ((*at++ = *text++))
        ;
}

static void show(void)
{
    print_number(held);
    print(" <");
    print(buffer);
    print(">\n");
}

int main(void)
{
    put("written by the processor");
    disk_write(1);
    disk_read(0);
    show();
    disk_read(1);
    show();
    return 0;
}
