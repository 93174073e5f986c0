/* The disk driver with a buffer whose last line has other data too, which goes when the buffer is invalidated: lost. */
#include "print.h"
#include "r4k_cache.h"

#define SECTOR 512
#define PHYSICAL(address) ((unsigned)(address) & 0x1fffffff)

/* A record has 508 bytes. What the disk moves behind them means nothing, so the driver has a word of its own there.
   The buffer stands at 80010000, and its last line at 800101f0 or 800101e0. */
#define RECORD (SECTOR - 4)
static struct {
    char buffer[RECORD];
    unsigned held; /* the sector that the buffer has, known once the disk is done */
} block __attribute__((section(".bss.dma"), aligned(32)));

static void transfer(unsigned command, unsigned sector, void *at)
{
    R4K_SECT = sector;
    R4K_ADDR = PHYSICAL(at);
    barrier();
    R4K_CMD = command;
    while (!(R4K_DSTAT & 2))
        ;
    R4K_DSTAT = 0;
    barrier();
    block.held = sector;
}

static void disk_write(unsigned sector)
{
    write_back(block.buffer, RECORD); /* the disk reads memory: what was stored has to be there */
    transfer(2, sector, block.buffer);
}

static void disk_read(unsigned sector)
{
    flush(block.buffer, RECORD); /* the disk writes memory: no line of the buffer may be in the cache by then */
    transfer(1, sector, block.buffer);
    discard(block.buffer, RECORD); /* once more, to be sure */
}

static void put(const char *text)
{
    char *at = block.buffer;
    while ((*at++ = *text++))
        ;
}

static void show(void)
{
    print_number(block.held);
    print(" <");
    print(block.buffer);
    print(">\n");
}

int main(void)
{
    put("written by the processor");
    disk_write(1);
    disk_read(0);
    show();
    disk_read(1);
    show();
    return 0;
}
