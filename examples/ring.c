/* A disk controller with a ring of descriptors in memory, as network cards and SCSI controllers have one. Its firmware is played by
   the interrupt handler, which sees memory alone: it takes the next descriptor, moves the sector, and writes back that it is done.
   Each descriptor has the longest line there is to itself, so that what the driver writes of one brings no other back to memory. */
#include "interrupt.h"
#include "print.h"
#include "r4k_cache.h"
#include "string.h"

#define SECTOR 512
#define COUNT 4
#define PHYSICAL(address) ((unsigned)(address) & 0x1fffffff)
#define UNCACHED(address) ((void *)((unsigned)(address) | 0x20000000))

struct __attribute__((aligned(32))) descriptor {
    volatile unsigned flags;   /* 1: the controller's; 2: out of memory */
    volatile unsigned address; /* physical */
    volatile unsigned sector;
    volatile unsigned status;  /* the disk's, once the controller is done */
};

/* At 80010000: the descriptors, and then the sectors, each with lines of its own. */
static struct {
    struct descriptor ring[COUNT];
    char sectors[COUNT][SECTOR];
} shared __attribute__((section(".bss.dma"), aligned(32)));

/* ---- the controller */

static unsigned current, busy;

static void begin(void)
{
    struct descriptor *at = UNCACHED(&shared.ring[current]);
    if (busy || !(at->flags & 1))
        return;
    busy = 1;
    R4K_SECT = at->sector;
    R4K_ADDR = at->address;
    R4K_CMD = at->flags & 2 ? 2 : 1;
}

void interrupt(unsigned cause)
{
    struct descriptor *at = UNCACHED(&shared.ring[current]);
    if (cause & CAUSE_CODE)
        R4K_HALT = cause;
    at->status = R4K_DSTAT;
    R4K_DSTAT = 0;
    at->flags = 0;
    current = (current + 1) % COUNT;
    busy = 0;
    begin();
}

/* ---- the driver */

/* The interrupt stays away while a descriptor is half written. */
static void submit(unsigned number, unsigned sector, unsigned flags)
{
    struct descriptor *at = &shared.ring[number];
    char *bytes = shared.sectors[number];
    flush(bytes, SECTOR); /* a disk that reads memory finds what was stored, and one that writes it no line of it */
    write_cp0(CP0_STATUS, STATUS_BEV | STATUS_IM3);
    at->address = PHYSICAL(bytes);
    at->sector = sector;
    at->status = 0;
    at->flags = flags;
    write_back(at, sizeof *at);
    begin();
    write_cp0(CP0_STATUS, STATUS_BEV | STATUS_IM3 | STATUS_IE);
}

static char *wait(unsigned number)
{
    struct descriptor *at = &shared.ring[number];
    do
        discard(at, sizeof *at); /* what the controller wrote is in memory */
    while (at->flags & 1);
    return at->status & 4 ? "error" : shared.sectors[number];
}

int main(void)
{
    for (unsigned sector = 0; sector < 2; sector++) {
        memset(shared.sectors[sector], 'a' + sector, SECTOR);
        submit(sector, sector, 3);
    }
    wait(0);
    wait(1);
    for (unsigned sector = 0; sector < 2; sector++)
        submit(2 + sector, sector, 1);
    R4K_OUT = wait(2)[0];
    R4K_OUT = wait(3)[SECTOR - 1];
    print("\n");
    return 0;
}
