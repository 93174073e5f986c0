/* 64 pages from 10000000 on, through a TLB of 48 pairs of pages: what does not fit is refilled by refill_handler.S. */
#include "print.h"
#include "r4k_cp0.h"

#define PAGES 64 * 2
#define PAGE 4096
#define VIRTUAL 0x10000000u
#define PHYSICAL 0x00100000u /* agrees with VIRTUAL in bit 12, so that a page has one colour */

/* The table as Context addresses it: 16 bytes for a pair of pages, from PTEBase on. */
#define PTEBASE 0x80000000u
struct pair { unsigned even, unused_even, odd, unused_odd; };
#define TABLE ((struct pair *)(PTEBASE + (VIRTUAL >> 13) * sizeof(struct pair)))

static unsigned entry(unsigned page)
{
    return (PHYSICAL + page * PAGE) >> 12 << 6 | PAGE_CACHED | PAGE_DIRTY | PAGE_VALID | PAGE_GLOBAL;
}

int main(void)
{
    unsigned sum = 0;
    empty_tlb();
    for (unsigned pair = 0; pair < PAGES / 2; pair++) {
        TABLE[pair].even = entry(2 * pair);
        TABLE[pair].odd = entry(2 * pair + 1);
    }
    write_cp0(CP0_CONTEXT, PTEBASE);
    for (unsigned page = 0; page < PAGES; page++)
        *(volatile unsigned *)(VIRTUAL + page * PAGE) = page;
    for (unsigned page = 0; page < PAGES; page++)
        sum += *(volatile unsigned *)(VIRTUAL + page * PAGE);
    print_number(sum);
    print("\n");
    return 0;
}
