# TLB refill: Context has the address of the pair of entries for the address that missed. k0 and k1 are the handler's own.
#include "r4k_cp0.h"

        .set    noreorder
        .text
        .globl  refill
refill: mfc0    $k0, CP0_CONTEXT
        lw      $k1, 0($k0)
        mtc0    $k1, CP0_ENTRYLO0
        lw      $k1, 8($k0)
        mtc0    $k1, CP0_ENTRYLO1
        tlbwr
        eret
