# The start of every example in C: empty caches and a stack; then main in kseg0. What main returns is the halt code.
#include "r4k_cache.h"
#include "r4k_cp0.h"

        .set    noreorder
        .set    noat

# The PROM leaves Status.BEV at 1, and passes a TLB refill on to 80000000 and every other exception on to 80000180.
        .section .vectors, "ax"
        lui     $k0, %hi(refill)
        addiu   $k0, $k0, %lo(refill)
        jr      $k0
        nop
        .org    0x180
        lui     $k0, %hi(general)
        addiu   $k0, $k0, %lo(general)
        jr      $k0
        nop
        .org    0x200

        .text
        .globl  start
        .weak   refill
        .weak   general

# Entered at its address in kseg1, so that it runs past the caches. After power-up their tags may be anything: each line of
# both gets the tag 0, which is no line. 16 is the shorter length of a line; lines of 32 bytes are done twice.
start:  mtc0    $zero, CP0_TAGLO
        mtc0    $zero, CP0_TAGHI
        lui     $t0, 0x8000
        addiu   $t1, $t0, PRIMARY_CACHE_BYTES
1:      cache   INDEX_STORE_TAG_I, 0($t0)
        cache   INDEX_STORE_TAG_D, 0($t0)
        addiu   $t0, $t0, 16
        bne     $t0, $t1, 1b
        nop

        lui     $sp, %hi(stack_top)
        addiu   $sp, $sp, %lo(stack_top)
        lui     $t9, %hi(main)
        addiu   $t9, $t9, %lo(main)
        jalr    $t9                     # from kseg1 to kseg0
        addiu   $sp, $sp, -16           # where main may put its arguments
        lui     $t0, 0xbf00
        sw      $v0, 0x20($t0)          # HALT
        nop

# Where an example has no handler of its own, an exception ends the run, and Cause is the halt code.
refill:
general:
        mfc0    $k1, CP0_CAUSE
        lui     $k0, 0xbf00
        sw      $k1, 0x20($k0)
        nop
