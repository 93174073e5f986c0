# Boot code that uses the data cache as memory, by giving lines a tag that nothing was read for: forge.
#include "r4k_cache.h"
#include "r4k_cp0.h"

        .set    noreorder
        .text
        .globl  start
start:  lui     $sp, 0x8002             # a stack of 64 bytes at 80020000
        li      $t0, 0x000020c0         # the tag of 00020000 in bits 31:8, and PState 3, dirty
        mtc0    $t0, CP0_TAGLO
        cache   INDEX_STORE_TAG_D, 0($sp)
        cache   INDEX_STORE_TAG_D, 16($sp)
        cache   INDEX_STORE_TAG_D, 32($sp)
        cache   INDEX_STORE_TAG_D, 48($sp)
        addiu   $sp, $sp, 64

        bal     show                    # and what needs a stack can be called
        nop
        lui     $t0, 0xbf00
        sw      $zero, 0x20($t0)        # HALT
        nop

show:   addiu   $sp, $sp, -8
        sw      $ra, 0($sp)
        bal     print
        addiu   $a0, $zero, 'A'
        lw      $ra, 0($sp)
        jr      $ra
        addiu   $sp, $sp, 8

print:  lui     $t0, 0xbf00
        jr      $ra
        sw      $a0, 0($t0)             # OUT
