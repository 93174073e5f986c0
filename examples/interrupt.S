# Every exception but a refill: saves what C may change on the stack that is in use, and calls interrupt(Cause). By interrupt.h.
#include "r4k_cp0.h"

        .set    noreorder
        .set    noat
        .text
        .globl  general
        .globl  interrupt_entry
general:
interrupt_entry:
        addiu   $sp, $sp, -96
        sw      $1, 16($sp)
        sw      $v0, 20($sp)
        sw      $v1, 24($sp)
        sw      $a0, 28($sp)
        sw      $a1, 32($sp)
        sw      $a2, 36($sp)
        sw      $a3, 40($sp)
        sw      $t0, 44($sp)
        sw      $t1, 48($sp)
        sw      $t2, 52($sp)
        sw      $t3, 56($sp)
        sw      $t4, 60($sp)
        sw      $t5, 64($sp)
        sw      $t6, 68($sp)
        sw      $t7, 72($sp)
        sw      $t8, 76($sp)
        sw      $t9, 80($sp)
        sw      $ra, 84($sp)
        mflo    $k0
        mfhi    $k1
        sw      $k0, 88($sp)
        sw      $k1, 92($sp)
        jal     interrupt
        mfc0    $a0, CP0_CAUSE
        lw      $k0, 88($sp)
        lw      $k1, 92($sp)
        mtlo    $k0
        mthi    $k1
        lw      $ra, 84($sp)
        lw      $t9, 80($sp)
        lw      $t8, 76($sp)
        lw      $t7, 72($sp)
        lw      $t6, 68($sp)
        lw      $t5, 64($sp)
        lw      $t4, 60($sp)
        lw      $t3, 56($sp)
        lw      $t2, 52($sp)
        lw      $t1, 48($sp)
        lw      $t0, 44($sp)
        lw      $a3, 40($sp)
        lw      $a2, 36($sp)
        lw      $a1, 32($sp)
        lw      $a0, 28($sp)
        lw      $v1, 24($sp)
        lw      $v0, 20($sp)
        lw      $1, 16($sp)
        addiu   $sp, $sp, 96
        eret
