# The kernel's vectors: the refill of the TLB from the current task's page table, and every other exception.
#include "r4k_cp0.h"

#define LO    128
#define HI    132
#define PC    136
#define ASID  140
#define PAGES 144

        .set    noreorder
        .set    noat
        .text
        .globl  refill
        .globl  general
        .globl  resume

# The user has 64 KB from 00400000 on: eight pairs of pages.
refill: mfc0    $k0, CP0_BADVADDR
        lui     $k1, %hi(current)
        lw      $k1, %lo(current)($k1)
        srl     $k0, $k0, 13
        andi    $k0, $k0, 7
        sll     $k0, $k0, 3
        addu    $k1, $k1, $k0
        lw      $k0, PAGES($k1)
        lw      $k1, PAGES + 4($k1)
        mtc0    $k0, CP0_ENTRYLO0
        mtc0    $k1, CP0_ENTRYLO1
        tlbwr
        eret

.macro  each operation
        .irp    number, 1,2,3,4,5,6,7,8,9,10,11,12,13,14,15,16,17,18,19,20,21,22,23,24,25,28,29,30,31
        \operation $\number, 4 * \number($k0)
        .endr
.endm

# The task's registers are kept in its struct; the kernel has its own stack, and runs with EXL set throughout.
general:
        lui     $k0, %hi(current)
        lw      $k0, %lo(current)($k0)
        each    sw
        mflo    $t0
        mfhi    $t1
        mfc0    $t2, CP0_EPC
        sw      $t0, LO($k0)
        sw      $t1, HI($k0)
        sw      $t2, PC($k0)
        lui     $sp, %hi(stack_top)
        addiu   $sp, $sp, %lo(stack_top)
        addiu   $sp, $sp, -16
        jal     trap
        mfc0    $a0, CP0_CAUSE

resume: lui     $k0, %hi(current)
        lw      $k0, %lo(current)($k0)
        lw      $t0, LO($k0)
        lw      $t1, HI($k0)
        lw      $t2, PC($k0)
        lw      $t3, ASID($k0)
        mtlo    $t0
        mthi    $t1
        mtc0    $t2, CP0_EPC
        mtc0    $t3, CP0_ENTRYHI
        each    lw
        eret

        .data
        .globl  user_text
        .balign 4096
user_text:
        .incbin "user.bin"
        .balign 4096
