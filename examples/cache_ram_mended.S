# Boot code that has its stack in memory, past the caches.

        .set    noreorder
        .text
        .globl  start
start:  lui     $sp, 0xa002             # a stack of 64 bytes at 80020000, past the caches
        addiu   $sp, $sp, 64

        bal     show                    # and what needs a stack can be called
        nop
        lui     $t0, 0xbf00
        sw      $zero, 0x20($t0)        # HALT
        nop

show:   addiu   $sp, $sp, -8
        sw      $ra, 0($sp)
        bal     print
        addiu   $a0, $zero, 'A'
        lw      $ra, 0($sp)
        jr      $ra
        addiu   $sp, $sp, 8

print:  lui     $t0, 0xbf00
        jr      $ra
        sw      $a0, 0($t0)             # OUT
