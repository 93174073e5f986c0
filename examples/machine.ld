/* Loaded in kseg0, through the caches; begun in kseg1, past them. Code, data and what a device touches stand in lines of their own. */
OUTPUT_FORMAT("elf32-tradbigmips")
ENTRY(boot)
PHDRS { image PT_LOAD FLAGS(7); }
SECTIONS
{
    . = 0x80000000;
    .vectors : { *(.vectors) *(.patched) . = ALIGN(32); } :image
    .text    : { *(.text*) }                              :image
    .rodata  : { *(.rodata*) . = ALIGN(32); }             :image
    .data    : { *(.data*) . = ALIGN(32); }               :image
    . = 0x80010000;
    .bss     : { *(.bss.dma) . = ALIGN(32); *(.bss*) *(COMMON) . = ALIGN(0x1000); . += 0x1000; stack_top = .; } :image
    boot = start + 0x20000000;
    /DISCARD/ : { *(.reginfo) *(.MIPS.abiflags) *(.pdr) *(.comment) *(.gnu.attributes) *(.note*) *(.mdebug*) }
}
