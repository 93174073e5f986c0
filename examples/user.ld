OUTPUT_FORMAT("elf32-tradbigmips")
ENTRY(task)
SECTIONS
{
    . = 0x00400000;
    .text : { *(.text.first) *(.text*) *(.rodata*) *(.data*) }
    /DISCARD/ : { *(.reginfo) *(.MIPS.abiflags) *(.pdr) *(.comment) *(.gnu.attributes) *(.note*) *(.mdebug*) }
}
