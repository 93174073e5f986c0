#ifndef INTERRUPT_H
#define INTERRUPT_H

/* Who includes this has a function of his own called with Cause at every exception but a refill of the TLB; interrupt.S saves the
   registers around it. The name that stands here as wanted makes the linker take it, in place of the handler that ends the run. */
void interrupt(unsigned cause);
__asm__(".reloc 0, R_MIPS_NONE, interrupt_entry");

#endif
