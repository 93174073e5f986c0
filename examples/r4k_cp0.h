#ifndef R4K_CP0_H
#define R4K_CP0_H

/* Registers of coprocessor 0. */
#define CP0_INDEX    $0
#define CP0_ENTRYLO0 $2
#define CP0_ENTRYLO1 $3
#define CP0_CONTEXT  $4
#define CP0_PAGEMASK $5
#define CP0_WIRED    $6
#define CP0_BADVADDR $8
#define CP0_COUNT    $9
#define CP0_ENTRYHI  $10
#define CP0_COMPARE  $11
#define CP0_STATUS   $12
#define CP0_CAUSE    $13
#define CP0_EPC      $14
#define CP0_CONFIG   $16
#define CP0_TAGLO    $28
#define CP0_TAGHI    $29

#define STATUS_IE   0x00000001 /* interrupts are enabled */
#define STATUS_EXL  0x00000002 /* inside an exception */
#define STATUS_USER 0x00000010 /* KSU 2 */
#define STATUS_IM2  0x00000400 /* the console */
#define STATUS_IM3  0x00000800 /* the disk */
#define STATUS_IM7  0x00008000 /* the timer */
#define STATUS_BEV  0x00400000 /* exceptions go through the PROM, which passes them on to 80000000 and 80000180 */

#define CAUSE_CODE 0x0000007c
#define CAUSE_IP2  0x00000400
#define CAUSE_IP7  0x00008000

#define CODE_INTERRUPT (0 << 2)
#define CODE_SYSCALL   (8 << 2)

/* EntryLo: the frame's number from bit 6 on, and these. */
#define PAGE_GLOBAL 0x01
#define PAGE_VALID  0x02
#define PAGE_DIRTY  0x04 /* may be written */
#define PAGE_CACHED 0x18 /* attribute 3 */

#ifndef __ASSEMBLER__

#define CP0_TEXT_(text) #text
#define CP0_TEXT(text) CP0_TEXT_(text)

#define read_cp0(number)                                                              \
    ({                                                                                \
        unsigned value_;                                                              \
        __asm__ volatile("mfc0 %0," CP0_TEXT(number) : "=r"(value_) : : "memory");    \
        value_;                                                                       \
    })

#define write_cp0(number, value) __asm__ volatile("mtc0 %0," CP0_TEXT(number) : : "r"(value) : "memory")

static inline void write_pair(unsigned index, unsigned address, unsigned even, unsigned odd)
{
    write_cp0(CP0_INDEX, index);
    write_cp0(CP0_ENTRYHI, address);
    write_cp0(CP0_ENTRYLO0, even);
    write_cp0(CP0_ENTRYLO1, odd);
    __asm__ volatile("tlbwi" : : : "memory");
}

/* After power-up the TLB may hold anything: each pair gets an address of kseg0, which is never looked up, one each. */
static inline void empty_tlb(void)
{
    write_cp0(CP0_PAGEMASK, 0);
    for (unsigned index = 0; index < 48; index++)
        write_pair(index, 0x80000000u + (index << 13), 0, 0);
}

#endif
#endif
