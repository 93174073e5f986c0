/* A small kernel: two tasks in user mode, each with a page table and a stack of its own and one page in common; the timer
   takes the processor away; system call 1 prints a letter, and 2 ends the task. kernel_entry.S has the vectors. */
#include "print.h"
#include "r4k_cp0.h"

#define SLICE 2000
#define PHYSICAL(address) ((unsigned)(address) & 0x1fffffff)

struct task { /* kernel_entry.S knows the order */
    unsigned regs[32], lo, hi, epc, asid;
    unsigned pages[8][2]; /* EntryLo0 and EntryLo1, from 00400000 on */
    unsigned ended;
} tasks[2];
struct task *current = tasks;

extern char user_text[]; /* a page of its own, by kernel_entry.S */
static char shared[4096] __attribute__((section(".bss.dma"), aligned(4096)));
static char stacks[2][4096] __attribute__((section(".bss.dma"), aligned(4096)));

static unsigned page(void *at, unsigned more)
{
    return PHYSICAL(at) >> 12 << 6 | PAGE_CACHED | PAGE_VALID | more;
}

static void make(unsigned number)
{
    struct task *task = &tasks[number];
    task->pages[0][0] = page(user_text, 0);
    task->pages[0][1] = page(stacks[number], PAGE_DIRTY);
    task->pages[1][0] = page(shared, PAGE_DIRTY); /* at one address in both tasks, so it has one colour */
    task->asid = number + 1;
    task->epc = 0x00400000;
    task->regs[4] = number;
    task->regs[29] = 0x00402000 - 16;
}

static void next(void)
{
    struct task *other = &tasks[current == tasks];
    if (!other->ended) {
        current = other;
    } else if (current->ended) {
        print("\n");
        R4K_HALT = 0;
    }
}

void trap(unsigned cause)
{
    if ((cause & CAUSE_CODE) == CODE_INTERRUPT) {
        write_cp0(CP0_COMPARE, read_cp0(CP0_COUNT) + SLICE);
        next();
    } else if ((cause & CAUSE_CODE) == CODE_SYSCALL && current->regs[2] == 1) {
        R4K_OUT = current->regs[4];
        current->epc += 4;
    } else if ((cause & CAUSE_CODE) == CODE_SYSCALL && current->regs[2] == 2) {
        current->ended = 1;
        next();
    } else {
        R4K_HALT = cause;
    }
}

void resume(void);

int main(void)
{
    empty_tlb();
    make(0);
    make(1);
    write_cp0(CP0_COMPARE, read_cp0(CP0_COUNT) + SLICE);
    write_cp0(CP0_STATUS, STATUS_BEV | STATUS_IM7 | STATUS_USER | STATUS_EXL | STATUS_IE);
    resume();
    return 1;
}
