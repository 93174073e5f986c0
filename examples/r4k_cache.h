#ifndef R4K_CACHE_H
#define R4K_CACHE_H

/* The operations of CACHE on the primary caches: bits 20:18 the operation, bits 17:16 the cache (0 I, 1 D). */
#define INDEX_INVALIDATE_I           0x00
#define INDEX_WRITEBACK_INVALIDATE_D 0x01
#define INDEX_LOAD_TAG_I             0x04
#define INDEX_LOAD_TAG_D             0x05
#define INDEX_STORE_TAG_I            0x08
#define INDEX_STORE_TAG_D            0x09
#define CREATE_DIRTY_EXCLUSIVE_D     0x0d
#define HIT_INVALIDATE_I             0x10
#define HIT_INVALIDATE_D             0x11
#define FILL_I                       0x14
#define HIT_WRITEBACK_INVALIDATE_D   0x15
#define HIT_WRITEBACK_I              0x18
#define HIT_WRITEBACK_D              0x19

#define PRIMARY_CACHE_BYTES 8192 /* of each of the two */

#ifndef __ASSEMBLER__

#include "r4k_cp0.h"

/* The length of a line: bit 4 of Config (DB) is 1 for 32 bytes. The instruction cache has the same here (bit 5, IB). */
static inline unsigned line_bytes(void)
{
    return read_cp0(CP0_CONFIG) & 0x10 ? 32 : 16;
}

#define cache_op(operation, address) __asm__ volatile("cache %0,0(%1)" : : "i"(operation), "r"(address) : "memory")

/* One operation on each line that a byte of the range lies in. */
#define cache_range(operation, start, bytes)                               \
    do {                                                                   \
        unsigned line_ = line_bytes();                                     \
        unsigned at_ = (unsigned)(start) & -line_;                         \
        for (; at_ < (unsigned)(start) + (bytes); at_ += line_)            \
            cache_op(operation, at_);                                      \
    } while (0)

/* What stands before it in the program is done before what stands behind it: between memory and a device's registers. */
#define barrier() __asm__ volatile("sync" : : : "memory")

/* Memory gets what the processor has stored; the lines stay. Before a device reads memory. */
static inline void write_back(const volatile void *start, unsigned bytes)
{
    cache_range(HIT_WRITEBACK_D, start, bytes);
}

/* Memory gets what was stored, and the lines go. Before a device writes memory. */
static inline void flush(const volatile void *start, unsigned bytes)
{
    cache_range(HIT_WRITEBACK_INVALIDATE_D, start, bytes);
}

/* The lines go, and what was stored in them is lost. */
static inline void discard(const volatile void *start, unsigned bytes)
{
    cache_range(HIT_INVALIDATE_D, start, bytes);
}

/* The instruction cache forgets the lines; the next fetch reads memory. */
static inline void discard_code(const volatile void *start, unsigned bytes)
{
    cache_range(HIT_INVALIDATE_I, start, bytes);
}

#endif
#endif
