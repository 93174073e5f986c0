#ifndef R4K_DEVICES_H
#define R4K_DEVICES_H

typedef volatile unsigned int r4k_register;

#define R4K_DEVICES 0xbf000000u /* kseg1: unmapped and uncached; aligned words only */

#define R4K_OUT   (*(r4k_register *)(R4K_DEVICES + 0x00)) /* write: print the low byte; reads 0 */
#define R4K_IN    (*(r4k_register *)(R4K_DEVICES + 0x04)) /* read: take the first waiting byte, or ffffffff */
#define R4K_CSTAT (*(r4k_register *)(R4K_DEVICES + 0x08)) /* read: bit 0 a byte waits, bit 1 the output is full */
#define R4K_SECT  (*(r4k_register *)(R4K_DEVICES + 0x10)) /* the sector's number */
#define R4K_ADDR  (*(r4k_register *)(R4K_DEVICES + 0x14)) /* the physical address in RAM; its low 5 bits are cleared */
#define R4K_CMD   (*(r4k_register *)(R4K_DEVICES + 0x18)) /* write: 1 disk to RAM, 2 RAM to disk; reads 0 */
#define R4K_DSTAT (*(r4k_register *)(R4K_DEVICES + 0x1c)) /* read: bit 0 busy, 1 done, 2 error; a write clears done, error */
#define R4K_HALT  (*(r4k_register *)(R4K_DEVICES + 0x20)) /* write: end the run with this code; reads 0 */
#define R4K_ENTRY (*(r4k_register *)(R4K_DEVICES + 0x24)) /* read: the image's entry; writes are ignored */

#endif
