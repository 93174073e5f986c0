.org 0xa0010000
lui t0,0xbf00        # the devices, uncached
ori t1,zero,0x41     # a letter
sw t1,0(t0)          # OUT prints its low byte
sw t1,32(t0)         # HALT ends the run; the word is the halt code
nop
