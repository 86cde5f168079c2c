/* SiFive FE310, as on a HiFive1: rv32imac. */
MEMORY {
    flash (rx) : ORIGIN = 0x20400000, LENGTH = 512K
    ram (rw) : ORIGIN = 0x80000000, LENGTH = 16K
}
INCLUDE firmware.ld
