/* BBC micro:bit: nRF51822, a Cortex-M0. */
MEMORY {
    flash (rx) : ORIGIN = 0x00000000, LENGTH = 256K
    ram (rw) : ORIGIN = 0x20000000, LENGTH = 16K
}
INCLUDE firmware.ld
