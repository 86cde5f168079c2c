/* Arm MPS2 with the image AN385, a Cortex-M3. */
MEMORY {
    flash (rx) : ORIGIN = 0x00000000, LENGTH = 4M
    ram (rw) : ORIGIN = 0x20000000, LENGTH = 4M
}
INCLUDE firmware.ld
