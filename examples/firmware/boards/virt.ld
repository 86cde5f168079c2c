/* qemu's own RISC-V machine: all of it is memory, the first part of which stands here for flash. */
MEMORY {
    flash (rx) : ORIGIN = 0x80000000, LENGTH = 4M
    ram (rw) : ORIGIN = 0x80400000, LENGTH = 4M
}
INCLUDE firmware.ld
