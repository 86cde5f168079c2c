/* Arm MPS2 with the image AN386, a Cortex-M4: its memory is that of AN385. */
INCLUDE mps2-an385.ld
