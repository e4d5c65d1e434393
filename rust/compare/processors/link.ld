/* QEMU's mps2-an385 and mps2-an386: code at 0, RAM at 0x20000000. Of the 16 MB at 0x21000000 the first half takes the file
 * that QEMU loads. */
MEMORY {
    CODE (rx) : ORIGIN = 0x00000000, LENGTH = 4M
    RAM (rw) : ORIGIN = 0x20000000, LENGTH = 4M
    ROOMS (rw) : ORIGIN = 0x21800000, LENGTH = 8M
}
SECTIONS {
    .text : { KEEP(*(.vectors)) *(.text*) *(.rodata*) } > CODE
    .ARM.exidx : { *(.ARM.exidx*) } > CODE
    .rooms (NOLOAD) : { *(.bss.rooms) } > ROOMS
    .bss (NOLOAD) : { *(.bss*) *(COMMON) } > RAM
    .data : { *(.data*) } > RAM
    ASSERT(SIZEOF(.data) == 0, "nothing is initialised before the program starts")
    stack_top = ORIGIN(RAM) + LENGTH(RAM);
}
