/* QEMU's mps2-an386: code at 0, RAM at 0x20000000. The stack stands at the bottom of the RAM, so that one that is too deep
 * meets a fault and not the store. */
ENTRY(reset)
MEMORY {
    FLASH (rx) : ORIGIN = 0x00000000, LENGTH = 4M
    RAM (rw) : ORIGIN = 0x20000000, LENGTH = 4M
}
STACK_BYTES = 4096;
SECTIONS {
    .text : { LONG(stack_top) KEEP(*(.vectors)) *(.text*) *(.rodata*) } > FLASH
    .stack (NOLOAD) : { stack_bottom = .; . += STACK_BYTES; stack_top = .; } > RAM
    .bss (NOLOAD) : { . = ALIGN(8); bss_start = .; *(.bss*) *(COMMON) . = ALIGN(4); bss_end = .; } > RAM
    .data : { *(.data*) } > RAM
    /DISCARD/ : { *(.ARM.exidx*) *(.ARM.extab*) }
    ASSERT(SIZEOF(.data) == 0, "nothing is copied from flash to RAM at the start")
}
