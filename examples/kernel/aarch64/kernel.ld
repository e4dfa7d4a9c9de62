/* kernel.ld: where things are. QEMU puts its device tree at the start of memory, 0x40000000; the kernel is above it. */
ENTRY(start)
PHDRS { code PT_LOAD FLAGS(5); data PT_LOAD FLAGS(6); }
SECTIONS {
    . = 0x40080000;
    .text : { *(.text.boot) *(.text .text.*) *(.rodata .rodata.*) } :code
    . = ALIGN(4096);
    .data : { *(.data .data.*) *(.got .got.*) } :data
    .bss : { *(.bss .bss.*) *(COMMON) } :data
    /DISCARD/ : { *(.eh_frame*) *(.comment) *(.note*) }
}
