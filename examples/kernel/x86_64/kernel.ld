/* kernel.ld: where things are. Below the first megabyte are the firmware and its tables. */
ENTRY(start)
PHDRS { code PT_LOAD FLAGS(5); data PT_LOAD FLAGS(6); note PT_NOTE; }
SECTIONS {
    . = 0x100000;
    .text : { *(.text.boot) *(.text .text.*) *(.rodata .rodata.*) } :code
    .note : { *(.note) } :code :note
    . = ALIGN(4096);
    .data : { *(.data .data.*) *(.got .got.*) } :data
    .bss : { *(.bss .bss.*) *(COMMON) } :data
    /DISCARD/ : { *(.eh_frame*) *(.comment) }
}
