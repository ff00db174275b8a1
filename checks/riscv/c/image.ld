/* A program for qemu-riscv32 and for the machine of crates/riscv: everything in one piece from 0x10000 on, and a stack of 64 KiB behind it. */
ENTRY(_start)
PHDRS { all PT_LOAD FLAGS(7); }
SECTIONS {
    . = 0x10000;
    .all : {
        *(.text.start) *(.text .text.*) *(.rodata .rodata.* .srodata .srodata.*) *(.data .data.* .sdata .sdata.*)
        *(.bss .bss.* .sbss .sbss.* COMMON)
        . = ALIGN(16);
        . += 0x10000;
        stack_top = .;
        BYTE(0)
    } :all
    /DISCARD/ : { *(.comment) *(.riscv.attributes) *(.note*) *(.eh_frame*) }
}
