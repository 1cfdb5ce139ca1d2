/* The memory of docs/FORMATS.md, with the stack behind the data, where qemu-riscv32 maps it. */
ENTRY(_start)
SECTIONS
{
    . = 0x10000;
    .text : { *(.text .text.*) }
    . = 0x100000;
    .data : { *(.rodata .rodata.* .srodata .srodata.*) *(.data .data.*) __global_pointer$ = . + 0x800; *(.sdata .sdata.*) }
    .bss : {
        __bss_start = .;
        *(.sbss .sbss.*) *(.bss .bss.*) *(COMMON)
        . = ALIGN(16);
        _end = .;
        . += 0x100000;
        __stack_top = .;
    }
    /DISCARD/ : { *(.comment) *(.eh_frame) *(.riscv.attributes) *(.note.*) }
}
