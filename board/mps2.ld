/* mps2.ld - a program's places on an mps2 board: 4 MB of code from 0, 4 MB of data from 20000000h. */
ENTRY(reset)
SECTIONS
{
    .vectors 0 : { KEEP(*(.vectors)) }
    .text : { *(.text*) *(.rodata*) }
    .ARM.exidx : { *(.ARM.exidx*) }
    . = 0x20000000;
    .data : { *(.data*) }
    .bss : { *(.bss*) *(COMMON) }
}
