/* Where the parts of a program stand: code and constants from 00010000 on, without the ELF header in front of them, and
   after them the variables, on a page of their own. With picolibc the tables of what is called at the start and at the end
   follow the constants, the thread's variables follow the others, and last come the HEAP bytes that malloc gives out. */
ENTRY(_start)

PHDRS
{
    code PT_LOAD FLAGS(5);
    data PT_LOAD FLAGS(6);
}

SECTIONS
{
    . = 0x10000;
    .text : { *(.init) *(.text .text.*) } :code
    .rodata : { *(.rodata .rodata.* .srodata .srodata.*) } :code
    .init_array : { PROVIDE(__init_array_start = .); KEEP(*(SORT(.init_array.*) .init_array)) PROVIDE(__init_array_end = .); } :code
    .fini_array : { PROVIDE(__fini_array_start = .); KEEP(*(SORT(.fini_array.*) .fini_array)) PROVIDE(__fini_array_end = .); } :code
    . = ALIGN(0x1000);
    .data : { *(.data .data.*) __global_pointer$ = . + 0x800; *(.sdata .sdata.*) } :data
    .tdata : { *(.tdata .tdata.*) } :data
    .tbss : { *(.tbss .tbss.*) } :data
    PROVIDE(__thread_variables = SIZEOF(.tdata) ? ADDR(.tdata) : ADDR(.tbss));
    . += SIZEOF(.tbss);
    .bss : { *(.sbss .sbss.*) *(.bss .bss.* COMMON) } :data
    .heap (NOLOAD) : { *(.heap) PROVIDE(__heap_end = .); } :data
    /DISCARD/ : { *(.comment) *(.riscv.attributes) *(.eh_frame) }
}
