/* The memory of a core: vectors, code, data, zeros, and a stack at its end. `memory_size` is `memory` of the board file. */
ENTRY(_start)

MEMORY
{
    ram : ORIGIN = 0, LENGTH = DEFINED(memory_size) ? memory_size : 65536
}

PHDRS
{
    code PT_LOAD FLAGS(5);
    data PT_LOAD FLAGS(6);
}

SECTIONS
{
    .vectors.reset 0x00 : { KEEP(*(.vectors.reset)) } > ram : code
    .vectors.user 0x08 : { KEEP(*(.vectors.user)) } > ram : code
    .vectors.interrupt 0x10 : { KEEP(*(.vectors.interrupt)) } > ram : code
    .vectors.break 0x18 : { KEEP(*(.vectors.break)) } > ram : code
    .vectors.exception 0x20 : { KEEP(*(.vectors.exception)) } > ram : code
    .text 0x50 : { *(.text .text.*) } > ram : code
    .rodata : ALIGN(4) { *(.rodata .rodata.*) } > ram : data
    .sdata2 : ALIGN(4) { _SDA2_BASE_ = .; *(.sdata2 .sdata2.* .sbss2 .sbss2.*) } > ram : data
    .data : ALIGN(4) { *(.data .data.*) } > ram : data
    .sdata : ALIGN(4) { _SDA_BASE_ = .; *(.sdata .sdata.*) } > ram : data
    .bss : ALIGN(4)
    {
        _bss_start = .;
        *(.sbss .sbss.* .bss .bss.* COMMON)
        . = ALIGN(4);
        _bss_end = .;
    } > ram : data

    _stack = ORIGIN(ram) + LENGTH(ram) - 32; /* room for the words that a caller leaves to a callee */
    ASSERT(_bss_end + 1024 <= _stack, "less than 1,024 bytes are left for the stack")
}
