/* Memory of qemu's machine mps2-an386, for measuring: more of it than a small device has. The names are those that newlib's start-up wants. */
MEMORY { CODE (rx) : ORIGIN = 0, LENGTH = 4M  DATA (rwx) : ORIGIN = 0x20000000, LENGTH = 4M }
ENTRY(_start)
SECTIONS {
    .text : { KEEP(*(.vectors)) *(.text .text.*) *(.rodata .rodata.*) } > CODE
    .init : { KEEP(*(.init)) } > CODE
    .fini : { KEEP(*(.fini)) } > CODE
    .arrays : {
        __preinit_array_start = .; __preinit_array_end = .;
        __init_array_start = .; KEEP(*(.init_array)) __init_array_end = .;
        __fini_array_start = .; KEEP(*(.fini_array)) __fini_array_end = .;
    } > CODE
    .exidx : { __exidx_start = .; *(.ARM.exidx*) *(.ARM.extab*) __exidx_end = .; } > CODE
    .data : { *(.data .data.*) } > DATA /* qemu loads it where it is used */
    .bss : { . = ALIGN(8); __bss_start__ = .; *(.bss .bss.* COMMON) . = ALIGN(8); __bss_end__ = .; } > DATA
    end = .; __end__ = .;
    __stack = ORIGIN(DATA) + LENGTH(DATA);
}
