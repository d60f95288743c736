/* Where a guest lies in memory: code and constants from 00010000 on, read and executed, and data on pages of their own after
   them, read and written. The heap starts on the next page; the stack of thread 1 is far above, from 7FFF0000 on. */
OUTPUT_ARCH(riscv)
ENTRY(_start)

PHDRS
{
    code PT_LOAD FLAGS(5);
    data PT_LOAD FLAGS(6);
    tls PT_TLS;
}

SECTIONS
{
    . = 0x00010000;
    .text :
    {
        KEEP(*(.text.start))
        *(.text .text.*)
    } :code
    .rodata :
    {
        *(.rodata .rodata.* .srodata .srodata.*)
        . = ALIGN(4);
        PROVIDE_HIDDEN(__preinit_array_start = .);
        KEEP(*(.preinit_array))
        PROVIDE_HIDDEN(__preinit_array_end = .);
        PROVIDE_HIDDEN(__init_array_start = .);
        KEEP(*(SORT_BY_INIT_PRIORITY(.init_array.*) .init_array))
        PROVIDE_HIDDEN(__init_array_end = .);
        PROVIDE_HIDDEN(__fini_array_start = .);
        KEEP(*(SORT_BY_INIT_PRIORITY(.fini_array.*) .fini_array))
        PROVIDE_HIDDEN(__fini_array_end = .);
    } :code
    /* What each thread's thread-local storage starts with: these bytes, and zeros for .tbss, which takes no memory here. */
    .tdata :
    {
        *(.tdata .tdata.*)
    } :code :tls
    .tbss (NOLOAD) :
    {
        *(.tbss .tbss.* .tcommon)
    } :code :tls
    __tdata_source = ADDR(.tdata);
    __tdata_size = SIZEOF(.tdata);
    __tbss_offset = ADDR(.tbss) - ADDR(.tdata);
    __tbss_size = SIZEOF(.tbss);
    __tls_size = __tbss_offset + __tbss_size;
    __tls_align = MAX(ALIGNOF(.tdata), ALIGNOF(.tbss));

    /* A page has the flags of all segments on it, so data must not share one with code. */
    . = ALIGN(0x1000);
    .data :
    {
        *(.data .data.* .sdata .sdata.*)
    } :data
    .bss (NOLOAD) :
    {
        *(.sbss .sbss.* .bss .bss.* COMMON)
        . = ALIGN(16);
        main_tls = .; /* thread 1's */
        . += __tls_size;
        _end = .;
    } :data

    ASSERT(_end <= 0x00400000, "more than the 1,024 pages that a guest may have")

    /DISCARD/ :
    {
        *(.eh_frame .eh_frame.* .eh_frame_hdr .comment .note .note.* .riscv.attributes .gnu.*)
    }
}
