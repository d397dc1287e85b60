/* Code and constants from 0x10000 on with the headers before them, and data on a page of their own.
   Data keep their place within the page as in the file, so that the file has no padding. */
ENTRY(_start)
PHDRS
{
  text PT_LOAD FILEHDR PHDRS FLAGS(5);
  data PT_LOAD FLAGS(6);
}
SECTIONS
{
  . = 0x10000 + SIZEOF_HEADERS;
  .text : { *(.text .text.*) *(.rodata .rodata.* .srodata .srodata.*) } :text
  . = ALIGN(0x1000) + (. & 0xfff);
  .data : { *(.data .data.*) PROVIDE(__global_pointer$ = . + 0x800); *(.sdata .sdata.*) } :data
  .bss : { *(.bss .bss.* .sbss .sbss.* COMMON) } :data
  /DISCARD/ : { *(.comment .riscv.attributes .eh_frame .note.*) }
}
