/* A program of recall in memory: the header, the entry at 4, code, constants and variables. Above them the heap of a C library
   and the stack, which begins below the text of the turn at 0x3f000. */
OUTPUT_ARCH(riscv)
ENTRY(_start)
PHDRS {
  image PT_LOAD FLAGS(7);
  tls PT_TLS FLAGS(4);
}
SECTIONS {
  . = 0;
  .header : { BYTE(0x52) BYTE(0x56) BYTE(0x31) BYTE(0x01) } :image
  .text : { KEEP(*(.text.entry)) *(.text .text.*) } :image
  .rodata : { *(.rodata .rodata.* .srodata .srodata.*) } :image
  .data : { *(.data .data.* .sdata .sdata.*) } :image
  . = ALIGN(16);
  __tls_base = .;
  .tdata : { *(.tdata .tdata.*) } :image :tls
  .tbss (NOLOAD) : { *(.tbss .tbss.*) } :image :tls
  . = ALIGN(. + SIZEOF(.tbss), 16);
  .bss (NOLOAD) : { *(.bss .bss.* .sbss .sbss.* COMMON) } :image
  . = ALIGN(16);
  __heap_start = .;
  __heap_end = 0x3b000;
  /DISCARD/ : { *(.comment) *(.note .note.*) *(.riscv.attributes) *(.eh_frame .eh_frame.*) *(.eh_frame_hdr) }
}
ASSERT(__heap_start <= __heap_end, "the program and its variables leave less than 16 KiB for the stack")
