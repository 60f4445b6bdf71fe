ENTRY(start)
PHDRS { image PT_LOAD FLAGS(7); note PT_NOTE FLAGS(4); }
SECTIONS {
  . = 0x100000;
  .note.pvh : { KEEP(*(.note.pvh)) } :image :note
  .text : { *(.text .text.*) } :image
  .rodata : { *(.rodata .rodata.*) } :image
  .data : { *(.data .data.*) *(.got .got.*) } :image
  .bss : { *(.bss .bss.* COMMON) } :image
  /DISCARD/ : { *(.comment) *(.eh_frame) *(.note.GNU-stack) *(.note.gnu.*) }
}
