ENTRY(start)
PHDRS
{
  note PT_NOTE;
  all PT_LOAD;
}
SECTIONS
{
  . = 0x100000;
  .multiboot : { KEEP(*(.multiboot)) } :all
  .note.pvh : { KEEP(*(.note.pvh)) } :all :note
  .text : { *(.text*) *(.rodata*) } :all
  .data : { *(.data*) }
  .bss : { *(.bss*) }
  /DISCARD/ : { *(.note.gnu*) *(.comment) *(.eh_frame) }
}
