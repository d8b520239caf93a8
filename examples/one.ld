/* One loaded segment at 0x8000, so that the file has one program header. */
ENTRY(one)
PHDRS { code PT_LOAD FLAGS(5); }
SECTIONS {
  . = 0x8000;
  .text : { *(.text*) } :code
  /DISCARD/ : { *(.comment) *(.ARM.attributes) *(.ARM.exidx*) *(.note*) }
}
