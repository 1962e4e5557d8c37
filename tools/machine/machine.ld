/* The program lies from 1 MiB on, below the memory that the description has. */
ENTRY(start)
PHDRS { program PT_LOAD; note PT_NOTE; }
SECTIONS
{
    . = 0x100000;
    .text : { *(.text*) } :program
    .rodata : { *(.rodata*) } :program
    .note.pvh : { KEEP(*(.note.pvh)) } :program :note
    .data : { *(.data*) } :program
    .bss : { *(.bss*) *(COMMON) } :program
    end_of_program = .;
    /DISCARD/ : { *(.comment) *(.eh_frame*) *(.note.GNU-stack) *(.note.gnu*) }
}
