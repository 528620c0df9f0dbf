/* The sections of a flash algorithm: code and data from 0 on, and the description of the flash. */
ENTRY(Init)
SECTIONS
{
    PrgCode 0 : { *(.text*) *(.rodata*) }
    PrgData : { *(.data*) *(.bss*) *(COMMON) }
    DevDscr : { KEEP(*(DevDscr)) }
    /DISCARD/ : { *(.ARM.exidx*) *(.ARM.extab*) }
}
