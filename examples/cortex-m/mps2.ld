/* Memory of qemu's board mps2-an385, as start.c wants it. */
ENTRY(reset)
MEMORY
{
	CODE (rx) : ORIGIN = 0, LENGTH = 4M
	RAM (rwx) : ORIGIN = 0x20000000, LENGTH = 4M
}
SECTIONS
{
	.text : { KEEP(*(.vectors)) *(.text*) *(.rodata*) . = ALIGN(8); } >CODE
	.ARM.exidx : { *(.ARM.exidx*) . = ALIGN(8); } >CODE
	.init_array : {
		__preinit_array_start = .; __preinit_array_end = .;
		__init_array_start = .; KEEP(*(.init_array*)) __init_array_end = .;
		__fini_array_start = .; KEEP(*(.fini_array*)) __fini_array_end = .;
		. = ALIGN(8);
	} >CODE
	.data : { data_begin = .; *(.data*) . = ALIGN(8); data_end = .; } >RAM AT>CODE
	data_from = LOADADDR(.data);
	.bss : { bss_begin = .; *(.bss*) *(COMMON) . = ALIGN(8); bss_end = .; end = .; } >RAM
	stack_end = ORIGIN(RAM) + LENGTH(RAM);
}
