/* The board mps2-an386 of qemu, a Cortex-M4: code from 0 on, memory from 0x20000000 on. The program takes 26 KiB of it for the
 * stack, which stands lowest: a stack that is too small runs into no data, but out of memory, which is a fault. */
MEMORY { FLASH (rx) : ORIGIN = 0, LENGTH = 256K  RAM (rwx) : ORIGIN = 0x20000000, LENGTH = 64K }
ENTRY(reset)
SECTIONS {
  .text : { KEEP(*(.vectors)) *(.text*) *(.rodata*) . = ALIGN(8); } > FLASH
  .ARM.exidx : { *(.ARM.exidx*) *(.ARM.extab*) } > FLASH
  .stack (NOLOAD) : { . += 26K; . = ALIGN(8); stack_top = .; } > RAM
  data_from = LOADADDR(.data);
  .data : { data_start = .; *(.data*) . = ALIGN(8); data_end = .; } > RAM AT > FLASH
  .bss (NOLOAD) : { bss_start = .; *(.bss*) *(COMMON) . = ALIGN(8); bss_end = .; } > RAM
}
