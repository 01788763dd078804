/* A program of the tests on a Cortex-M of the boards mps2, as qemu plays them. That of Cortex-M23 and M33 has its memories
 * elsewhere. */
MEMORY {
  FLASH (rx) : ORIGIN = DEFINED(board_flash) ? board_flash : 0x00000000, LENGTH = 2M
  RAM (rwx) : ORIGIN = DEFINED(board_ram) ? board_ram : 0x20000000, LENGTH = 2M
}
SECTIONS {
  .text : { KEEP(*(.vectors)) *(.text*) *(.rodata*) . = ALIGN(16); } > FLASH
  .init_array : { __init_array_start = .; KEEP(*(.preinit_array)) KEEP(*(.init_array*)) __init_array_end = .; *(.fini_array*) } > FLASH
  __preinit_array_start = __init_array_start; __preinit_array_end = __init_array_start;
  .ARM.exidx : { __exidx_start = .; *(.ARM.exidx*) *(.ARM.extab*) __exidx_end = .; } > FLASH
  _data_from = LOADADDR(.data);
  .data : { _data_start = .; *(.data*) . = ALIGN(8); _data_end = .; } > RAM AT > FLASH
  .bss (NOLOAD) : { _bss_start = .; *(.bss*) *(COMMON) . = ALIGN(8); _bss_end = .; } > RAM
  end = .; _stack_top = ORIGIN(RAM) + LENGTH(RAM);
}
