SECTIONS {
    . = 0x400000 + SIZEOF_HEADERS; .rela.dyn : {*(.rela.dyn)}
    . = 0x401000; .text : {*(.text)}
    . = 0x402000; .got : {*(.got) *(.got.plt)} .dynamic : {*(.dynamic)}
    . = 0x403000; .data : {*(.data)}
    . = 0x200000000; .far : {*(.far)}
}
