/* Document 01's kinds, relocation types and instruction sequences. Only fuzz.c includes this. */
#ifndef TABLES_H
#define TABLES_H

#include <jitamoro.h>

/* A kind: its window from the offset, how far the field moves, whether the addend becomes 0, and the instruction
   offsets allowed, as bits; 0 where it has none, and any is taken. */
struct shape {
    int8_t begin, end, move;
    bool clears;
    uint8_t inst_offsets;
};

enum { ONLY_3 = 1 << 3, THREE_FOUR = 1 << 3 | 1 << 4, THREE_FOUR_SIX = 1 << 3 | 1 << 4 | 1 << 6 };

#define KINDS 19

static const struct shape shapes[KINDS] = {
    [JITAMORO_KIND_MOV_INDIRECT_TO_LEA] = {-2, -1, 0, false, 0},
    [JITAMORO_KIND_MOV_INDIRECT_TO_ABSOLUTE] = {-2, 0, 0, true, 0},
    [JITAMORO_KIND_REX_MOV_INDIRECT_TO_ABSOLUTE] = {-3, 0, 0, true, THREE_FOUR},
    [JITAMORO_KIND_REX_ADD_INDIRECT_TO_ABSOLUTE] = {-3, 0, 0, true, THREE_FOUR_SIX},
    [JITAMORO_KIND_REX_ADD_INDIRECT_TO_LEA] = {-3, 0, 0, true, ONLY_3},
    [JITAMORO_KIND_REX_SUB_INDIRECT_TO_ABSOLUTE] = {-3, 0, 0, true, THREE_FOUR},
    [JITAMORO_KIND_REX_CMP_INDIRECT_TO_ABSOLUTE] = {-3, 0, 0, true, THREE_FOUR},
    [JITAMORO_KIND_CALL_INDIRECT_TO_RELATIVE] = {-2, 0, 0, false, 0},
    [JITAMORO_KIND_JMP_INDIRECT_TO_RELATIVE] = {-2, 4, -1, false, 0},
    [JITAMORO_KIND_NO_OP] = {0, 0, 0, false, 0},
    [JITAMORO_KIND_TLS_GD_TO_LOCAL_EXEC] = {-4, 8, 8, true, 0},
    [JITAMORO_KIND_TLS_GD_TO_LOCAL_EXEC_LARGE] = {-3, 19, 9, true, 0},
    [JITAMORO_KIND_TLS_LD_TO_LOCAL_EXEC] = {-3, 9, 5, false, 0},
    [JITAMORO_KIND_TLS_LD_TO_LOCAL_EXEC_NO_PLT] = {-3, 10, 5, false, 0},
    [JITAMORO_KIND_TLS_LD_TO_LOCAL_EXEC_64] = {-3, 19, 15, false, 0},
    [JITAMORO_KIND_TLS_GD_TO_INITIAL_EXEC] = {-4, 8, 8, false, 0},
    [JITAMORO_KIND_TLS_DESC_TO_LOCAL_EXEC] = {-3, 0, 0, true, THREE_FOUR},
    [JITAMORO_KIND_TLS_DESC_TO_INITIAL_EXEC] = {-2, -1, 0, false, 0},
    [JITAMORO_KIND_SKIP_TLS_DESC_CALL] = {0, 2, 0, false, 0},
};

/* REX_ADD_INDIRECT_TO_ABSOLUTE with instruction offset 6. */
static const struct shape rex_add_with_6 = {-5, 0, 0, true, THREE_FOUR_SIX};

/* A relocation type: what its field holds, the field's size, and its range: signed, unsigned, mixed, or any. */
struct row {
    uint8_t r_type, kind, size;
    char range;
};

#define ROW(type, kind, size, range) {JITAMORO_R_X86_64_##type, JITAMORO_RELOCATION_##kind, size, range}

static const struct row rows[] = {
    ROW(NONE, NONE, 0, 'a'),
    ROW(64, ABSOLUTE, 8, 'a'),
    ROW(PC32, RELATIVE, 4, 's'),
    ROW(GOT32, GOT_REL_GOT_BASE, 4, 'u'),
    ROW(PLT32, PLT_RELATIVE, 4, 's'),
    ROW(GOTPCREL, GOT_RELATIVE, 4, 's'),
    ROW(32, ABSOLUTE, 4, 'u'),
    ROW(32S, ABSOLUTE, 4, 's'),
    ROW(16, ABSOLUTE, 2, 'm'),
    ROW(PC16, RELATIVE, 2, 's'),
    ROW(8, ABSOLUTE, 1, 'm'),
    ROW(PC8, RELATIVE, 1, 's'),
    ROW(DTPOFF64, DTP_OFF, 8, 'a'),
    ROW(TLSGD, TLS_GD, 4, 's'),
    ROW(TLSLD, TLS_LD, 4, 's'),
    ROW(DTPOFF32, DTP_OFF, 4, 's'),
    ROW(GOTTPOFF, GOT_TP_OFF, 4, 's'),
    ROW(TPOFF32, TP_OFF, 4, 's'),
    ROW(PC64, RELATIVE, 8, 'a'),
    ROW(GOTOFF64, SYM_REL_GOT_BASE, 8, 'a'),
    ROW(GOTPC32, RELATIVE, 4, 's'),
    ROW(GOT64, GOT_REL_GOT_BASE, 8, 'a'),
    ROW(GOTPC64, RELATIVE, 8, 'a'),
    ROW(PLTOFF64, PLT_REL_GOT_BASE, 8, 'a'),
    ROW(SIZE32, SYMBOL_SIZE, 4, 'u'),
    ROW(SIZE64, SYMBOL_SIZE, 8, 'a'),
    ROW(GOTPC32_TLSDESC, TLS_DESC, 4, 's'),
    ROW(TLSDESC_CALL, TLS_DESC_CALL, 0, 'a'),
    ROW(GOTPCRELX, GOT_RELATIVE, 4, 's'),
    ROW(REX_GOTPCRELX, GOT_RELATIVE, 4, 's'),
    ROW(CODE_4_GOTPCRELX, GOT_RELATIVE, 4, 's'),
    ROW(CODE_4_GOTTPOFF, GOT_TP_OFF, 4, 's'),
    ROW(CODE_4_GOTPC32_TLSDESC, TLS_DESC, 4, 's'),
    ROW(CODE_5_GOTPCRELX, GOT_RELATIVE, 4, 's'),
    ROW(CODE_5_GOTTPOFF, GOT_TP_OFF, 4, 's'),
    ROW(CODE_5_GOTPC32_TLSDESC, TLS_DESC, 4, 's'),
    ROW(CODE_6_GOTPCRELX, GOT_RELATIVE, 4, 's'),
    ROW(CODE_6_GOTTPOFF, GOT_TP_OFF, 4, 's'),
    ROW(CODE_6_GOTPC32_TLSDESC, TLS_DESC, 4, 's'),
};

/* Dynamic types in the order of enum jitamoro_dynamic_kind. */
static const uint8_t dynamic_types[] = {5, 37, 16, 17, 36, 18, 8, 1, 6, 7};

/* A relocation type with the bytes up to its offset and from it on; a 0 from the offset on is a byte of a field, where
   any will do. */
struct sequence {
    uint32_t r_type;
    uint8_t before_len, before[6];
    uint8_t after_len, after[19];
};

#define BYTES(...) sizeof((const uint8_t[]){__VA_ARGS__}), {__VA_ARGS__}
#define FIELD BYTES(0, 0, 0, 0)
#define WIDE BYTES(0, 0, 0, 0, 0, 0, 0, 0)
#define CALL BYTES(0, 0, 0, 0, 0xe8, 0, 0, 0, 0)
#define CALL_NO_PLT BYTES(0, 0, 0, 0, 0xff, 0x15, 0, 0, 0, 0)
#define CALL_PADDED BYTES(0, 0, 0, 0, 0x66, 0x66, 0x48, 0xe8, 0, 0, 0, 0)
#define CALL_PADDED_NO_PLT BYTES(0, 0, 0, 0, 0x66, 0x48, 0xff, 0x15, 0, 0, 0, 0)
#define CALL_LARGE BYTES(0, 0, 0, 0, 0x48, 0xb8, 0, 0, 0, 0, 0, 0, 0, 0, 0x48, 0x01, 0xd8, 0xff, 0xd0)

static const struct sequence sequences[] = {
    {42, BYTES(0x48, 0x8b, 0x2d), FIELD},
    {42, BYTES(0x4c, 0x8b, 0x05), FIELD},
    {42, BYTES(0x48, 0x2b, 0x35), FIELD},
    {42, BYTES(0x4c, 0x2b, 0x3d), FIELD},
    {42, BYTES(0x48, 0x3b, 0x1d), FIELD},
    {42, BYTES(0x4c, 0x3b, 0x25), FIELD},
    {43, BYTES(0xd5, 0x48, 0x8b, 0x2d), FIELD},
    {43, BYTES(0xd5, 0x4c, 0x2b, 0x05), FIELD},
    {43, BYTES(0xd5, 0x4c, 0x3b, 0x3d), FIELD},
    {43, BYTES(0x90, 0x48, 0x8b, 0x2d), FIELD},
    {41, BYTES(0x8b, 0x2d), FIELD},
    {41, BYTES(0xff, 0x15), FIELD},
    {41, BYTES(0xff, 0x25), FIELD},
    {9, BYTES(0x48, 0x8b, 0x3d), FIELD},
    {9, BYTES(0x4c, 0x8b, 0x05), FIELD},
    {22, BYTES(0x48, 0x8b, 0x05), FIELD},
    {22, BYTES(0x4c, 0x03, 0x25), FIELD},
    {44, BYTES(0xd5, 0x4c, 0x8b, 0x2d), FIELD},
    {44, BYTES(0xd5, 0x48, 0x03, 0x1d), FIELD},
    {50, BYTES(0x62, 0x74, 0xfc, 0x10, 0x03, 0x25), FIELD},
    {50, BYTES(0x62, 0xf4, 0xfc, 0x18, 0x01, 0x05), FIELD},
    {50, BYTES(0x62, 0xe4, 0xfc, 0x14, 0x03, 0x2d), FIELD},
    {4, BYTES(0xe8), FIELD},
    {2, BYTES(0xe8), FIELD},
    {31, BYTES(0x48, 0xb8), WIDE},
    {19, BYTES(0x66, 0x48, 0x8d, 0x3d), CALL_PADDED},
    {19, BYTES(0x66, 0x48, 0x8d, 0x3d), CALL_PADDED_NO_PLT},
    {19, BYTES(0x48, 0x8d, 0x3d), CALL_LARGE},
    {20, BYTES(0x48, 0x8d, 0x3d), CALL},
    {20, BYTES(0x48, 0x8d, 0x3d), CALL_NO_PLT},
    {20, BYTES(0x48, 0x8d, 0x3d), CALL_LARGE},
    {34, BYTES(0x48, 0x8d, 0x05), FIELD},
    {34, BYTES(0x4c, 0x8d, 0x3d), FIELD},
    {45, BYTES(0xd5, 0x08, 0x8d, 0x05), FIELD},
    {45, BYTES(0xd5, 0x4c, 0x8d, 0x3d), FIELD},
    {35, 0, {0}, BYTES(0xff, 0x10)},
    /* A type that is never relaxed. */
    {1, BYTES(0x48, 0x8b, 0x2d), FIELD},
};

#define COUNT(array) (sizeof(array) / sizeof((array)[0]))

#endif
