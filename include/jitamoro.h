/*
 * Jitamoro: relaxation of x86-64 ELF relocations. Link with libjitamoro.a (x86-64, System V calling
 * convention), which the script `build` proves and makes; beside it only `memset` is needed. C11 or later, C++11 or
 * later.
 *
 * Demands on the caller. Only C's own: a pointer is valid for as many bytes as the length that follows it
 * says, for reading, and where it isn't const for writing too; a bool is 0 or 1. With length 0 the pointer
 * is not read and may be NULL. A pass and a tally are lent too: their pointers are valid for them, never NULL, and
 * of pass, tally and section lent with one call none overlaps another. Any other arguments have an answer.
 *
 * Refusals. A field `refusal` is 0, or a number of `enum jitamoro_refusal`, whose sentence jitamoro_refusal_text gives;
 * under a refusal every other field of the answer is 0, and no lent byte has changed, except under
 * JITAMORO_REFUSED_PLT_REACH. If several refusals apply, the answer is the first in the order that stands at the
 * function.
 *
 * State and threads. Nothing is allocated, kept between calls, read from or written to elsewhere: answers and
 * lent bytes afterwards depend on the arguments and the lent bytes before alone. Threads may call at the same
 * time, as long as bytes that one call may write are not used by another meanwhile. Bytes outside those
 * lent are neither read nor written.
 */
#ifndef JITAMORO_H
#define JITAMORO_H

#include <stddef.h>
#include <stdint.h>

#ifdef __cplusplus
extern "C" {
#else
#include <stdbool.h>
#endif

/* ---- The version of this header and its archive, as CHANGELOG.md has it */

#define JITAMORO_VERSION "0.7.0"
#define JITAMORO_VERSION_MAJOR 0
#define JITAMORO_VERSION_MINOR 7
#define JITAMORO_VERSION_PATCH 0

/* ---- Limits */

/* The longest section, in bytes. */
#define JITAMORO_MAX_SECTION_LENGTH 268435456u

/* The length of a PLT entry, in bytes. */
#define JITAMORO_PLT_ENTRY_LENGTH 16u

/* How many figures a tally has. */
#define JITAMORO_TALLY_LENGTH 22u

/* ---- Numbers and their texts
 *
 * A row X(name, number, text) stands once: the enum, and the function further below that gives a number's text, are
 * made of it. A program may make its own tables in the same way.
 */

#define JITAMORO_ENUMERATOR_(name, number, text) name = number,

/* Why something was refused; as sentences, jitamoro_refusal_text. 10 to 13 are the case program's: this library answers
   none of them. */
#define JITAMORO_REFUSALS(X)                                                                                \
    X(JITAMORO_NOT_REFUSED, 0, "not refused")                                                               \
    X(JITAMORO_REFUSED_SECTION_LENGTH, 1, "the section is longer than 268,435,456 bytes")                   \
    X(JITAMORO_REFUSED_OFFSET, 2, "the offset lies past the section's end")                                 \
    X(JITAMORO_REFUSED_FLAGS, 3, "the flag number is above 15")                                             \
    X(JITAMORO_REFUSED_OUTPUT_KIND, 4, "the output kind is above 5")                                        \
    X(JITAMORO_REFUSED_INST_OFFSET, 5, "the kind has no such instruction offset, or there is no such kind") \
    X(JITAMORO_REFUSED_WINDOW, 6, "the bytes to rewrite don't lie wholly in the section")                   \
    X(JITAMORO_REFUSED_TYPE, 7, "the relocation type isn't among the 39 that are known")                    \
    X(JITAMORO_REFUSED_PLT_LENGTH, 8, "the buffer for a PLT entry isn't 16 bytes long")                     \
    X(JITAMORO_REFUSED_PLT_REACH, 9, "the GOT entry is out of reach of the PLT entry")                      \
    X(JITAMORO_REFUSED_MARK, 10, "there is no mark 52 58 where a record should begin")                      \
    X(JITAMORO_REFUSED_CUT, 11, "the file ends inside a record")                                            \
    X(JITAMORO_REFUSED_EXECUTABLE, 12, "the executable byte is neither 0 nor 1")                            \
    X(JITAMORO_REFUSED_RECORD_LENGTH, 13, "the record's section is longer than 4,096 bytes")                \
    X(JITAMORO_REFUSED_VALUE, 15, "the value lies outside the field's range")                               \
    X(JITAMORO_REFUSED_FIELD, 16, "the field's four bytes don't lie wholly in the section")                 \
    X(JITAMORO_REFUSED_PASS_ENDED, 21, "the pass has ended")                                                \
    X(JITAMORO_REFUSED_ORDER, 22, "the offset lies below the last record's")                                \
    X(JITAMORO_REFUSED_OVERLAP, 23, "the bytes to rewrite begin before the end of those rewritten last")    \
    X(JITAMORO_REFUSED_SKIP_PENDING, 24, "the end is asked while a record is still to be skipped")
enum jitamoro_refusal { JITAMORO_REFUSALS(JITAMORO_ENUMERATOR_) };

/* Flags of a symbol's value, summed. */
#define JITAMORO_FLAGS(X)                                    \
    X(JITAMORO_FLAG_NON_INTERPOSABLE, 1, "non-interposable") \
    X(JITAMORO_FLAG_ABSOLUTE, 2, "absolute")                 \
    X(JITAMORO_FLAG_DYNAMIC, 4, "dynamic")                   \
    X(JITAMORO_FLAG_IFUNC, 8, "ifunc")
enum jitamoro_flag { JITAMORO_FLAGS(JITAMORO_ENUMERATOR_) };

/* What is being linked; jitamoro_output_name. */
#define JITAMORO_OUTPUTS(X)                                                            \
    X(JITAMORO_OUTPUT_STATIC_FIXED, 0, "static fixed")                                 \
    X(JITAMORO_OUTPUT_STATIC_POSITION_INDEPENDENT, 1, "static position-independent")   \
    X(JITAMORO_OUTPUT_DYNAMIC_FIXED, 2, "dynamic fixed")                               \
    X(JITAMORO_OUTPUT_DYNAMIC_POSITION_INDEPENDENT, 3, "dynamic position-independent") \
    X(JITAMORO_OUTPUT_SHARED_OBJECT, 4, "shared object")                               \
    X(JITAMORO_OUTPUT_PARTIAL_LINK, 5, "partial link")
enum jitamoro_output { JITAMORO_OUTPUTS(JITAMORO_ENUMERATOR_) };

/*
 * Relaxation kinds, by wild's names (jitamoro_kind_name), each with its window: the bytes that it reads or writes,
 * counted from the offset, the end not included. Those marked (i) have an instruction offset, how far before the field
 * the instruction starts: 3 or 4; for REX_ADD_INDIRECT_TO_ABSOLUTE also 6, where the window is -5 to 0; for
 * REX_ADD_INDIRECT_TO_LEA, which is never chosen, only 3.
 */
#define JITAMORO_KINDS(X)                                                                                           \
    X(JITAMORO_KIND_MOV_INDIRECT_TO_LEA, 0, "MovIndirectToLea")                  /* -2 to -1 */                     \
    X(JITAMORO_KIND_MOV_INDIRECT_TO_ABSOLUTE, 1, "MovIndirectToAbsolute")        /* -2 to 0 */                      \
    X(JITAMORO_KIND_REX_MOV_INDIRECT_TO_ABSOLUTE, 2, "RexMovIndirectToAbsolute") /* -3 to 0 (i) */                  \
    X(JITAMORO_KIND_REX_ADD_INDIRECT_TO_ABSOLUTE, 3, "RexAddIndirectToAbsolute") /* -3 to 0 (i) */                  \
    X(JITAMORO_KIND_REX_ADD_INDIRECT_TO_LEA, 4, "RexAddIndirectToLea")           /* -3 to 0 (i) */                  \
    X(JITAMORO_KIND_REX_SUB_INDIRECT_TO_ABSOLUTE, 5, "RexSubIndirectToAbsolute") /* -3 to 0 (i) */                  \
    X(JITAMORO_KIND_REX_CMP_INDIRECT_TO_ABSOLUTE, 6, "RexCmpIndirectToAbsolute") /* -3 to 0 (i) */                  \
    X(JITAMORO_KIND_CALL_INDIRECT_TO_RELATIVE, 7, "CallIndirectToRelative")      /* -2 to 0 */                      \
    X(JITAMORO_KIND_JMP_INDIRECT_TO_RELATIVE, 8, "JmpIndirectToRelative")        /* -2 to 4 */                      \
    X(JITAMORO_KIND_NO_OP, 9, "NoOp")                                            /* empty: only the type changes */ \
    X(JITAMORO_KIND_TLS_GD_TO_LOCAL_EXEC, 10, "TlsGdToLocalExec")                /* -4 to 8 */                      \
    X(JITAMORO_KIND_TLS_GD_TO_LOCAL_EXEC_LARGE, 11, "TlsGdToLocalExecLarge")     /* -3 to 19 */                     \
    X(JITAMORO_KIND_TLS_LD_TO_LOCAL_EXEC, 12, "TlsLdToLocalExec")                /* -3 to 9 */                      \
    X(JITAMORO_KIND_TLS_LD_TO_LOCAL_EXEC_NO_PLT, 13, "TlsLdToLocalExecNoPlt")    /* -3 to 10 */                     \
    X(JITAMORO_KIND_TLS_LD_TO_LOCAL_EXEC_64, 14, "TlsLdToLocalExec64")           /* -3 to 19 */                     \
    X(JITAMORO_KIND_TLS_GD_TO_INITIAL_EXEC, 15, "TlsGdToInitialExec")            /* -4 to 8 */                      \
    X(JITAMORO_KIND_TLS_DESC_TO_LOCAL_EXEC, 16, "TlsDescToLocalExec")            /* -3 to 0 (i) */                  \
    X(JITAMORO_KIND_TLS_DESC_TO_INITIAL_EXEC, 17, "TlsDescToInitialExec")        /* -2 to -1 */                     \
    X(JITAMORO_KIND_SKIP_TLS_DESC_CALL, 18, "SkipTlsDescCall")                   /* 0 to 2 */
enum jitamoro_kind { JITAMORO_KINDS(JITAMORO_ENUMERATOR_) };

/* The figures of a tally (jitamoro_tally_name): records relaxed, by kind and its number; records that nothing was done
   for, among them those of type 0; records skipped; and the bytes of the relaxed records' windows, whether or not they
   changed. */
#define JITAMORO_TALLY_FIGURES(X)                                                 \
    X(JITAMORO_TALLY_MOV_INDIRECT_TO_LEA, 0, "MovIndirectToLea")                  \
    X(JITAMORO_TALLY_MOV_INDIRECT_TO_ABSOLUTE, 1, "MovIndirectToAbsolute")        \
    X(JITAMORO_TALLY_REX_MOV_INDIRECT_TO_ABSOLUTE, 2, "RexMovIndirectToAbsolute") \
    X(JITAMORO_TALLY_REX_ADD_INDIRECT_TO_ABSOLUTE, 3, "RexAddIndirectToAbsolute") \
    X(JITAMORO_TALLY_REX_ADD_INDIRECT_TO_LEA, 4, "RexAddIndirectToLea")           \
    X(JITAMORO_TALLY_REX_SUB_INDIRECT_TO_ABSOLUTE, 5, "RexSubIndirectToAbsolute") \
    X(JITAMORO_TALLY_REX_CMP_INDIRECT_TO_ABSOLUTE, 6, "RexCmpIndirectToAbsolute") \
    X(JITAMORO_TALLY_CALL_INDIRECT_TO_RELATIVE, 7, "CallIndirectToRelative")      \
    X(JITAMORO_TALLY_JMP_INDIRECT_TO_RELATIVE, 8, "JmpIndirectToRelative")        \
    X(JITAMORO_TALLY_NO_OP, 9, "NoOp")                                            \
    X(JITAMORO_TALLY_TLS_GD_TO_LOCAL_EXEC, 10, "TlsGdToLocalExec")                \
    X(JITAMORO_TALLY_TLS_GD_TO_LOCAL_EXEC_LARGE, 11, "TlsGdToLocalExecLarge")     \
    X(JITAMORO_TALLY_TLS_LD_TO_LOCAL_EXEC, 12, "TlsLdToLocalExec")                \
    X(JITAMORO_TALLY_TLS_LD_TO_LOCAL_EXEC_NO_PLT, 13, "TlsLdToLocalExecNoPlt")    \
    X(JITAMORO_TALLY_TLS_LD_TO_LOCAL_EXEC_64, 14, "TlsLdToLocalExec64")           \
    X(JITAMORO_TALLY_TLS_GD_TO_INITIAL_EXEC, 15, "TlsGdToInitialExec")            \
    X(JITAMORO_TALLY_TLS_DESC_TO_LOCAL_EXEC, 16, "TlsDescToLocalExec")            \
    X(JITAMORO_TALLY_TLS_DESC_TO_INITIAL_EXEC, 17, "TlsDescToInitialExec")        \
    X(JITAMORO_TALLY_SKIP_TLS_DESC_CALL, 18, "SkipTlsDescCall")                   \
    X(JITAMORO_TALLY_NONE, 19, "none")                                            \
    X(JITAMORO_TALLY_SKIPPED, 20, "skipped")                                      \
    X(JITAMORO_TALLY_BYTES, 21, "bytes in rewritten windows")
enum jitamoro_tally_figure { JITAMORO_TALLY_FIGURES(JITAMORO_ENUMERATOR_) };

/* Relocation types, as in the psABI (jitamoro_r_type_name): the 39 that jitamoro_relocation_from_raw knows. Those from
   43 on are APX's, and not yet in every <elf.h>. */
#define JITAMORO_R_TYPES(X)                                                            \
    X(JITAMORO_R_X86_64_NONE, 0, "R_X86_64_NONE")                                      \
    X(JITAMORO_R_X86_64_64, 1, "R_X86_64_64")                                          \
    X(JITAMORO_R_X86_64_PC32, 2, "R_X86_64_PC32")                                      \
    X(JITAMORO_R_X86_64_GOT32, 3, "R_X86_64_GOT32")                                    \
    X(JITAMORO_R_X86_64_PLT32, 4, "R_X86_64_PLT32")                                    \
    X(JITAMORO_R_X86_64_GOTPCREL, 9, "R_X86_64_GOTPCREL")                              \
    X(JITAMORO_R_X86_64_32, 10, "R_X86_64_32")                                         \
    X(JITAMORO_R_X86_64_32S, 11, "R_X86_64_32S")                                       \
    X(JITAMORO_R_X86_64_16, 12, "R_X86_64_16")                                         \
    X(JITAMORO_R_X86_64_PC16, 13, "R_X86_64_PC16")                                     \
    X(JITAMORO_R_X86_64_8, 14, "R_X86_64_8")                                           \
    X(JITAMORO_R_X86_64_PC8, 15, "R_X86_64_PC8")                                       \
    X(JITAMORO_R_X86_64_DTPOFF64, 17, "R_X86_64_DTPOFF64")                             \
    X(JITAMORO_R_X86_64_TLSGD, 19, "R_X86_64_TLSGD")                                   \
    X(JITAMORO_R_X86_64_TLSLD, 20, "R_X86_64_TLSLD")                                   \
    X(JITAMORO_R_X86_64_DTPOFF32, 21, "R_X86_64_DTPOFF32")                             \
    X(JITAMORO_R_X86_64_GOTTPOFF, 22, "R_X86_64_GOTTPOFF")                             \
    X(JITAMORO_R_X86_64_TPOFF32, 23, "R_X86_64_TPOFF32")                               \
    X(JITAMORO_R_X86_64_PC64, 24, "R_X86_64_PC64")                                     \
    X(JITAMORO_R_X86_64_GOTOFF64, 25, "R_X86_64_GOTOFF64")                             \
    X(JITAMORO_R_X86_64_GOTPC32, 26, "R_X86_64_GOTPC32")                               \
    X(JITAMORO_R_X86_64_GOT64, 27, "R_X86_64_GOT64")                                   \
    X(JITAMORO_R_X86_64_GOTPC64, 29, "R_X86_64_GOTPC64")                               \
    X(JITAMORO_R_X86_64_PLTOFF64, 31, "R_X86_64_PLTOFF64")                             \
    X(JITAMORO_R_X86_64_SIZE32, 32, "R_X86_64_SIZE32")                                 \
    X(JITAMORO_R_X86_64_SIZE64, 33, "R_X86_64_SIZE64")                                 \
    X(JITAMORO_R_X86_64_GOTPC32_TLSDESC, 34, "R_X86_64_GOTPC32_TLSDESC")               \
    X(JITAMORO_R_X86_64_TLSDESC_CALL, 35, "R_X86_64_TLSDESC_CALL")                     \
    X(JITAMORO_R_X86_64_GOTPCRELX, 41, "R_X86_64_GOTPCRELX")                           \
    X(JITAMORO_R_X86_64_REX_GOTPCRELX, 42, "R_X86_64_REX_GOTPCRELX")                   \
    X(JITAMORO_R_X86_64_CODE_4_GOTPCRELX, 43, "R_X86_64_CODE_4_GOTPCRELX")             \
    X(JITAMORO_R_X86_64_CODE_4_GOTTPOFF, 44, "R_X86_64_CODE_4_GOTTPOFF")               \
    X(JITAMORO_R_X86_64_CODE_4_GOTPC32_TLSDESC, 45, "R_X86_64_CODE_4_GOTPC32_TLSDESC") \
    X(JITAMORO_R_X86_64_CODE_5_GOTPCRELX, 46, "R_X86_64_CODE_5_GOTPCRELX")             \
    X(JITAMORO_R_X86_64_CODE_5_GOTTPOFF, 47, "R_X86_64_CODE_5_GOTTPOFF")               \
    X(JITAMORO_R_X86_64_CODE_5_GOTPC32_TLSDESC, 48, "R_X86_64_CODE_5_GOTPC32_TLSDESC") \
    X(JITAMORO_R_X86_64_CODE_6_GOTPCRELX, 49, "R_X86_64_CODE_6_GOTPCRELX")             \
    X(JITAMORO_R_X86_64_CODE_6_GOTTPOFF, 50, "R_X86_64_CODE_6_GOTTPOFF")               \
    X(JITAMORO_R_X86_64_CODE_6_GOTPC32_TLSDESC, 51, "R_X86_64_CODE_6_GOTPC32_TLSDESC")
enum jitamoro_r_type { JITAMORO_R_TYPES(JITAMORO_ENUMERATOR_) };

/* Types that only a dynamic linker meets: jitamoro_x86_64_r_type answers them, the lookup refuses them. */
#define JITAMORO_DYNAMIC_R_TYPES(X)                          \
    X(JITAMORO_R_X86_64_COPY, 5, "R_X86_64_COPY")            \
    X(JITAMORO_R_X86_64_GLOB_DAT, 6, "R_X86_64_GLOB_DAT")    \
    X(JITAMORO_R_X86_64_JUMP_SLOT, 7, "R_X86_64_JUMP_SLOT")  \
    X(JITAMORO_R_X86_64_RELATIVE, 8, "R_X86_64_RELATIVE")    \
    X(JITAMORO_R_X86_64_DTPMOD64, 16, "R_X86_64_DTPMOD64")   \
    X(JITAMORO_R_X86_64_TPOFF64, 18, "R_X86_64_TPOFF64")     \
    X(JITAMORO_R_X86_64_TLSDESC, 36, "R_X86_64_TLSDESC")     \
    X(JITAMORO_R_X86_64_IRELATIVE, 37, "R_X86_64_IRELATIVE")
enum jitamoro_dynamic_r_type { JITAMORO_DYNAMIC_R_TYPES(JITAMORO_ENUMERATOR_) };

/* The psABI's other types: nothing is chosen for them, and the lookup refuses them; named for messages. */
#define JITAMORO_OTHER_R_TYPES(X)                              \
    X(JITAMORO_R_X86_64_GOTPCREL64, 28, "R_X86_64_GOTPCREL64") \
    X(JITAMORO_R_X86_64_GOTPLT64, 30, "R_X86_64_GOTPLT64")     \
    X(JITAMORO_R_X86_64_RELATIVE64, 38, "R_X86_64_RELATIVE64")
enum jitamoro_other_r_type { JITAMORO_OTHER_R_TYPES(JITAMORO_ENUMERATOR_) };

/* What the field of a relocation is to hold. */
enum jitamoro_relocation_kind {
    JITAMORO_RELOCATION_ABSOLUTE = 0,         /* the symbol's address */
    JITAMORO_RELOCATION_SYMBOL_SIZE = 1,      /* the symbol's size */
    JITAMORO_RELOCATION_RELATIVE = 2,         /* the address less the field's */
    JITAMORO_RELOCATION_SYM_REL_GOT_BASE = 3, /* the address less the GOT's */
    JITAMORO_RELOCATION_GOT_REL_GOT_BASE = 4, /* the GOT entry's address less the GOT's */
    JITAMORO_RELOCATION_PLT_REL_GOT_BASE = 5, /* the PLT entry's address less the GOT's */
    JITAMORO_RELOCATION_PLT_RELATIVE = 6,     /* the PLT entry's address less the field's */
    JITAMORO_RELOCATION_GOT_RELATIVE = 7,     /* the GOT entry's address less the field's */
    JITAMORO_RELOCATION_TLS_GD = 8,           /* the address of a TLSGD structure less the field's */
    JITAMORO_RELOCATION_TLS_LD = 9,           /* the address of the TLS module ID less the field's */
    JITAMORO_RELOCATION_DTP_OFF = 10,         /* offset in the TLS storage of the defining object */
    JITAMORO_RELOCATION_GOT_TP_OFF = 11,      /* the address of a GOT entry with a TLS offset, less the field's */
    JITAMORO_RELOCATION_TP_OFF = 12,          /* offset in the executable's TLS storage */
    JITAMORO_RELOCATION_TLS_DESC = 13,        /* the address of a TLS descriptor less the field's */
    JITAMORO_RELOCATION_TLS_DESC_CALL = 14,   /* a call by a TLS descriptor */
    JITAMORO_RELOCATION_NONE = 15             /* nothing */
};

enum jitamoro_dynamic_kind {
    JITAMORO_DYNAMIC_COPY = 0,
    JITAMORO_DYNAMIC_IRELATIVE = 1,
    JITAMORO_DYNAMIC_DTP_MOD = 2,
    JITAMORO_DYNAMIC_DTP_OFF = 3,
    JITAMORO_DYNAMIC_TLS_DESC = 4,
    JITAMORO_DYNAMIC_TP_OFF = 5,
    JITAMORO_DYNAMIC_RELATIVE = 6,
    JITAMORO_DYNAMIC_ABSOLUTE = 7,
    JITAMORO_DYNAMIC_GOT_ENTRY = 8,
    JITAMORO_DYNAMIC_JUMP_SLOT = 9
};

/* ---- Answers */

/*
 * Which relaxation was chosen. TEST `refusal` AND THEN `chosen` before any other field: not refused and not chosen
 * means none, the record stays as it is, and every other field is 0, which is also the number of a kind and of a type.
 */
struct jitamoro_choice {
    uint8_t refusal;
    bool chosen;             /* false: every field below is 0 */
    uint8_t kind;            /* enum jitamoro_kind */
    uint8_t inst_offset;     /* 0 where the kind has none */
    bool mandatory;          /* the relaxation must be carried out */
    bool skip_next;          /* the next record, the call of a thread-local sequence, is to be skipped */
    bool needs_got_fallback; /* the new type's kind is JITAMORO_RELOCATION_ABSOLUTE */
    uint32_t new_type;       /* the relocation type that fills the field now */
};

/* Where the field lies after rewriting, and its addend. */
struct jitamoro_moved {
    uint8_t refusal;
    uint64_t offset;
    int64_t addend;
};

/* A choice that was carried out. TEST `choice.refusal` AND THEN `choice.chosen`: where nothing was chosen, offset and
   addend are 0, NOT the record's own. jitamoro_relax_record keeps the record's own there. */
struct jitamoro_relaxed {
    struct jitamoro_choice choice;
    uint64_t offset; /* where the field lies now */
    int64_t addend;  /* and its addend */
};

/* Whether a field was filled. TEST `refusal` AND THEN `filled`: neither refused nor filled means that the type is none
   of the four that jitamoro_fill fills, and nothing was written. */
struct jitamoro_filled {
    uint8_t refusal;
    bool filled;
};

/* A walk over a section's records, held in place by the caller. Any words are a pass. */
struct jitamoro_pass {
    uint64_t last;    /* the last accepted record's offset */
    uint64_t window;  /* the end of the last window that wasn't empty */
    uint64_t pending; /* 0: no skip is pending; any other: the next record is to be skipped, unless its type is 0. A
                         step sets 0 or 1 */
    uint64_t ended;   /* 0: not ended; any other: ended. Ending sets 1 */
};

/* What the steps of a walk did, held in place by the caller beside the pass; each figure counts modulo 2^64. Any words
   are a tally. */
struct jitamoro_tally {
    uint64_t figures[JITAMORO_TALLY_LENGTH]; /* by enum jitamoro_tally_figure */
};

/* What a step did: `relaxed.choice.refusal` tells a refusal. */
struct jitamoro_step {
    bool skipped; /* then `relaxed` is 0 throughout */
    struct jitamoro_relaxed relaxed;
};

/* The row of a relocation type. */
struct jitamoro_relocation {
    uint8_t refusal;
    uint8_t kind; /* enum jitamoro_relocation_kind */
    uint8_t size; /* of the field in bytes: 0, 1, 2, 4, 8 */
    bool checked; /* false: any value fits, and min and max are 0 */
    /* The next five are the same for every type of x86-64: false, and alignment 1. */
    bool mask;
    bool bias;
    bool thunkable;
    bool implicit_addend;
    uint8_t alignment;
    int64_t min; /* a value fits if min <= value < max */
    int64_t max;
};

struct jitamoro_output_kind_answer {
    uint8_t refusal;
    bool is_executable;           /* kinds 0 to 3 */
    bool is_static_executable;    /* kinds 0, 1 */
    bool is_position_independent; /* kinds 1, 3, 4 */
    bool has_fixed_load_address;  /* kinds 0, 2 */
};

struct jitamoro_value_flags_answer {
    uint8_t refusal;
    bool is_dynamic;
    bool is_ifunc;
    bool has_link_time_address; /* none of ifunc, dynamic, absolute */
    bool is_absolute;
    bool is_interposable;
};

/* ---- One record
 *
 * Any type number is taken; for one with no rule nothing is chosen.
 */

/* A relocation, with what is asked of its symbol, section and output. */
struct jitamoro_record {
    uint64_t offset;     /* where its field lies in the section */
    uint64_t address;    /* the symbol's address */
    int64_t addend;
    uint32_t r_type;     /* enum jitamoro_r_type */
    uint8_t flags;       /* the sum of enum jitamoro_flag */
    uint8_t output_kind; /* enum jitamoro_output */
    bool executable;     /* whether the section is */
};

/* What a function is given of a record, with the section among it. */
#define JITAMORO_OF_(record, section, len)                                                                             \
    (record)->r_type, section, len, (record)->offset, (record)->flags, (record)->output_kind, (record)->executable,    \
        (record)->address, (record)->addend

/* What fills the field after relaxing; the record as it was where nothing was relaxed. */
static inline void jitamoro_record_now_(struct jitamoro_record *record, const struct jitamoro_relaxed *relaxed) {
    if (relaxed->choice.chosen) {
        record->r_type = relaxed->choice.new_type;
        record->offset = relaxed->offset;
        record->addend = relaxed->addend;
    }
}

/* Chooses a relaxation and rewrites the instruction by it. Refusals 1, 2, 3, 4, and 6 where a kind was chosen.
   No byte outside the kind's window changes, and none at all if nothing was chosen. */
struct jitamoro_relaxed jitamoro_relax(uint32_t r_type, uint8_t *section, size_t len, uint64_t offset,
                                       uint8_t flags, uint8_t output_kind, bool executable,
                                       uint64_t address, int64_t addend);

/* Chooses only. Refusals 1, 2, 3, 4. */
struct jitamoro_choice jitamoro_new_relaxation(uint32_t r_type, const uint8_t *section, size_t len,
                                               uint64_t offset, uint8_t flags, uint8_t output_kind,
                                               bool executable, uint64_t address, int64_t addend);

/* Rewrites by a kind and its instruction offset, whatever was chosen, and answers the field's new offset and
   addend. Refusals 1, 2, 5, 6. Kinds with no instruction offset take any. */
struct jitamoro_moved jitamoro_apply(uint8_t kind, uint8_t inst_offset, uint8_t *section, size_t len,
                                     uint64_t offset, int64_t addend);

/* Whether the relocation after one relaxed by this kind is skipped; false for a number of no kind. */
bool jitamoro_next_modifier(uint8_t kind);

/*
 * jitamoro_relax for a record held in place. Relaxed: `r_type`, `offset` and `addend` become those that fill the field
 * now. None, or refused: the record stays as it was. So, unless it is refused, it says what is to be filled.
 */
static inline struct jitamoro_choice jitamoro_relax_record(struct jitamoro_record *record, uint8_t *section,
                                                           size_t len) {
    struct jitamoro_relaxed r = jitamoro_relax(JITAMORO_OF_(record, section, len));
    jitamoro_record_now_(record, &r);
    return r.choice;
}

/* jitamoro_new_relaxation for a record. */
static inline struct jitamoro_choice jitamoro_choose_record(const struct jitamoro_record *record,
                                                            const uint8_t *section, size_t len) {
    return jitamoro_new_relaxation(JITAMORO_OF_(record, section, len));
}

/* ---- A section's records, in the order of their offsets */

/* A pass before its first record: four zeros, as `struct jitamoro_pass pass = {0};` has them. */
struct jitamoro_pass jitamoro_pass_fresh(void);

/* Takes one record: skips it if that is pending, with no byte touched, or relaxes it as jitamoro_relax does. An empty
   record, which comes with type 0 (JITAMORO_R_X86_64_NONE), is never skipped: it is none, and a pending skip waits for
   the next one of another type. It sets `last` as any accepted record does, so that a call that lies before it is
   refused with 22. Refusals 21, 1, 2, 3, 4, 22, then the skip, then 6 and 23 where a kind was chosen; an empty window
   is never refused with 23. */
struct jitamoro_step jitamoro_pass_step(struct jitamoro_pass *pass, uint32_t r_type, uint8_t *section,
                                        size_t len, uint64_t offset, uint8_t flags, uint8_t output_kind,
                                        bool executable, uint64_t address, int64_t addend);

/* The same step, after it has changed the record as jitamoro_step_record says. */
static inline struct jitamoro_step jitamoro_stepped_(struct jitamoro_record *record, struct jitamoro_step s) {
    jitamoro_record_now_(record, &s.relaxed);
    if (s.skipped) {
        record->r_type = JITAMORO_R_X86_64_NONE;
    }
    return s;
}

/* jitamoro_pass_step for a record held in place, which changes as jitamoro_relax_record says. Skipped: `r_type` becomes
   JITAMORO_R_X86_64_NONE, since another record's field lies there now, and this one's must not be filled. */
static inline struct jitamoro_step jitamoro_step_record(struct jitamoro_pass *pass, struct jitamoro_record *record,
                                                        uint8_t *section, size_t len) {
    return jitamoro_stepped_(record, jitamoro_pass_step(pass, JITAMORO_OF_(record, section, len)));
}

/* Ends the pass, and answers 0 or a refusal: sets `ended` and nothing else. Refusals 21, and 24 while a skip is
   pending. */
uint8_t jitamoro_pass_end(struct jitamoro_pass *pass);

/* ---- The same walk, with a tally of what it did */

/* A tally before the first record: 22 zeros, as `struct jitamoro_tally tally = {{0}};` has them. */
struct jitamoro_tally jitamoro_tally_fresh(void);

/*
 * jitamoro_pass_step, which counts too: answer, pass and section are the same. Relaxed: 1 more of the kind, and as many
 * bytes more as its window has. None, or skipped: 1 more of these. Refused: no figure changes. Each figure wraps at
 * 2^64; modulo that, all but the bytes add up to the records that were not refused.
 */
struct jitamoro_step jitamoro_tally_step(struct jitamoro_pass *pass, struct jitamoro_tally *tally, uint32_t r_type,
                                         uint8_t *section, size_t len, uint64_t offset, uint8_t flags,
                                         uint8_t output_kind, bool executable, uint64_t address, int64_t addend);

/* jitamoro_tally_step for a record held in place, which changes as jitamoro_step_record says. */
static inline struct jitamoro_step jitamoro_tally_step_record(struct jitamoro_pass *pass, struct jitamoro_tally *tally,
                                                              struct jitamoro_record *record, uint8_t *section,
                                                              size_t len) {
    return jitamoro_stepped_(record, jitamoro_tally_step(pass, tally, JITAMORO_OF_(record, section, len)));
}

/* ---- Filling the field */

/*
 * Fills a field of type 2 (PC32), 10 (32), 11 (32S) or 23 (TPOFF32): value + addend, for type 2 less `place`, both
 * wrapping at 2^64; its low four bytes go to `offset`, low byte first, and no other byte changes. `value` is the
 * symbol's address, and for type 23 its offset from the thread pointer, modulo 2^64. `place` is the field's own
 * address: that of the section plus the offset as it is after relaxing. It is taken as given, and not computed from
 * `offset`. Refusals 1, 2, 7, 16, and 15 where the sum, read as signed, isn't in the type's range; the instruction
 * stays as relaxing left it. Every other type of jitamoro_relocation_from_raw, 0 (NONE), 1 (64) and 4 (PLT32) among
 * them, is left alone, with no test of 16 or 15.
 */
struct jitamoro_filled jitamoro_fill(uint32_t r_type, uint8_t *section, size_t len, uint64_t offset, uint64_t place,
                                     uint64_t value, int64_t addend);

/* jitamoro_fill for a record as relaxing or a step has left it, in a section that lies at `section_address` in the
   program. The record's own `address` isn't used for the value: type 23 takes another number. A skipped record, whose
   type is now 0, is left alone. */
static inline struct jitamoro_filled jitamoro_fill_record_in(const struct jitamoro_record *record, uint8_t *section,
                                                             size_t len, uint64_t section_address, uint64_t value) {
    return jitamoro_fill(record->r_type, section, len, record->offset, section_address + record->offset, value,
                         record->addend);
}

/* ---- Types, ranges, PLT entries, padding */

/* The row of a relocation type. Refusal 7. */
struct jitamoro_relocation jitamoro_relocation_from_raw(uint32_t r_type);

/* The relocation type of one of enum jitamoro_dynamic_kind, or 0 (R_X86_64_NONE) for any other number. */
uint32_t jitamoro_x86_64_r_type(uint32_t kind);

/* Whether min <= value < max; any value where the range isn't checked. */
bool jitamoro_allowed_range_contains(bool checked, int64_t min, int64_t max, int64_t value);

/* Writes a PLT entry that jumps through the GOT entry, and answers 0 or a refusal:
       F3 0F 1E FA  FF 25 and four bytes of displacement, low byte first  66 0F 1F 44 00 00
   The displacement is got_address - (plt_address + 10), wrapping at 2^64. Refusals 8, and 9 where it doesn't fit 32
   bits as a signed number; 9 leaves the entry with displacement 0 in the buffer. */
uint8_t jitamoro_write_plt_entry(uint8_t *plt_entry, size_t len, uint64_t got_address, uint64_t plt_address);

/* Fills with CC (int3) for an executable section, else with 00. */
void jitamoro_fill_section_padding(uint8_t *buf, size_t len, bool executable);

/* ---- Numbers by their predicates */

/* What an output kind is. Refusal 4. */
struct jitamoro_output_kind_answer jitamoro_output_kind(uint8_t number);

/* What a flag number says. Refusal 3. */
struct jitamoro_value_flags_answer jitamoro_value_flags(uint8_t number);

/* ---- Texts of numbers, for messages: never NULL */

#define JITAMORO_TEXT_(name, number, text) \
    case name: return text;

/* A sentence without its full stop, as "the offset lies past the section's end". */
static inline const char *jitamoro_refusal_text(uint8_t refusal) {
    switch (refusal) {
        JITAMORO_REFUSALS(JITAMORO_TEXT_)
    default: return "no such refusal";
    }
}

/* As "RexMovIndirectToAbsolute". */
static inline const char *jitamoro_kind_name(uint8_t kind) {
    switch (kind) {
        JITAMORO_KINDS(JITAMORO_TEXT_)
    default: return "no such kind";
    }
}

/* As "RexMovIndirectToAbsolute", "none", "bytes in rewritten windows". */
static inline const char *jitamoro_tally_name(uint8_t figure) {
    switch (figure) {
        JITAMORO_TALLY_FIGURES(JITAMORO_TEXT_)
    default: return "no such figure";
    }
}

/* As "R_X86_64_PC32": every type of the psABI, but for 39 and 40, which are no longer in use. */
static inline const char *jitamoro_r_type_name(uint32_t r_type) {
    switch (r_type) {
        JITAMORO_R_TYPES(JITAMORO_TEXT_)
        JITAMORO_DYNAMIC_R_TYPES(JITAMORO_TEXT_)
        JITAMORO_OTHER_R_TYPES(JITAMORO_TEXT_)
    default: return "no such type";
    }
}

/* As "static position-independent". */
static inline const char *jitamoro_output_name(uint8_t output_kind) {
    switch (output_kind) {
        JITAMORO_OUTPUTS(JITAMORO_TEXT_)
    default: return "no such output kind";
    }
}

#undef JITAMORO_TEXT_
#undef JITAMORO_OF_
#undef JITAMORO_ENUMERATOR_

/* ---- The layout: where each field lies */

#ifdef __cplusplus
#define JITAMORO_ASSERT_(condition) static_assert(condition, #condition)
#else
#define JITAMORO_ASSERT_(condition) _Static_assert(condition, #condition)
#endif
#define JITAMORO_SIZE_(type, size) JITAMORO_ASSERT_(sizeof(type) == (size))
#define JITAMORO_AT_(type, field, at) JITAMORO_ASSERT_(offsetof(struct type, field) == (at))

JITAMORO_SIZE_(bool, 1);
JITAMORO_SIZE_(size_t, 8);

JITAMORO_SIZE_(struct jitamoro_choice, 12);
JITAMORO_AT_(jitamoro_choice, refusal, 0);
JITAMORO_AT_(jitamoro_choice, chosen, 1);
JITAMORO_AT_(jitamoro_choice, kind, 2);
JITAMORO_AT_(jitamoro_choice, inst_offset, 3);
JITAMORO_AT_(jitamoro_choice, mandatory, 4);
JITAMORO_AT_(jitamoro_choice, skip_next, 5);
JITAMORO_AT_(jitamoro_choice, needs_got_fallback, 6);
JITAMORO_AT_(jitamoro_choice, new_type, 8);

JITAMORO_SIZE_(struct jitamoro_moved, 24);
JITAMORO_AT_(jitamoro_moved, refusal, 0);
JITAMORO_AT_(jitamoro_moved, offset, 8);
JITAMORO_AT_(jitamoro_moved, addend, 16);

JITAMORO_SIZE_(struct jitamoro_relaxed, 32);
JITAMORO_AT_(jitamoro_relaxed, choice, 0);
JITAMORO_AT_(jitamoro_relaxed, offset, 16);
JITAMORO_AT_(jitamoro_relaxed, addend, 24);

JITAMORO_SIZE_(struct jitamoro_filled, 2);
JITAMORO_AT_(jitamoro_filled, refusal, 0);
JITAMORO_AT_(jitamoro_filled, filled, 1);

JITAMORO_SIZE_(struct jitamoro_record, 32);
JITAMORO_AT_(jitamoro_record, offset, 0);
JITAMORO_AT_(jitamoro_record, address, 8);
JITAMORO_AT_(jitamoro_record, addend, 16);
JITAMORO_AT_(jitamoro_record, r_type, 24);
JITAMORO_AT_(jitamoro_record, flags, 28);
JITAMORO_AT_(jitamoro_record, output_kind, 29);
JITAMORO_AT_(jitamoro_record, executable, 30);

JITAMORO_SIZE_(struct jitamoro_pass, 32);
JITAMORO_AT_(jitamoro_pass, last, 0);
JITAMORO_AT_(jitamoro_pass, window, 8);
JITAMORO_AT_(jitamoro_pass, pending, 16);
JITAMORO_AT_(jitamoro_pass, ended, 24);

JITAMORO_SIZE_(struct jitamoro_tally, 176);
JITAMORO_AT_(jitamoro_tally, figures, 0);

JITAMORO_SIZE_(struct jitamoro_step, 40);
JITAMORO_AT_(jitamoro_step, skipped, 0);
JITAMORO_AT_(jitamoro_step, relaxed, 8);

JITAMORO_SIZE_(struct jitamoro_relocation, 32);
JITAMORO_AT_(jitamoro_relocation, refusal, 0);
JITAMORO_AT_(jitamoro_relocation, kind, 1);
JITAMORO_AT_(jitamoro_relocation, size, 2);
JITAMORO_AT_(jitamoro_relocation, checked, 3);
JITAMORO_AT_(jitamoro_relocation, mask, 4);
JITAMORO_AT_(jitamoro_relocation, bias, 5);
JITAMORO_AT_(jitamoro_relocation, thunkable, 6);
JITAMORO_AT_(jitamoro_relocation, implicit_addend, 7);
JITAMORO_AT_(jitamoro_relocation, alignment, 8);
JITAMORO_AT_(jitamoro_relocation, min, 16);
JITAMORO_AT_(jitamoro_relocation, max, 24);

JITAMORO_SIZE_(struct jitamoro_output_kind_answer, 5);
JITAMORO_AT_(jitamoro_output_kind_answer, refusal, 0);
JITAMORO_AT_(jitamoro_output_kind_answer, is_executable, 1);
JITAMORO_AT_(jitamoro_output_kind_answer, is_static_executable, 2);
JITAMORO_AT_(jitamoro_output_kind_answer, is_position_independent, 3);
JITAMORO_AT_(jitamoro_output_kind_answer, has_fixed_load_address, 4);

JITAMORO_SIZE_(struct jitamoro_value_flags_answer, 6);
JITAMORO_AT_(jitamoro_value_flags_answer, refusal, 0);
JITAMORO_AT_(jitamoro_value_flags_answer, is_dynamic, 1);
JITAMORO_AT_(jitamoro_value_flags_answer, is_ifunc, 2);
JITAMORO_AT_(jitamoro_value_flags_answer, has_link_time_address, 3);
JITAMORO_AT_(jitamoro_value_flags_answer, is_absolute, 4);
JITAMORO_AT_(jitamoro_value_flags_answer, is_interposable, 5);

#undef JITAMORO_AT_
#undef JITAMORO_SIZE_
#undef JITAMORO_ASSERT_

#ifdef __cplusplus
}
#endif

#endif
