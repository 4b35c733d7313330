/* Relaxes a record and fills its field, walks a section with a pass and a tally, and writes PLT entries. */
#include <inttypes.h>
#include <jitamoro.h>
#include <stdio.h>

static void print_refusal(uint8_t refusal) {
    printf("refused, %d: %s\n", refusal, jitamoro_refusal_text(refusal));
}

static void print_bytes(const uint8_t *bytes, size_t len) {
    for (size_t i = 0; i < len; i++) {
        printf(" %02x", bytes[i]);
    }
    puts("");
}

/* Where the section lies in the program, and the symbol's two values: its address, and its offset from the thread
   pointer, which R_X86_64_TPOFF32 takes. */
enum { SECTION = 0x400000, ADDRESS = 0x401000, THREAD_OFFSET = -16 };

/* A record of a statically linked program. */
static struct jitamoro_record record_at(uint32_t r_type, uint64_t offset) {
    struct jitamoro_record record = {
        .r_type = r_type,
        .offset = offset,
        .addend = -4,
        .address = ADDRESS,
        .flags = JITAMORO_FLAG_NON_INTERPOSABLE,
        .output_kind = JITAMORO_OUTPUT_STATIC_FIXED,
        .executable = true,
    };
    return record;
}

/* Says what became of a record, and fills its field by the type that it has now: relaxing's, or its own where nothing
   was chosen. A type that isn't filled here, as that of a GOT entry, is the linker's to fill. Where filling is refused,
   the instruction stays as relaxing left it. */
static bool finish(struct jitamoro_choice choice, const struct jitamoro_record *now, uint8_t *section, size_t len) {
    if (choice.refusal != JITAMORO_NOT_REFUSED) {
        print_refusal(choice.refusal);
        return false;
    }
    printf("%s, %s at %" PRIu64 ", addend %" PRId64 ": ", choice.chosen ? jitamoro_kind_name(choice.kind) : "none",
           jitamoro_r_type_name(now->r_type), now->offset, now->addend);
    int64_t value = now->r_type == JITAMORO_R_X86_64_TPOFF32 ? THREAD_OFFSET : ADDRESS;
    struct jitamoro_filled field = jitamoro_fill_record_in(now, section, len, SECTION, (uint64_t)value);
    if (field.refusal != JITAMORO_NOT_REFUSED) {
        print_refusal(field.refusal);
        return false;
    }
    puts(field.filled ? "filled" : "not filled here");
    return true;
}

/* mov x@GOTPCREL(%rip), %r13 becomes mov $x, %r13; with another addend nothing is done */
static bool one_record(int64_t addend) {
    uint8_t section[7] = {0x4c, 0x8b, 0x2d};
    struct jitamoro_record record = record_at(JITAMORO_R_X86_64_REX_GOTPCRELX, 3);
    record.addend = addend;
    struct jitamoro_choice choice = jitamoro_relax_record(&record, section, sizeof section);
    printf("one record: ");
    bool fine = finish(choice, &record, section, sizeof section);
    print_bytes(section, sizeof section);
    return fine;
}

/* A record of the walk: what it is, and where. */
struct place {
    const char *name;
    uint32_t r_type;
    uint64_t offset;
};

/* Steps over one record; a refused one leaves pass, tally, record and section as they were, and the walk goes on. */
static void step(struct jitamoro_pass *pass, struct jitamoro_tally *tally, const struct place *place, uint8_t *section,
                 size_t len) {
    struct jitamoro_record record = record_at(place->r_type, place->offset);
    struct jitamoro_step s = jitamoro_tally_step_record(pass, tally, &record, section, len);
    printf("  %s at %" PRIu64 ": ", place->name, place->offset);
    if (s.skipped) {
        puts("skipped");
    } else {
        finish(s.relaxed.choice, &record, section, len);
    }
}

/* What the walk did. */
static void print_tally(const struct jitamoro_tally *tally) {
    for (uint8_t i = 0; i < JITAMORO_TALLY_LENGTH; i++) {
        if (tally->figures[i] != 0) {
            printf("  %s: %" PRIu64 "\n", jitamoro_tally_name(i), tally->figures[i]);
        }
    }
}

/* A general-dynamic sequence with its call, a load and an address. Two records are out of place. */
static bool walk(void) {
    static const struct place places[] = {
        {"tlsgd", JITAMORO_R_X86_64_TLSGD, 4},         {"call", JITAMORO_R_X86_64_PLT32, 12},
        {"load", JITAMORO_R_X86_64_REX_GOTPCRELX, 19}, {"late", JITAMORO_R_X86_64_PC32, 7},
        {"address", JITAMORO_R_X86_64_32S, 23},        {"outside", JITAMORO_R_X86_64_PC32, 28},
    };
    uint8_t section[] = {0x66, 0x48, 0x8d, 0x3d, 0, 0, 0, 0, /* lea x@tlsgd(%rip), %rdi */
                         0x66, 0x66, 0x48, 0xe8, 0, 0, 0, 0, /* call __tls_get_addr */
                         0x4c, 0x8b, 0x2d, 0,    0, 0, 0,    /* mov x@GOTPCREL(%rip), %r13 */
                         0,    0,    0,    0};               /* .long x - 4 */
    struct jitamoro_pass pass = jitamoro_pass_fresh();
    struct jitamoro_tally tally = jitamoro_tally_fresh();
    puts("a walk:");
    for (size_t i = 0; i < sizeof places / sizeof places[0]; i++) {
        step(&pass, &tally, &places[i], section, sizeof section);
    }
    uint8_t refusal = jitamoro_pass_end(&pass);
    if (refusal != JITAMORO_NOT_REFUSED) {
        print_refusal(refusal);
        return false;
    }
    puts("  ended");
    print_bytes(section, sizeof section);
    print_tally(&tally);
    return true;
}

static void plt_entry(uint64_t got_address, uint64_t plt_address) {
    uint8_t entry[JITAMORO_PLT_ENTRY_LENGTH] = {0};
    printf("PLT entry at %#" PRIx64 " for %#" PRIx64 ": ", plt_address, got_address);
    uint8_t refusal = jitamoro_write_plt_entry(entry, sizeof entry, got_address, plt_address);
    if (refusal != JITAMORO_NOT_REFUSED) {
        print_refusal(refusal);
        return;
    }
    puts("written");
    print_bytes(entry, sizeof entry);
}

int main(void) {
    bool fine = one_record(-4) && one_record(-3);
    fine = walk() && fine;
    plt_entry(0x404000, 0x401020);
    plt_entry(0x100404000, 0x401020);
    return fine ? 0 : 1;
}
