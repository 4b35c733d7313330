/*
 * What C sees of the library, by documents 01 and 02 alone: the version, every word of a pass and every figure of a
 * tally after a step, empty records inside a pair, records held in place, fields filled, the texts of numbers, the
 * order of the refusals, with the longest section and one byte more, and the ends of the ranges.
 */
#define _DEFAULT_SOURCE
#include <jitamoro.h>
#include <stdio.h>
#include <string.h>
#include <sys/mman.h>

static int failures;

static void expect(int line, const char *what, uint64_t got, uint64_t wanted) {
    if (got != wanted) {
        fprintf(stderr, "interface: line %d: %s is %llu, not %llu\n", line, what, (unsigned long long)got,
                (unsigned long long)wanted);
        failures++;
    }
}

#define EXPECT(what, wanted) expect(__LINE__, #what, (uint64_t)(what), (uint64_t)(wanted))
#define COUNT(array) (sizeof(array) / sizeof((array)[0]))

/* ---- The version */

#define TEXT(x) #x
#define NUMBER(x) TEXT(x)

static void version(void) {
    const char *numbers =
        NUMBER(JITAMORO_VERSION_MAJOR) "." NUMBER(JITAMORO_VERSION_MINOR) "." NUMBER(JITAMORO_VERSION_PATCH);
    EXPECT(strcmp(JITAMORO_VERSION, numbers), 0);
}

/* ---- A pass's words */

static void expect_pass(int line, const struct jitamoro_pass *pass, struct jitamoro_pass wanted) {
    expect(line, "last", pass->last, wanted.last);
    expect(line, "window", pass->window, wanted.window);
    expect(line, "pending", pass->pending, wanted.pending);
    expect(line, "ended", pass->ended, wanted.ended);
}

/* The words of `pass`, in order. */
#define EXPECT_PASS(...) expect_pass(__LINE__, &pass, (struct jitamoro_pass){__VA_ARGS__})

static struct jitamoro_step step(struct jitamoro_pass *pass, uint32_t r_type, uint64_t offset, uint8_t *section,
                                 size_t len) {
    return jitamoro_pass_step(pass, r_type, section, len, offset, JITAMORO_FLAG_NON_INTERPOSABLE,
                              JITAMORO_OUTPUT_STATIC_FIXED, true, 0x401000, -4);
}

/* No two words that aren't 0 are equal after the steps here, so that none can stand in another's place. */
static void pass_words(void) {
    uint8_t section[32] = {0x66, 0x48, 0x8d, 0x3d, 0, 0, 0, 0, 0x66, 0x66, 0x48, 0xe8};
    struct jitamoro_pass pass = jitamoro_pass_fresh();
    EXPECT_PASS(0);
    struct jitamoro_step s = step(&pass, JITAMORO_R_X86_64_TLSGD, 4, section, sizeof section);
    EXPECT(s.skipped, false);
    EXPECT(s.relaxed.choice.refusal, 0);
    EXPECT(s.relaxed.choice.chosen, true);
    EXPECT(s.relaxed.choice.kind, JITAMORO_KIND_TLS_GD_TO_LOCAL_EXEC);
    EXPECT(s.relaxed.choice.skip_next, true);
    EXPECT(s.relaxed.offset, 12);
    EXPECT_PASS(4, 12, 1, 0);
    EXPECT(jitamoro_pass_end(&pass), JITAMORO_REFUSED_SKIP_PENDING);
    EXPECT_PASS(4, 12, 1, 0);
    s = step(&pass, JITAMORO_R_X86_64_PLT32, 14, section, sizeof section);
    EXPECT(s.skipped, true);
    EXPECT_PASS(14, 12, 0, 0);
    s = step(&pass, JITAMORO_R_X86_64_64, 15, section, sizeof section);
    EXPECT(s.relaxed.choice.chosen, false);
    EXPECT_PASS(15, 12, 0, 0);
    s = step(&pass, JITAMORO_R_X86_64_64, 13, section, sizeof section);
    EXPECT(s.relaxed.choice.refusal, JITAMORO_REFUSED_ORDER);
    EXPECT_PASS(15, 12, 0, 0);
    EXPECT(jitamoro_pass_end(&pass), 0);
    EXPECT_PASS(15, 12, 0, 1);
    EXPECT(jitamoro_pass_end(&pass), JITAMORO_REFUSED_PASS_ENDED);
    EXPECT_PASS(15, 12, 0, 1);
}

/* Empty records inside a pair: each only sets the last offset, and the end isn't granted before the call. */
static void empty_words(void) {
    uint8_t section[32] = {0x66, 0x48, 0x8d, 0x3d, 0, 0, 0, 0, 0x66, 0x66, 0x48, 0xe8}, rewritten[sizeof section];
    struct jitamoro_pass pass = jitamoro_pass_fresh();
    step(&pass, JITAMORO_R_X86_64_TLSGD, 4, section, sizeof section);
    memcpy(rewritten, section, sizeof section);
    for (uint64_t offset = 4; offset < 12; offset += 3) {
        struct jitamoro_step s = step(&pass, JITAMORO_R_X86_64_NONE, offset, section, sizeof section);
        EXPECT(s.skipped, false);
        EXPECT(s.relaxed.choice.refusal, 0);
        EXPECT(s.relaxed.choice.chosen, false);
        EXPECT_PASS(offset, 12, 1, 0);
        EXPECT(jitamoro_pass_end(&pass), JITAMORO_REFUSED_SKIP_PENDING);
        EXPECT_PASS(offset, 12, 1, 0);
    }
    EXPECT(step(&pass, JITAMORO_R_X86_64_PLT32, 14, section, sizeof section).skipped, true);
    EXPECT_PASS(14, 12, 0, 0);
    EXPECT(step(&pass, JITAMORO_R_X86_64_NONE, 15, section, sizeof section).skipped, false);
    EXPECT_PASS(15, 12, 0, 0);
    EXPECT(memcmp(section, rewritten, sizeof section), 0);
    EXPECT(jitamoro_pass_end(&pass), 0);
}

/* Only its own type makes a record empty: neither that nothing is chosen for it, nor that its new type is 0. */
static void other_records(void) {
    static const struct {
        uint32_t r_type;
        uint8_t offset, flags;
        bool chosen;
    } rows[] = {
        {JITAMORO_R_X86_64_PLT32, 12, 0, false},       {JITAMORO_R_X86_64_64, 12, 1, false}, {256, 12, 1, false},
        {1u << 31, 12, 1, false},                      {JITAMORO_R_X86_64_TLSLD, 21, 1, true},
        {JITAMORO_R_X86_64_TLSDESC_CALL, 16, 1, true},
    };
    for (size_t i = 0; i < COUNT(rows); i++) {
        uint8_t section[32] = {0x66, 0x48, 0x8d, 0x3d, 0,    0, 0, 0, 0x66, 0x66, 0x48, 0xe8, 0, 0, 0, 0, 0xff, 0x10,
                               0x48, 0x8d, 0x3d, 0,    0,    0, 0, 0xe8};
        struct jitamoro_choice c = jitamoro_new_relaxation(rows[i].r_type, section, sizeof section, rows[i].offset,
                                                           rows[i].flags, 0, true, 0x401000, -4);
        EXPECT(c.refusal, 0);
        EXPECT(c.chosen, rows[i].chosen);
        EXPECT(c.new_type, JITAMORO_R_X86_64_NONE);
        struct jitamoro_pass pass = jitamoro_pass_fresh();
        step(&pass, JITAMORO_R_X86_64_TLSGD, 4, section, sizeof section);
        step(&pass, JITAMORO_R_X86_64_NONE, 5, section, sizeof section);
        struct jitamoro_step s = jitamoro_pass_step(&pass, rows[i].r_type, section, sizeof section, rows[i].offset,
                                                    rows[i].flags, 0, true, 0x401000, -4);
        EXPECT(s.skipped, true);
        EXPECT_PASS(rows[i].offset, 12, 0, 0);
    }
}

/* Passes that no walk leaves: each word is read as what it is called, and any but 0 is a yes. */
static void any_words(void) {
    static const uint64_t yes[] = {1, 7, 255, 256, 1ull << 32, 1ull << 63, UINT64_MAX};
    uint8_t section[32] = {0};
    for (size_t i = 0; i < COUNT(yes); i++) {
        struct jitamoro_pass pass = {3, 1ull << 40, yes[i], 0};
        EXPECT(jitamoro_pass_end(&pass), JITAMORO_REFUSED_SKIP_PENDING);
        EXPECT_PASS(3, 1ull << 40, yes[i], 0);
        EXPECT(step(&pass, 0, 4, section, sizeof section).skipped, false);
        EXPECT_PASS(4, 1ull << 40, 1, 0);
        pass.pending = yes[i];
        EXPECT(step(&pass, 1, 5, section, sizeof section).skipped, true);
        EXPECT_PASS(5, 1ull << 40, 0, 0);
        pass = (struct jitamoro_pass){1ull << 40, 3, yes[i], 0};
        EXPECT(step(&pass, 1, 5, section, sizeof section).relaxed.choice.refusal, JITAMORO_REFUSED_ORDER);
        EXPECT_PASS(1ull << 40, 3, yes[i], 0);
        pass = (struct jitamoro_pass){7, 9, 0, yes[i]};
        EXPECT(step(&pass, 1, 5, section, sizeof section).relaxed.choice.refusal, JITAMORO_REFUSED_PASS_ENDED);
        EXPECT(jitamoro_pass_end(&pass), JITAMORO_REFUSED_PASS_ENDED);
        EXPECT_PASS(7, 9, 0, yes[i]);
    }
}

/* ---- A tally's figures */

static void expect_tally(int line, const struct jitamoro_tally *tally, const struct jitamoro_tally *wanted) {
    for (uint8_t i = 0; i < JITAMORO_TALLY_LENGTH; i++) {
        expect(line, jitamoro_tally_name(i), tally->figures[i], wanted->figures[i]);
    }
}

#define EXPECT_TALLY() expect_tally(__LINE__, tally, &wanted)

/* What tallies begin with: 0 and 2^64 - 1 throughout, and words of which no two are equal. */
enum { STARTS = 3 };

static struct jitamoro_tally start_of(int number) {
    struct jitamoro_tally tally = jitamoro_tally_fresh();
    for (uint64_t i = 0; i < JITAMORO_TALLY_LENGTH; i++) {
        EXPECT(tally.figures[i], 0);
        tally.figures[i] = number == 0 ? 0 : number == 1 ? UINT64_MAX : -i - (i << 40);
    }
    return tally;
}

/* A record, and what its step must do: be refused, or add 1 to a figure and the window's length to the bytes. */
struct counted {
    uint8_t r_type, flags, offset, refusal, figure, window;
};

static struct jitamoro_step tally_step(struct jitamoro_pass *pass, struct jitamoro_tally *tally,
                                       const struct counted *c, uint8_t *section, size_t len) {
    return jitamoro_tally_step(pass, tally, c->r_type, section, len, c->offset, c->flags, JITAMORO_OUTPUT_STATIC_FIXED,
                               true, 0x401000, -4);
}

/* A step; then the end is asked, which changes no figure, and if it is granted a step more. */
static void count(struct jitamoro_pass *pass, struct jitamoro_tally *tally, const struct counted *c, uint8_t *section,
                  size_t len) {
    struct jitamoro_tally wanted = *tally;
    wanted.figures[c->figure] += c->refusal == 0;
    wanted.figures[JITAMORO_TALLY_BYTES] += c->window;
    EXPECT(tally_step(pass, tally, c, section, len).relaxed.choice.refusal, c->refusal);
    EXPECT_TALLY();
    struct jitamoro_pass ending = *pass;
    EXPECT(jitamoro_pass_end(&ending), pass->pending != 0 ? JITAMORO_REFUSED_SKIP_PENDING : 0);
    EXPECT_TALLY();
    if (ending.ended != 0) {
        struct jitamoro_step s = tally_step(&ending, tally, c, section, len);
        EXPECT(s.relaxed.choice.refusal, JITAMORO_REFUSED_PASS_ENDED);
        EXPECT_TALLY();
    }
}

/* A step of every outcome. */
static void tally_walk(int start) {
    static const struct counted steps[] = {
        {JITAMORO_R_X86_64_64, 1, 0, 0, JITAMORO_TALLY_NONE, 0},
        {JITAMORO_R_X86_64_TLSGD, 1, 4, 0, JITAMORO_TALLY_TLS_GD_TO_LOCAL_EXEC, 12},
        {JITAMORO_R_X86_64_NONE, 1, 4, 0, JITAMORO_TALLY_NONE, 0},
        {JITAMORO_R_X86_64_NONE, 1, 12, 0, JITAMORO_TALLY_NONE, 0},
        {JITAMORO_R_X86_64_NONE, 1, 11, JITAMORO_REFUSED_ORDER, 0, 0},
        {JITAMORO_R_X86_64_NONE, 16, 12, JITAMORO_REFUSED_FLAGS, 0, 0},
        {JITAMORO_R_X86_64_PLT32, 1, 3, JITAMORO_REFUSED_ORDER, 0, 0},
        {JITAMORO_R_X86_64_PLT32, 16, 12, JITAMORO_REFUSED_FLAGS, 0, 0},
        {JITAMORO_R_X86_64_PLT32, 1, 12, 0, JITAMORO_TALLY_SKIPPED, 0},
        {JITAMORO_R_X86_64_PLT32, 1, 12, 0, JITAMORO_TALLY_NO_OP, 0},
        {JITAMORO_R_X86_64_TLSDESC_CALL, 1, 16, 0, JITAMORO_TALLY_SKIP_TLS_DESC_CALL, 2}, /* FF 10 */
        {JITAMORO_R_X86_64_TLSDESC_CALL, 1, 17, JITAMORO_REFUSED_OVERLAP, 0, 0},
        {JITAMORO_R_X86_64_TLSDESC_CALL, 1, 18, 0, JITAMORO_TALLY_SKIP_TLS_DESC_CALL, 2}, /* 66 90, as it was */
        {JITAMORO_R_X86_64_TLSDESC_CALL, 1, 20, JITAMORO_REFUSED_WINDOW, 0, 0},
        {JITAMORO_R_X86_64_64, 1, 22, JITAMORO_REFUSED_OFFSET, 0, 0},
        {JITAMORO_R_X86_64_64, 1, 21, 0, JITAMORO_TALLY_NONE, 0},
    };
    uint8_t section[21] = {0x66, 0x48, 0x8d, 0x3d, 0, 0, 0,    0,    0x66, 0x66,
                           0x48, 0xe8, 0,    0,    0, 0, 0xff, 0x10, 0x66, 0x90};
    struct jitamoro_pass pass = jitamoro_pass_fresh();
    struct jitamoro_tally tally = start_of(start);
    for (size_t i = 0; i < COUNT(steps); i++) {
        count(&pass, &tally, &steps[i], section, sizeof section);
    }
    EXPECT_PASS(21, 20, 0, 0);
    EXPECT(section[18] << 8 | section[19], 0x6690);
}

#define GD "\x66\x48\x8d\x3d\0\0\0\0\x66\x66\x48\xe8"
#define LARGE "\x48\x8d\x3d\0\0\0\0\x48\xb8\0\0\0\0\0\0\0\0\x48\x01\xd8\xff\xd0"
#define LD "\x48\x8d\x3d\0\0\0\0"
#define KIND(kind, window, type, flags, offset, bytes) {{type, flags, offset, 0, JITAMORO_TALLY_##kind, window}, bytes}

/* Each kind that can be chosen, by the first record of a walk. */
static void tally_kinds(int start) {
    static const struct {
        struct counted counted;
        char bytes[32];
    } rows[] = {
        KIND(MOV_INDIRECT_TO_LEA, 1, 9, 1, 3, "\x48\x8b\x2d"),
        KIND(MOV_INDIRECT_TO_ABSOLUTE, 2, 41, 1, 2, "\x8b\x2d"),
        KIND(REX_MOV_INDIRECT_TO_ABSOLUTE, 3, 42, 1, 3, "\x48\x8b\x2d"),
        KIND(REX_MOV_INDIRECT_TO_ABSOLUTE, 3, 44, 1, 4, "\xd5\x48\x8b\x2d"),
        KIND(REX_ADD_INDIRECT_TO_ABSOLUTE, 3, 22, 1, 3, "\x48\x03\x2d"),
        KIND(REX_ADD_INDIRECT_TO_ABSOLUTE, 5, 50, 1, 6, "\x62\x74\xfc\x10\x03\x25"),
        KIND(REX_SUB_INDIRECT_TO_ABSOLUTE, 3, 42, 1, 3, "\x48\x2b\x2d"),
        KIND(REX_CMP_INDIRECT_TO_ABSOLUTE, 3, 42, 1, 3, "\x48\x3b\x2d"),
        KIND(CALL_INDIRECT_TO_RELATIVE, 2, 41, 1, 2, "\xff\x15"),
        KIND(JMP_INDIRECT_TO_RELATIVE, 6, 41, 1, 2, "\xff\x25"),
        KIND(NO_OP, 0, 31, 1, 0, ""),
        KIND(TLS_GD_TO_LOCAL_EXEC, 12, 19, 1, 4, GD),
        KIND(TLS_GD_TO_LOCAL_EXEC_LARGE, 22, 19, 1, 3, LARGE),
        KIND(TLS_LD_TO_LOCAL_EXEC, 12, 20, 0, 3, LD "\xe8"),
        KIND(TLS_LD_TO_LOCAL_EXEC_NO_PLT, 13, 20, 0, 3, LD "\xff\x15"),
        KIND(TLS_LD_TO_LOCAL_EXEC_64, 22, 20, 0, 3, LARGE),
        KIND(TLS_GD_TO_INITIAL_EXEC, 12, 19, 0, 4, GD),
        KIND(TLS_DESC_TO_LOCAL_EXEC, 3, 34, 1, 3, "\x48\x8d\x05"),
        KIND(TLS_DESC_TO_INITIAL_EXEC, 1, 34, 0, 3, "\x48\x8d\x05"),
        KIND(SKIP_TLS_DESC_CALL, 2, 35, 0, 0, "\xff\x10"),
    };
    for (size_t i = 0; i < COUNT(rows); i++) {
        uint8_t section[sizeof rows[i].bytes];
        memcpy(section, rows[i].bytes, sizeof section);
        struct jitamoro_pass pass = jitamoro_pass_fresh();
        struct jitamoro_tally tally = start_of(start);
        count(&pass, &tally, &rows[i].counted, section, sizeof section);
    }
}

static void tallies(void) {
    for (int start = 0; start < STARTS; start++) {
        tally_walk(start);
        tally_kinds(start);
    }
}

/* ---- Records held in place: relaxed, none, refused, skipped, empty inside a pair */

static struct jitamoro_record load_at(uint64_t offset, int64_t addend) {
    struct jitamoro_record record = {
        .r_type = JITAMORO_R_X86_64_REX_GOTPCRELX, .offset = offset, .addend = addend, .address = 0x401000,
        .flags = JITAMORO_FLAG_NON_INTERPOSABLE, .output_kind = JITAMORO_OUTPUT_STATIC_FIXED, .executable = true,
    };
    return record;
}

/* What fills the field, and that nothing else of the record has changed. */
static void expect_record(int line, const struct jitamoro_record *record, uint32_t r_type, uint64_t offset,
                          int64_t addend) {
    expect(line, "r_type", record->r_type, r_type);
    expect(line, "offset", record->offset, offset);
    expect(line, "addend", (uint64_t)record->addend, (uint64_t)addend);
    expect(line, "address", record->address, 0x401000);
    expect(line, "flags", record->flags, JITAMORO_FLAG_NON_INTERPOSABLE);
    expect(line, "output_kind", record->output_kind, JITAMORO_OUTPUT_STATIC_FIXED);
    expect(line, "executable", record->executable, true);
}

#define EXPECT_RECORD(...) expect_record(__LINE__, &record, __VA_ARGS__)

static void records(void) {
    uint8_t section[32] = {0x66, 0x48, 0x8d, 0x3d, 0, 0, 0, 0, 0x66, 0x66, 0x48, 0xe8, 0, 0, 0, 0, 0x4c, 0x8b, 0x2d};
    struct jitamoro_record record = load_at(19, -3);
    EXPECT(jitamoro_relax_record(&record, section, sizeof section).chosen, false);
    EXPECT_RECORD(42, 19, -3);
    record = load_at(33, -4);
    EXPECT(jitamoro_relax_record(&record, section, sizeof section).refusal, JITAMORO_REFUSED_OFFSET);
    EXPECT_RECORD(42, 33, -4);
    record = load_at(19, -4);
    EXPECT(jitamoro_choose_record(&record, section, sizeof section).kind, JITAMORO_KIND_REX_MOV_INDIRECT_TO_ABSOLUTE);
    EXPECT_RECORD(42, 19, -4);
    EXPECT(jitamoro_relax_record(&record, section, sizeof section).chosen, true);
    EXPECT_RECORD(11, 19, 0);
    EXPECT(section[16], 0x49);
    struct jitamoro_pass pass = jitamoro_pass_fresh();
    record = load_at(4, -4);
    record.r_type = JITAMORO_R_X86_64_TLSGD;
    EXPECT(jitamoro_step_record(&pass, &record, section, sizeof section).relaxed.choice.chosen, true);
    EXPECT_RECORD(23, 12, 0);
    record = load_at(9, -3);
    record.r_type = JITAMORO_R_X86_64_NONE;
    EXPECT(jitamoro_step_record(&pass, &record, section, sizeof section).relaxed.choice.chosen, false);
    EXPECT_RECORD(JITAMORO_R_X86_64_NONE, 9, -3);
    EXPECT_PASS(9, 12, 1, 0);
    record = load_at(12, -4);
    EXPECT(jitamoro_step_record(&pass, &record, section, sizeof section).skipped, true);
    EXPECT_RECORD(JITAMORO_R_X86_64_NONE, 12, -4);
    record = load_at(3, -4);
    struct jitamoro_step s = jitamoro_step_record(&pass, &record, section, sizeof section);
    EXPECT(s.relaxed.choice.refusal, JITAMORO_REFUSED_ORDER);
    EXPECT_RECORD(42, 3, -4);
    EXPECT_PASS(12, 12, 0, 0);
}

/* The same with a tally: relaxed, empty, skipped, none, refused. */
static void tally_records(void) {
    uint8_t section[32] = {0x66, 0x48, 0x8d, 0x3d, 0, 0, 0, 0, 0x66, 0x66, 0x48, 0xe8};
    struct jitamoro_pass pass = jitamoro_pass_fresh();
    struct jitamoro_tally of_walk = start_of(2), wanted = of_walk, *tally = &of_walk;
    struct jitamoro_record record = load_at(4, -4);
    record.r_type = JITAMORO_R_X86_64_TLSGD;
    EXPECT(jitamoro_tally_step_record(&pass, tally, &record, section, sizeof section).relaxed.choice.chosen, true);
    EXPECT_RECORD(23, 12, 0);
    wanted.figures[JITAMORO_TALLY_TLS_GD_TO_LOCAL_EXEC]++;
    wanted.figures[JITAMORO_TALLY_BYTES] += 12;
    EXPECT_TALLY();
    EXPECT(section[0], 0x64);
    record = load_at(9, -3);
    record.r_type = JITAMORO_R_X86_64_NONE;
    EXPECT(jitamoro_tally_step_record(&pass, tally, &record, section, sizeof section).relaxed.choice.chosen, false);
    EXPECT_RECORD(JITAMORO_R_X86_64_NONE, 9, -3);
    wanted.figures[JITAMORO_TALLY_NONE]++;
    EXPECT_TALLY();
    EXPECT_PASS(9, 12, 1, 0);
    record = load_at(12, -4);
    EXPECT(jitamoro_tally_step_record(&pass, tally, &record, section, sizeof section).skipped, true);
    EXPECT_RECORD(JITAMORO_R_X86_64_NONE, 12, -4);
    wanted.figures[JITAMORO_TALLY_SKIPPED]++;
    EXPECT_TALLY();
    record = load_at(19, -3);
    EXPECT(jitamoro_tally_step_record(&pass, tally, &record, section, sizeof section).relaxed.choice.chosen, false);
    EXPECT_RECORD(42, 19, -3);
    wanted.figures[JITAMORO_TALLY_NONE]++;
    EXPECT_TALLY();
    record = load_at(3, -4);
    struct jitamoro_step s = jitamoro_tally_step_record(&pass, tally, &record, section, sizeof section);
    EXPECT(s.relaxed.choice.refusal, JITAMORO_REFUSED_ORDER);
    EXPECT_RECORD(42, 3, -4);
    EXPECT_TALLY();
    EXPECT_PASS(19, 12, 0, 0);
}

/* ---- Texts: each number has one, and those of the kinds differ */

/* The kinds' rows of the figures are the kinds' own: name, number and text. Three more follow. */
static void figures(void) {
#define ROW(name, number, text) {#name, number, text},
    static const struct {
        const char *name;
        uint64_t number;
        const char *text;
    } kinds[] = {JITAMORO_KINDS(ROW)}, rows[] = {JITAMORO_TALLY_FIGURES(ROW)};
    EXPECT(COUNT(rows), JITAMORO_TALLY_LENGTH);
    EXPECT(COUNT(kinds), JITAMORO_TALLY_NONE);
    for (size_t i = 0; i < COUNT(rows); i++) {
        EXPECT(rows[i].number, i);
        EXPECT(strcmp(rows[i].text, jitamoro_tally_name((uint8_t)i)), 0);
        if (i < COUNT(kinds)) {
            EXPECT(rows[i].number, kinds[i].number);
            EXPECT(strcmp(rows[i].name + strlen("JITAMORO_TALLY_"), kinds[i].name + strlen("JITAMORO_KIND_")), 0);
            EXPECT(strcmp(rows[i].text, jitamoro_kind_name((uint8_t)i)), 0);
        }
    }
    EXPECT(JITAMORO_TALLY_LENGTH, 22);
    EXPECT(strcmp(jitamoro_tally_name(JITAMORO_TALLY_NONE), "none"), 0);
    EXPECT(strcmp(jitamoro_tally_name(JITAMORO_TALLY_SKIPPED), "skipped"), 0);
    EXPECT(strcmp(jitamoro_tally_name(JITAMORO_TALLY_BYTES), "bytes in rewritten windows"), 0);
}

static void texts(void) {
    EXPECT(strcmp(jitamoro_refusal_text(6), "the bytes to rewrite don't lie wholly in the section"), 0);
    EXPECT(strcmp(jitamoro_kind_name(14), "TlsLdToLocalExec64"), 0);
    EXPECT(strcmp(jitamoro_r_type_name(42), "R_X86_64_REX_GOTPCRELX"), 0);
    EXPECT(strcmp(jitamoro_output_name(3), "dynamic position-independent"), 0);
    unsigned refusals = 0, kinds = 0, tallied = 0, types = 0, outputs = 0;
    for (unsigned n = 0; n < 256; n++) {
        refusals += strcmp(jitamoro_refusal_text((uint8_t)n), "no such refusal") != 0;
        kinds += strcmp(jitamoro_kind_name((uint8_t)n), "no such kind") != 0;
        tallied += strcmp(jitamoro_tally_name((uint8_t)n), "no such figure") != 0;
        types += strcmp(jitamoro_r_type_name(n), "no such type") != 0;
        outputs += strcmp(jitamoro_output_name((uint8_t)n), "no such output kind") != 0;
        for (unsigned m = 0; m < n && n <= 18; m++) {
            EXPECT(strcmp(jitamoro_kind_name((uint8_t)n), jitamoro_kind_name((uint8_t)m)) != 0, true);
        }
    }
    EXPECT(refusals, 20);
    EXPECT(kinds, 19);
    EXPECT(tallied, 22);
    EXPECT(types, 50);
    EXPECT(outputs, 6);
}

/* ---- The order of the refusals */

/* Everything that is asked, with a fault for each refusal; taken away one by one, they show the order. */
struct asked {
    struct jitamoro_pass pass;
    uint8_t *section;
    size_t len;
    uint64_t offset;
    uint8_t flags, output_kind, kind, inst_offset;
};

/* The same step with a tally, of which no figure may change under a refusal. */
static void tally_refusal(int line, const struct asked *a, int step_) {
    struct jitamoro_pass pass = a->pass;
    struct jitamoro_tally tally = start_of(2), wanted = tally;
    struct jitamoro_step s = jitamoro_tally_step(&pass, &tally, JITAMORO_R_X86_64_TLSDESC_CALL, a->section, a->len,
                                                 a->offset, a->flags, a->output_kind, true, 0, 0);
    expect(line, "step with a tally", s.relaxed.choice.refusal, (uint64_t)step_);
    if (step_ != 0) {
        expect_pass(line, &pass, a->pass);
        expect_tally(line, &tally, &wanted);
    }
}

/* The same with an empty record: it has no window, and so neither 6 nor 23; taken, it only sets the last offset. */
static void empty_refusal(int line, const struct asked *a, int step_) {
    uint64_t wanted = step_ == 6 ? 0 : (uint64_t)step_;
    struct jitamoro_pass pass = a->pass, after = a->pass, tallied = a->pass;
    struct jitamoro_tally tally = start_of(2), counted = tally;
    if (wanted == 0) {
        after = (struct jitamoro_pass){a->offset, a->pass.window, a->pass.pending != 0, 0};
        counted.figures[JITAMORO_TALLY_NONE]++;
    }
    struct jitamoro_step s =
        jitamoro_pass_step(&pass, 0, a->section, a->len, a->offset, a->flags, a->output_kind, true, 0, 0);
    expect(line, "step of an empty record", s.relaxed.choice.refusal, wanted);
    expect(line, "whether it is skipped", s.skipped, false);
    expect_pass(line, &pass, after);
    s = jitamoro_tally_step(&tallied, &tally, 0, a->section, a->len, a->offset, a->flags, a->output_kind, true, 0, 0);
    expect(line, "the same with a tally", s.relaxed.choice.refusal, wanted);
    expect_pass(line, &tallied, after);
    expect_tally(line, &tally, &counted);
}

/* The refusal of each function: of a step 0 too where the record is skipped. */
static void refusals(int line, const struct asked *a, int step_, int relax_, int choose_, int apply_) {
    tally_refusal(line, a, step_);
    empty_refusal(line, a, step_);
    struct jitamoro_pass pass = a->pass;
    struct jitamoro_step s = jitamoro_pass_step(&pass, JITAMORO_R_X86_64_TLSDESC_CALL, a->section, a->len, a->offset,
                                                a->flags, a->output_kind, true, 0, 0);
    expect(line, "step", s.relaxed.choice.refusal, (uint64_t)step_);
    if (step_ != 0) {
        expect_pass(line, &pass, a->pass);
    }
    struct jitamoro_choice c = jitamoro_new_relaxation(JITAMORO_R_X86_64_TLSDESC_CALL, a->section, a->len, a->offset,
                                                       a->flags, a->output_kind, true, 0, 0);
    expect(line, "choosing", c.refusal, (uint64_t)choose_);
    struct jitamoro_moved m = jitamoro_apply(a->kind, a->inst_offset, a->section, a->len, a->offset, 0);
    expect(line, "rewriting", m.refusal, (uint64_t)apply_);
    struct jitamoro_relaxed r = jitamoro_relax(JITAMORO_R_X86_64_TLSDESC_CALL, a->section, a->len, a->offset, a->flags,
                                               a->output_kind, true, 0, 0);
    expect(line, "relaxing", r.choice.refusal, (uint64_t)relax_);
}

#define REFUSALS(step_, relax_, choose_, apply_) refusals(__LINE__, &a, step_, relax_, choose_, apply_)

enum { MOST = JITAMORO_MAX_SECTION_LENGTH };

/* Refusals up to 4, and 5. */
static struct asked order_of_records(struct asked a) {
    REFUSALS(21, 1, 1, 1);
    a.pass.ended = 0;
    REFUSALS(1, 1, 1, 1);
    a.offset = MOST + 2;
    REFUSALS(1, 1, 1, 1);
    a.offset = MOST + 1; /* no longer above the length */
    REFUSALS(1, 1, 1, 1);
    a.len = MOST;
    REFUSALS(2, 2, 2, 2);
    a.offset = UINT64_MAX - 1;
    REFUSALS(2, 2, 2, 2);
    a.offset = 1; /* a window from -3 on isn't inside */
    REFUSALS(3, 3, 3, 5);
    a.inst_offset = 3;
    REFUSALS(3, 3, 3, 6);
    a.offset = MOST - 1;
    a.kind = JITAMORO_KIND_SKIP_TLS_DESC_CALL;
    REFUSALS(3, 3, 3, 6);
    a.flags = 0;
    REFUSALS(4, 4, 4, 6);
    a.output_kind = 3;
    return a;
}

/* The pass's own, and 6. */
static void order_of_pass(struct asked a) {
    const uint8_t *end = a.section + MOST;
    REFUSALS(22, 6, 0, 6);
    a.pass.last = MOST - 1;
    REFUSALS(0, 6, 0, 6); /* the skip */
    a.pass.pending = 0;
    REFUSALS(6, 6, 0, 6);
    a.offset = MOST - 2;
    a.pass.last = MOST - 3;
    a.kind = JITAMORO_KIND_NO_OP;
    a.pass.window = MOST - 1;
    EXPECT(end[-1], 0);
    struct jitamoro_pass pass = a.pass;
    EXPECT(step(&pass, JITAMORO_R_X86_64_TLSDESC_CALL, a.offset, a.section, MOST).relaxed.choice.refusal, 23);
    EXPECT_PASS(MOST - 3, MOST - 1, 0, 0);
    EXPECT(end[-1], 0);
    a.pass.window = MOST - 2;
    REFUSALS(0, 0, 0, 0);
    EXPECT(end[-2], 0x66);
    EXPECT(end[-1], 0x90);
    EXPECT(end[0], 0);
}

static void order_of_filling(uint8_t *section) {
    const uint8_t *end = section + MOST;
    EXPECT(jitamoro_fill(52, section, MOST + 1, UINT64_MAX, 0, 1ull << 40, 0).refusal, 1);
    EXPECT(jitamoro_fill(11, section, MOST + 1, 0, 0, 1ull << 40, 0).refusal, 1);
    EXPECT(jitamoro_fill(4, section, MOST + 1, 0, 0, 0, 0).refusal, 1);
    EXPECT(jitamoro_fill(11, section, MOST, MOST + 1, 0, 1ull << 40, 0).refusal, 2);
    EXPECT(jitamoro_fill(11, section, MOST, MOST - 3, 0, 1ull << 40, 0).refusal, 16);
    EXPECT(jitamoro_fill(11, section, MOST, MOST - 4, 0, 1ull << 40, 0).refusal, 15);
    EXPECT(jitamoro_fill(11, section, MOST, MOST - 4, 0, 0x12345678, 0).filled, true);
    EXPECT(end[-5], 0);
    EXPECT(end[-4], 0x78);
    EXPECT(end[-1], 0x12);
    EXPECT(end[0], 0);
}

/* In sections of the longest length, and one byte more. */
static void order(void) {
    EXPECT(MOST, 268435456);
    /* Pages that nobody touches take no memory. */
    uint8_t *section = mmap(NULL, MOST + 1, PROT_READ | PROT_WRITE, MAP_PRIVATE | MAP_ANONYMOUS | MAP_NORESERVE, -1, 0);
    if (section == MAP_FAILED) {
        perror("interface: mmap");
        failures++;
        return;
    }
    struct asked a = {
        .pass = {.last = UINT64_MAX, .window = MOST, .pending = 7, .ended = 255},
        .section = section, .len = MOST + 1, .offset = UINT64_MAX - 1, .flags = 16, .output_kind = 6,
        .kind = JITAMORO_KIND_REX_MOV_INDIRECT_TO_ABSOLUTE, .inst_offset = 5,
    };
    order_of_pass(order_of_records(a));
    order_of_filling(section);
    munmap(section, MOST + 1);
}

/* A section of no bytes, and the refusals of what takes no section. */
static void others(void) {
    uint8_t entry[JITAMORO_PLT_ENTRY_LENGTH] = {0xa5};
    EXPECT(jitamoro_write_plt_entry(entry, 15, 1ull << 40, 0), 8);
    EXPECT(entry[0], 0xa5);
    EXPECT(jitamoro_write_plt_entry(entry, 16, 1ull << 40, 0), 9);
    EXPECT(entry[0], 0xf3);
    EXPECT(jitamoro_new_relaxation(4, NULL, 0, 1, 16, 6, true, 0, 0).refusal, 2);
    EXPECT(jitamoro_new_relaxation(4, NULL, 0, 0, 16, 6, true, 0, 0).refusal, 3);
    EXPECT(jitamoro_new_relaxation(4, NULL, 0, 0, 1, 6, true, 0, 0).refusal, 4);
    EXPECT(jitamoro_new_relaxation(4, NULL, 0, 0, 1, 5, true, 0, 0).chosen, true);
    EXPECT(jitamoro_output_kind(5).refusal, 0);
    EXPECT(jitamoro_output_kind(6).refusal, 4);
    EXPECT(jitamoro_value_flags(15).refusal, 0);
    EXPECT(jitamoro_value_flags(16).refusal, 3);
}

/* ---- Ranges: both ends of a field of n bytes, for the types that have one */

static void ranges(void) {
    static const struct {
        uint32_t r_type;
        int64_t min, max;
    } rows[] = {
        {2, -2147483648, 2147483648},
        {3, 0, 4294967296},
        {10, 0, 4294967296},
        {11, -2147483648, 2147483648},
        {12, -32768, 65536},
        {13, -32768, 32768},
        {14, -128, 256},
        {15, -128, 128},
        {23, -2147483648, 2147483648},
        {32, 0, 4294967296},
    };
    for (size_t i = 0; i < COUNT(rows); i++) {
        struct jitamoro_relocation r = jitamoro_relocation_from_raw(rows[i].r_type);
        EXPECT(r.refusal, 0);
        EXPECT(r.checked, true);
        EXPECT(r.min, rows[i].min);
        EXPECT(r.max, rows[i].max);
        EXPECT(jitamoro_allowed_range_contains(r.checked, r.min, r.max, rows[i].min - 1), false);
        EXPECT(jitamoro_allowed_range_contains(r.checked, r.min, r.max, rows[i].min), true);
        EXPECT(jitamoro_allowed_range_contains(r.checked, r.min, r.max, rows[i].max - 1), true);
        EXPECT(jitamoro_allowed_range_contains(r.checked, r.min, r.max, rows[i].max), false);
    }
    EXPECT(jitamoro_allowed_range_contains(false, 0, 0, INT64_MIN), true);
    EXPECT(jitamoro_allowed_range_contains(false, 0, 0, INT64_MAX), true);
}

/* ---- Filling a field */

/* What is lent: A5 throughout. */
static const struct filling {
    uint32_t r_type;
    size_t len;
    uint64_t offset, place, value;
    int64_t addend;
    uint8_t refusal;
    bool filled;
    uint8_t bytes[4]; /* of the field, where it is filled */
} fillings[] = {
    /* each refusal with all that come after it */
    {52, 8, 9, 0, UINT64_MAX, 0, JITAMORO_REFUSED_OFFSET, false, {0}},
    {52, 8, UINT64_MAX, 0, UINT64_MAX, 0, JITAMORO_REFUSED_OFFSET, false, {0}},
    {52, 8, 8, 0, UINT64_MAX, 0, JITAMORO_REFUSED_TYPE, false, {0}},
    {10, 8, 5, 0, UINT64_MAX, 0, JITAMORO_REFUSED_FIELD, false, {0}},
    {10, 0, 0, 0, UINT64_MAX, 0, JITAMORO_REFUSED_FIELD, false, {0}},
    {10, 8, 4, 0, UINT64_MAX, 0, JITAMORO_REFUSED_VALUE, false, {0}},
    {11, 8, 4, 0, UINT64_MAX, 0, 0, true, {0xff, 0xff, 0xff, 0xff}},
    /* the ends of the ranges; 2^63 is read as signed */
    {10, 8, 2, 0, UINT32_MAX, 0, 0, true, {0xff, 0xff, 0xff, 0xff}},
    {10, 8, 2, 0, 1ull << 32, 0, JITAMORO_REFUSED_VALUE, false, {0}},
    {10, 8, 2, 0, 1ull << 63, 0, JITAMORO_REFUSED_VALUE, false, {0}},
    {11, 8, 2, 0, INT32_MAX, 0, 0, true, {0xff, 0xff, 0xff, 0x7f}},
    {11, 8, 2, 0, 1ull << 31, 0, JITAMORO_REFUSED_VALUE, false, {0}},
    {23, 8, 2, 0, (uint64_t)INT32_MIN, 0, 0, true, {0, 0, 0, 0x80}},
    {23, 8, 2, 0, (uint64_t)INT32_MIN, -1, JITAMORO_REFUSED_VALUE, false, {0}},
    /* sums that wrap; the place counts for type 2 alone */
    {10, 8, 1, 7, UINT64_MAX, 5, 0, true, {4, 0, 0, 0}},
    {2, 8, 1, 7, 3, -4, 0, true, {0xf8, 0xff, 0xff, 0xff}},
    {2, 8, 1, UINT64_MAX, 0, 0, 0, true, {1, 0, 0, 0}},
    {11, 8, 1, 7, 3, -4, 0, true, {0xff, 0xff, 0xff, 0xff}},
    {23, 8, 1, 7, 3, -4, 0, true, {0xff, 0xff, 0xff, 0xff}},
    /* other types, with no look at the rest */
    {0, 0, 0, 0, UINT64_MAX, 0, 0, false, {0}},
    {4, 8, 8, 0, 1ull << 40, 0, 0, false, {0}},
    {22, 8, 0, 0, 1, 0, 0, false, {0}},
    {25, 8, 0, 0, 1, 0, 0, false, {0}},
    {4, 8, 9, 0, 1, 0, JITAMORO_REFUSED_OFFSET, false, {0}},
};

static void fills(void) {
    for (size_t i = 0; i < COUNT(fillings); i++) {
        const struct filling *r = &fillings[i];
        uint8_t section[8], wanted[8];
        memset(section, 0xa5, sizeof section);
        memset(wanted, 0xa5, sizeof wanted);
        struct jitamoro_filled f = jitamoro_fill(r->r_type, section, r->len, r->offset, r->place, r->value, r->addend);
        if (r->filled) {
            memcpy(wanted + r->offset, r->bytes, sizeof r->bytes);
        }
        if (f.refusal != r->refusal || f.filled != r->filled || memcmp(section, wanted, sizeof section) != 0) {
            fprintf(stderr, "interface: row %zu of filling\n", i);
            failures++;
        }
    }
}

/* A record as relaxing and a step leave it. */
static void filled_records(void) {
    static const uint8_t call[] = {0x67, 0xe8, 0xfa, 0x0f, 0, 0};
    uint8_t section[6] = {0xff, 0x15};
    struct jitamoro_record record = {
        .r_type = JITAMORO_R_X86_64_GOTPCRELX,
        .offset = 2,
        .addend = -4,
        .address = 0x402000,
        .flags = JITAMORO_FLAG_NON_INTERPOSABLE,
        .output_kind = JITAMORO_OUTPUT_STATIC_POSITION_INDEPENDENT,
        .executable = true,
    };
    jitamoro_relax_record(&record, section, sizeof section);
    struct jitamoro_filled f = jitamoro_fill_record_in(&record, section, sizeof section, 0x401000, record.address);
    EXPECT(f.refusal, 0);
    EXPECT(f.filled, true);
    EXPECT(memcmp(section, call, sizeof section), 0);
    struct jitamoro_pass pass = {.pending = 1};
    EXPECT(jitamoro_step_record(&pass, &record, section, sizeof section).skipped, true);
    f = jitamoro_fill_record_in(&record, section, sizeof section, 0x401000, 0);
    EXPECT(f.refusal, 0);
    EXPECT(f.filled, false);
    EXPECT(memcmp(section, call, sizeof section), 0);
}

int main(void) {
    version();
    pass_words();
    empty_words();
    other_records();
    any_words();
    tallies();
    records();
    tally_records();
    texts();
    figures();
    order();
    others();
    ranges();
    fills();
    filled_records();
    if (failures != 0) {
        return 1;
    }
    puts("interface: the version, a pass's words, empty records, a tally's figures, records, texts, the refusals' "
         "order, ranges and fields filled are right");
    return 0;
}
