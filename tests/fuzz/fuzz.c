/* Calls the functions of jitamoro.h with edge and random arguments for a while, and checks what they answer and
   every byte that they were lent: fuzz PLACEMENT SECONDS SEED. PLACEMENT is where sections, passes and tallies lie:
   `end`, so that they end at a page that can't be accessed; `begin`, so that they begin after one; `heap`, in blocks
   of malloc of just their length. It ends with 0, with 1 at the first wrong answer or byte, or with 3 at a fault. */
#define _GNU_SOURCE
#include "tables.h"
#include <inttypes.h>
#include <signal.h>
#include <stdio.h>
#include <stdlib.h>
#include <string.h>
#include <sys/mman.h>
#include <time.h>
#include <unistd.h>

enum { PAGE = 4096, ARENA = 2 * PAGE, MARGIN = 64, MAX_WATCHED = ARENA, MAX_FIELDS = 15 + JITAMORO_TALLY_LENGTH };

/* ---- What is tried */

struct record {
    uint32_t r_type;
    uint64_t offset;
    uint8_t flags, output_kind;
    bool executable;
    uint64_t address;
    int64_t addend;
};

/* pass_end is lent no section, but answers as the others do. */
enum function {
    RELAX,
    NEW_RELAXATION,
    APPLY,
    PASS_STEP,
    TALLY_STEP,
    PASS_END,
    FILL,
    WRITE_PLT_ENTRY,
    FILL_SECTION_PADDING
};

static const char *const names[] = {"relax",     "new_relaxation",  "apply",
                                    "pass_step", "tally_step",      "pass_end",
                                    "fill",      "write_plt_entry", "fill_section_padding"};

/* A call; each function uses some of the fields. Filling is given type, offset and addend of the record. */
struct call {
    enum function function;
    struct record record;
    uint64_t place, value;
    uint8_t kind, inst_offset;
    struct jitamoro_pass pass;
    struct jitamoro_tally tally;
    uint64_t got_address, plt_address;
};

/* Lent bytes. Those watched are set before a call and compared after it: the section, or a part of it, and the
   bytes around it that can be accessed. */
struct lent {
    uint8_t *write;      /* the section */
    const uint8_t *read; /* the same bytes, where in the placements with pages they can't be written */
    size_t len;
    uint8_t *watched;
    size_t watched_len;
    ptrdiff_t first; /* where in the section the watched bytes begin */
    uint8_t before[MAX_WATCHED], after[MAX_WATCHED];
};

/* An answer as numbers, since what lies between a struct's fields can't be compared. The refusal is the first. */
struct answer {
    size_t count;
    uint64_t field[MAX_FIELDS];
};

/* Fields of a choice; in a relaxed record's answer offset and addend follow, in a step's then skipped, the pass that it
   left, and the tally. */
enum {
    REFUSAL,
    CHOSEN,
    KIND,
    INST_OFFSET,
    MANDATORY,
    SKIP_NEXT,
    GOT_FALLBACK,
    NEW_TYPE,
    NEW_OFFSET,
    NEW_ADDEND,
    SKIPPED
};

/* What is to be seen of filling beside its refusals, and the four types filled, with sums that wrap too. */
enum { AFTER_RELAXING, CUT_AND_FAR, NONE, CUT_NONE, FAR_NONE, FILLINGS };

static const char *const fillings[] = {
    [AFTER_RELAXING] = "a field that relaxing left filled",
    [CUT_AND_FAR] = "16 where 15 would hold too",
    [NONE] = "none",
    [CUT_NONE] = "none though the field is cut",
    [FAR_NONE] = "none though the value is out of range",
};

/* What is to be seen of a tally's figures. */
enum { WRAPPED_COUNT, WRAPPED_BYTES, WRAPS };

static const char *const wraps[] = {
    [WRAPPED_COUNT] = "a count that wraps",
    [WRAPPED_BYTES] = "bytes that wrap",
};

/* What is to be seen while a skip is pending. */
enum { EMPTY_TAKEN, EMPTY_AGAIN, THEN_SKIPPED, THEN_22, THEN_24, SKIPPED_NONE, SKIPPED_TO_0, PENDINGS };

static const char *const pendings[] = {
    [EMPTY_TAKEN] = "an empty record taken",
    [EMPTY_AGAIN] = "one more empty record taken",
    [THEN_SKIPPED] = "a record after an empty one skipped",
    [THEN_22] = "a record refused only because of an empty one (22)",
    [THEN_24] = "the end after an empty record refused (24)",
    [SKIPPED_NONE] = "a record skipped that is none by choice",
    [SKIPPED_TO_0] = "a record skipped that would become type 0",
};

static struct {
    enum { END, BEGIN, HEAP } placement;
    uint64_t seed, round, calls;
    const struct call *call; /* the one under way, or NULL while no bytes are lent */
    const struct lent *lent;
    uint64_t number; /* what such a function was given */
    uint64_t relaxed[KINDS], rewritten[KINDS], refused[256];
    uint64_t filled[256], filled_wrapped[256];              /* fields, by type; those whose sum wraps */
    uint64_t fill_refused[256], filling[FILLINGS];          /* and by refusal; and what else is to be seen */
    uint64_t raised[JITAMORO_TALLY_LENGTH], wrapped[WRAPS]; /* figures */
    uint64_t pending[PENDINGS], empty_refused[256];         /* while a skip is pending */
} run;

/* ---- Reports */

static void print_bytes(const char *what, const uint8_t *bytes, size_t len) {
    printf("  %s:", what);
    for (size_t i = 0; i < len && i < 2 * MARGIN + 64; i++) {
        printf(" %02x", bytes[i]);
    }
    puts("");
}

static void print_call(const struct call *c, const struct lent *l, bool ended) {
    const struct record *r = &c->record;
    const struct jitamoro_pass *p = &c->pass;
    printf("  jitamoro_%s: type %" PRIu32 " offset %" PRIu64 " flags %d output kind %d executable %d address %#" PRIx64
           " addend %" PRId64 "\n",
           names[c->function], r->r_type, r->offset, r->flags, r->output_kind, r->executable, r->address, r->addend);
    printf("  kind %d instruction offset %d; pass %" PRIu64 " %" PRIu64 " %" PRIu64 " %" PRIu64 "; GOT %#" PRIx64
           " PLT %#" PRIx64 "\n",
           c->kind, c->inst_offset, p->last, p->window, p->pending, p->ended, c->got_address, c->plt_address);
    if (c->function == FILL) {
        printf("  the field's address %#" PRIx64 ", value %#" PRIx64 "\n", c->place, c->value);
    }
    if (c->function == TALLY_STEP) {
        printf("  tally:");
        for (size_t i = 0; i < JITAMORO_TALLY_LENGTH; i++) {
            printf(" %" PRIu64, c->tally.figures[i]);
        }
        puts("");
    }
    printf("  section of %zu bytes; watched are %zu from byte %td on\n", l->len, l->watched_len, l->first);
    print_bytes("before", l->before, l->watched_len);
    if (ended) {
        print_bytes("after", l->after, l->watched_len);
    }
}

/* `ended` says whether the call under way came to its end. */
static void report(const char *what, bool ended) {
    printf("fuzz: %s (seed %" PRIu64 ", round %" PRIu64 ")\n", what, run.seed, run.round);
    if (run.call != NULL) {
        print_call(run.call, run.lent, ended);
    } else {
        printf("  of %" PRIu64 "\n", run.number);
    }
    fflush(stdout);
}

static void check(bool right, const char *what) {
    if (!right) {
        report(what, true);
        exit(1);
    }
}

/* Bytes beside a lent pass or tally that can be accessed: watched as those beside a section are. */
struct beside {
    uint8_t *bytes, before[MARGIN];
};

/* Where passes and tallies lie. */
static struct jitamoro_pass *lent_pass;
static struct jitamoro_tally *lent_tally;
static struct beside beside_pass, beside_tally;

static void on_fault(int number, siginfo_t *info, void *context) {
    (void)context;
    if (run.call != NULL) {
        const uint8_t *section = run.call->function == NEW_RELAXATION ? run.lent->read : run.lent->write;
        uintptr_t at = (uintptr_t)info->si_addr;
        printf("fuzz: at byte %td of the section, %td of the pass, %td of the tally:\n",
               (ptrdiff_t)(at - (uintptr_t)section), (ptrdiff_t)(at - (uintptr_t)lent_pass),
               (ptrdiff_t)(at - (uintptr_t)lent_tally));
    }
    report(number == SIGSEGV ? "access outside what was lent" : "signal", false);
    _exit(3);
}

/* ---- Numbers at random */

static uint64_t state;

/* splitmix64 */
static uint64_t any64(void) {
    uint64_t z = state += 0x9e3779b97f4a7c15;
    z = (z ^ z >> 30) * 0xbf58476d1ce4e5b9;
    z = (z ^ z >> 27) * 0x94d049bb133111eb;
    return z ^ z >> 31;
}

static uint64_t below(uint64_t n) {
    return any64() % n;
}

static bool one_in(uint64_t n) {
    return below(n) == 0;
}

/* At or near one of the edges of the ranges, or anywhere. */
static uint64_t any_number(void) {
    static const uint64_t edges[] = {0,          0x7f,       0xff,       0x7fff,     0xffff,     0x401000,  1u << 28,
                                     0x7fffffff, 0x80000000, 0xffffffff, 1ull << 32, 1ull << 62, INT64_MAX, 1ull << 63};
    if (one_in(8)) {
        return any64();
    }
    uint64_t edge = edges[below(COUNT(edges))] + below(5) - 2;
    return one_in(3) ? -edge : edge;
}

/* Mostly below `usual`, often `most_usual`, now and then any byte. */
static uint8_t any_byte(uint64_t usual, uint8_t most_usual) {
    if (one_in(16)) {
        return (uint8_t)any64();
    }
    return one_in(3) ? most_usual : (uint8_t)below(usual);
}

static size_t any_length(void) {
    if (one_in(64)) {
        return PAGE - MARGIN + below(2 * MARGIN);
    }
    return run.round % (MARGIN + 1);
}

/* At, around or past a length. */
static uint64_t any_offset(size_t len) {
    switch (below(8)) {
    case 0: return any_number();
    case 1: return len + below(7) - 3;
    case 2: return below(8);
    case 3: return below(len + 1) + (1ull << (32 + below(32)));
    default: return below(len + 1);
    }
}

/* Mostly a few before or after an offset. */
static uint64_t any_near(uint64_t offset, uint64_t few) {
    switch (below(4)) {
    case 0: return any_number();
    case 1: return 0;
    default: return offset + below(2 * few) - few;
    }
}

/* 0, but one time in n 1 or, as often, any number. */
static uint64_t any_word(uint64_t n) {
    return !one_in(n) ? 0 : one_in(2) ? 1 : any_number();
}

/* Whether a record is empty: of type 0 by itself, not by relaxing. */
static bool is_empty(const struct record *r) {
    return r->r_type == JITAMORO_R_X86_64_NONE;
}

static struct jitamoro_pass any_pass(const struct record *r) {
    return (struct jitamoro_pass){
        .last = any_near(r->offset, 3),
        .window = any_near(r->offset, 16),
        .pending = any_word(is_empty(r) ? 2 : 6),
        .ended = any_word(12),
    };
}

/* Anything, often 0 or little less than 2^64. */
static struct jitamoro_tally any_tally(void) {
    struct jitamoro_tally t;
    for (size_t i = 0; i < JITAMORO_TALLY_LENGTH; i++) {
        uint64_t word = any64();
        t.figures[i] = word % 4 == 0 ? word : -((word >> 8) % (word % 4 == 1 ? 2 : 24));
    }
    return t;
}

static struct record any_record(size_t len) {
    return (struct record){
        .r_type = one_in(8) ? 0 : one_in(4) ? (uint32_t)any_number() : (uint32_t)below(61),
        .offset = any_offset(len),
        .flags = any_byte(16, one_in(2) ? 1 : 3),
        .output_kind = any_byte(6, 0),
        .executable = !one_in(10),
        .address = any_number(),
        .addend = one_in(4) ? (int64_t)any_number() : -4,
    };
}

/* ---- Lent bytes */

/* Pages between two that can't be accessed. */
static uint8_t *guarded_pages(size_t len, int protection, int flags, int file) {
    uint8_t *around = mmap(NULL, len + 2 * PAGE, PROT_NONE, MAP_PRIVATE | MAP_ANONYMOUS | MAP_NORESERVE, -1, 0);
    check(around != MAP_FAILED, "no address space");
    uint8_t *pages = mmap(around + PAGE, len, protection, flags | MAP_FIXED | MAP_NORESERVE, file, 0);
    check(pages != MAP_FAILED, "no pages");
    return pages;
}

/* The two pages in which sections lie, and again where they can't be written. */
static uint8_t *arena, *arena_read;

static void make_arena(void) {
    int file = memfd_create("fuzz", 0);
    check(file >= 0 && ftruncate(file, ARENA) == 0, "no file in memory");
    arena = guarded_pages(ARENA, PROT_READ | PROT_WRITE, MAP_SHARED, file);
    arena_read = guarded_pages(ARENA, PROT_READ, MAP_SHARED, file);
    close(file);
}

/* Watches the section and the bytes of the arena beside it. */
static void lend_in_arena(struct lent *l, size_t at) {
    size_t from = at < MARGIN ? 0 : at - MARGIN;
    size_t to = at + l->len + MARGIN < ARENA ? at + l->len + MARGIN : ARENA;
    l->write = arena + at;
    l->read = arena_read + at;
    l->watched = arena + from;
    l->watched_len = to - from;
    l->first = (ptrdiff_t)from - (ptrdiff_t)at;
}

static void lend_of_heap(struct lent *l) {
    l->write = malloc(l->len);
    check(l->write != NULL, "no memory");
    l->read = l->watched = l->write;
    l->watched_len = l->len;
    l->first = 0;
}

static void fill_at_random(uint8_t *bytes, size_t len) {
    for (size_t i = 0; i < len; i++) {
        bytes[i] = (uint8_t)any64();
    }
}

/* Room for a pass or a tally. On the heap nothing lies beside it, and what is watched lies elsewhere. */
static void *place(size_t len, struct beside *beside) {
    uint8_t *page = guarded_pages(PAGE, PROT_READ | PROT_WRITE, MAP_PRIVATE | MAP_ANONYMOUS, -1);
    size_t at = run.placement == END ? PAGE - len : 0;
    void *lent = run.placement == HEAP ? malloc(len) : page + at;
    check(lent != NULL, "no memory");
    beside->bytes = run.placement == END ? page + at - MARGIN : page + len;
    fill_at_random(beside->before, MARGIN);
    memcpy(beside->bytes, beside->before, MARGIN);
    return lent;
}

static bool unchanged_beside(const struct beside *beside) {
    return memcmp(beside->bytes, beside->before, MARGIN) == 0;
}

/* A section of a length with bytes at random, to be given back by `release`. An empty one may be at NULL. */
static struct lent *lend(size_t len) {
    static struct lent l;
    l.len = len;
    switch (run.placement) {
    case END: lend_in_arena(&l, ARENA - len); break;
    case BEGIN: lend_in_arena(&l, 0); break;
    case HEAP: lend_of_heap(&l); break;
    }
    fill_at_random(l.before, l.watched_len);
    if (len == 0 && one_in(2)) {
        l.write = NULL;
        l.read = NULL;
    }
    return &l;
}

static void release(struct lent *l) {
    if (run.placement == HEAP) {
        free(l->watched);
    }
    run.call = NULL;
}

/* Sets a byte of the section where it is watched. */
static void set_byte(struct lent *l, uint64_t at, uint8_t byte) {
    uint64_t place = at - (uint64_t)l->first;
    if (at < l->len && place < l->watched_len) {
        l->before[place] = byte;
    }
}

/* Puts the sequence where its bytes meet at the offset; fields keep the bytes there, and what lies outside is cut. */
static void put_sequence(struct lent *l, const struct sequence *s, uint64_t offset) {
    for (uint64_t i = 0; i < s->before_len; i++) {
        set_byte(l, offset - s->before_len + i, s->before[i]);
    }
    for (uint64_t i = 0; i < s->after_len; i++) {
        if (s->after[i] != 0) {
            set_byte(l, offset + i, s->after[i]);
        }
    }
}

/* Mostly a sequence: anywhere, at the section's begin or at its end, a byte short now and then, or spoiled. */
static struct record any_record_in(struct lent *l) {
    struct record r = any_record(l->len);
    if (one_in(6)) {
        return r;
    }
    const struct sequence *s = &sequences[below(COUNT(sequences))];
    switch (below(4)) {
    case 0: r.offset = s->before_len - one_in(6); break;
    case 1: r.offset = l->len - s->after_len + one_in(6); break;
    default: r.offset = below(l->len + 1); break;
    }
    put_sequence(l, s, r.offset);
    if (one_in(8)) {
        set_byte(l, r.offset + below(32) - 8, (uint8_t)any64());
    }
    r.r_type = s->r_type;
    return r;
}

/* An empty record, mostly at the last one's offset or a little past it. */
static struct record any_empty(size_t len, uint64_t last) {
    struct record r = any_record(len);
    r.r_type = JITAMORO_R_X86_64_NONE;
    if (!one_in(4)) {
        r.offset = last + (one_in(2) ? 0 : below(12));
    }
    return r;
}

/* ---- Answers as numbers */

static void add(struct answer *a, uint64_t field) {
    a->field[a->count++] = field;
}

static void add_pass(struct answer *a, const struct jitamoro_pass *p) {
    add(a, p->last);
    add(a, p->window);
    add(a, p->pending);
    add(a, p->ended);
}

static void add_tally(struct answer *a, const struct jitamoro_tally *t) {
    for (size_t i = 0; i < JITAMORO_TALLY_LENGTH; i++) {
        add(a, t->figures[i]);
    }
}

static struct answer of_choice(struct jitamoro_choice c) {
    return (struct answer){
        8, {c.refusal, c.chosen, c.kind, c.inst_offset, c.mandatory, c.skip_next, c.needs_got_fallback, c.new_type}};
}

static struct answer of_relaxed(struct jitamoro_relaxed r) {
    struct answer a = of_choice(r.choice);
    add(&a, r.offset);
    add(&a, (uint64_t)r.addend);
    return a;
}

static struct answer of_step(struct jitamoro_step s) {
    struct answer a = of_relaxed(s.relaxed);
    add(&a, s.skipped);
    add_pass(&a, lent_pass);
    return a;
}

static struct answer of_tally_step(struct jitamoro_step s) {
    struct answer a = of_step(s);
    add_tally(&a, lent_tally);
    return a;
}

static struct answer of_moved(struct jitamoro_moved m) {
    return (struct answer){3, {m.refusal, m.offset, (uint64_t)m.addend}};
}

static struct answer of_filled(struct jitamoro_filled f) {
    return (struct answer){2, {f.refusal, f.filled}};
}

static struct answer of_end(uint8_t refusal) {
    struct answer a = {1, {refusal}};
    add_pass(&a, lent_pass);
    return a;
}

static bool same(const struct answer *a, const struct answer *b) {
    bool alike = a->count == b->count;
    for (size_t i = 0; alike && i < a->count; i++) {
        alike = a->field[i] == b->field[i];
    }
    return alike;
}

/* ---- Calling */

#define RECORD(r, section, len)                                                                                        \
    (r)->r_type, section, len, (r)->offset, (r)->flags, (r)->output_kind, (r)->executable, (r)->address, (r)->addend

static struct answer perform(const struct call *c, const struct lent *l) {
    const struct record *r = &c->record;
    run.calls++;
    switch (c->function) {
    case RELAX: return of_relaxed(jitamoro_relax(RECORD(r, l->write, l->len)));
    case NEW_RELAXATION: return of_choice(jitamoro_new_relaxation(RECORD(r, l->read, l->len)));
    case APPLY: return of_moved(jitamoro_apply(c->kind, c->inst_offset, l->write, l->len, r->offset, r->addend));
    case PASS_STEP: return of_step(jitamoro_pass_step(lent_pass, RECORD(r, l->write, l->len)));
    case TALLY_STEP: return of_tally_step(jitamoro_tally_step(lent_pass, lent_tally, RECORD(r, l->write, l->len)));
    case PASS_END: return of_end(jitamoro_pass_end(lent_pass));
    case FILL:
        return of_filled(jitamoro_fill(r->r_type, l->write, l->len, r->offset, c->place, c->value, r->addend));
    case WRITE_PLT_ENTRY:
        return (struct answer){1, {jitamoro_write_plt_entry(l->write, l->len, c->got_address, c->plt_address)}};
    case FILL_SECTION_PADDING: jitamoro_fill_section_padding(l->write, l->len, r->executable); break;
    }
    return (struct answer){1, {0}};
}

/* Calls on the bytes of l->before, whose successors it puts into l->after, and on the call's pass and tally. */
static struct answer call_once(const struct call *c, struct lent *l) {
    memcpy(l->watched, l->before, l->watched_len);
    *lent_pass = c->pass;
    *lent_tally = c->tally;
    struct answer a = perform(c, l);
    memcpy(l->after, l->watched, l->watched_len);
    check(unchanged_beside(&beside_pass), "a byte beside the pass changed");
    check(unchanged_beside(&beside_tally), "a byte beside the tally changed");
    return a;
}

/* Whether no watched byte of the section or beside it has changed but those from begin to end. */
static bool only_within(const struct lent *l, int64_t begin, int64_t end) {
    for (size_t i = 0; i < l->watched_len; i++) {
        int64_t at = l->first + (int64_t)i;
        if (l->before[i] != l->after[i] && (at < begin || at >= end)) {
            return false;
        }
    }
    return true;
}

static bool unchanged(const struct lent *l) {
    return memcmp(l->before, l->after, l->watched_len) == 0;
}

/* Calls twice, and checks that both do the same, and nothing beside what was lent. */
static struct answer call(const struct call *c, struct lent *l) {
    static uint8_t first[MAX_WATCHED];
    run.call = c;
    run.lent = l;
    struct answer a = call_once(c, l);
    memcpy(first, l->after, l->watched_len);
    check(unchanged(l) || only_within(l, 0, (int64_t)l->len), "a byte beside the section changed");
    struct answer again = call_once(c, l);
    check(same(&a, &again), "another answer to the same call");
    check(memcmp(first, l->after, l->watched_len) == 0, "other bytes after the same call");
    run.refused[a.field[REFUSAL]]++;
    return a;
}

/* ---- One record */

/* Refusals 1 to 4, or 0. */
static unsigned refusal_of_record(const struct record *r, size_t len) {
    if (len > JITAMORO_MAX_SECTION_LENGTH) {
        return 1;
    }
    if (r->offset > len) {
        return 2;
    }
    if (r->flags > 15) {
        return 3;
    }
    return r->output_kind > 5 ? 4 : 0;
}

static const struct shape *shape_of(uint64_t kind, uint64_t inst_offset) {
    bool with_6 = kind == JITAMORO_KIND_REX_ADD_INDIRECT_TO_ABSOLUTE && inst_offset == 6;
    return with_6 ? &rex_add_with_6 : &shapes[kind];
}

/* Whether the relocation after one relaxed so is skipped. */
static bool kind_skips(uint64_t kind) {
    return kind >= JITAMORO_KIND_TLS_GD_TO_LOCAL_EXEC && kind <= JITAMORO_KIND_TLS_GD_TO_INITIAL_EXEC;
}

static bool kind_allows(uint64_t kind, uint64_t inst_offset) {
    if (kind >= KINDS) {
        return false;
    }
    unsigned allowed = shapes[kind].inst_offsets;
    return allowed == 0 || (inst_offset < 8 && (allowed >> inst_offset & 1) != 0);
}

/* Refusals 1, 2, 5, 6 of rewriting alone, or 0. */
static unsigned refusal_of_rewriting(const struct call *c, size_t len) {
    struct record only_offset = {.offset = c->record.offset};
    unsigned refusal = refusal_of_record(&only_offset, len);
    if (refusal != 0) {
        return refusal;
    }
    if (!kind_allows(c->kind, c->inst_offset)) {
        return 5;
    }
    const struct shape *s = shape_of(c->kind, c->inst_offset);
    int64_t offset = (int64_t)c->record.offset;
    return offset + s->begin < 0 || offset + s->end > (int64_t)len ? 6 : 0;
}

static struct answer check_rewriting(struct lent *l, const struct record *r, uint8_t kind, uint8_t inst_offset) {
    struct call c = {.function = APPLY, .record = *r, .kind = kind, .inst_offset = inst_offset};
    struct answer a = call(&c, l);
    struct answer expected = {3, {refusal_of_rewriting(&c, l->len), 0, 0}};
    if (expected.field[REFUSAL] == 0) {
        const struct shape *s = shape_of(kind, inst_offset);
        expected.field[1] = r->offset + (uint64_t)s->move;
        expected.field[2] = s->clears ? 0 : (uint64_t)r->addend;
        int64_t offset = (int64_t)r->offset;
        check(only_within(l, offset + s->begin, offset + s->end), "a byte outside the window changed");
        run.rewritten[kind]++;
    } else {
        check(unchanged(l), "a refused rewriting changed a byte");
    }
    check(same(&a, &expected), "rewriting: wrong refusal, offset or addend");
    return a;
}

static const struct row *row_of(uint64_t r_type) {
    for (size_t i = 0; i < COUNT(rows); i++) {
        if (rows[i].r_type == r_type) {
            return &rows[i];
        }
    }
    return NULL;
}

static struct answer check_choosing(struct lent *l, const struct record *r) {
    struct call c = {.function = NEW_RELAXATION, .record = *r};
    struct answer a = call(&c, l);
    check(unchanged(l), "choosing changed a byte");
    check(a.field[REFUSAL] == refusal_of_record(r, l->len), "choosing: wrong refusal");
    if (a.field[CHOSEN] == 0) {
        struct answer nothing = {8, {a.field[REFUSAL]}};
        check(same(&a, &nothing), "nothing is chosen, but a field isn't 0");
        return a;
    }
    uint64_t kind = a.field[KIND];
    check(a.field[REFUSAL] == 0, "refused and chosen");
    check(kind != JITAMORO_KIND_REX_ADD_INDIRECT_TO_LEA && kind_allows(kind, a.field[INST_OFFSET]), "no such kind");
    check((shapes[kind].inst_offsets == 0) == (a.field[INST_OFFSET] == 0), "instruction offset of another kind");
    check(a.field[SKIP_NEXT] == kind_skips(kind), "skip of another kind");
    const struct row *row = row_of(a.field[NEW_TYPE]);
    check(row != NULL, "no such new type");
    check(a.field[GOT_FALLBACK] == (row->kind == JITAMORO_RELOCATION_ABSOLUTE), "fallback of another type");
    return a;
}

/* What choosing and relaxing gave, and the bytes that relaxing left. */
struct tried {
    struct answer choice, relaxed;
    uint8_t bytes[MAX_WATCHED];
};

/* Relaxing is choosing and then rewriting. */
static void check_relaxing(struct lent *l, const struct record *r, struct tried *t) {
    t->choice = check_choosing(l, r);
    struct call c = {.function = RELAX, .record = *r};
    t->relaxed = call(&c, l);
    memcpy(t->bytes, l->after, l->watched_len);
    struct answer expected = {10, {t->choice.field[REFUSAL]}};
    const uint8_t *bytes = l->before;
    if (t->choice.field[CHOSEN] != 0) {
        uint8_t kind = (uint8_t)t->choice.field[KIND];
        struct answer moved = check_rewriting(l, r, kind, (uint8_t)t->choice.field[INST_OFFSET]);
        bytes = l->after;
        expected.field[REFUSAL] = moved.field[REFUSAL];
        if (moved.field[REFUSAL] == 0) {
            expected = t->choice;
            add(&expected, moved.field[1]);
            add(&expected, moved.field[2]);
            run.relaxed[kind]++;
        }
        run.call = &c;
    }
    check(same(&t->relaxed, &expected), "relaxing isn't choosing and then rewriting");
    check(memcmp(t->bytes, bytes, l->watched_len) == 0,
          "relaxing leaves other bytes than rewriting, or than there were");
}

/* ---- Filling a field */

static const uint8_t filled_types[] = {JITAMORO_R_X86_64_PC32, JITAMORO_R_X86_64_32, JITAMORO_R_X86_64_32S,
                                       JITAMORO_R_X86_64_TPOFF32};

static bool is_filled(uint32_t r_type) {
    bool is = false;
    for (size_t i = 0; i < COUNT(filled_types); i++) {
        is = is || r_type == filled_types[i];
    }
    return is;
}

/* What the field is to hold. */
static uint64_t sum_of(const struct call *c) {
    uint64_t sum = c->value + (uint64_t)c->record.addend;
    return c->record.r_type == JITAMORO_R_X86_64_PC32 ? sum - c->place : sum;
}

/* Whether a sum lies in the range of one of the four types. */
static bool fits(uint32_t r_type, uint64_t sum) {
    return r_type == JITAMORO_R_X86_64_32 ? sum < 1ull << 32 : sum + (1ull << 31) < 1ull << 32;
}

/* Refusals 1, 2, 7, 16, 15, or 0. */
static unsigned refusal_of_filling(const struct call *c, size_t len) {
    struct record only_offset = {.offset = c->record.offset};
    unsigned refusal = refusal_of_record(&only_offset, len);
    if (refusal != 0) {
        return refusal;
    }
    if (row_of(c->record.r_type) == NULL) {
        return 7;
    }
    if (!is_filled(c->record.r_type)) {
        return 0;
    }
    return len - c->record.offset < 4 ? 16 : fits(c->record.r_type, sum_of(c)) ? 0 : 15;
}

/* Whether the exact sum lies outside 0 to 2^64. Less a place it must also overflow when read as signed: that a symbol
   lies before the field is no wrap. */
static bool sum_wraps(const struct call *c) {
    __int128 sum = (__int128)c->value + c->record.addend;
    if (c->record.r_type == JITAMORO_R_X86_64_PC32) {
        sum -= c->place;
        return sum < INT64_MIN || sum > UINT64_MAX;
    }
    return sum < 0 || sum > UINT64_MAX;
}

static void count_filling(const struct call *c, size_t len, unsigned refusal) {
    uint32_t r_type = c->record.r_type;
    bool far = !fits(JITAMORO_R_X86_64_32, sum_of(c)) && !fits(JITAMORO_R_X86_64_32S, sum_of(c));
    run.fill_refused[refusal]++;
    if (refusal == 16) {
        run.filling[CUT_AND_FAR] += far;
    } else if (refusal == 0 && is_filled(r_type)) {
        run.filled[r_type]++;
        run.filled_wrapped[r_type] += sum_wraps(c);
    } else if (refusal == 0) {
        run.filling[len - c->record.offset < 4 ? CUT_NONE : far ? FAR_NONE : NONE]++;
    }
}

/* Fills the field of a record, on the bytes of l->before. */
static void check_filling(struct lent *l, const struct record *r, uint64_t place, uint64_t value) {
    static uint8_t expected_bytes[MAX_WATCHED];
    struct call c = {.function = FILL, .record = *r, .place = place, .value = value};
    struct answer a = call(&c, l);
    unsigned refusal = refusal_of_filling(&c, l->len);
    bool filled = refusal == 0 && is_filled(r->r_type);
    struct answer expected = {2, {refusal, filled}};
    check(same(&a, &expected), "filling: wrong refusal, or filled where it shouldn't be");
    memcpy(expected_bytes, l->before, l->watched_len);
    for (uint64_t i = 0; i < 4 && filled; i++) {
        uint64_t at = r->offset + i - (uint64_t)l->first;
        if (at < l->watched_len) {
            expected_bytes[at] = (uint8_t)(sum_of(&c) >> 8 * i);
        }
    }
    check(memcmp(l->after, expected_bytes, l->watched_len) == 0, "filling: wrong bytes, or others than the field's");
    count_filling(&c, l->len, refusal);
}

/* Mostly one of the types that are filled, and a sum at the ends of the ranges. */
static void check_any_filling(struct lent *l, const struct record *record) {
    struct record r = *record;
    if (!one_in(4)) {
        r.r_type = filled_types[below(COUNT(filled_types))];
    }
    r.addend = (int64_t)any_number();
    uint64_t place = any_number(), value = any_number();
    if (!one_in(4)) {
        value -= (uint64_t)r.addend;
        value += r.r_type == JITAMORO_R_X86_64_PC32 ? place : 0;
    }
    check_filling(l, &r, place, value);
}

/* What relaxing left is filled, on the bytes that it left. */
static void check_filling_relaxed(struct lent *l, const struct record *record, const struct tried *t) {
    static uint8_t before[MAX_WATCHED];
    struct record r = *record;
    if (t->relaxed.field[CHOSEN] == 0) {
        return;
    }
    r.r_type = (uint32_t)t->relaxed.field[NEW_TYPE];
    r.offset = t->relaxed.field[NEW_OFFSET];
    r.addend = (int64_t)t->relaxed.field[NEW_ADDEND];
    memcpy(before, l->before, l->watched_len);
    memcpy(l->before, t->bytes, l->watched_len);
    uint64_t filled = run.filled[r.r_type];
    check_filling(l, &r, 0x401000 + r.offset, r.address);
    run.filling[AFTER_RELAXING] += run.filled[r.r_type] - filled;
    memcpy(l->before, before, l->watched_len);
}

/* ---- A pass and its tally */

/* A walk between two steps; the empty records taken since a skip is pending, and the last offset before them. */
struct walked {
    struct jitamoro_pass pass;
    struct jitamoro_tally tally;
    uint64_t empties, last;
};

static struct walked fresh(void) {
    struct walked w = {.pass = jitamoro_pass_fresh(), .tally = jitamoro_tally_fresh()};
    struct answer words = {0, {0}}, zeros = {4 + JITAMORO_TALLY_LENGTH, {0}};
    run.calls += 2;
    add_pass(&words, &w.pass);
    add_tally(&words, &w.tally);
    check(same(&words, &zeros), "a fresh pass isn't 4 zeros, or a fresh tally 22");
    return w;
}

/* Refusals 21, 1 to 4, 22, or 0. */
static unsigned refusal_of_step(const struct jitamoro_pass *p, const struct record *r, size_t len) {
    if (p->ended != 0) {
        return 21;
    }
    unsigned refusal = refusal_of_record(r, len);
    return refusal == 0 && r->offset < p->last ? 22 : refusal;
}

/* The pass after a record that a pending skip meets. Answers whether it is skipped: an empty one isn't, and leaves the
   skip to the next. */
static bool skip(struct jitamoro_pass *p, const struct record *r) {
    p->pending = is_empty(r);
    p->last = r->offset;
    return !is_empty(r);
}

/* What a record met while a skip is pending, given the walk before, the refusal and what choosing gave. */
static void count_pending(struct walked *w, const struct record *r, uint64_t refusal, const struct answer *choice) {
    if (is_empty(r)) {
        run.empty_refused[refusal]++;
        if (refusal == 0) {
            run.pending[w->empties == 0 ? EMPTY_TAKEN : EMPTY_AGAIN]++;
            w->last = w->empties++ == 0 ? w->pass.last : w->last;
        }
    } else if (refusal == 0) {
        run.pending[THEN_SKIPPED] += w->empties != 0;
        run.pending[SKIPPED_NONE] += choice->field[CHOSEN] == 0;
        run.pending[SKIPPED_TO_0] += choice->field[CHOSEN] != 0 && choice->field[NEW_TYPE] == 0;
        w->empties = 0;
    } else {
        run.pending[THEN_22] += refusal == 22 && w->empties != 0 && r->offset >= w->last;
    }
}

/* The pass after a record that isn't skipped or refused but for overlapping, which answers false. */
static bool take(struct jitamoro_pass *p, uint64_t offset, const struct tried *t) {
    if (t->relaxed.field[REFUSAL] != 0) {
        return true;
    }
    if (t->choice.field[CHOSEN] != 0) {
        const struct shape *s = shape_of(t->choice.field[KIND], t->choice.field[INST_OFFSET]);
        bool empty = s->begin == s->end;
        if (!empty && offset + (uint64_t)s->begin < p->window) {
            return false;
        }
        p->window = empty ? p->window : offset + (uint64_t)s->end;
        p->pending = t->choice.field[SKIP_NEXT];
    }
    p->last = offset;
    return true;
}

static void add_to_figure(struct jitamoro_tally *t, uint64_t figure, uint64_t more) {
    t->figures[figure] += more;
    run.raised[figure] += more != 0;
    run.wrapped[figure == JITAMORO_TALLY_BYTES ? WRAPPED_BYTES : WRAPPED_COUNT] += t->figures[figure] < more;
}

/* The tally after a step with this answer. */
static void count(struct jitamoro_tally *t, const struct answer *a) {
    if (a->field[REFUSAL] != 0) {
        return;
    }
    if (a->field[CHOSEN] != 0) {
        const struct shape *s = shape_of(a->field[KIND], a->field[INST_OFFSET]);
        add_to_figure(t, a->field[KIND], 1);
        add_to_figure(t, JITAMORO_TALLY_BYTES, (uint64_t)(s->end - s->begin));
    } else {
        add_to_figure(t, a->field[SKIPPED] != 0 ? JITAMORO_TALLY_SKIPPED : JITAMORO_TALLY_NONE, 1);
    }
}

/* One step from a pass; what was relaxed is what relaxing gave. Then the same with a tally. Answers both then. */
static struct walked check_step(struct lent *l, const struct record *r, struct walked w, const struct tried *t) {
    struct call c = {.function = PASS_STEP, .record = *r, .pass = w.pass, .tally = w.tally};
    struct answer a = call(&c, l);
    struct answer expected = {10, {refusal_of_step(&w.pass, r, l->len)}};
    const uint8_t *bytes = l->before;
    bool skipped = false, pending = w.pass.pending != 0;
    if (pending) {
        count_pending(&w, r, expected.field[REFUSAL], &t->choice);
    }
    if (expected.field[REFUSAL] == 0 && pending) {
        skipped = skip(&w.pass, r);
    } else if (expected.field[REFUSAL] == 0) {
        if (take(&w.pass, r->offset, t)) {
            expected = t->relaxed;
            bytes = t->bytes;
        } else {
            expected.field[REFUSAL] = 23;
        }
    }
    add(&expected, skipped);
    add_pass(&expected, &w.pass);
    check(same(&a, &expected), "a step: wrong refusal, answer or pass");
    check(memcmp(l->after, bytes, l->watched_len) == 0, "a step leaves other bytes than relaxing, or than there were");
    c.function = TALLY_STEP;
    a = call(&c, l);
    count(&w.tally, &expected);
    add_tally(&expected, &w.tally);
    check(same(&a, &expected), "a step with a tally: another answer or pass than without, or wrong figures");
    check(memcmp(l->after, bytes, l->watched_len) == 0, "a step with a tally leaves other bytes than without");
    return w;
}

static void check_end(struct lent *l, struct walked w) {
    struct call c = {.function = PASS_END, .pass = w.pass};
    struct answer a = call(&c, l);
    struct answer expected = {1, {w.pass.ended != 0 ? 21 : w.pass.pending != 0 ? 24 : 0}};
    run.pending[THEN_24] += expected.field[REFUSAL] == 24 && w.empties != 0;
    w.pass.ended = expected.field[REFUSAL] == 0 ? 1 : w.pass.ended;
    add_pass(&expected, &w.pass);
    check(same(&a, &expected), "an end: wrong refusal or pass");
}

/* One record by every function; answers pass and tally after it, and l->after are the bytes. */
static struct walked check_record(struct lent *l, const struct record *r, struct walked w) {
    static struct tried t;
    check_relaxing(l, r, &t);
    check_rewriting(l, r, any_byte(KINDS, 4), any_byte(8, 3));
    check_any_filling(l, r);
    check_filling_relaxed(l, r, &t);
    struct walked any = {.pass = any_pass(r), .tally = any_tally()};
    check_end(l, any);
    check_end(l, check_step(l, r, any, &t));
    return check_step(l, r, w, &t);
}

/* A few records in one section, each on the bytes that the one before left; before one that is to be skipped often
   empty ones. */
static void walk(struct lent *l) {
    struct walked w = fresh();
    for (uint64_t left = 1 + below(4); left != 0;) {
        bool empty = w.pass.pending != 0 && !one_in(3);
        struct record r = empty ? any_empty(l->len, w.pass.last) : any_record_in(l);
        w = check_record(l, &r, w);
        memcpy(l->before, l->after, l->watched_len);
        left -= !empty;
    }
}

/* ---- PLT entries and padding */

static void check_plt(void) {
    static const uint8_t template[16] = {0xf3, 0x0f, 0x1e, 0xfa, 0xff, 0x25, 0,    0,
                                         0,    0,    0x66, 0x0f, 0x1f, 0x44, 0x00, 0x00};
    struct lent *l = lend(one_in(8) ? any_length() : 16);
    struct call c = {.function = WRITE_PLT_ENTRY, .got_address = any_number(), .plt_address = any_number()};
    if (one_in(2)) {
        c.got_address = c.plt_address + 10 + any_number();
    }
    uint64_t distance = c.got_address - c.plt_address - 10;
    bool near = distance + 0x80000000 < 0x100000000;
    uint64_t refusal = l->len != 16 ? 8 : near ? 0 : 9;
    struct answer a = call(&c, l);
    check(a.field[REFUSAL] == refusal, "a PLT entry: wrong refusal");
    if (refusal == 8) {
        check(unchanged(l), "a PLT buffer of another length changed");
    } else {
        uint8_t entry[16];
        memcpy(entry, template, sizeof entry);
        for (int i = 0; i < 4 && near; i++) {
            entry[6 + i] = (uint8_t)(distance >> 8 * i);
        }
        check(memcmp(l->after - l->first, entry, sizeof entry) == 0, "a PLT entry: wrong bytes");
    }
    release(l);
}

static void check_padding(void) {
    struct lent *l = lend(any_length());
    struct call c = {.function = FILL_SECTION_PADDING, .record.executable = one_in(2)};
    call(&c, l);
    uint8_t byte = c.record.executable ? 0xcc : 0;
    for (size_t i = 0; i < l->len; i++) {
        check(l->after[(ptrdiff_t)i - l->first] == byte, "wrong padding");
    }
    release(l);
}

/* ---- Numbers alone */

static void check_output_kind(uint8_t n) {
    run.number = n;
    struct jitamoro_output_kind_answer a = jitamoro_output_kind(n);
    bool is = n <= 5;
    check(a.refusal == (is ? 0 : 4), "an output kind: wrong refusal");
    check(a.is_executable == (n <= 3) && a.is_static_executable == (n <= 1), "an output kind: wrong");
    check(a.is_position_independent == (n == 1 || n == 3 || n == 4), "an output kind: wrong model");
    check(a.has_fixed_load_address == (n == 0 || n == 2), "an output kind: wrong load address");
    run.refused[a.refusal]++;
}

static void check_value_flags(uint8_t n) {
    run.number = n;
    struct jitamoro_value_flags_answer a = jitamoro_value_flags(n);
    bool is = n <= 15;
    check(a.refusal == (is ? 0 : 3), "flags: wrong refusal");
    check(a.is_interposable == (is && n % 2 == 0) && a.is_absolute == (is && n / 2 % 2 == 1), "flags: wrong 1 or 2");
    check(a.is_dynamic == (is && n / 4 % 2 == 1) && a.is_ifunc == (is && n / 8 == 1), "flags: wrong 4 or 8");
    check(a.has_link_time_address == (n <= 1), "flags: wrong link-time address");
    run.refused[a.refusal]++;
}

/* The ends of a row's range, or 0 where it isn't checked. */
static int64_t range_end(const struct row *row, bool upper) {
    int64_t half = row->range == 'a' ? 0 : 1ll << (8 * row->size - 1);
    if (upper) {
        return row->range == 's' ? half : 2 * half;
    }
    return row->range == 'u' ? 0 : -half;
}

static void check_type(uint32_t r_type) {
    static const struct row none = {0, 0, 0, 'a'};
    run.number = r_type;
    struct jitamoro_relocation a = jitamoro_relocation_from_raw(r_type);
    const struct row *row = row_of(r_type);
    check(a.refusal == (row == NULL ? 7 : 0) && a.alignment == (row == NULL ? 0 : 1), "a type: wrong refusal");
    row = row == NULL ? &none : row;
    check(a.kind == row->kind && a.size == row->size && a.checked == (row->range != 'a'), "a type: wrong row");
    check(!a.mask && !a.bias && !a.thunkable && !a.implicit_addend, "a type: a field isn't 0");
    check(a.min == range_end(row, false) && a.max == range_end(row, true), "a type: wrong range");
    run.refused[a.refusal]++;
}

static void check_numbers(void) {
    check_output_kind(any_byte(8, 5));
    check_value_flags(any_byte(20, 15));
    check_type(one_in(4) ? (uint32_t)any_number() : (uint32_t)below(61));
    uint32_t kind = one_in(4) ? (uint32_t)any_number() : (uint32_t)below(16);
    run.number = kind;
    check(jitamoro_x86_64_r_type(kind) == (kind < COUNT(dynamic_types) ? dynamic_types[kind] : 0), "a dynamic type");
    uint8_t relaxed = any_byte(20, 18);
    run.number = relaxed;
    check(jitamoro_next_modifier(relaxed) == kind_skips(relaxed), "a modifier");
    int64_t min = (int64_t)any_number(), max = (int64_t)any_number();
    int64_t value = one_in(3) ? min : one_in(2) ? max : (int64_t)any_number();
    bool checked = !one_in(4);
    run.number = (uint64_t)value;
    bool inside = !checked || (min <= value && value < max);
    check(jitamoro_allowed_range_contains(checked, min, max, value) == inside, "a range");
    run.calls += 6;
}

/* ---- Long sections */

/* Sections that are too long by a byte or more, none of whose bytes can be accessed. Those past 2^32 would look
   short in 32 bits; valgrind takes seconds to reserve so much, so that the heap's leg leaves them out. */
static struct lent *lend_too_long(void) {
    static const size_t lengths[] = {JITAMORO_MAX_SECTION_LENGTH + 1, JITAMORO_MAX_SECTION_LENGTH + PAGE,
                                     (1ull << 32) + 7, (1ull << 32) + MARGIN};
    static uint8_t *pages;
    static struct lent l;
    size_t count = run.placement == HEAP ? 2 : COUNT(lengths);
    if (pages == NULL) {
        pages = guarded_pages(lengths[count - 1], PROT_NONE, MAP_PRIVATE | MAP_ANONYMOUS, -1);
    }
    l.read = l.write = pages;
    l.watched = l.before;
    l.len = lengths[below(count)];
    return &l;
}

static void check_too_long(void) {
    struct lent *l = lend_too_long();
    struct record r = any_record(l->len);
    check_record(l, &r, fresh());
    run.call = NULL;
}

/* The longest section, between two pages that can't be accessed; records lie near its ends. */
static void check_longest(void) {
    static uint8_t *pages;
    static struct lent l;
    l.len = JITAMORO_MAX_SECTION_LENGTH;
    if (pages == NULL) {
        pages = guarded_pages(l.len, PROT_READ | PROT_WRITE, MAP_PRIVATE | MAP_ANONYMOUS, -1);
    }
    l.read = l.write = pages;
    l.watched_len = 2 * MARGIN;
    l.first = one_in(2) ? 0 : (ptrdiff_t)(l.len - l.watched_len);
    l.watched = pages + l.first;
    fill_at_random(l.before, l.watched_len);
    const struct sequence *s = &sequences[below(COUNT(sequences))];
    struct record r = any_record(l.len);
    r.r_type = s->r_type;
    r.offset = l.first == 0 ? below(8) : l.len - below(24);
    put_sequence(&l, s, r.offset);
    check_record(&l, &r, fresh());
    run.call = NULL;
}

/* ---- The run */

/* After the first half of a pair: what can become of empty records and of the call, which is each time the next while
   the skip stays. A row has the type, how far past the first half it lies, and what is changed in its numbers. */
static void tour_pair(struct lent *l, const struct record *first, struct walked w) {
    static const struct {
        uint32_t r_type, past;
        uint8_t flags, output_kind;
    } rows[] = {{0, 0, 0, 0},  {0, 1, 0, 0}, {0, 0, 0, 0}, {0, PAGE, 0, 0}, {0, 1, 16, 0},
                {0, 1, 0, 16}, {4, 0, 0, 0}, {4, 1, 1, 0}, {35, 1, 0, 0}};
    for (size_t i = 0; i < COUNT(rows); i++) {
        struct record r = *first;
        r.r_type = rows[i].r_type;
        r.offset += rows[i].past;
        r.flags ^= rows[i].flags;
        r.output_kind ^= rows[i].output_kind;
        struct walked then = check_record(l, &r, w), ended = w;
        w = then.pass.pending != 0 ? then : w;
        check_end(l, w);
        ended.pass.ended = 1;
        check_record(l, &r, ended);
        check_record(lend_too_long(), &r, w);
    }
}

/* Filling by every type that is known and some that aren't, with the field whole, cut, or past the end, and in a
   section that is too long; sums in range, out of it, and those that wrap. */
static void tour_filling(void) {
    static const struct {
        uint64_t place, value;
        int64_t addend;
    } sums[] = {{0x400000, 0x401000, -4}, {0x400000, 1ull << 40, 0}, {3, UINT64_MAX, 7}, {UINT64_MAX, 0, 0}};
    static const uint64_t offsets[] = {0, 1, 4, 5, UINT64_MAX};
    for (size_t i = 0; i < 61 * COUNT(sums) * COUNT(offsets); i++) {
        size_t sum = i / 61 % COUNT(sums);
        struct record r = {.r_type = i % 61, .offset = offsets[i / 61 / COUNT(sums)], .addend = sums[sum].addend};
        struct lent *l = lend(4);
        check_filling(l, &r, sums[sum].place, sums[sum].value);
        release(l);
        check_filling(lend_too_long(), &r, sums[sum].place, sums[sum].value);
        run.call = NULL;
    }
}

/* Every sequence, whole, with the flags and output kinds that lead to its kinds. */
static void tour(void) {
    static const uint8_t flags[] = {0, 1, 3, 8}, output_kinds[] = {0, 1, 3, 4};
    for (size_t i = 0; i < COUNT(sequences) * COUNT(flags) * COUNT(output_kinds); i++) {
        const struct sequence *s = &sequences[i % COUNT(sequences)];
        size_t rest = i / COUNT(sequences);
        struct record r = {.r_type = s->r_type, .offset = s->before_len, .executable = true, .addend = -4};
        r.flags = flags[rest % COUNT(flags)];
        r.output_kind = output_kinds[rest / COUNT(flags)];
        struct lent *l = lend(s->before_len + s->after_len + below(3));
        put_sequence(l, s, r.offset);
        struct walked w = check_record(l, &r, fresh());
        if (w.pass.pending != 0) {
            tour_pair(l, &r, w);
        }
        release(l);
    }
}

static void play_round(void) {
    run.round++;
    struct lent *l = lend(any_length());
    walk(l);
    release(l);
    check_plt();
    check_padding();
    check_numbers();
    if (run.round % 32 == 0) {
        check_too_long();
        check_longest();
    }
}

/* How many of these numbers were seen; names those that weren't. */
static size_t seen(const char *what, const uint64_t *tally, const uint8_t *numbers, size_t count) {
    size_t found = 0;
    for (size_t i = 0; i < count; i++) {
        found += tally[numbers[i]] != 0;
        if (tally[numbers[i]] == 0) {
            printf("fuzz: %s %d was never seen\n", what, numbers[i]);
        }
    }
    return found;
}

/* The same of outcomes with names. */
static size_t seen_named(const char *what, const uint64_t *tally, const char *const *outcomes, size_t count) {
    size_t found = 0;
    for (size_t i = 0; i < count; i++) {
        found += tally[i] != 0;
        if (tally[i] == 0) {
            printf("fuzz: %s: %s was never seen\n", what, outcomes[i]);
        }
    }
    return found;
}

static int summary(double seconds) {
    static const uint8_t refusals[] = {1, 2, 3, 4, 5, 6, 7, 8, 9, 15, 16, 21, 22, 23, 24};
    static const uint8_t kinds[] = {4, 0, 1, 2, 3, 5, 6, 7, 8, 9, 10, 11, 12, 13, 14, 15, 16, 17, 18};
    static const uint8_t figures[] = {JITAMORO_TALLY_NONE, JITAMORO_TALLY_SKIPPED, JITAMORO_TALLY_BYTES};
    static const uint8_t fill_refusals[] = {1, 2, 7, 16, 15};
    static const uint8_t empty_refusals[] = {1, 2, 3, 4, 21, 22};
    /* Kind 4 is never chosen. */
    size_t relaxed = seen("relaxing, kind", run.relaxed, kinds + 1, COUNT(kinds) - 1);
    size_t rewritten = seen("rewriting, kind", run.rewritten, kinds, COUNT(kinds));
    size_t refused = seen("refusal", run.refused, refusals, COUNT(refusals));
    size_t filled = seen("filling: filled, type", run.filled, filled_types, COUNT(filled_types));
    filled += seen("filling: a sum that wraps, type", run.filled_wrapped, filled_types, COUNT(filled_types));
    filled += seen("filling: refusal", run.fill_refused, fill_refusals, COUNT(fill_refusals));
    filled += seen_named("filling", run.filling, fillings, FILLINGS);
    size_t raised = seen("a tally, kind", run.raised, kinds + 1, COUNT(kinds) - 1);
    raised += seen("a tally, figure", run.raised, figures, COUNT(figures));
    size_t wrapped = seen_named("a tally", run.wrapped, wraps, WRAPS);
    size_t pending = seen_named("while a skip is pending", run.pending, pendings, PENDINGS);
    pending += seen("an empty record while a skip is pending, refusal", run.empty_refused, empty_refusals,
                    COUNT(empty_refusals));
    printf("%" PRIu64 " calls in %.1f s; %zu kinds relaxed, %zu rewritten, %zu refusals, %zu figures, ", run.calls,
           seconds, relaxed, rewritten, refused, raised);
    printf("%zu outcomes of filling, %zu while a skip is pending\n", filled, pending);
    bool all = relaxed == COUNT(kinds) - 1 && rewritten == COUNT(kinds) && refused == COUNT(refusals);
    all = all && raised == COUNT(kinds) - 1 + COUNT(figures) && wrapped == WRAPS;
    all = all && filled == 2 * COUNT(filled_types) + COUNT(fill_refusals) + FILLINGS;
    return all && pending == PENDINGS + COUNT(empty_refusals) ? 0 : 1;
}

static double now(void) {
    struct timespec t;
    clock_gettime(CLOCK_MONOTONIC, &t);
    return (double)t.tv_sec + (double)t.tv_nsec / 1e9;
}

int main(int argc, char **argv) {
    static const char *const placements[] = {[END] = "end", [BEGIN] = "begin", [HEAP] = "heap"};
    size_t placement = 0;
    while (argc == 4 && placement < COUNT(placements) && strcmp(argv[1], placements[placement]) != 0) {
        placement++;
    }
    if (argc != 4 || placement == COUNT(placements)) {
        fputs("fuzz end|begin|heap SECONDS SEED\n", stderr);
        return 2;
    }
    run.placement = placement;
    run.seed = state = strtoull(argv[3], NULL, 10);
    double start = now(), seconds = strtod(argv[2], NULL);
    struct sigaction action = {.sa_sigaction = on_fault, .sa_flags = SA_SIGINFO};
    sigaction(SIGSEGV, &action, NULL);
    sigaction(SIGBUS, &action, NULL);
    make_arena();
    lent_pass = place(sizeof *lent_pass, &beside_pass);
    lent_tally = place(sizeof *lent_tally, &beside_tally);
    tour();
    tour_filling();
    do {
        for (int i = 0; i < 128; i++) {
            play_round();
        }
    } while (now() - start < seconds);
    return summary(now() - start);
}
