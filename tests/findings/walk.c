/*
 * Walks of a pass over lists of records, TYPE@OFFSET, with flags 1 and output kind 0:
 *     walk REMEDY BYTES RECORD..     prints what becomes of each record, of the end and of the bytes
 *     walk search                    which short lists can't be ended, though in the order of their offsets they can
 * REMEDY: given, as the list is; sorted, by offset; left-out, without the empty records, those of type 0; put-back,
 * with the pass from before each empty record put back after it.
 */
#include <jitamoro.h>
#include <stdio.h>
#include <stdlib.h>
#include <string.h>

enum remedy { GIVEN, SORTED, LEFT_OUT, PUT_BACK, REMEDIES };
enum { MOST_BYTES = 64, MOST_RECORDS = 8, SHORT = 12 };
static const char *const names[REMEDIES] = {"given", "sorted", "left-out", "put-back"};

struct section {
    size_t len;
    uint8_t bytes[MOST_BYTES];
};

struct entry {
    uint32_t r_type;
    uint64_t offset;
};

struct list {
    size_t count;
    struct entry entries[MOST_RECORDS];
};

/* What a walk leaves; the steps stand by the list's places. */
struct walked {
    struct section section;
    struct jitamoro_pass pass;
    struct jitamoro_tally tally;
    struct jitamoro_step steps[MOST_RECORDS];
    uint8_t end;
};

/* Records of one offset keep their order. */
static void sort(struct list *list) {
    for (size_t i = 1; i < list->count; i++) {
        struct entry entry = list->entries[i];
        size_t to = i;
        for (; to > 0 && list->entries[to - 1].offset > entry.offset; to--) list->entries[to] = list->entries[to - 1];
        list->entries[to] = entry;
    }
}

static struct walked walk(enum remedy remedy, const struct section *section, struct list *list) {
    struct walked w = {.section = *section};
    if (remedy == SORTED) sort(list);
    for (size_t i = 0; i < list->count; i++) {
        const struct entry *entry = &list->entries[i];
        bool empty = entry->r_type == JITAMORO_R_X86_64_NONE;
        struct jitamoro_pass before = w.pass;
        if (remedy == LEFT_OUT && empty) continue;
        w.steps[i] = jitamoro_tally_step(&w.pass, &w.tally, entry->r_type, w.section.bytes, w.section.len,
                                         entry->offset, JITAMORO_FLAG_NON_INTERPOSABLE, JITAMORO_OUTPUT_STATIC_FIXED,
                                         true, 0x401000, -4);
        if (remedy == PUT_BACK && empty) w.pass = before;
    }
    w.end = jitamoro_pass_end(&w.pass);
    return w;
}

static void print_step(const struct entry *entry, const struct jitamoro_step *step) {
    const struct jitamoro_choice *choice = &step->relaxed.choice;
    printf("%u at %u ", entry->r_type, (unsigned)entry->offset);
    if (choice->refusal != 0) {
        printf("refused %d, ", choice->refusal);
    } else {
        printf("%s, ", step->skipped ? "skipped" : choice->chosen ? jitamoro_kind_name(choice->kind) : "none");
    }
}

static void print_walk(enum remedy remedy, const struct section *section, struct list *list) {
    struct walked w = walk(remedy, section, list);
    for (size_t i = 0; i < list->count; i++) {
        if (remedy == LEFT_OUT && list->entries[i].r_type == 0) continue;
        print_step(&list->entries[i], &w.steps[i]);
    }
    if (w.end != 0) {
        printf("end refused %d:", w.end);
    } else {
        printf("ended:");
    }
    for (size_t i = 0; i < w.section.len; i++) printf(" %02x", w.section.bytes[i]);
    puts("");
}

/* ---- The search */

/* The sequences that a kind with a skip is chosen for; their fields don't count. */
static const struct section sequences[] = {
    {16, "\x66\x48\x8d\x3d\0\0\0\0\x66\x66\x48\xe8"},
    {16, "\x66\x48\x8d\x3d\0\0\0\0\x66\x48\xff\x15"},
    {12, "\x48\x8d\x3d\0\0\0\0\xe8"},
    {13, "\x48\x8d\x3d\0\0\0\0\xff\x15"},
    {22, "\x48\x8d\x3d\0\0\0\0\x48\xb8\0\0\0\0\0\0\0\0\x48\x01\xd8\xff\xd0"},
};

/* Whether a record of any type that has a rule, offset, flags and output kind sets a skip. */
static bool has_setter(const struct section *section) {
    for (uint32_t r_type = 0; r_type < 64; r_type++) {
        for (unsigned asked = 0; asked < 16 * 6; asked++) {
            for (uint64_t offset = 0; offset <= section->len; offset++) {
                struct section s = *section;
                struct jitamoro_pass pass = {0};
                jitamoro_pass_step(&pass, r_type, s.bytes, s.len, offset, (uint8_t)(asked % 16), (uint8_t)(asked / 16),
                                   true, 0x401000, -4);
                if (pass.pending != 0) return true;
            }
        }
    }
    return false;
}

/* Of lists: how many, and of those that can't be ended as given how many each remedy helps. */
struct found {
    unsigned lists, alike, stuck[4], setter_empty_other, at_its_place, helped[REMEDIES];
};

static bool same_step(const struct jitamoro_step *a, const struct jitamoro_step *b) {
    const struct jitamoro_choice *x = &a->relaxed.choice, *y = &b->relaxed.choice;
    return a->skipped == b->skipped && x->refusal == y->refusal && x->chosen == y->chosen && x->kind == y->kind &&
           x->new_type == y->new_type && a->relaxed.offset == b->relaxed.offset &&
           a->relaxed.addend == b->relaxed.addend;
}

static bool same_bytes(const struct walked *a, const struct walked *b) {
    return memcmp(a->section.bytes, b->section.bytes, MOST_BYTES) == 0;
}

/* Whether the empty records, but for the last offset that they set, change nothing but the tally's none. */
static bool alike(const struct walked *left_out, const struct walked *put_back, const struct list *list) {
    struct jitamoro_tally counted = left_out->tally;
    bool same = same_bytes(left_out, put_back) && left_out->end == put_back->end &&
                memcmp(&left_out->pass, &put_back->pass, sizeof left_out->pass) == 0;
    for (size_t i = 0; i < list->count; i++) {
        if (list->entries[i].r_type == 0) {
            counted.figures[JITAMORO_TALLY_NONE] += put_back->steps[i].relaxed.choice.refusal == 0;
        } else {
            same = same && same_step(&left_out->steps[i], &put_back->steps[i]);
        }
    }
    return same && memcmp(&counted, &put_back->tally, sizeof counted) == 0;
}

static bool all_accepted(const struct walked *w, size_t count) {
    for (size_t i = 0; i < count; i++) {
        if (w->steps[i].relaxed.choice.refusal != 0) return false;
    }
    return true;
}

static void look_at(const struct section *section, const struct list *list, struct found *found) {
    struct walked walks[REMEDIES];
    struct list lists[REMEDIES];
    for (int r = 0; r < REMEDIES; r++) {
        lists[r] = *list;
        walks[r] = walk((enum remedy)r, section, &lists[r]);
    }
    found->lists++;
    found->alike += alike(&walks[LEFT_OUT], &walks[PUT_BACK], list);
    bool in_order = walks[SORTED].end == 0 && all_accepted(&walks[SORTED], list->count);
    if (walks[GIVEN].end != JITAMORO_REFUSED_SKIP_PENDING || !in_order) return;
    const struct entry *e = list->entries;
    uint64_t place = e[0].offset + (e[0].r_type == JITAMORO_R_X86_64_TLSLD ? 5 : 8);
    bool usual = list->count == 3 && walks[GIVEN].steps[0].relaxed.choice.skip_next && e[1].r_type == 0;
    found->stuck[list->count]++;
    found->setter_empty_other += usual && e[2].r_type != 0 && e[2].offset < e[1].offset;
    if (usual && e[2].r_type == JITAMORO_R_X86_64_PLT32 && e[2].offset == place) {
        found->at_its_place++;
        printf("with the call at its place:");
        for (size_t i = 0; i < list->count; i++) printf(" %u@%u", e[i].r_type, (unsigned)e[i].offset);
        puts("");
    }
    for (int r = 0; r < REMEDIES; r++) {
        found->helped[r] += walks[r].end == 0 && same_bytes(&walks[r], &walks[SORTED]);
    }
}

/* Every list of 1 to 3 records of these types, anywhere in the section. */
static void look_at_all(const struct section *section, struct found *found) {
    static const uint32_t types[] = {0, 2, 4, 19, 20};
    const size_t choices = sizeof types / sizeof types[0] * (section->len + 1);
    size_t lists = 1;
    for (size_t count = 1; count <= 3; count++) {
        lists *= choices;
        for (size_t number = 0; number < lists; number++) {
            struct list list = {.count = count};
            size_t rest = number;
            for (size_t i = count; i-- > 0; rest /= choices) {
                list.entries[i].r_type = types[rest % choices / (section->len + 1)];
                list.entries[i].offset = rest % choices % (section->len + 1);
            }
            look_at(section, &list, found);
        }
    }
}

static void search(void) {
    struct found found = {0};
    unsigned cuts = 0, setters = 0, shortest = SHORT + 1;
    for (size_t s = 0; s < sizeof sequences / sizeof sequences[0]; s++) {
        for (size_t from = 0; from < sequences[s].len; from++) {
            for (size_t len = 0; len <= SHORT && from + len <= sequences[s].len; len++) {
                struct section cut = {.len = len};
                memcpy(cut.bytes, sequences[s].bytes + from, len);
                cuts++;
                if (!has_setter(&cut)) continue;
                setters++;
                if (len < shortest) shortest = (unsigned)len;
                look_at_all(&cut, &found);
            }
        }
    }
    printf("of %u cuts of the sequences, 0 to %d bytes, %u have a record that sets a skip, the shortest of %u bytes\n",
           cuts, SHORT, setters, shortest);
    printf("of %u lists of 1, 2 and 3 records over these %u, %u and %u can't be ended, but can when sorted; setter, "
           "empty, other: %u; with the call at its place: %u\n",
           found.lists, found.stuck[1], found.stuck[2], found.stuck[3], found.setter_empty_other, found.at_its_place);
    for (int r = 0; r < REMEDIES; r++) printf("of those end, with the same bytes, %s: %u\n", names[r], found.helped[r]);
    printf("of all lists, left-out and put-back differ in the tally's none alone: %u\n", found.alike);
}

int main(int argc, char **argv) {
    struct section section = {0};
    struct list list = {0};
    unsigned byte;
    int remedy = 0, length;
    if (argc == 2 && strcmp(argv[1], "search") == 0) return search(), 0;
    while (argc > 2 && remedy < REMEDIES && strcmp(argv[1], names[remedy]) != 0) remedy++;
    if (argc < 4 || argc > 3 + MOST_RECORDS || remedy == REMEDIES) return 2;
    for (char *at = argv[2]; section.len < MOST_BYTES && sscanf(at, " %2x%n", &byte, &length) == 1; at += length)
        section.bytes[section.len++] = (uint8_t)byte;
    for (int i = 3; i < argc; i++) {
        struct entry *entry = &list.entries[list.count++];
        char *at;
        entry->r_type = (uint32_t)strtoul(argv[i], &at, 10);
        if (*at != '@') return 2;
        entry->offset = strtoull(at + 1, NULL, 10);
    }
    print_walk((enum remedy)remedy, &section, &list);
    return 0;
}
