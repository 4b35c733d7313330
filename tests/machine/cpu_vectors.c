/*
 * Test vectors for single x86-64 instructions, taken from the CPU.
 *
 * The test memory is shared between this process and a forked child, at the
 * same fixed addresses. For each vector the parent writes the instruction and
 * the slot, sets the child's registers, lets it make one ptrace single step
 * and reads back what the CPU made of it. Nothing here computes a result.
 *
 * Output: one vector a line in lower-case hex, 311 bytes, numbers low byte first:
 *
 *   offset  bytes
 *        0      1  n, the instruction's length
 *        1     12  the instruction, zero-padded
 *       13      8  address of the instruction
 *       21      8  address of the slot, 0 if there is none
 *       29      8  the slot's contents before, 0 if there is none
 *       37    128  rax rcx rdx rbx rsp rbp rsi rdi r8 .. r15 before
 *      165      1  flags before: bit 0 CF, 1 PF, 2 AF, 3 ZF, 4 SF, 5 OF
 *      166    128  registers after
 *      294      1  flags after
 *      295      8  rip after
 *      303      8  the 8 bytes at (rsp before) - 8, after
 *
 * Every byte of the test memory that is neither instruction nor slot is A5
 * before the step. Standard error gets a summary. Exit status: 0; 77 where no
 * step could be made at all, as where ptrace isn't allowed; 1 for all else.
 */
#define _GNU_SOURCE
#include <errno.h>
#include <signal.h>
#include <stdarg.h>
#include <stdbool.h>
#include <stddef.h>
#include <stdint.h>
#include <stdio.h>
#include <stdlib.h>
#include <string.h>
#include <sys/mman.h>
#include <sys/ptrace.h>
#include <sys/types.h>
#include <sys/user.h>
#include <sys/wait.h>
#include <unistd.h>

#define COUNT(a) (sizeof(a) / sizeof((a)[0]))
#define PAGE 0x1000
#define FILL 0xa5
#define RSP 4
#define NO_PREFIX (-1)

#define NO_STEP 77

static int failure = NO_STEP;      /* 1 once a step was made */

static void fail(const char *format, ...)
{
    va_list args;
    va_start(args, format);
    fputs("cpu_vectors: ", stderr);
    vfprintf(stderr, format, args);
    fputc('\n', stderr);
    va_end(args);
    exit(failure);
}

/*
 * Random numbers: splitmix64, fixed seed. No two draws stand in one expression
 * or argument list without a fixed order, so every compiler gives the same file.
 */

static uint64_t random_state = 0x5eed;

static uint64_t random64(void)
{
    uint64_t z = random_state += 0x9e3779b97f4a7c15;
    z = (z ^ (z >> 30)) * 0xbf58476d1ce4e5b9;
    z = (z ^ (z >> 27)) * 0x94d049bb133111eb;
    return z ^ (z >> 31);
}

static uint64_t below(uint64_t n)
{
    return random64() % n;
}

static const uint64_t edges[] = {
    0, 1, 0x7f, 0x80, 0xff, 0x7fffffff, 0x80000000, 0xffffffff,
    0x7fffffffffffffff, 0x8000000000000000, 0xffffffffffffffff,
};

static const uint32_t edges32[] = {
    0, 1, 0x7f, 0x80, 0xff, 0x7fffffff, 0x80000000, 0xffffffff,
};

static uint64_t some_value(void)
{
    switch (below(4)) {
    case 0: return edges[below(COUNT(edges))];
    case 1: return (uint64_t)(int64_t)(int32_t)random64();
    default: return random64();
    }
}

/*
 * Test memory. A place is two pages of code with slot pages before and after
 * it, and slot pages at the ends of the reach of a 32-bit displacement where
 * there is room for them.
 */

#define CODE_SIZE (2 * PAGE)
#define NEAR_SIZE (2 * PAGE)
#define FAR_SIZE (3 * PAGE)
#define STACK_SIZE (2 * PAGE)
#define NEAR_BEFORE_OF(base) ((base) - 0x8000)
#define NEAR_AFTER_OF(base) ((base) + 0x8000)
#define FAR_BEFORE_OF(base) ((base) - 0x80000000)
#define FAR_AFTER_OF(base) ((base) + 0x7ffff000)

static const struct place {
    uint64_t base;
    bool far_before;
} places[] = {
    { 0x20000, false },        /* sums with negative fields wrap below 0 */
    { 0x10000000, false },
    { 0xfffff000, true },      /* the pages on both sides of 2^32 */
    { 0x2345678a0000, true },
};

static const uint64_t stacks[] = {
    0x30000000,
    0x1fffff000,               /* the pages on both sides of 2^33 */
    0x6543210f0000,
};

static struct region {
    uint8_t *start;
    size_t size;
} regions[5 * COUNT(places) + COUNT(stacks)];
static size_t region_count;

static void map(uint64_t start, size_t size)
{
    void *want = (void *)start;
    void *got = mmap(want, size, PROT_READ | PROT_WRITE | PROT_EXEC,
                     MAP_SHARED | MAP_ANONYMOUS | MAP_FIXED_NOREPLACE, -1, 0);
    if (got != want)
        fail("cannot map %zx bytes at %llx", size, (unsigned long long)start);
    regions[region_count++] = (struct region){ want, size };
}

static void map_all(void)
{
    for (size_t i = 0; i < COUNT(places); i++) {
        uint64_t base = places[i].base;
        map(base, CODE_SIZE);
        map(NEAR_BEFORE_OF(base), NEAR_SIZE);
        map(NEAR_AFTER_OF(base), NEAR_SIZE);
        map(FAR_AFTER_OF(base), FAR_SIZE);
        if (places[i].far_before)
            map(FAR_BEFORE_OF(base), FAR_SIZE);
    }
    for (size_t i = 0; i < COUNT(stacks); i++)
        map(stacks[i], STACK_SIZE);
}

static void fill_all(void)
{
    for (size_t i = 0; i < region_count; i++)
        memset(regions[i].start, FILL, regions[i].size);
}

static void check_all_filled(void)
{
    for (size_t i = 0; i < region_count; i++)
        for (size_t k = 0; k < regions[i].size; k++)
            if (regions[i].start[k] != FILL)
                fail("a byte at %p was changed", (void *)&regions[i].start[k]);
}

static bool is_mapped(uint64_t address)
{
    void *page = (void *)(address & ~(uint64_t)(PAGE - 1));
    return msync(page, PAGE, MS_ASYNC) == 0 || errno != ENOMEM;
}

/* The child and its registers. */

static pid_t child;

static const size_t register_offsets[16] = {
    offsetof(struct user_regs_struct, rax), offsetof(struct user_regs_struct, rcx),
    offsetof(struct user_regs_struct, rdx), offsetof(struct user_regs_struct, rbx),
    offsetof(struct user_regs_struct, rsp), offsetof(struct user_regs_struct, rbp),
    offsetof(struct user_regs_struct, rsi), offsetof(struct user_regs_struct, rdi),
    offsetof(struct user_regs_struct, r8), offsetof(struct user_regs_struct, r9),
    offsetof(struct user_regs_struct, r10), offsetof(struct user_regs_struct, r11),
    offsetof(struct user_regs_struct, r12), offsetof(struct user_regs_struct, r13),
    offsetof(struct user_regs_struct, r14), offsetof(struct user_regs_struct, r15),
};

static const unsigned flag_positions[6] = { 0, 2, 4, 6, 7, 11 };
#define STATUS_FLAGS 0x8d5u

static uint64_t flags_to_cpu(unsigned flags)
{
    uint64_t cpu = 0;
    for (unsigned i = 0; i < 6; i++)
        cpu |= (uint64_t)(flags >> i & 1) << flag_positions[i];
    return cpu;
}

static unsigned flags_from_cpu(uint64_t cpu)
{
    unsigned flags = 0;
    for (unsigned i = 0; i < 6; i++)
        flags |= (unsigned)(cpu >> flag_positions[i] & 1) << i;
    return flags;
}

static void wait_for_stop(int signal_wanted)
{
    int status;
    if (waitpid(child, &status, 0) != child)
        fail("waitpid: %s", strerror(errno));
    if (WIFEXITED(status))         /* only a child that couldn't be traced: start_child */
        fail("PTRACE_TRACEME: %s", strerror(WEXITSTATUS(status)));
    if (!WIFSTOPPED(status) || WSTOPSIG(status) != signal_wanted)
        fail("status %x where a stop by signal %d was due", (unsigned)status, signal_wanted);
}

static void get_registers(struct user_regs_struct *r)
{
    if (ptrace(PTRACE_GETREGS, child, NULL, r) != 0)
        fail("PTRACE_GETREGS: %s", strerror(errno));
}

static void step(int signal_wanted)
{
    if (ptrace(PTRACE_SINGLESTEP, child, NULL, NULL) != 0)
        fail("PTRACE_SINGLESTEP: %s", strerror(errno));
    wait_for_stop(signal_wanted);
    failure = 1;
}

static struct user_regs_struct at_start;

static void start_child(void)
{
    child = fork();
    if (child < 0)
        fail("fork: %s", strerror(errno));
    if (child == 0) {
        if (ptrace(PTRACE_TRACEME, 0, NULL, NULL) == 0)
            raise(SIGSTOP);
        _exit(errno);
    }
    wait_for_stop(SIGSTOP);
    if (ptrace(PTRACE_SETOPTIONS, child, NULL, PTRACE_O_EXITKILL) != 0)
        fail("PTRACE_SETOPTIONS: %s", strerror(errno));
    get_registers(&at_start);
}

static void end_child(void)
{
    kill(child, SIGKILL);
    waitpid(child, NULL, 0);
}

/* One vector. */

struct test {
    unsigned length;
    uint8_t code[12];
    const struct place *place;
    uint64_t at;
    bool has_slot;
    uint64_t slot;
    uint64_t contents;
    uint64_t registers[16];
    unsigned flags;
};

static unsigned vectors, branches_unmapped, branches_mapped;

static void print_number(uint64_t v, unsigned bytes)
{
    for (unsigned i = 0; i < bytes; i++)
        printf("%02x", (unsigned)(v >> 8 * i & 0xff));
}

/* A branch has landed on unmapped ground: the fault is the next step's. */
static void check_next_step_faults(const struct user_regs_struct *landed)
{
    struct user_regs_struct r;
    siginfo_t info;
    step(SIGSEGV);
    get_registers(&r);
    if (ptrace(PTRACE_GETSIGINFO, child, NULL, &info) != 0)
        fail("PTRACE_GETSIGINFO: %s", strerror(errno));
    if (r.rip != landed->rip || r.rsp != landed->rsp)
        fail("the fault at %llx moved rip or rsp", landed->rip);
}

static void run(const struct test *t)
{
    uint64_t pushed_at = t->registers[RSP] - 8;
    uint64_t next = t->at + t->length;
    struct user_regs_struct before = at_start, after;
    siginfo_t info;
    uint64_t top;

    fill_all();
    if (t->has_slot)
        memcpy((void *)t->slot, &t->contents, 8);
    memcpy((void *)t->at, t->code, t->length);

    before.orig_rax = ~0ull;
    before.rip = t->at;
    before.eflags = (at_start.eflags & ~(uint64_t)STATUS_FLAGS) | flags_to_cpu(t->flags);
    for (unsigned i = 0; i < 16; i++)
        memcpy((char *)&before + register_offsets[i], &t->registers[i], 8);
    if (ptrace(PTRACE_SETREGS, child, NULL, &before) != 0)
        fail("PTRACE_SETREGS: %s", strerror(errno));

    step(SIGTRAP);
    if (ptrace(PTRACE_GETSIGINFO, child, NULL, &info) != 0)
        fail("PTRACE_GETSIGINFO: %s", strerror(errno));
    if (info.si_code != TRAP_TRACE)
        fail("stopped by si_code %d, not by the single step", info.si_code);
    get_registers(&after);
    if ((before.eflags ^ after.eflags) & ~(uint64_t)STATUS_FLAGS)
        fail("eflags beyond the status flags: %llx to %llx", before.eflags, after.eflags);
    memcpy(&top, (void *)pushed_at, 8);

    print_number(t->length, 1);
    for (unsigned i = 0; i < sizeof t->code; i++)
        print_number(t->code[i], 1);
    print_number(t->at, 8);
    print_number(t->has_slot ? t->slot : 0, 8);
    print_number(t->has_slot ? t->contents : 0, 8);
    for (unsigned i = 0; i < 16; i++)
        print_number(t->registers[i], 8);
    print_number(t->flags, 1);
    for (unsigned i = 0; i < 16; i++) {
        uint64_t v;
        memcpy(&v, (const char *)&after + register_offsets[i], 8);
        print_number(v, 8);
    }
    print_number(flags_from_cpu(after.eflags), 1);
    print_number(after.rip, 8);
    print_number(top, 8);
    putchar('\n');
    vectors++;

    if (after.rip != next) {
        if (is_mapped(after.rip)) {
            branches_mapped++;
        } else {
            check_next_step_faults(&after);
            branches_unmapped++;
        }
    }

    /* Instruction and slot (unless a push may reach it) must stand, all else be fill. */
    if (memcmp((void *)t->at, t->code, t->length) != 0)
        fail("the instruction at %llx was changed", (unsigned long long)t->at);
    memset((void *)t->at, FILL, t->length);
    if (t->has_slot && (t->slot + 8 <= pushed_at || pushed_at + 8 <= t->slot)
        && memcmp((void *)t->slot, &t->contents, 8) != 0)
        fail("the slot at %llx was changed", (unsigned long long)t->slot);
    if (t->has_slot)
        memset((void *)t->slot, FILL, 8);
    memset((void *)pushed_at, FILL, 8);
    check_all_filled();
}

/* Building a vector. */

static uint64_t some_rsp(void)
{
    uint64_t base = stacks[below(COUNT(stacks))];
    switch (below(4)) {
    case 0: return base + PAGE + below(9);      /* the push on the page border or across it */
    case 1: return base + 16 + below(STACK_SIZE - 32);
    default: return base + 16 + 8 * below((STACK_SIZE - 32) / 8);
    }
}

static struct test begin(const struct place *place)
{
    struct test t = { .place = place };
    bool at_border = below(4) == 0;
    t.at = place->base + (at_border ? PAGE - 1 - below(8) : 16 + below(CODE_SIZE - 64));
    for (unsigned i = 0; i < 16; i++)
        t.registers[i] = some_value();
    t.registers[RSP] = some_rsp();
    t.flags = (unsigned)below(64);
    return t;
}

static const struct place *some_place(void)
{
    return &places[below(COUNT(places))];
}

static void put(struct test *t, unsigned byte)
{
    t->code[t->length++] = (uint8_t)byte;
}

static void put_prefix(struct test *t, int prefix)
{
    if (prefix != NO_PREFIX)
        put(t, (unsigned)prefix);
}

static void put_field(struct test *t, uint32_t field)
{
    for (unsigned i = 0; i < 4; i++)
        put(t, field >> 8 * i & 0xff);
}

/* Ends the instruction with a displacement to a slot. */
static void put_slot_at(struct test *t, uint64_t slot, uint64_t contents)
{
    uint64_t displacement = slot - (t->at + t->length + 4);
    if (displacement != (uint64_t)(int64_t)(int32_t)displacement)
        fail("slot %llx out of reach", (unsigned long long)slot);
    put_field(t, (uint32_t)displacement);
    t->has_slot = true;
    t->slot = slot;
    t->contents = contents;
}

static void put_slot(struct test *t, uint64_t contents)
{
    uint64_t next = t->at + t->length + 4;
    uint64_t base = t->place->base;
    uint64_t slot;
    switch (below(8)) {
    case 0:                                     /* directly after the instruction */
        slot = next;
        break;
    case 1:                                     /* directly before it */
        slot = t->at - 8;
        break;
    case 2:                                     /* the greatest displacements */
        slot = next + 0x7fffffff - (below(2) ? below(0x100) : 0);
        break;
    case 3:                                     /* the least, where mapped */
        if (t->place->far_before) {
            slot = next - 0x80000000 + (below(2) ? below(0x100) : 0);
            break;
        }
        /* fall through */
    case 4:
    case 5:
        slot = NEAR_BEFORE_OF(base) + below(NEAR_SIZE - 8);
        break;
    default:
        slot = NEAR_AFTER_OF(base) + below(NEAR_SIZE - 8);
        break;
    }
    put_slot_at(t, slot, contents);
}

/* mov, add, sub, cmp with a slot or an immediate, and lea. */

enum operation { MOV, ADD, SUB, CMP, LEA };
enum source { SLOT, IMMEDIATE, ADDRESS };

static const struct kind {
    enum operation operation;
    enum source source;
    uint8_t opcode;
    uint8_t extension;
} kinds[] = {
    { MOV, SLOT, 0x8b, 0 },      { ADD, SLOT, 0x03, 0 },
    { SUB, SLOT, 0x2b, 0 },      { CMP, SLOT, 0x3b, 0 },
    { MOV, IMMEDIATE, 0xc7, 0 }, { ADD, IMMEDIATE, 0x81, 0 },
    { SUB, IMMEDIATE, 0x81, 5 }, { CMP, IMMEDIATE, 0x81, 7 },
    { LEA, ADDRESS, 0x8d, 0 },
};

/* The REX bit that extends the destination: B for an immediate form, else R. */
static int register_bit(const struct kind *kind)
{
    return kind->source == IMMEDIATE ? 1 : 4;
}

/*
 * One vector: destination's low three bits in low3, its value before a (rsp
 * keeps its place on a stack), the other operand b: slot contents, or a field.
 */
static void operate_at(const struct place *place, const struct kind *kind,
                       int rex, unsigned low3, uint64_t a, uint64_t b)
{
    struct test t = begin(place);
    unsigned destination = low3;
    if (rex != NO_PREFIX && (rex & register_bit(kind)))
        destination += 8;
    if (destination != RSP)
        t.registers[destination] = a;
    put_prefix(&t, rex);
    put(&t, kind->opcode);
    if (kind->source == IMMEDIATE)
        put(&t, 0xc0u | (unsigned)kind->extension << 3 | low3);
    else
        put(&t, low3 << 3 | 5u);
    if (kind->source == SLOT)
        put_slot(&t, b);
    else
        put_field(&t, (uint32_t)b);
    run(&t);
}

static void operate(const struct kind *kind, int rex, unsigned low3, uint64_t a, uint64_t b)
{
    operate_at(some_place(), kind, rex, low3, a, b);
}

/* The same for a width, with a register other than rsp and a prefix that suits. */
static void operate_wide(const struct kind *kind, bool wide, uint64_t a, uint64_t b)
{
    unsigned destination;
    int rex = 0x40;
    do
        destination = (unsigned)below(16);
    while (destination == RSP);
    if (destination & 8)
        rex |= register_bit(kind);
    if (wide)
        rex |= 8;
    if (below(4) == 0)                          /* bits without meaning here */
        rex |= (int)below(8) & (7 ^ register_bit(kind));
    if (rex == 0x40 && below(2))
        rex = NO_PREFIX;
    operate(kind, rex, destination & 7, a, b);
}

static uint64_t close_to(uint64_t a, unsigned how)
{
    switch (how) {
    case 0: return a;
    case 1: return a ^ (1 + below(15));         /* differs in the low nibble */
    case 2: return a + 1 + below(15);
    case 3: return -a;
    case 4: return ~a;
    case 5: return a ^ 0x10;
    case 6: return a ^ random64() << 32;        /* the same low half */
    default: return -a + (random64() << 32);
    }
}

static uint64_t with_upper_half(uint64_t low, uint64_t high)
{
    return (low & 0xffffffff) | high << 32;
}

/* Every kind, every prefix, every register. */
static void sweep(void)
{
    for (size_t k = 0; k < COUNT(kinds); k++) {
        for (int rex = 0x3f; rex <= 0x4f; rex++) {
            for (unsigned low3 = 0; low3 < 8; low3++) {
                uint64_t a = some_value();
                uint64_t b = below(3) ? some_value() : close_to(a, (unsigned)below(8));
                operate(&kinds[k], rex == 0x3f ? NO_PREFIX : rex, low3, a, b);
            }
        }
    }
}

/* Edge operands at both widths, each with each. */
static void operand_edges(void)
{
    for (size_t k = 0; k < COUNT(kinds); k++) {
        const struct kind *kind = &kinds[k];
        bool immediate = kind->source == IMMEDIATE;
        size_t others = immediate ? COUNT(edges32) : COUNT(edges);
        if (kind->source == ADDRESS)
            continue;
        for (int wide = 0; wide < 2; wide++) {
            for (size_t j = 0; j < others; j++) {
                uint64_t b = immediate ? edges32[j] : edges[j];
                if (kind->operation == MOV) {
                    operate_wide(kind, wide, random64(), b);
                    continue;
                }
                for (size_t i = 0; i < COUNT(edges); i++) {
                    uint64_t a = edges[i], c = b;
                    if (!wide && (i + j) % 2) {
                        a = with_upper_half(a, random64());
                        c = with_upper_half(b, random64());
                    }
                    operate_wide(kind, wide, a, c);
                }
            }
        }
    }
}

/* Operands equal, opposite, or almost so. */
static void close_operands(void)
{
    for (size_t k = 0; k < COUNT(kinds); k++) {
        const struct kind *kind = &kinds[k];
        if (kind->operation == MOV || kind->operation == LEA)
            continue;
        for (int wide = 0; wide < 2; wide++) {
            for (unsigned how = 0; how < 8; how++) {
                uint64_t a = random64();
                uint64_t b = close_to(a, how);
                if (kind->source == IMMEDIATE && wide) {
                    b = (uint64_t)(int64_t)(int32_t)b;
                    a = close_to(b, how);
                }
                operate_wide(kind, wide, a, b);
            }
        }
    }
}

/* lea: edge displacements from every place, and to the instruction itself. */
static const uint32_t field_edges[] = {
    0, 1, 0x7f, 0x80, 0xff, 0x7fffffff, 0x80000000, 0xffffffff, 0xffffff00, 0xfffffff9,
};

static void lea_edges(void)
{
    const struct kind *lea = &kinds[COUNT(kinds) - 1];
    for (size_t p = 0; p < COUNT(places); p++) {
        for (size_t i = 0; i < COUNT(field_edges); i++) {
            for (int w = 0; w < 2; w++) {
                int destination = (int)below(16);
                int rex = 0x40 | w << 3 | (destination & 8 ? register_bit(lea) : 0);
                operate_at(&places[p], lea, rex, (unsigned)destination & 7,
                           random64(), field_edges[i]);
            }
        }
    }
}

/* Branches. */

static const uint64_t target_edges[] = {
    0, 1, 0x7fffffff, 0x80000000, 0xfffffffe, 0xffffffff, 0x100000000,
    0x7fffffffefff, 0x7fffffffffff,
    0xffff800000000000, 0xffffffff00000000, 0xffffffff7fffffff,
    0xffffffff80000000, 0xffffffffffffffff,
};

/* Canonical for 48-bit addresses: bits 47 to 63 alike. */
static uint64_t canonical(uint64_t v)
{
    return (uint64_t)((int64_t)(v << 16) >> 16);
}

#define CALL_INDIRECT 0x15u
#define JMP_INDIRECT 0x25u
#define CALL_RELATIVE 0xe8u
#define JMP_RELATIVE 0xe9u

static void branch_indirect(int rex, unsigned modrm, uint64_t target)
{
    struct test t = begin(some_place());
    put_prefix(&t, rex);
    put(&t, 0xff);
    put(&t, modrm);
    put_slot(&t, target);
    run(&t);
}

static void branch_relative(const struct place *place, int prefix, unsigned opcode, uint32_t field)
{
    struct test t = begin(place);
    put_prefix(&t, prefix);
    put(&t, opcode);
    put_field(&t, field);
    run(&t);
}

static void branches(void)
{
    static const unsigned indirect[] = { CALL_INDIRECT, JMP_INDIRECT };
    static const unsigned relative[] = { CALL_RELATIVE, JMP_RELATIVE };

    for (size_t f = 0; f < COUNT(indirect); f++) {
        for (int rex = 0x3f; rex <= 0x4f; rex++)
            for (unsigned i = 0; i < 2; i++)
                branch_indirect(rex == 0x3f ? NO_PREFIX : rex, indirect[f], canonical(random64()));
        for (size_t i = 0; i < COUNT(target_edges); i++)
            branch_indirect(NO_PREFIX, indirect[f], target_edges[i]);
        for (unsigned i = 0; i < 36; i++)
            branch_indirect(NO_PREFIX, indirect[f], canonical(random64() >> i));
    }
    for (size_t f = 0; f < COUNT(relative); f++) {
        for (int rex = 0x3f; rex <= 0x4f; rex++)
            for (unsigned i = 0; i < 3; i++)
                branch_relative(&places[(i + (unsigned)rex) % COUNT(places)],
                                rex == 0x3f ? NO_PREFIX : rex, relative[f], (uint32_t)random64());
        for (size_t p = 0; p < COUNT(places); p++)
            for (size_t i = 0; i < COUNT(field_edges); i++)
                branch_relative(&places[p], NO_PREFIX, relative[f], field_edges[i]);
    }
    for (size_t p = 0; p < COUNT(places); p++) {
        for (size_t i = 0; i < COUNT(field_edges); i++)
            branch_relative(&places[p], 0x67, CALL_RELATIVE, field_edges[i]);
        for (unsigned i = 0; i < 6; i++)
            branch_relative(&places[p], 0x67, CALL_RELATIVE, (uint32_t)random64());
    }
}

/*
 * Calls whose slot lies, wholly or in part, where the return address is
 * pushed: they show that the slot is read before the push.
 */
static void calls_over_their_slot(void)
{
    static const int shifts[] = { 0, 0, 0, 0, -7, -4, -1, 1, 4, 7 };
    for (size_t i = 0; i < COUNT(shifts); i++) {
        const struct place *place = &places[i % COUNT(places)];
        struct test t = begin(place);
        uint64_t slot = NEAR_AFTER_OF(place->base) + 16 + below(NEAR_SIZE - 48);
        t.registers[RSP] = slot + 8 + (uint64_t)(int64_t)shifts[i];
        put(&t, 0xff);
        put(&t, CALL_INDIRECT);
        put_slot_at(&t, slot, canonical(random64() | 1));   /* no byte like the one pushed over it */
        run(&t);
    }
}

int main(void)
{
    map_all();
    start_child();
    sweep();
    operand_edges();
    close_operands();
    lea_edges();
    branches();
    calls_over_their_slot();
    end_child();
    if (fflush(stdout) != 0 || ferror(stdout))
        fail("writing the vectors failed");
    fprintf(stderr, "%u vectors\n", vectors);
    fprintf(stderr, "%u branches to unmapped targets: the step completed, SIGSEGV at the next\n",
            branches_unmapped);
    fprintf(stderr, "%u branches to mapped targets\n", branches_mapped);
    return 0;
}
