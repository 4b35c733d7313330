/* Addresses and calls of every kind of symbol. */
#include <stddef.h>

extern int elsewhere;
extern int elsewhere_call(int);
extern int weak_elsewhere __attribute__((weak));
extern int weak_call(int) __attribute__((weak));
extern int hidden_elsewhere __attribute__((visibility("hidden")));
extern int hidden_call(int) __attribute__((visibility("hidden")));

int global = 1;
int common_or_bss;
static int local = 2;
int hidden __attribute__((visibility("hidden"))) = 3;
int protected_one __attribute__((visibility("protected"))) = 4;
int *pointers[] = {&elsewhere, &global, &local, &hidden, &weak_elsewhere};
int (*functions[])(int) = {elsewhere_call, weak_call, hidden_call};
static char large[1 << 17];

__attribute__((noinline)) static int local_call(int x) { return x * elsewhere + large[x]; }
__attribute__((noinline)) int global_call(int x) { return local_call(x) + local++; }

int tail(int x) { return elsewhere_call(x + 1); }
int tail_hidden(int x) { return hidden_call(x + 1); }

int calls(int x) {
    int sum = elsewhere_call(x) + global_call(x) + hidden_call(x);
    return weak_call ? sum + weak_call(x) : sum;
}

int loads(void) {
    return elsewhere + global + common_or_bss + local + hidden + hidden_elsewhere + protected_one;
}

/* mov, cmp, sub and add with an address: in the GOT where the code is position-independent. */
int is_elsewhere(const int *p) { return p == &elsewhere; }
int is_global(const int *p) { return p == &global; }
ptrdiff_t from_elsewhere(const char *p) { return p - (const char *)&elsewhere; }
ptrdiff_t from_global(const char *p) { return p - (const char *)&global; }
char *at_elsewhere(ptrdiff_t n) { return (char *)&elsewhere + n; }
int has_weak(void) { return &weak_elsewhere != NULL; }

/* Enough values alive at once to need %r8 to %r15 and %rbp. */
int many(int **out) {
    int *p[] = {&elsewhere, &global, &weak_elsewhere, &common_or_bss, &hidden};
    for (size_t i = 0; i < 64; i++)
        for (size_t k = 0; k < 5; k++) out[5 * i + k] = p[k] + elsewhere_call((int)i);
    return out[3] == p[3];
}

int select(int n) {
    switch (n) {
    case 1: return elsewhere_call(10);
    case 2: return global_call(12);
    case 3: return elsewhere_call(n) * 3;
    case 4: return hidden_call(n) - 7;
    case 5: return local_call(n) / 3;
    case 6: return n * 99;
    default: return (int)sizeof(large);
    }
}
