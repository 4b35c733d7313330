/* Prints each type that the lookup answers: number, bytes of the field, pc or -, and how its range checks a value. */
#include <jitamoro.h>
#include <stdio.h>

static bool pc_relative(uint8_t kind) {
    switch (kind) {
    case JITAMORO_RELOCATION_RELATIVE:
    case JITAMORO_RELOCATION_PLT_RELATIVE:
    case JITAMORO_RELOCATION_GOT_RELATIVE:
    case JITAMORO_RELOCATION_TLS_GD:
    case JITAMORO_RELOCATION_TLS_LD:
    case JITAMORO_RELOCATION_GOT_TP_OFF:
    case JITAMORO_RELOCATION_TLS_DESC: return true;
    default: return false;
    }
}

/* In binutils' words. A bitfield holds a value by either reading of its bytes. */
static const char *overflow(const struct jitamoro_relocation *r) {
    if (!r->checked) return "dont";
    if (r->size == 0 || r->size > 4) return "?";
    int64_t half = (int64_t)1 << (8 * r->size - 1);
    if (r->min == -half && r->max == half) return "signed";
    if (r->min == 0 && r->max == 2 * half) return "unsigned";
    if (r->min == -half && r->max == 2 * half) return "bitfield";
    return "?";
}

int main(void) {
    for (uint32_t t = 0; t < 1u << 20; t++) {
        struct jitamoro_relocation r = jitamoro_relocation_from_raw(t);
        if (r.refusal == 0) printf("%u %d %s %s\n", t, r.size, pc_relative(r.kind) ? "pc" : "-", overflow(&r));
    }
}
