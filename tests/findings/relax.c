/*
 * What the port answers to one record:
 *     relax TYPE BYTES OFFSET FLAGS KIND [ADDRESS [PLACE]]
 * Numbers as in C, bytes in hexadecimal; executable, addend -4. With PLACE, the address of the first byte, the port
 * fills the field as well.
 */
#include <stdio.h>
#include <stdlib.h>
#include "jitamoro.h"

static int count;
static char **arguments;

static uint64_t number(int index) { return index < count ? strtoull(arguments[index], NULL, 0) : 0; }

int main(int argc, char **argv) {
    uint8_t section[64];
    size_t len = 0;
    int step;
    unsigned byte;
    count = argc;
    arguments = argv;
    if (argc < 6) return 2;
    for (char *at = argv[2]; len < sizeof section && sscanf(at, " %2x%n", &byte, &step) == 1; at += step)
        section[len++] = (uint8_t)byte;

    uint64_t address = number(6);
    struct jitamoro_relaxed r =
        jitamoro_relax((uint32_t)number(1), section, len, number(3), (uint8_t)number(4),
                       (uint8_t)number(5), true, address, -4);
    if (r.choice.refusal != 0) return printf("refused %d\n", r.choice.refusal), 1;
    if (!r.choice.chosen) return puts("none"), 0;
    struct jitamoro_filled f = {0, true};
    if (argc > 7) f = jitamoro_fill(r.choice.new_type, section, len, r.offset, number(7) + r.offset, address, r.addend);
    for (size_t i = 0; i < len; i++) printf("%s%02x", i == 0 ? "" : " ", section[i]);
    printf(", type %u at %lu, addend %ld%s", r.choice.new_type, r.offset, r.addend, r.choice.mandatory ? ", mandatory" : "");
    if (f.refusal != 0) printf("; filling is refused, %d: %s", f.refusal, jitamoro_refusal_text(f.refusal));
    else if (!f.filled) printf("; not filled");
    puts("");
}
