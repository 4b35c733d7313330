/* Prints the text of every number from 0 to 255, as the header's functions give it: table, number, text. */
#include <stdio.h>
#include "jitamoro.h"

int main(void) {
    for (unsigned n = 0; n < 256; n++) {
        printf("refusal %u %s\n", n, jitamoro_refusal_text((uint8_t)n));
        printf("kind %u %s\n", n, jitamoro_kind_name((uint8_t)n));
        printf("type %u %s\n", n, jitamoro_r_type_name(n));
        printf("output %u %s\n", n, jitamoro_output_name((uint8_t)n));
    }
    return 0;
}
