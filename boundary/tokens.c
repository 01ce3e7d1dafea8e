/* Prints the words of a text, as the Rust crate's example `tokens` does: tokens TEXT. */
#include "yunthirel.h"

#include <stdio.h>
#include <string.h>

int main(int argc, char **argv) {
    static struct yunthirel_token tokens[YUNTHIREL_TOKENS];
    const char *text = argc > 1 ? argv[1] : "";
    struct yunthirel_code code = yunthirel_tokens((const uint8_t *)text, strlen(text), (uint32_t *)tokens, 2 * YUNTHIREL_TOKENS);
    switch (yunthirel_number_of(code)) {
    case YUNTHIREL_ANSWERED:
        for (size_t i = 0; i < yunthirel_count_of(code); i++) {
            int length = (int)(tokens[i].end - tokens[i].start);
            printf("%u to %u: %.*s\n", (unsigned)tokens[i].start, (unsigned)tokens[i].end, length, text + tokens[i].start);
        }
        return 0;
    case YUNTHIREL_TEXT_TOO_LONG:
        puts("the text has more than 65,536 bytes (refused 9)");
        return 1;
    default:
        puts("the text is not UTF-8 (refused 2)");
        return 1;
    }
}
