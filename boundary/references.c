/* Prints what does not hold of the lines of a sheet, as the Rust crate's example `references` does: references SHEET. */
#include "yunthirel.h"

#include <stdio.h>

int main(int argc, char **argv) {
    static uint8_t sheet[65537];
    static uint32_t list[YUNTHIREL_LINES];
    FILE *file = argc > 1 ? fopen(argv[1], "rb") : NULL;
    if (file == NULL) {
        fprintf(stderr, "references SHEET: a file that can be read\n");
        return 2;
    }
    size_t size = fread(sheet, 1, sizeof sheet, file);
    fclose(file);
    struct yunthirel_code code = yunthirel_findings(sheet, size, list, YUNTHIREL_LINES);
    if (yunthirel_number_of(code) != YUNTHIREL_ANSWERED) {
        printf("refused with %d, line at byte %zu\n", (int)yunthirel_number_of(code), yunthirel_start_of(code));
        return 1;
    }
    for (size_t i = 0; i < yunthirel_count_of(code); i++) {
        size_t line = yunthirel_line_of(list[i]), end = line + 3;
        while (sheet[end] != ' ') {
            end++;
        }
        const char *wrong = "no `w` line";
        if (yunthirel_fault_of(list[i]) == YUNTHIREL_NOT_VERB) {
            wrong = "no v in its `w` line";
        } else if (yunthirel_fault_of(list[i]) == YUNTHIREL_UNUSED) {
            wrong = "none of the 25 texts";
        }
        printf("byte %zu: %.*s: %s\n", line, (int)(end - line - 3), (const char *)sheet + line + 3, wrong);
    }
    return 0;
}
