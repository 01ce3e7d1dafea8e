/* Prints what the library says of a word and a sheet.
 *
 *     example WORD SHEET-FILE
 *
 * Ends with status 0 where the word and the sheet are accepted, 1 where they are refused, and 2 where the sheet can't be read. */
#include "yunthirel.h"
#include "yunthirel_labels.h"

#include <stdio.h>
#include <string.h>

static const uint8_t *word;
static size_t word_len;

/* A byte more than a sheet may have, so that the library sees a longer one and refuses it. */
static uint8_t sheet[65537];
static size_t sheet_len;

static const char *const kinds[] = {"particle", "case", "plural", "post", "comp"};
static const char *const origins[] = {"tatsam", "tadbhav", "deshaj", "aagantuk"};
static const char *const sources[] = {"override", "kosha", "heuristic", "unknown"};

static void print_part(const uint8_t *text, size_t from, size_t to) {
    printf(" %.*s", (int)(to - from), (const char *)text + from);
}

static void print_refusal(const char *what, struct yunthirel_code code) {
    enum yunthirel_number number = yunthirel_number_of(code);
    printf("%s: refused %d", what, (int)number);
    if (number == YUNTHIREL_SHEET_NO_FORM || number == YUNTHIREL_SHEET_NOT_ABOVE) {
        printf(", line at byte %zu", yunthirel_start_of(code));
    }
    printf("\n");
}

static void print_readings(void) {
    struct yunthirel_reading rows[YUNTHIREL_READINGS];
    struct yunthirel_code code = yunthirel_readings(word, word_len, sheet, sheet_len, (uint8_t *)rows, sizeof rows);
    if (yunthirel_number_of(code) != YUNTHIREL_ANSWERED) {
        print_refusal("readings", code);
        return;
    }
    printf("readings: %zu\n", yunthirel_count_of(code));
    for (size_t k = 0; k < yunthirel_count_of(code); k++) {
        const struct yunthirel_reading *row = &rows[k];
        printf("  %u stem", row->score);
        print_part(word, 0, row->stem);
        printf(" root");
        print_part(word, row->root, row->stem);
        for (size_t i = 0; i < row->prefix_count; i++) {
            printf(", prefix %s", yunthirel_prefix_labels[row->prefixes[i]]);
        }
        for (size_t i = 0; i < row->suffix_count; i++) {
            printf(", %s %s", kinds[row->segments[i].kind], yunthirel_affixes[row->segments[i].row]);
            if (row->segments[i].shared) {
                printf(" shared");
            }
        }
        printf(", %s, %s, %.2f\n", origins[row->origin], sources[row->source], (double)row->confidence);
    }
}

static void print_root(const struct yunthirel_root *root) {
    print_part(word, root->start, root->end);
    printf(", %s", origins[root->origin]);
    for (size_t i = 0; i < root->prefix_count; i++) {
        printf(", prefix %s", yunthirel_prefix_labels[root->prefix]);
    }
    for (size_t i = 0; i < root->suffix_count; i++) {
        printf(", suffix %s", yunthirel_suffixes[root->suffixes[i]]);
    }
    printf("\n");
}

static void print_candidates(void) {
    struct yunthirel_root rows[YUNTHIREL_CANDIDATES];
    struct yunthirel_code code = yunthirel_candidates(word, word_len, sheet, sheet_len, (uint8_t *)rows, sizeof rows);
    if (yunthirel_number_of(code) != YUNTHIREL_ANSWERED) {
        print_refusal("candidates", code);
        return;
    }
    printf("candidates: %zu\n", yunthirel_count_of(code));
    for (size_t k = 0; k < yunthirel_count_of(code); k++) {
        printf("  %u %s%s", yunthirel_root_score(&rows[k]), rows[k].known & YUNTHIREL_KNOWN_WORD ? "w" : "",
               rows[k].known & YUNTHIREL_KNOWN_HEADWORD ? "h" : "");
        print_root(&rows[k]);
    }
}

static void print_decomposition(void) {
    struct yunthirel_root root;
    struct yunthirel_code code = yunthirel_decompose(word, word_len, sheet, sheet_len, (uint8_t *)&root, sizeof root);
    if (yunthirel_number_of(code) != YUNTHIREL_ANSWERED) {
        print_refusal("decomposition", code);
        return;
    }
    printf("decomposition:");
    print_root(&root);
}

static void print_progressive(void) {
    struct yunthirel_code code = yunthirel_progressive(word, word_len, sheet, sheet_len);
    if (yunthirel_form_of(code).found) {
        struct yunthirel_form form = yunthirel_form_of(code);
        printf("progressive form:");
        print_part(word, 0, form.main_end);
        printf(" of");
        print_part(sheet, form.lemma_at, form.lemma_at + form.lemma_len);
        printf(", auxiliary");
        print_part(word, form.main_end, word_len);
        printf(form.negative ? ", negative\n" : "\n");
    } else if (yunthirel_number_of(code) == YUNTHIREL_ANSWERED) {
        printf("progressive form: none\n");
    } else {
        print_refusal("progressive form", code);
    }
}

static void print_origin(void) {
    struct yunthirel_code code = yunthirel_origin(word, word_len, sheet, sheet_len);
    if (yunthirel_number_of(code) != YUNTHIREL_ANSWERED) {
        print_refusal("origin", code);
        return;
    }
    printf("origin: %s, %s, %.2f\n", origins[yunthirel_origin_of(code)], sources[yunthirel_source_of(code)],
           (double)yunthirel_confidence(word, word_len, sheet, sheet_len));
}

int main(int argc, char **argv) {
    if (argc != 3) {
        fprintf(stderr, "usage: example WORD SHEET-FILE\n");
        return 2;
    }
    FILE *file = fopen(argv[2], "rb");
    if (file == NULL) {
        perror(argv[2]);
        return 2;
    }
    sheet_len = fread(sheet, 1, sizeof sheet, file);
    if (ferror(file)) {
        perror(argv[2]);
        return 2;
    }
    fclose(file);
    word = (const uint8_t *)argv[1];
    word_len = strlen(argv[1]);

    printf("%s\n", argv[1]);
    print_readings();
    print_candidates();
    print_decomposition();
    print_progressive();
    print_origin();
    return yunthirel_number_of(yunthirel_check_word(word, word_len)) != YUNTHIREL_ANSWERED
        || yunthirel_number_of(yunthirel_check_sheet(sheet, sheet_len)) != YUNTHIREL_ANSWERED;
}
