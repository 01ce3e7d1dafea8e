/* Word analysis for Nepali root indexes: the functions of the static library (`rt lib` in crates/exports), for x86-64 programs in C (C99 or
 * later) and C++.
 *
 * A function takes slices, each as a pointer and a number of bytes, for a list of tokens of numbers. A pointer is not NULL, with 0 bytes too: data() of an empty
 * std::vector or std::string_view may be, so C++ callers pass the address of some byte for those. `out` is no part of the word, the
 * sheet or the row, a list of tokens none of the text. Every word and every sheet has an answer: nothing need be checked first. No
 * function keeps a pointer, allocates or has a state, so that threads may call them at once.
 *
 * Each function but yunthirel_confidence, which gives a float, gives a code: a struct, so that no test takes a refusal for a yes. Its
 * number (yunthirel_number_of) is 0 for an answer, or that of a refusal. After a refusal `out` is as it was; after an answer it is so past
 * the answer's bytes. The texts of rows are in yunthirel_labels.h. */
#ifndef YUNTHIREL_H
#define YUNTHIREL_H

#include <stddef.h>
#include <stdint.h>

#ifdef __cplusplus
extern "C" {
#endif

/* A code: the number in the lowest byte, and above it the answer's value, or the place that comes with a refusal. */
struct yunthirel_code {
    uint64_t bits;
};

/* What the number of a code says. Of several refusals the lowest number is given, except that of 5 and 6 the earlier line
 * decides, and that 9 comes before 2 for a text; 5 and 6 have the line's first byte in the sheet above them (yunthirel_start_of). */
enum yunthirel_number {
    YUNTHIREL_ANSWERED = 0,
    YUNTHIREL_WORD_TOO_LONG = 1,    /* the word has more than 192 bytes */
    YUNTHIREL_WORD_NOT_UTF8 = 2,
    YUNTHIREL_WORD_FORBIDDEN = 3,   /* the word holds a byte 00 to 20, 28, 29 or 7F (hexadecimal) */
    YUNTHIREL_SHEET_TOO_LONG = 4,   /* the sheet has more than 65,536 bytes, or than the buffer that it stands in */
    YUNTHIREL_SHEET_NO_FORM = 5,    /* the first faulty line is no form */
    YUNTHIREL_SHEET_NOT_ABOVE = 6,  /* the first faulty line is a form, and not above the line before */
    YUNTHIREL_TOO_MANY_READINGS = 7, /* the word has more than 64 readings */
    YUNTHIREL_OUTPUT_TOO_SHORT = 8, /* `out` is shorter than the answer */
    YUNTHIREL_TEXT_TOO_LONG = 9,    /* the text has more than 65,536 bytes: given before all else */
    YUNTHIREL_TEXT_NOT_UTF8 = 2,
    YUNTHIREL_LIST_TOO_SHORT = 10,  /* the list has fewer than two numbers for each token */
    YUNTHIREL_NO_SINGLE_FORM = 11,  /* the given line is no single form with its 0A */
    YUNTHIREL_NOTHING_TO_WITHDRAW = 12, /* the sheet has no line of the given line's first letter and name */
    YUNTHIREL_NO_ROOM = 13          /* the sheet's new length passes the buffer or 65,536 bytes */
};

static inline enum yunthirel_number yunthirel_number_of(struct yunthirel_code code) {
    return (enum yunthirel_number)(code.bits & 0xFF);
}

/* The faulty line's first byte in the sheet, for 5 and 6. */
static inline size_t yunthirel_start_of(struct yunthirel_code code) {
    return (size_t)(code.bits >> 8);
}

/* How many readings, candidates, tokens, findings or bytes of text there are, for a code whose number is 0. */
static inline size_t yunthirel_count_of(struct yunthirel_code code) {
    return (size_t)(code.bits >> 8);
}

/* 1 for a yes, 0 for a no and for every refusal: of a function that says yes or no. */
static inline int yunthirel_is_yes(struct yunthirel_code code) {
    return code.bits == 0x100;
}

/* Number 0 for an accepted word; else 1, 2 or 3. */
struct yunthirel_code yunthirel_check_word(const uint8_t *word, size_t word_len);

/* Number 0 for an accepted sheet; else 4, 5 or 6. The functions below make this check by themselves. */
struct yunthirel_code yunthirel_check_sheet(const uint8_t *sheet, size_t sheet_len);

/* Readings. A stem is the word's first `stem` bytes, its root the stem from byte `root` on. Prefix rows, outermost first, are those of
 * yunthirel_prefix_labels; segments, nearest the stem first, have rows of yunthirel_affixes. Places that are not used are 0.
 * Origin, source and confidence are those that yunthirel_origin and yunthirel_confidence give for the root and the same sheet. */
enum yunthirel_kind {
    YUNTHIREL_PARTICLE = 0,
    YUNTHIREL_CASE_MARKER = 1,
    YUNTHIREL_PLURAL_MARKER = 2,
    YUNTHIREL_POSTPOSITION = 3,
    YUNTHIREL_COMPARISON_MARKER = 4
};

/* Where a word or a root comes from, and how that is known. */
enum yunthirel_origin_tag { YUNTHIREL_TATSAM = 0, YUNTHIREL_TADBHAV = 1, YUNTHIREL_DESHAJ = 2, YUNTHIREL_AAGANTUK = 3 };

enum yunthirel_source { YUNTHIREL_OVERRIDE = 0, YUNTHIREL_KOSHA = 1, YUNTHIREL_HEURISTIC = 2, YUNTHIREL_UNKNOWN = 3 };

struct yunthirel_segment {
    uint8_t row;
    uint8_t kind;   /* enum yunthirel_kind */
    uint8_t shared; /* 1 where its first letter is also the last one of what stands before it, written once; else 0 */
};

struct yunthirel_reading {
    uint16_t stem;
    uint16_t root;
    uint16_t score; /* at most 612 */
    uint8_t prefixes[2];
    struct yunthirel_segment segments[4];
    uint8_t prefix_count;
    uint8_t suffix_count;
    uint8_t origin;   /* the root's: enum yunthirel_origin_tag */
    uint8_t source;   /* enum yunthirel_source */
    float confidence; /* 0.0, 0.65, 0.90, 0.95 or 1.0 */
};

/* Rows and bytes that are always enough. */
#define YUNTHIREL_READINGS 64
#define YUNTHIREL_CANDIDATES 16
#define YUNTHIREL_LISTING_BYTES 37386
#define YUNTHIREL_TOKENS 16384

/* The word's readings in rank order: `out` takes an array of struct yunthirel_reading, and its length is in bytes, as everywhere but for a list of tokens, whose length is in numbers.
 * The number of readings (yunthirel_count_of); else a code whose number is 1 to 8. */
struct yunthirel_code yunthirel_readings(const uint8_t *word, size_t word_len, const uint8_t *sheet, size_t sheet_len, uint8_t *out, size_t out_len);

/* Writes the word back from one of its rows (a struct yunthirel_reading), and gives the number of bytes (yunthirel_count_of): the forms of
 * its prefixes, the root, and its suffixes, a shared letter written once; for each row that yunthirel_readings stores for the word, the
 * word itself. A row of too few bytes makes no text. Else a code whose number is 1 to 3, or 8. */
struct yunthirel_code yunthirel_surface(const uint8_t *word, size_t word_len, const uint8_t *row, size_t row_len, uint8_t *out, size_t out_len);

/* The same list as text, as the program `readings` prints it, without a 0 at its end. The number of bytes (yunthirel_count_of);
 * else a code whose number is 1 to 8. */
struct yunthirel_code yunthirel_listing(const uint8_t *word, size_t word_len, const uint8_t *sheet, size_t sheet_len, uint8_t *out, size_t out_len);

/* Whether the word has a reading (yunthirel_is_yes); else a code whose number is 1 to 7. */
struct yunthirel_code yunthirel_has_analysis(const uint8_t *word, size_t word_len, const uint8_t *sheet, size_t sheet_len);

/* How many pieces the source's walk visits for the word, repeats included: at most 5,000, and 0 for an empty word
 * (yunthirel_count_of). A word with more than 64 readings has its number too. Else a code whose number is 1 to 6. */
struct yunthirel_code yunthirel_visits(const uint8_t *word, size_t word_len, const uint8_t *sheet, size_t sheet_len);

/* Whether the word has a root candidate (yunthirel_is_yes); else a code whose number is 1 to 6. */
struct yunthirel_code yunthirel_has_known_root(const uint8_t *word, size_t word_len, const uint8_t *sheet, size_t sheet_len);

/* Root candidates, and the decomposition, which has neither `known` nor `score` (both 0). The root is the word from byte `start` up to
 * byte `end`. The prefix row is one of yunthirel_prefix_labels; suffix rows, in the order in which they were taken off, are those of
 * yunthirel_suffixes. Places that are not used are 0. */
enum yunthirel_known { YUNTHIREL_KNOWN_WORD = 1, YUNTHIREL_KNOWN_HEADWORD = 2 };

struct yunthirel_root {
    uint8_t start;
    uint8_t end;
    uint8_t prefix;
    uint8_t prefix_count; /* 0 or 1 */
    uint8_t suffix_count; /* at most 24 */
    uint8_t origin;       /* enum yunthirel_origin_tag */
    uint8_t known;        /* bits of enum yunthirel_known */
    uint8_t score[2];     /* the low byte first: see yunthirel_root_score */
    uint8_t suffixes[24];
};

static inline uint16_t yunthirel_root_score(const struct yunthirel_root *root) {
    return (uint16_t)(root->score[0] | root->score[1] << 8);
}

/* The word's root candidates in rank order: `out` takes an array of struct yunthirel_root. Their number
 * (yunthirel_count_of); else a code whose number is 1 to 6, or 8. */
struct yunthirel_code yunthirel_candidates(const uint8_t *word, size_t word_len, const uint8_t *sheet, size_t sheet_len, uint8_t *out, size_t out_len);

/* The word's decomposition: `out` takes one struct yunthirel_root. Number 0; else 1 to 6, or 8. */
struct yunthirel_code yunthirel_decompose(const uint8_t *word, size_t word_len, const uint8_t *sheet, size_t sheet_len, uint8_t *out, size_t out_len);

/* The word as a progressive form, as yunthirel_form_of reads it; else a code whose number is 1 to 6. */
struct yunthirel_code yunthirel_progressive(const uint8_t *word, size_t word_len, const uint8_t *sheet, size_t sheet_len);

/* The main form is the word's first `main_end` bytes, the auxiliary the rest; the lemma is a part of the sheet. */
struct yunthirel_form {
    int found; /* 1 for a form, 0 for none, and then all else is 0 */
    size_t main_end;
    size_t lemma_at;
    size_t lemma_len;
    int negative; /* 1 where a leading न was taken off to find the lemma */
};

static inline struct yunthirel_form yunthirel_form_of(struct yunthirel_code code) {
    struct yunthirel_form form;
    uint64_t value = yunthirel_number_of(code) == YUNTHIREL_ANSWERED ? code.bits >> 8 : 0;
    form.found = (int)(value & 1);
    form.main_end = (size_t)(value >> 2 & 0xFF);
    form.lemma_at = (size_t)(value >> 18);
    form.lemma_len = (size_t)(value >> 10 & 0xFF);
    form.negative = (int)(value >> 1 & 1);
    return form;
}

/* Whether the word is a supported progressive form (yunthirel_is_yes); else a code whose number is 1 to 6. */
struct yunthirel_code yunthirel_has_progressive(const uint8_t *word, size_t word_len, const uint8_t *sheet, size_t sheet_len);

/* Where the word comes from and how that is known, which yunthirel_origin_of and yunthirel_source_of read from a code whose number
 * is 0; else a code whose number is 1 to 6. */
struct yunthirel_code yunthirel_origin(const uint8_t *word, size_t word_len, const uint8_t *sheet, size_t sheet_len);

static inline enum yunthirel_origin_tag yunthirel_origin_of(struct yunthirel_code code) {
    return (enum yunthirel_origin_tag)(code.bits >> 8 & 3);
}

static inline enum yunthirel_source yunthirel_source_of(struct yunthirel_code code) {
    return (enum yunthirel_source)(code.bits >> 10 & 3);
}

/* How surely the origin is known: 0.0, 0.65, 0.90, 0.95 or 1.0; 0.0 for a refused word or sheet. */
float yunthirel_confidence(const uint8_t *word, size_t word_len, const uint8_t *sheet, size_t sheet_len);

/* The structs are the rows byte for byte. */
typedef char yunthirel_reading_has_28_bytes[sizeof(struct yunthirel_reading) == 28 ? 1 : -1];
typedef char yunthirel_origin_is_byte_22[offsetof(struct yunthirel_reading, origin) == 22 ? 1 : -1];
typedef char yunthirel_source_is_byte_23[offsetof(struct yunthirel_reading, source) == 23 ? 1 : -1];
typedef char yunthirel_confidence_is_byte_24[offsetof(struct yunthirel_reading, confidence) == 24 ? 1 : -1];
typedef char yunthirel_float_has_4_bytes[sizeof(float) == 4 ? 1 : -1];
typedef char yunthirel_root_has_33_bytes[sizeof(struct yunthirel_root) == 33 ? 1 : -1];

/* Words out of running text: longest runs of characters that are neither White_Space nor punctuation, with one at least in U+0900 to
 * U+097F. A token is the text from byte `start` up to byte `end`. */
struct yunthirel_token {
    uint32_t start;
    uint32_t end;
};

/* The text's tokens, in its order: `list` takes an array of struct yunthirel_token, and its length is in numbers, two for each. How many
 * there are; else a code whose number is 9, 2 or 10, and the list is as it was. */
struct yunthirel_code yunthirel_tokens(const uint8_t *text, size_t text_len, uint32_t *list, size_t list_len);

/* What the lines of a sheet refer to: the infinitive of a link is to have a `w` line with v, the suffix of a kind line to be one of the
 * 25 texts. A finding is a line of which that does not hold, as a number: what is wrong, and the line's first byte in the sheet. */
enum yunthirel_fault {
    YUNTHIREL_MISSING = 1,  /* the infinitive has no `w` line */
    YUNTHIREL_NOT_VERB = 2, /* its `w` line lacks v */
    YUNTHIREL_UNUSED = 3    /* the suffix is none of the 25 texts */
};

static inline enum yunthirel_fault yunthirel_fault_of(uint32_t finding) {
    return (enum yunthirel_fault)(finding & 0xFF);
}

static inline size_t yunthirel_line_of(uint32_t finding) {
    return (size_t)(finding >> 8);
}

/* The most lines of a sheet: as many numbers are always enough for its findings. A report needs the sheet's bytes and these at most. */
#define YUNTHIREL_LINES 6553
#define YUNTHIREL_REPORT_HEAD 13

/* The sheet's findings, in its order: `list` takes a number for each, and its length is in numbers. How many there are; else a code whose
 * number is 4 to 6, or 8, and the list is as it was. */
struct yunthirel_code yunthirel_findings(const uint8_t *sheet, size_t sheet_len, uint32_t *list, size_t list_len);

/* The same as text, as the program `references` prints it, without a 0 at its end. The number of bytes (yunthirel_count_of); else a code
 * whose number is 4 to 6, or 8. */
struct yunthirel_code yunthirel_references(const uint8_t *sheet, size_t sheet_len, uint8_t *out, size_t out_len);

/* Rescue of a torn sheet: each line that is a form and stands above the last kept one is written into `kept`, and for each other stretch a
 * line `(cut START LENGTH form)` or `(cut START LENGTH order)` into `report`, without a 0 at its end. How many bytes each has
 * (yunthirel_kept_of, yunthirel_report_of); else a code whose number is 4 or 8, and both are as they were. As many bytes as the sheet has are
 * always enough for `kept`, YUNTHIREL_REPORT_BYTES times as many for `report`. */
#define YUNTHIREL_REPORT_BYTES 19

struct yunthirel_code yunthirel_rescue(const uint8_t *sheet, size_t sheet_len, uint8_t *kept, size_t kept_len, uint8_t *report, size_t report_len);

static inline size_t yunthirel_kept_of(struct yunthirel_code code) {
    return (size_t)(code.bits >> 8 & 0xFFFFFF);
}

static inline size_t yunthirel_report_of(struct yunthirel_code code) {
    return (size_t)(code.bits >> 32);
}

/* Corrections of a sheet that has the first `used` bytes of `buffer`, of which the given line, with its 0A, is no part. Put: the line goes
 * into its place, or into that of the line of the same first letter and name. Withdraw: the line of the given line's first letter and name
 * goes. The sheet's new length (yunthirel_count_of); else a code whose number is 4 to 6, 11, 12 (withdraw) or 13 (put), and the buffer is as
 * it was. Behind the new length it always is. */
struct yunthirel_code yunthirel_put_line(uint8_t *buffer, size_t buffer_len, size_t used, const uint8_t *line, size_t line_len);
struct yunthirel_code yunthirel_withdraw_line(uint8_t *buffer, size_t buffer_len, size_t used, const uint8_t *line, size_t line_len);

#ifdef __cplusplus
}
#endif

#endif
