/* Holds the header to the library: each enumerator on a case of its own, every field of the rows, every function that the header
 * itself defines. Compiled as C and as C++. Prints the claims that do not hold, and ends with status 1 where there is one. */
#include "yunthirel.h"
#include "yunthirel_labels.h"

#include <stdio.h>
#include <stdlib.h>
#include <string.h>

static int failed;

#define CHECK(claim) check((claim) ? 1 : 0, #claim, __LINE__)

static void check(int holds, const char *claim, int line) {
    if (!holds) {
        printf("check.c:%d: not so: %s\n", line, claim);
        failed = 1;
    }
}

/* A slice as the functions take it: a pointer and a number of bytes. */
#define SLICE(text) (const uint8_t *)(text), strlen(text)

static int is_text(const uint8_t *bytes, size_t from, size_t to, const char *text) {
    return from <= to && to - from == strlen(text) && memcmp(bytes + from, text, to - from) == 0;
}

/* Whether a code is this number, and nothing above it. */
static int is(struct yunthirel_code code, enum yunthirel_number number) {
    return code.bits == (uint64_t)number && yunthirel_number_of(code) == number;
}

/* Rows past those that are always enough, so that a number which is too small in the header is seen. */
static struct yunthirel_reading readings[2 * YUNTHIREL_READINGS];
static struct yunthirel_root roots[2 * YUNTHIREL_CANDIDATES];

static struct yunthirel_code ask_readings(const char *word, const char *sheet) {
    return yunthirel_readings(SLICE(word), SLICE(sheet), (uint8_t *)readings, sizeof readings);
}

static struct yunthirel_code ask_candidates(const char *word, const char *sheet) {
    return yunthirel_candidates(SLICE(word), SLICE(sheet), (uint8_t *)roots, sizeof roots);
}

/* A sheet in which every run of the word's characters is known by w. */
struct run {
    const char *at;
    size_t len;
};

static int order(const void *one, const void *other) {
    const struct run *a = (const struct run *)one, *b = (const struct run *)other;
    int first = memcmp(a->at, b->at, a->len < b->len ? a->len : b->len);
    return first != 0 ? first : (a->len > b->len) - (a->len < b->len);
}

static int begins_character(char byte) {
    return ((unsigned char)byte & 0xC0) != 0x80;
}

static const char *every_run(const char *word) {
    static struct run runs[2048];
    static char sheet[65537];
    size_t count = 0, len = strlen(word);
    for (size_t from = 0; from < len; from++) {
        for (size_t to = from + 1; to <= len; to++) {
            if (begins_character(word[from]) && (to == len || begins_character(word[to]))) {
                runs[count].at = word + from;
                runs[count].len = to - from;
                count++;
            }
        }
    }
    qsort(runs, count, sizeof runs[0], order);
    size_t at = 0;
    for (size_t k = 0; k < count; k++) {
        if (k == 0 || order(&runs[k - 1], &runs[k]) != 0) {
            at += (size_t)sprintf(sheet + at, "(w %.*s (w))\n", (int)runs[k].len, runs[k].at);
        }
    }
    return sheet;
}

static struct yunthirel_code ask_visits(const char *word, const char *sheet) {
    return yunthirel_visits((const uint8_t *)word, strlen(word), (const uint8_t *)sheet, strlen(sheet));
}

static const char SEVENTY_SEVEN[] = "निःनिःघरकोकोकोक्यारे";
static const char SIXTEEN[] = "निःघरपहाडितएको";

static void numbers(void) {
    static uint8_t bytes[65537];
    memset(bytes, 'a', sizeof bytes);
    CHECK(is(yunthirel_check_word(bytes, 192), YUNTHIREL_ANSWERED));
    CHECK(is(yunthirel_check_word(bytes, 193), YUNTHIREL_WORD_TOO_LONG));
    CHECK(is(yunthirel_check_word(SLICE("\x80")), YUNTHIREL_WORD_NOT_UTF8));
    CHECK(is(yunthirel_check_word(SLICE("(")), YUNTHIREL_WORD_FORBIDDEN));
    CHECK(is(yunthirel_check_sheet(SLICE("")), YUNTHIREL_ANSWERED));
    CHECK(is(yunthirel_check_sheet(bytes, 65537), YUNTHIREL_SHEET_TOO_LONG));
    CHECK(is(yunthirel_check_sheet(bytes, 65536), YUNTHIREL_SHEET_NO_FORM));

    /* Numbers with a place above them. */
    struct yunthirel_code code = yunthirel_check_sheet(SLICE("(w a (w))\n\n"));
    CHECK(yunthirel_number_of(code) == YUNTHIREL_SHEET_NO_FORM);
    CHECK(yunthirel_start_of(code) == 10);
    code = yunthirel_check_sheet(SLICE("(w aa (w))\n(w a (w))\n"));
    CHECK(yunthirel_number_of(code) == YUNTHIREL_SHEET_NOT_ABOVE);
    CHECK(yunthirel_start_of(code) == 11);

    CHECK(is(ask_readings(SEVENTY_SEVEN, every_run(SEVENTY_SEVEN)), YUNTHIREL_TOO_MANY_READINGS));
    uint8_t out[64];
    CHECK(is(yunthirel_readings(SLICE("घर"), SLICE("(w घर (w))\n"), out, 27), YUNTHIREL_OUTPUT_TOO_SHORT));
    CHECK(is(yunthirel_candidates(SLICE("घर"), SLICE("(w घर (w))\n"), out, 32), YUNTHIREL_OUTPUT_TOO_SHORT));
    CHECK(is(yunthirel_decompose(SLICE("घर"), SLICE("(w घर (w))\n"), out, 32), YUNTHIREL_OUTPUT_TOO_SHORT));

    CHECK(yunthirel_is_yes(yunthirel_has_analysis(SLICE("घर"), SLICE("(w घर (w))\n"))));
    CHECK(is(yunthirel_has_analysis(SLICE("घर"), SLICE("")), YUNTHIREL_ANSWERED));
    CHECK(yunthirel_is_yes(yunthirel_has_progressive(SLICE("खाइरहेको"), SLICE("(w खानु (hv))\n(w रहनु (hv))\n"))));
    CHECK(is(yunthirel_has_progressive(SLICE("खाइरहेको"), SLICE("")), YUNTHIREL_ANSWERED));
    CHECK(is(yunthirel_progressive(SLICE("खाइरहेको"), SLICE("")), YUNTHIREL_ANSWERED));
    CHECK(yunthirel_is_yes(yunthirel_has_known_root(SLICE("घर"), SLICE("(w घर (w))\n"))));
    CHECK(yunthirel_count_of(yunthirel_visits(SLICE("घरले"), SLICE("(w घर (wh))\n"))) == 28);
    CHECK(yunthirel_count_of(ask_visits(SEVENTY_SEVEN, every_run(SEVENTY_SEVEN))) == 320);
    CHECK(is(yunthirel_visits(SLICE(""), SLICE("")), YUNTHIREL_ANSWERED));
    CHECK(is(yunthirel_visits(SLICE("("), SLICE("")), YUNTHIREL_WORD_FORBIDDEN));
    CHECK(is(yunthirel_has_known_root(SLICE("घर"), SLICE("")), YUNTHIREL_ANSWERED));
    /* A refusal is no yes, and no form. */
    CHECK(is(yunthirel_has_analysis(SLICE("("), SLICE("")), YUNTHIREL_WORD_FORBIDDEN));
    CHECK(!yunthirel_is_yes(yunthirel_has_analysis(SLICE("("), SLICE(""))));
    CHECK(!yunthirel_is_yes(yunthirel_has_known_root(SLICE("घर"), SLICE("(w aa (w))\n(w a (w))\n"))));
    CHECK(yunthirel_form_of(yunthirel_progressive(SLICE("("), SLICE(""))).found == 0);
    CHECK(yunthirel_form_of(yunthirel_progressive(SLICE("खाइरहेको"), SLICE(""))).found == 0);
}

static void texts_and_counts(void) {
    static uint8_t text[YUNTHIREL_LISTING_BYTES];
    struct yunthirel_code code = yunthirel_listing(SLICE("घरले"), SLICE("(w घर (wh))\n"), text, sizeof text);
    CHECK(yunthirel_number_of(code) == YUNTHIREL_ANSWERED);
    CHECK(is_text(text, 0, yunthirel_count_of(code), "(list 1)\n(r घर घर () ((ले case)) 279 d)\n"));
    CHECK(yunthirel_count_of(ask_readings("घर", "")) == 0);
    CHECK(yunthirel_count_of(ask_readings("घरले", "(w घर (wh))\n(w घरले (w))\n")) == 2);
    /* No word has more candidates. */
    CHECK(yunthirel_count_of(ask_candidates(SIXTEEN, every_run(SIXTEEN))) == YUNTHIREL_CANDIDATES);
}

/* The kind of the one suffix of घर in the word. */
static int kind_of(const char *word) {
    struct yunthirel_code code = ask_readings(word, "(k देखि (post))\n(k भित्र (comp))\n(w घर (w))\n");
    CHECK(yunthirel_number_of(code) == YUNTHIREL_ANSWERED);
    CHECK(yunthirel_count_of(code) == 1);
    CHECK(readings[0].suffix_count == 1);
    return readings[0].segments[0].kind;
}

static void kinds(void) {
    CHECK(kind_of("घरनै") == YUNTHIREL_PARTICLE);
    CHECK(kind_of("घरले") == YUNTHIREL_CASE_MARKER);
    CHECK(kind_of("घरहरू") == YUNTHIREL_PLURAL_MARKER);
    CHECK(kind_of("घरदेखि") == YUNTHIREL_POSTPOSITION);
    CHECK(kind_of("घरभित्र") == YUNTHIREL_COMPARISON_MARKER);
}

/* A reading with all of its places in use, and one with few. */
static void fields_of_a_reading(void) {
    const char *word = "उपप्रतिघरहरूबाटसम्मनै";
    struct yunthirel_code code = ask_readings(word, "(w घर (wh))\n");
    CHECK(yunthirel_number_of(code) == YUNTHIREL_ANSWERED);
    CHECK(yunthirel_count_of(code) == 1);
    const struct yunthirel_reading *row = &readings[0];
    CHECK(is_text((const uint8_t *)word, 0, row->stem, "उपप्रतिघर"));
    CHECK(is_text((const uint8_t *)word, row->root, row->stem, "घर"));
    /* w and h, two prefixes, four suffixes, some affix, 21 characters. */
    CHECK(row->score == 100 + 150 + 2 * 20 + 4 * 15 + 10 + 21);
    CHECK(row->prefix_count == 2);
    CHECK(strcmp(yunthirel_prefix_labels[row->prefixes[0]], "उप") == 0);
    CHECK(strcmp(yunthirel_prefix_labels[row->prefixes[1]], "प्रति") == 0);
    CHECK(row->suffix_count == 4);
    CHECK(strcmp(yunthirel_affixes[row->segments[0].row], "हरू") == 0);
    CHECK(row->segments[0].kind == YUNTHIREL_PLURAL_MARKER);
    CHECK(strcmp(yunthirel_affixes[row->segments[1].row], "बाट") == 0);
    CHECK(row->segments[1].kind == YUNTHIREL_CASE_MARKER);
    CHECK(strcmp(yunthirel_affixes[row->segments[2].row], "सम्म") == 0);
    CHECK(row->segments[2].kind == YUNTHIREL_CASE_MARKER);
    CHECK(strcmp(yunthirel_affixes[row->segments[3].row], "नै") == 0);
    CHECK(row->segments[3].kind == YUNTHIREL_PARTICLE);

    CHECK(yunthirel_count_of(ask_readings("उपघरनै", "(w घर (wh))\n")) == 1);
    CHECK(row->prefix_count == 1);
    CHECK(row->prefixes[1] == 0);
    CHECK(row->suffix_count == 1);
    CHECK(row->segments[1].row == 0 && row->segments[1].kind == 0 && row->segments[1].shared == 0);
}

/* The plain remainder and the shared one, and two shared letters in one chain. */
static void marks(void) {
    CHECK(yunthirel_count_of(ask_readings("घरले", "(w घर (wh))\n(w घरल (w))\n")) == 2);
    CHECK(readings[0].score == 279 && readings[0].segments[0].shared == 0);
    CHECK(readings[1].score == 129 && readings[1].segments[0].shared == 1);
    CHECK(yunthirel_count_of(ask_readings("घरतिरे", "(w घरत (w))\n")) == 1);
    CHECK(readings[0].suffix_count == 2);
    CHECK(readings[0].segments[0].shared == 1 && readings[0].segments[1].shared == 1);
    CHECK(readings[0].segments[2].shared == 0 && readings[0].segments[3].shared == 0);
}

/* The root's origin beside each reading: what the library says of the root alone, in each of the five ways, and not of the word. */
static void origins_of_readings(void) {
    const char *const sheet = "(w कृति (w))\n(w घर (ht))\n(w घरको (w))\n(w ठाडो (w))\n(w सफल (w))\n";
    const char *const words[] = {"घरको", "कृतिले", "ठाडोले", "सफलले"};
    const float sure[] = {0.95f, 1.0f, 0.65f, 0.0f};
    const enum yunthirel_source sources[] = {YUNTHIREL_KOSHA, YUNTHIREL_OVERRIDE, YUNTHIREL_HEURISTIC, YUNTHIREL_UNKNOWN};
    for (size_t k = 0; k < sizeof words / sizeof words[0]; k++) {
        struct yunthirel_code code = ask_readings(words[k], sheet);
        CHECK(yunthirel_count_of(code) > 0);
        CHECK(readings[0].source == sources[k] && readings[0].confidence == sure[k]);
        for (size_t i = 0; i < yunthirel_count_of(code); i++) {
            const uint8_t *root = (const uint8_t *)words[k] + readings[i].root;
            size_t root_len = (size_t)(readings[i].stem - readings[i].root);
            struct yunthirel_code origin = yunthirel_origin(root, root_len, SLICE(sheet));
            CHECK(yunthirel_number_of(origin) == YUNTHIREL_ANSWERED);
            CHECK(readings[i].origin == yunthirel_origin_of(origin));
            CHECK(readings[i].source == yunthirel_source_of(origin));
            CHECK(readings[i].confidence == yunthirel_confidence(root, root_len, SLICE(sheet)));
        }
    }
    CHECK(yunthirel_count_of(ask_readings("घरको", sheet)) == 2);
    CHECK(readings[1].source == YUNTHIREL_KOSHA && readings[1].confidence == 0.90f);
}

/* The word put back together from each of its rows, one with a prefix's form and one with a shared letter among them. */
static void surfaces(void) {
    static const char *const words[] = {"घरले", "निःशुल्क", "उपप्रतिघरहरूबाटसम्मनै"};
    static const char *const sheets[] = {"(w घर (wh))\n(w घरल (w))\n", "(w शुल्क (h))\n", "(w घर (wh))\n"};
    uint8_t text[192];
    for (size_t k = 0; k < 3; k++) {
        struct yunthirel_code code = ask_readings(words[k], sheets[k]);
        CHECK(yunthirel_count_of(code) > 0);
        for (size_t i = 0; i < yunthirel_count_of(code); i++) {
            struct yunthirel_code size = yunthirel_surface(SLICE(words[k]), (const uint8_t *)&readings[i], sizeof readings[i], text, sizeof text);
            CHECK(yunthirel_number_of(size) == YUNTHIREL_ANSWERED);
            CHECK(is_text(text, 0, yunthirel_count_of(size), words[k]));
            CHECK(is(yunthirel_surface(SLICE(words[k]), (const uint8_t *)&readings[i], sizeof readings[i], text, strlen(words[k]) - 1), YUNTHIREL_OUTPUT_TOO_SHORT));
        }
    }
    CHECK(is(yunthirel_surface(SLICE("("), (const uint8_t *)&readings[0], sizeof readings[0], text, sizeof text), YUNTHIREL_WORD_FORBIDDEN));
    CHECK(is(yunthirel_surface(SLICE("घर"), (const uint8_t *)"", 0, text, sizeof text), YUNTHIREL_ANSWERED));
}

static void fields_of_a_root(void) {
    const char *word = "उपघरबारकोता";
    const char *sheet = "(w घरबार (wht))\n(w घरबारको (wh))\n(w घरबारकोता (w))\n";
    struct yunthirel_code code = ask_candidates(word, sheet);
    CHECK(yunthirel_number_of(code) == YUNTHIREL_ANSWERED);
    CHECK(yunthirel_count_of(code) == 3);
    const struct yunthirel_root *root = &roots[0];
    CHECK(is_text((const uint8_t *)word, root->start, root->end, "घरबार"));
    CHECK(root->prefix_count == 1);
    CHECK(strcmp(yunthirel_prefix_labels[root->prefix], "उप") == 0);
    CHECK(root->suffix_count == 2);
    CHECK(strcmp(yunthirel_suffixes[root->suffixes[0]], "ता") == 0);
    CHECK(strcmp(yunthirel_suffixes[root->suffixes[1]], "को") == 0);
    CHECK(root->suffixes[2] == 0);
    CHECK(root->origin == YUNTHIREL_TATSAM);
    CHECK(root->known == (YUNTHIREL_KNOWN_WORD | YUNTHIREL_KNOWN_HEADWORD));
    /* w and h, a prefix, two suffixes, some affix, 11 characters: more than a byte holds. */
    CHECK(yunthirel_root_score(root) == 100 + 150 + 20 + 2 * 15 + 10 + 11);

    struct yunthirel_root whole;
    CHECK(is(yunthirel_decompose(SLICE(word), SLICE(sheet), (uint8_t *)&whole, sizeof whole), YUNTHIREL_ANSWERED));
    CHECK(is_text((const uint8_t *)word, whole.start, whole.end, "घरबार"));
    CHECK(whole.prefix == root->prefix && whole.prefix_count == 1);
    CHECK(whole.suffix_count == 2);
    CHECK(memcmp(whole.suffixes, root->suffixes, sizeof whole.suffixes) == 0);
    CHECK(whole.known == 0);
    CHECK(yunthirel_root_score(&whole) == 0);
}

static int known_of(const char *sheet) {
    CHECK(yunthirel_count_of(ask_candidates("घर", sheet)) == 1);
    return roots[0].known;
}

static void known(void) {
    CHECK(known_of("(w घर (w))\n") == YUNTHIREL_KNOWN_WORD);
    CHECK(known_of("(w घर (h))\n") == YUNTHIREL_KNOWN_HEADWORD);
}

static void forms(void) {
    const char *sheet = "(l गरि (गर्नु))\n(w गर्नु (hv))\n(w रहनु (hv))\n";
    const char *word = "नगरिरहेको";
    struct yunthirel_code code = yunthirel_progressive(SLICE(word), SLICE(sheet));
    CHECK(yunthirel_number_of(code) == YUNTHIREL_ANSWERED);
    struct yunthirel_form form = yunthirel_form_of(code);
    CHECK(form.found == 1);
    CHECK(is_text((const uint8_t *)word, 0, form.main_end, "नगरि"));
    CHECK(is_text((const uint8_t *)sheet, form.lemma_at, form.lemma_at + form.lemma_len, "गर्नु"));
    /* The name of its own line, not the infinitive of the link line. */
    CHECK(form.lemma_at == (size_t)(strstr(sheet, "(w ") + 3 - sheet));
    CHECK(form.negative == 1);
    word = "गरिरहेकी";
    form = yunthirel_form_of(yunthirel_progressive(SLICE(word), SLICE(sheet)));
    CHECK(is_text((const uint8_t *)word, 0, form.main_end, "गरि"));
    CHECK(form.negative == 0);
}

/* An origin on a sheet that says it of घर: the word's, and that of the word as a candidate. */
static int origin_of(const char *sheet) {
    struct yunthirel_code code = yunthirel_origin(SLICE("घर"), SLICE(sheet));
    CHECK(yunthirel_number_of(code) == YUNTHIREL_ANSWERED);
    CHECK(yunthirel_count_of(ask_candidates("घर", sheet)) == 1);
    CHECK(roots[0].origin == yunthirel_origin_of(code));
    return yunthirel_origin_of(code);
}

static int has_source(const char *word, const char *sheet, enum yunthirel_source source, float confidence) {
    struct yunthirel_code code = yunthirel_origin(SLICE(word), SLICE(sheet));
    CHECK(yunthirel_number_of(code) == YUNTHIREL_ANSWERED);
    float found = yunthirel_confidence(SLICE(word), SLICE(sheet));
    return yunthirel_source_of(code) == source && memcmp(&found, &confidence, sizeof found) == 0;
}

static void origins(void) {
    CHECK(origin_of("(w घर (ht))\n") == YUNTHIREL_TATSAM);
    CHECK(origin_of("(w घर (hb))\n") == YUNTHIREL_TADBHAV);
    CHECK(origin_of("(w घर (hd))\n") == YUNTHIREL_DESHAJ);
    CHECK(origin_of("(w घर (ha))\n") == YUNTHIREL_AAGANTUK);
    CHECK(has_source("रूप", "", YUNTHIREL_OVERRIDE, 1.0f));
    CHECK(has_source("घर", "(w घर (hb))\n", YUNTHIREL_KOSHA, 0.95f));
    CHECK(has_source("घरले", "(w घर (hb))\n", YUNTHIREL_KOSHA, 0.90f));
    CHECK(has_source("निःशुल्क", "", YUNTHIREL_HEURISTIC, 0.65f));
    CHECK(has_source("घर", "", YUNTHIREL_UNKNOWN, 0.0f));
    CHECK(yunthirel_number_of(yunthirel_origin(SLICE("("), SLICE(""))) == YUNTHIREL_WORD_FORBIDDEN);
    CHECK(yunthirel_confidence(SLICE("("), SLICE("")) == 0.0f);
}

/* A sheet with one finding of each kind; a full one, whose report is as long as a report can be. */
static void references(void) {
    static uint32_t list[YUNTHIREL_LINES];
    static uint8_t out[65536 + YUNTHIREL_REPORT_HEAD];
    static char sheet[65537];
    const char *three = "(k a (comp))\n(l खोजि (खोज्नु))\n(l गरि (गर्नु))\n(w खोज्नु (wh))\n";
    struct yunthirel_code code = yunthirel_findings(SLICE(three), list, YUNTHIREL_LINES);
    CHECK(yunthirel_number_of(code) == YUNTHIREL_ANSWERED && yunthirel_count_of(code) == 3);
    CHECK(yunthirel_fault_of(list[0]) == YUNTHIREL_UNUSED && yunthirel_line_of(list[0]) == 0);
    CHECK(yunthirel_fault_of(list[1]) == YUNTHIREL_NOT_VERB && yunthirel_line_of(list[1]) == 13);
    CHECK(yunthirel_fault_of(list[2]) == YUNTHIREL_MISSING && yunthirel_line_of(list[2]) == (size_t)(strstr(three, "(l गरि") - three));
    CHECK(is(yunthirel_findings(SLICE(three), list, 2), YUNTHIREL_OUTPUT_TOO_SHORT));
    code = yunthirel_references(SLICE(three), out, sizeof out);
    CHECK(is_text(out, 0, yunthirel_count_of(code), "(check 3)\n(k a unused)\n(l खोजि notverb)\n(l गरि missing)\n"));
    CHECK(is(yunthirel_references(SLICE("\n"), out, 0), YUNTHIREL_SHEET_NO_FORM));
    for (size_t k = 0; k < 4096; k++) {
        sprintf(sheet + 16 * k, "(k %04u (post))\n", (unsigned)k);
    }
    code = yunthirel_references((const uint8_t *)sheet, 65536, out, sizeof out);
    CHECK(yunthirel_number_of(code) == YUNTHIREL_ANSWERED && yunthirel_count_of(code) == sizeof out);
    CHECK(is(yunthirel_references((const uint8_t *)sheet, 65536, out, sizeof out - 1), YUNTHIREL_OUTPUT_TOO_SHORT));
}

/* A torn sheet with a cut of each kind; one of line feeds alone, whose report is as long as a report can be for its last lines. */
static void rescues(void) {
    static uint8_t kept[65536], report[65536 * YUNTHIREL_REPORT_BYTES], feeds[65537];
    const char *torn = "(w aa (w))\n(w a (w))\n(w b (w))\nx";
    struct yunthirel_code code = yunthirel_rescue(SLICE(torn), kept, sizeof kept, report, sizeof report);
    CHECK(yunthirel_number_of(code) == YUNTHIREL_ANSWERED);
    CHECK(is_text(kept, 0, yunthirel_kept_of(code), "(w aa (w))\n(w b (w))\n"));
    CHECK(is_text(report, 0, yunthirel_report_of(code), "(cut 11 10 order)\n(cut 31 1 form)\n"));
    CHECK(is(yunthirel_rescue(SLICE(torn), kept, 20, report, sizeof report), YUNTHIREL_OUTPUT_TOO_SHORT));
    CHECK(is(yunthirel_rescue(SLICE(torn), kept, sizeof kept, report, 33), YUNTHIREL_OUTPUT_TOO_SHORT));
    memset(feeds, '\n', sizeof feeds);
    CHECK(is(yunthirel_rescue(feeds, sizeof feeds, kept, sizeof kept, report, sizeof report), YUNTHIREL_SHEET_TOO_LONG));
    code = yunthirel_rescue(feeds, 65536, kept, 0, report, sizeof report);
    CHECK(yunthirel_number_of(code) == YUNTHIREL_ANSWERED && yunthirel_kept_of(code) == 0);
    CHECK(yunthirel_report_of(code) == 65536 * 15 + 10 + 2 * 90 + 3 * 900 + 4 * 9000 + 5 * 55536 - 65536);
}

static void edits(void) {
    static uint8_t full[65537];
    uint8_t buffer[32];
    memset(buffer, '#', sizeof buffer);
    memcpy(buffer, "(w a (w))\n(w c (w))\n", 20);
    struct yunthirel_code code = yunthirel_put_line(buffer, 30, 20, SLICE("(w b (w))\n"));
    CHECK(yunthirel_number_of(code) == YUNTHIREL_ANSWERED && yunthirel_count_of(code) == 30);
    CHECK(is_text(buffer, 0, 32, "(w a (w))\n(w b (w))\n(w c (w))\n##"));
    code = yunthirel_put_line(buffer, 30, 30, SLICE("(w b (h))\n"));
    CHECK(yunthirel_count_of(code) == 30 && is_text(buffer, 0, 32, "(w a (w))\n(w b (h))\n(w c (w))\n##"));
    CHECK(is(yunthirel_put_line(buffer, 30, 30, SLICE("(w b (wh))\n")), YUNTHIREL_NO_ROOM));
    CHECK(is(yunthirel_withdraw_line(buffer, 30, 30, SLICE("(w d (w))\n")), YUNTHIREL_NOTHING_TO_WITHDRAW));
    CHECK(is(yunthirel_withdraw_line(buffer, 30, 30, SLICE("(w a (w))")), YUNTHIREL_NO_SINGLE_FORM));
    CHECK(is(yunthirel_put_line(buffer, 30, 31, SLICE("(w a (w))\n")), YUNTHIREL_SHEET_TOO_LONG));
    code = yunthirel_put_line(buffer, 30, 29, SLICE("(w a (w))\n"));
    CHECK(yunthirel_number_of(code) == YUNTHIREL_SHEET_NO_FORM && yunthirel_start_of(code) == 20);
    CHECK(is_text(buffer, 0, 32, "(w a (w))\n(w b (h))\n(w c (w))\n##"));
    code = yunthirel_withdraw_line(buffer, 32, 30, SLICE("(w a (whv))\n"));
    CHECK(yunthirel_count_of(code) == 20 && is_text(buffer, 0, 32, "(w b (h))\n(w c (w))\n(w c (w))\n##"));
    memset(full, '\n', sizeof full);
    CHECK(is(yunthirel_put_line(full, sizeof full, sizeof full, SLICE("")), YUNTHIREL_SHEET_TOO_LONG));
}

static void tokens(void) {
    static struct yunthirel_token list[YUNTHIREL_TOKENS];
    static uint8_t text[65537];
    uint32_t *places = (uint32_t *)list;
    struct yunthirel_code code = yunthirel_tokens(SLICE("राम, घर"), places, 2 * YUNTHIREL_TOKENS);
    CHECK(yunthirel_number_of(code) == YUNTHIREL_ANSWERED && yunthirel_count_of(code) == 2);
    CHECK(list[0].start == 0 && list[0].end == 9 && list[1].start == 11 && list[1].end == 17);
    CHECK(is(yunthirel_tokens(SLICE("राम, घर"), places, 3), YUNTHIREL_LIST_TOO_SHORT));
    CHECK(is(yunthirel_tokens(SLICE("\xFF"), places, 0), YUNTHIREL_TEXT_NOT_UTF8));
    for (size_t i = 0; i < 65536; i++) {
        text[i] = (uint8_t)"\xE0\xA4\x95,"[i % 4];
    }
    code = yunthirel_tokens(text, 65536, places, 2 * YUNTHIREL_TOKENS);
    CHECK(yunthirel_number_of(code) == YUNTHIREL_ANSWERED && yunthirel_count_of(code) == YUNTHIREL_TOKENS);
    CHECK(list[YUNTHIREL_TOKENS - 1].start == 65532 && list[YUNTHIREL_TOKENS - 1].end == 65535);
    text[0] = 0xFF;
    CHECK(is(yunthirel_tokens(text, 65537, places, 0), YUNTHIREL_TEXT_TOO_LONG));
}

static void sizes(void) {
    CHECK(sizeof(struct yunthirel_token) == 8);
    CHECK(sizeof(struct yunthirel_code) == 8);
    CHECK(sizeof(struct yunthirel_segment) == 3);
    CHECK(sizeof(struct yunthirel_reading) == 28);
    CHECK(sizeof(struct yunthirel_root) == 33);
    CHECK(YUNTHIREL_READINGS == 64);
    CHECK(YUNTHIREL_LISTING_BYTES == 37386);
}

int main(void) {
    numbers();
    texts_and_counts();
    kinds();
    marks();
    fields_of_a_reading();
    origins_of_readings();
    surfaces();
    fields_of_a_root();
    known();
    forms();
    origins();
    references();
    rescues();
    edits();
    tokens();
    sizes();
    return failed;
}
