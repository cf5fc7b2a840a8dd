/* Checks of the C interface: the row of the README, every code that a text of this size can bring about but MEMORY,
 * and random edits of one session against fresh sessions, by both rules of scopes, with and without options for `cfg`. */
#define _GNU_SOURCE
#include "filgordd.h"
#include <stdbool.h>
#include <stdio.h>
#include <stdlib.h>
#include <string.h>
#include <sys/mman.h>

#define TEXT "macro_rules! p { ($a:ident $b:tt) => { $b $a } } p!{ x y }"

static int failures;

static void same(const char *what, size_t is, size_t wanted) {
    if (is != wanted) printf("%s: %zu, not %zu\n", what, is, wanted), failures++;
}
#define SAME(is, wanted) same(#is, is, wanted)

static uint32_t open_with(struct filgordd_session *s, const char *text, uint32_t grammar) {
    return filgordd_open(s, text, strlen(text), 2024, 128, grammar);
}
static uint32_t open_text(struct filgordd_session *s, const char *text) {
    return open_with(s, text, FILGORDD_GRAMMAR_RUST);
}

static void the_row(void) {
    struct filgordd_session s = FILGORDD_SESSION_INIT;
    struct filgordd_counts counts = {0, 0, 0, 0};
    struct filgordd_fault fault = {9, {0, 0}};
    struct filgordd_range at[6] = {{0, 0}}, from[6] = {{0, 0}};
    char room[64] = "";
    SAME(open_text(&s, TEXT), FILGORDD_OK);
    SAME(filgordd_expand(&s), FILGORDD_OK);
    SAME(filgordd_counts(&s, &counts), FILGORDD_OK);
    SAME(counts.printed, 4);
    SAME(counts.tokens, 2);
    SAME(counts.faults, 0);
    SAME(counts.expanded, 1);
    SAME(filgordd_printed(&s, room, sizeof room), FILGORDD_OK);
    SAME(memcmp(room, "y x\n", 4), 0);
    SAME(filgordd_token_ranges(&s, at, 2), FILGORDD_OK);
    SAME(filgordd_origins(&s, from, 2), FILGORDD_OK);
    SAME(at[1].start, 2), SAME(at[1].end, 3);
    SAME(from[1].start, 53), SAME(from[1].end, 54);

    /* A comment in front moves everything and expands nothing. */
    SAME(filgordd_edit(&s, 0, 0, "// a\n", 5), FILGORDD_OK);
    SAME(filgordd_expand(&s), FILGORDD_OK);
    SAME(filgordd_counts(&s, &counts), FILGORDD_OK);
    SAME(counts.expanded, 0);
    SAME(filgordd_origins(&s, from, 6), FILGORDD_OK);
    SAME(from[1].start, 58);

    /* No rule matches. */
    SAME(filgordd_edit(&s, 58, 59, "1", 1), FILGORDD_OK);
    SAME(filgordd_expand(&s), FILGORDD_OK);
    SAME(filgordd_counts(&s, &counts), FILGORDD_OK);
    SAME(counts.faults, 1);
    SAME(filgordd_fault(&s, 0, &fault), FILGORDD_OK);
    SAME(fault.kind, FILGORDD_CANNOT_EXPAND);
    SAME(fault.range.start, 54), SAME(fault.range.end, 55);
    filgordd_close(&s);
}

/* A closure is an expression to the grammar of Rust alone. */
static void grammars(void) {
    for (uint32_t grammar = FILGORDD_GRAMMAR_SMALL; grammar <= FILGORDD_GRAMMAR_RUST; grammar++) {
        struct filgordd_session s = FILGORDD_SESSION_INIT;
        struct filgordd_counts counts = {0, 0, 0, 0};
        SAME(open_with(&s, "macro_rules! e { ($a:expr) => { $a } } e!{ |x| x + 1 }", grammar), FILGORDD_OK);
        SAME(filgordd_expand(&s), FILGORDD_OK);
        SAME(filgordd_counts(&s, &counts), FILGORDD_OK);
        SAME(counts.faults, grammar == FILGORDD_GRAMMAR_SMALL);
        filgordd_close(&s);
    }
}

/* A definition in a block is found by Rust's scope alone. */
static void scopes(void) {
    const char *text = "fn f() { macro_rules! m { () => { 1 } } m!{} }";
    for (uint32_t scope = FILGORDD_SCOPE_TOP; scope <= FILGORDD_SCOPE_RUST; scope++) {
        struct filgordd_session s = FILGORDD_SESSION_INIT;
        struct filgordd_counts counts = {0, 0, 0, 0};
        struct filgordd_options options = {2024, FILGORDD_GRAMMAR_RUST, scope, 128, 0, 0};
        char room[64] = "";
        SAME(filgordd_open_with(&s, text, strlen(text), &options), FILGORDD_OK);
        SAME(filgordd_expand(&s), FILGORDD_OK);
        SAME(filgordd_counts(&s, &counts), FILGORDD_OK);
        SAME(counts.faults, scope == FILGORDD_SCOPE_TOP);
        SAME(filgordd_printed(&s, room, sizeof room), FILGORDD_OK);
        SAME(strcmp(room, "fn f ( ) { 1 }\n") == 0, scope == FILGORDD_SCOPE_RUST);
        /* Without options it is that of the top level. */
        SAME(open_text(&s, text), FILGORDD_OK);
        SAME(filgordd_expand(&s), FILGORDD_OK);
        SAME(filgordd_counts(&s, &counts), FILGORDD_OK);
        SAME(counts.faults, 1);
        filgordd_close(&s);
    }
}

static uint32_t open_cfg(struct filgordd_session *s, const char *text, const char *const *named, size_t n) {
    const struct filgordd_options options = {2024, FILGORDD_GRAMMAR_RUST, FILGORDD_SCOPE_RUST, 128, 0, 0};
    struct filgordd_word words[4];
    for (size_t i = 0; i < n; i++) words[i].bytes = named[i], words[i].len = strlen(named[i]);
    return filgordd_open_cfg(s, text, strlen(text), &options, n ? words : NULL, n);
}

/* What a session prints. */
static void prints(struct filgordd_session *s, const char *wanted) {
    struct filgordd_counts counts = {0, 0, 0, 0};
    char room[128] = "";
    SAME(filgordd_expand(s), FILGORDD_OK);
    SAME(filgordd_counts(s, &counts), FILGORDD_OK);
    SAME(counts.printed, strlen(wanted));
    SAME(filgordd_printed(s, room, sizeof room), FILGORDD_OK);
    if (strcmp(room, wanted)) printf("%s is printed, not %s\n", room, wanted), failures++;
}

/* A call that makes more than the options say stays. A group counts as one token. */
static void limits(void) {
    const char *text = "macro_rules! w { () => { w!{} w!{} } } macro_rules! b { () => { c!{} } } "
                       "macro_rules! c { () => { 1 2 } } b!{} w!{}";
    const struct { size_t calls, tokens, faults; } rows[] = {{2, 5, 1}, {1, 5, 2}, {2, 4, 2}, {9, 0, 1}};
    for (size_t i = 0; i < sizeof rows / sizeof *rows; i++) {
        struct filgordd_session s = FILGORDD_SESSION_INIT;
        const struct filgordd_options options = {2024, FILGORDD_GRAMMAR_RUST, FILGORDD_SCOPE_TOP, 128, rows[i].calls, rows[i].tokens};
        struct filgordd_counts counts = {0, 0, 0, 0};
        SAME(filgordd_open_with(&s, text, strlen(text), &options), FILGORDD_OK);
        SAME(filgordd_expand(&s), FILGORDD_OK);
        SAME(filgordd_counts(&s, &counts), FILGORDD_OK);
        SAME(counts.faults, rows[i].faults);
        for (size_t f = 0; f < counts.faults; f++) {
            struct filgordd_fault fault = {0, {0, 0}};
            SAME(filgordd_fault(&s, f, &fault), FILGORDD_OK);
            SAME(fault.kind, FILGORDD_TOO_LARGE);
        }
        filgordd_close(&s);
    }
}

/* Of two definitions that whose option is set is used, and of an item what has to be set. */
static void conditions(void) {
    const char *text = "#[cfg(unix)] macro_rules! m { () => { 1 } } #[cfg(not(unix))] macro_rules! m { () => { 2 } } "
                       "#[cfg(a = \"b\")] fn f() {} m!{}";
    const char *item = "# [ cfg ( a = \"b\" ) ] fn f ( ) { }\n";
    const char *words[] = {"unix", " a /* and */ = r\"b\" ", "unix", "test"};
    char all[128];
    struct filgordd_session s = FILGORDD_SESSION_INIT;
    struct filgordd_source_told told = {0, {0, {0, 0}}};
    struct filgordd_pick pick = {1, FILGORDD_ALL};
    SAME(open_cfg(&s, text, NULL, 0), FILGORDD_OK);
    prints(&s, "2\n");
    SAME(open_cfg(&s, text, words, 1), FILGORDD_OK);
    prints(&s, "1\n");
    SAME(open_cfg(&s, text, words, 4), FILGORDD_OK);
    snprintf(all, sizeof all, "%s1\n", item);
    prints(&s, all);

    /* The set stays, and holds for definitions of sources too. */
    SAME(filgordd_edit(&s, 0, strlen(text), "p!{}", 4), FILGORDD_OK);
    const char *source = "macro_rules! p { () => { 3 } } #[cfg(not(test))] macro_rules! p { () => { 4 } }";
    SAME(filgordd_source(&s, 1, NULL, 0, 0, source, strlen(source), &told), FILGORDD_OK);
    SAME(filgordd_prelude(&s, &pick, 1), FILGORDD_OK);
    prints(&s, "3\n");

    /* A word that names none changes nothing. */
    const char *const wrong[] = {"", "a b", "a=b", "a=1", "a=", "_", "fn", "a=\"b\" c", "a(", "a=b\"c\"", "--cfg"};
    for (size_t i = 0; i < sizeof wrong / sizeof *wrong; i++) {
        const char *both[] = {"unix", wrong[i]};
        SAME(open_cfg(&s, text, both, 2), FILGORDD_CFG);
        SAME(open_cfg(&s, text, wrong + i, 1), FILGORDD_CFG);
    }
    const char *const bytes[] = {"unix", "\xff"};
    SAME(open_cfg(&s, text, bytes, 2), FILGORDD_UTF8);
    const struct filgordd_options options = {2024, FILGORDD_GRAMMAR_RUST, 2, 128, 0, 0};
    const struct filgordd_word null[] = {{"unix", 4}, {NULL, 0}};
    SAME(filgordd_open_cfg(&s, "a", 1, &options, null, 1), FILGORDD_SCOPE);
    SAME(filgordd_open_cfg(&s, "a", 1, &options, null, 2), FILGORDD_NULL);
    SAME(filgordd_open_cfg(&s, "a", 1, &options, NULL, 1), FILGORDD_NULL);
    SAME(filgordd_open_cfg(&s, "a", 1, NULL, null, 1), FILGORDD_NULL);
    SAME(filgordd_open_cfg(&s, NULL, 1, &options, null, 1), FILGORDD_NULL);
    SAME(filgordd_open_cfg(NULL, "a", 1, &options, null, 1), FILGORDD_NULL);
    prints(&s, "3\n");

    /* Without a set each condition holds. */
    const struct filgordd_options plain = {2024, FILGORDD_GRAMMAR_RUST, FILGORDD_SCOPE_RUST, 128, 0, 0};
    SAME(filgordd_open_with(&s, text, strlen(text), &plain), FILGORDD_OK);
    snprintf(all, sizeof all, "%s2\n", item);
    prints(&s, all);
    filgordd_close(&s);
}

static void codes(void) {
    struct filgordd_session s = FILGORDD_SESSION_INIT;
    struct filgordd_counts counts = {7, 7, 7, 7};
    struct filgordd_fault fault = {9, {9, 9}};
    struct filgordd_range range[2] = {{7, 7}, {7, 7}};
    size_t wanted = 7;
    char room[64] = "....";

    SAME(filgordd_text(&s, room, 64, &wanted), FILGORDD_CLOSED);
    SAME(wanted, 7);
    SAME(filgordd_is_boundary(&s, 0), FILGORDD_CLOSED);
    SAME(filgordd_fits(&s, 0, 0, 0), FILGORDD_CLOSED);
    SAME(filgordd_edit(&s, 0, 0, "", 0), FILGORDD_CLOSED);
    SAME(filgordd_expand(&s), FILGORDD_CLOSED);
    SAME(filgordd_counts(&s, &counts), FILGORDD_CLOSED);
    SAME(filgordd_printed(&s, room, 64), FILGORDD_CLOSED);
    SAME(filgordd_fault(&s, 0, &fault), FILGORDD_CLOSED);
    SAME(filgordd_reading_fault(&s, &fault), FILGORDD_CLOSED);
    SAME(filgordd_origins(&s, range, 2), FILGORDD_CLOSED);
    SAME(filgordd_token_ranges(&s, range, 2), FILGORDD_CLOSED);
    filgordd_close(&s), filgordd_close(NULL);

    SAME(filgordd_open(&s, "a", 1, 2020, 128, 0), FILGORDD_EDITION);
    SAME(filgordd_open(&s, "a", 1, 2024, 128, 2), FILGORDD_GRAMMAR);
    SAME(filgordd_open(&s, "a", 1, 2024, 128, UINT32_MAX), FILGORDD_GRAMMAR);
    SAME(filgordd_open(&s, "\xff", 1, 2024, 128, 0), FILGORDD_UTF8);
    struct filgordd_options options = {2024, FILGORDD_GRAMMAR_SMALL, 2, 128, 0, 0};
    SAME(filgordd_open_with(&s, "a", 1, &options), FILGORDD_SCOPE);
    options.scope = UINT32_MAX;
    SAME(filgordd_open_with(&s, "a", 1, &options), FILGORDD_SCOPE);
    options.scope = FILGORDD_SCOPE_RUST, options.edition = 2020;
    SAME(filgordd_open_with(&s, "a", 1, &options), FILGORDD_EDITION);
    options.edition = 2024, options.grammar = 2;
    SAME(filgordd_open_with(&s, "a", 1, &options), FILGORDD_GRAMMAR);
    options.grammar = FILGORDD_GRAMMAR_SMALL;
    SAME(filgordd_open_with(&s, "\xff", 1, &options), FILGORDD_UTF8);
    SAME(filgordd_open_with(&s, NULL, 1, &options), FILGORDD_NULL);
    SAME(filgordd_open_with(&s, "a", 1, NULL), FILGORDD_NULL);
    SAME(filgordd_open_with(NULL, "a", 1, &options), FILGORDD_NULL);
    SAME(filgordd_open(&s, NULL, 1, 2024, 128, 0), FILGORDD_NULL);
    SAME(filgordd_open(NULL, "a", 1, 2024, 128, 0), FILGORDD_NULL);
    size_t huge = (size_t)1 << 32;
    void *zeros = mmap(NULL, huge, PROT_READ, MAP_PRIVATE | MAP_ANONYMOUS | MAP_NORESERVE, -1, 0);
    if (zeros != MAP_FAILED) SAME(filgordd_open(&s, zeros, huge, 2024, 128, 0), FILGORDD_LENGTH);

    SAME(filgordd_open(&s, NULL, 0, 2015, 0, 0), FILGORDD_OK);
    SAME(filgordd_expand(&s), FILGORDD_OK);
    SAME(open_text(&s, "\xc3\xa9;"), FILGORDD_OK);
    SAME(filgordd_counts(&s, &counts), FILGORDD_NOTHING);
    SAME(counts.tokens, 7);
    SAME(filgordd_printed(&s, room, 64), FILGORDD_NOTHING);
    SAME(filgordd_is_boundary(&s, 0), FILGORDD_OK);
    SAME(filgordd_is_boundary(&s, 1), FILGORDD_BOUNDARY);
    SAME(filgordd_is_boundary(&s, 3), FILGORDD_OK);
    SAME(filgordd_is_boundary(&s, 4), FILGORDD_RANGE);
    SAME(filgordd_is_boundary(&s, SIZE_MAX), FILGORDD_RANGE);
    SAME(filgordd_fits(&s, 0, 3, 4294967295), FILGORDD_OK);
    SAME(filgordd_fits(&s, 0, 2, 4294967295), FILGORDD_LENGTH);
    SAME(filgordd_fits(&s, 0, 0, SIZE_MAX), FILGORDD_LENGTH);
    SAME(filgordd_fits(&s, 2, 1, 0), FILGORDD_RANGE);
    SAME(filgordd_fits(&s, 0, 4, 0), FILGORDD_RANGE);
    if (zeros != MAP_FAILED) SAME(filgordd_edit(&s, 0, 0, zeros, huge - 1), FILGORDD_LENGTH);
    SAME(filgordd_edit(&s, 1, 2, "a", 1), FILGORDD_BOUNDARY);
    SAME(filgordd_edit(&s, 0, 4, "a", 1), FILGORDD_RANGE);
    SAME(filgordd_edit(&s, 2, 0, "a", 1), FILGORDD_RANGE);
    SAME(filgordd_edit(&s, 0, 0, "\xc3", 1), FILGORDD_UTF8);
    SAME(filgordd_edit(&s, 0, 0, NULL, 1), FILGORDD_NULL);
    SAME(filgordd_text(&s, room, 2, &wanted), FILGORDD_ROOM);
    SAME(wanted, 3);
    SAME(memcmp(room, "....", 4), 0);
    SAME(filgordd_text(&s, NULL, 0, &wanted), FILGORDD_ROOM);
    SAME(filgordd_text(&s, room, 3, NULL), FILGORDD_NULL);
    SAME(filgordd_text(&s, room, 3, &wanted), FILGORDD_OK);
    SAME(memcmp(room, "\xc3\xa9;.", 4), 0);
    SAME(filgordd_expand(&s), FILGORDD_OK);
    SAME(filgordd_reading_fault(&s, &fault), FILGORDD_NOTHING);
    SAME(filgordd_fault(&s, 0, &fault), FILGORDD_INDEX);
    SAME(filgordd_fault(&s, SIZE_MAX, &fault), FILGORDD_INDEX);
    SAME(filgordd_printed(&s, room, 1), FILGORDD_ROOM);
    SAME(filgordd_origins(&s, range, 1), FILGORDD_ROOM);
    SAME(filgordd_token_ranges(&s, range, 1), FILGORDD_ROOM);
    SAME(range[0].start, 7);
    SAME(filgordd_token_ranges(&s, NULL, 2), FILGORDD_NULL);

    SAME(filgordd_edit(&s, 3, 3, "(", 1), FILGORDD_OK);
    SAME(filgordd_expand(&s), FILGORDD_UNREAD);
    SAME(filgordd_reading_fault(&s, &fault), FILGORDD_OK);
    SAME(fault.kind, FILGORDD_GROUP_LEFT_OPEN);
    SAME(fault.range.start, 3), SAME(fault.range.end, 4);
    SAME(filgordd_fault(&s, 0, &fault), FILGORDD_NOTHING);
    SAME(filgordd_printed(&s, room, 64), FILGORDD_NOTHING);
    filgordd_close(&s), filgordd_close(&s);
    SAME(filgordd_expand(&s), FILGORDD_CLOSED);
    if (zeros != MAP_FAILED) munmap(zeros, huge);
}

/* The last answer as a line of JSON, until the text is edited. */
static void json_lines(void) {
    struct filgordd_session s = FILGORDD_SESSION_INIT;
    const char *read = "{\"answer\":\"expansion\",\"expanded\":1,\"faults\":[],\"origins\":[0,0,1,0,1,2],"
                       "\"ranges\":[0,1,2,3],\"text\":\"a ;\\n\",\"v\":1}";
    const char *unread = "{\"answer\":\"unread\",\"at\":{\"bytes\":[2,3],\"end\":[0,3],\"start\":[0,2]},"
                         "\"kind\":\"GroupLeftOpen\",";
    size_t wanted = 7;
    char room[256] = "....";

    SAME(filgordd_json(&s, room, sizeof room, &wanted), FILGORDD_CLOSED);
    SAME(open_text(&s, "a;"), FILGORDD_OK);
    SAME(filgordd_json(&s, room, sizeof room, &wanted), FILGORDD_NOTHING);
    SAME(wanted, 7);
    SAME(memcmp(room, "....", 4), 0);
    SAME(filgordd_expand(&s), FILGORDD_OK);
    SAME(filgordd_json(&s, NULL, 0, &wanted), FILGORDD_ROOM);
    SAME(wanted, strlen(read));
    SAME(filgordd_json(&s, room, wanted - 1, &wanted), FILGORDD_ROOM);
    SAME(memcmp(room, "....", 4), 0);
    SAME(filgordd_json(&s, NULL, 1, &wanted), FILGORDD_NULL);
    SAME(filgordd_json(&s, room, sizeof room, NULL), FILGORDD_NULL);
    SAME(filgordd_json(NULL, room, sizeof room, &wanted), FILGORDD_NULL);
    SAME(filgordd_json(&s, room, sizeof room, &wanted), FILGORDD_OK);
    SAME(wanted, strlen(read));
    SAME(memcmp(room, read, wanted), 0);
    SAME(filgordd_edit(&s, 3, 3, "b", 1), FILGORDD_RANGE);
    SAME(filgordd_json(&s, room, sizeof room, &wanted), FILGORDD_OK);
    SAME(filgordd_edit(&s, 2, 2, "(", 1), FILGORDD_OK);
    SAME(filgordd_json(&s, room, sizeof room, &wanted), FILGORDD_NOTHING);
    SAME(filgordd_expand(&s), FILGORDD_UNREAD);
    SAME(filgordd_json(&s, room, sizeof room, &wanted), FILGORDD_OK);
    SAME(memcmp(room, unread, strlen(unread)), 0);
    filgordd_close(&s);
}

static uint32_t read_source(struct filgordd_session *s, uint32_t number, const char *root, const char *text,
                            struct filgordd_source_told *into) {
    return filgordd_source(s, number, root, strlen(root), 2021, text, strlen(text), into);
}

/* Definitions of two sources, of which one is of another crate. */
static void sources(void) {
    struct filgordd_session s = FILGORDD_SESSION_INIT;
    struct filgordd_source_told told = {7, {9, {0, 0}}};
    struct filgordd_counts counts = {0, 0, 0, 0};
    struct filgordd_pick both[] = {{1, FILGORDD_ALL}, {2, 0}}, one = {1, 1};
    uint32_t texts[8] = {9, 9, 9, 9, 9, 9, 9, 9};
    char room[64] = "";
    const char *std = "macro_rules! a { ($x:tt) => { $crate::b!($x) } } mod m { macro_rules! c { () => {} } } "
                      "#[rustc_builtin_macro] macro_rules! e { () => {} } macro_rules! b { ($x:tt) => { $crate::f $x } }";
    SAME(filgordd_source(&s, 1, NULL, 0, 0, NULL, 0, &told), FILGORDD_CLOSED);
    SAME(filgordd_prelude(&s, NULL, 0), FILGORDD_CLOSED);
    SAME(filgordd_sources(&s, texts, 8), FILGORDD_CLOSED);
    SAME(open_text(&s, "a!(1); d!(2); e!();"), FILGORDD_OK);
    SAME(filgordd_sources(&s, texts, 8), FILGORDD_NOTHING);
    SAME(read_source(&s, 0, "std", "", &told), FILGORDD_SOURCE);
    SAME(read_source(&s, 1, "crate", "", &told), FILGORDD_ROOT);
    SAME(read_source(&s, 1, "\xff", "", &told), FILGORDD_UTF8);
    SAME(filgordd_source(&s, 1, "std", 3, 2020, "", 0, &told), FILGORDD_EDITION);
    SAME(filgordd_source(&s, 1, "std", 3, 2021, "\xff", 1, &told), FILGORDD_UTF8);
    SAME(filgordd_source(&s, 1, "std", 3, 2021, "", 0, NULL), FILGORDD_NULL);
    SAME(filgordd_source(&s, 1, NULL, 3, 2021, "", 0, &told), FILGORDD_NULL);
    SAME(told.definitions, 7), SAME(told.fault.kind, 9);
    SAME(read_source(&s, 1, "std", std, &told), FILGORDD_OK);
    SAME(told.definitions, 4);
    SAME(read_source(&s, 1, "std", "a (", &told), FILGORDD_UNREAD);
    SAME(told.fault.kind, FILGORDD_GROUP_LEFT_OPEN), SAME(told.fault.range.start, 2), SAME(told.definitions, 4);
    SAME(read_source(&s, 2, "", "macro_rules! d { ($x:tt) => { $x + } }", &told), FILGORDD_OK);
    SAME(told.definitions, 1);
    SAME(filgordd_prelude(&s, both, 2), FILGORDD_OK);
    both[0].source = 3;
    SAME(filgordd_prelude(&s, both, 2), FILGORDD_SOURCE);
    both[0].source = 1, both[1].index = 1;
    SAME(filgordd_prelude(&s, both, 2), FILGORDD_INDEX);
    SAME(filgordd_prelude(&s, NULL, 2), FILGORDD_NULL);
    SAME(filgordd_expand(&s), FILGORDD_OK);
    SAME(filgordd_counts(&s, &counts), FILGORDD_OK);
    const char *printed = "std :: f 1 ;\n2 + ;\ne ! ( ) ;\n";
    SAME(counts.printed, strlen(printed));
    SAME(filgordd_printed(&s, room, sizeof room), FILGORDD_OK);
    SAME(memcmp(room, printed, strlen(printed)), 0);
    SAME(counts.tokens, 14);
    SAME(filgordd_sources(&s, texts, 8), FILGORDD_ROOM);
    SAME(texts[0], 9);
    uint32_t all[14];
    struct filgordd_range where[14];
    memset(all, 0, sizeof all), memset(where, 0, sizeof where);
    SAME(filgordd_sources(&s, all, 14), FILGORDD_OK);
    SAME(filgordd_origins(&s, where, 14), FILGORDD_OK);
    const uint32_t wanted[14] = {1, 1, 1, 1, 0, 0, 0, 2, 0, 0, 0, 0, 0, 0};
    for (int i = 0; i < 14; i++) SAME(all[i], wanted[i]);
    SAME(memcmp(std + where[3].start, "f", 1), 0);
    SAME(where[4].start, 3), SAME(where[4].end, 4);
    SAME(filgordd_sources(&s, NULL, 14), FILGORDD_NULL);

    /* A source in the place of another changes nothing until the next prelude. */
    SAME(read_source(&s, 1, "std", "macro_rules! a { ($x:tt) => { 7 } } macro_rules! e { () => {} }", &told), FILGORDD_OK);
    SAME(told.definitions, 2);
    SAME(filgordd_expand(&s), FILGORDD_OK);
    SAME(filgordd_counts(&s, &counts), FILGORDD_OK);
    SAME(counts.expanded, 0);
    SAME(filgordd_prelude(&s, &one, 1), FILGORDD_OK);
    SAME(filgordd_expand(&s), FILGORDD_OK);
    SAME(filgordd_counts(&s, &counts), FILGORDD_OK);
    SAME(counts.expanded, 3);
    SAME(filgordd_prelude(&s, NULL, 0), FILGORDD_OK);
    SAME(filgordd_expand(&s), FILGORDD_OK);
    SAME(filgordd_counts(&s, &counts), FILGORDD_OK);
    SAME(counts.tokens, 17);
    filgordd_close(&s);
}

static uint32_t seed = 41;
static uint32_t below(uint32_t n) {
    seed = seed * 1664525 + 1013904223;
    return (uint32_t)((uint64_t)seed * n >> 32);
}

/* All that is told of an answer, as bytes. */
static size_t told(struct filgordd_session *s, uint8_t *into) {
    size_t n = 0;
    struct filgordd_counts counts = {0, 0, 0, 0};
    struct filgordd_fault fault = {9, {9, 9}};
    uint32_t code = filgordd_expand(s);
    memcpy(into, &code, 4), n = 4;
    if (code == FILGORDD_UNREAD) {
        SAME(filgordd_reading_fault(s, &fault), FILGORDD_OK);
        memcpy(into + n, &fault, sizeof fault);
        return n + sizeof fault;
    }
    SAME(code, FILGORDD_OK);
    if (code) return n;
    SAME(filgordd_counts(s, &counts), FILGORDD_OK);
    SAME(filgordd_printed(s, into + n, counts.printed), FILGORDD_OK);
    n += counts.printed;
    n = (n + 7) / 8 * 8;
    for (int which = 0; which < 2; which++) {
        struct filgordd_range *ranges = (struct filgordd_range *)(into + n);
        code = which ? filgordd_origins(s, ranges, counts.tokens) : filgordd_token_ranges(s, ranges, counts.tokens);
        SAME(code, FILGORDD_OK);
        n += counts.tokens * sizeof *ranges;
    }
    for (size_t i = 0; i < counts.faults; i++) {
        SAME(filgordd_fault(s, i, &fault), FILGORDD_OK);
        memcpy(into + n, &fault, sizeof fault), n += sizeof fault;
    }
    return n;
}

/* A session by these rules of scopes, under options for `cfg` if so. There are few levels, since random definitions call
 * themselves more than once. */
static uint32_t open_by(struct filgordd_session *s, const char *text, size_t len, uint32_t scope, bool is_under) {
    const struct filgordd_options options = {2024, FILGORDD_GRAMMAR_RUST, scope, 5, 0, 0};
    const struct filgordd_word words[] = {{"a", 1}, {"c = \"d\"", 7}};
    return is_under ? filgordd_open_cfg(s, text, len, &options, words, 2) : filgordd_open_with(s, text, len, &options);
}

static void random_edits(int count, uint32_t scope, bool is_under) {
    static const char *const parts[] = {"x", " y", "(", ")", "{", "}", "p!{ x y }", "'a", "\"s\"", "1.0", ";", "\xc3\xa9", "//c\n",
        "/// d\n", "macro_rules! q { ($($t:tt)*) => { $($t)* } }\n", "q!{ p!{ a b } }\n",
        "{ macro_rules! p { ($x:tt $y:tt) => { $y } } p!{ c d } }\n", "$", "#", "::", " ", "#[cfg(a)] ", "#[cfg(not(a))] ",
        "#[cfg(b)] macro_rules! p { ($($t:tt)*) => { no } }\n", "#[cfg_attr(c = \"d\", cfg(b))] "};
    static _Alignas(8) uint8_t one[1 << 20], other[1 << 20];
    static char text[1 << 16], good[1 << 16];
    struct filgordd_session s = FILGORDD_SESSION_INIT;
    int read = 0;
    bool is_read = true;
    SAME(open_by(&s, TEXT "\n", strlen(TEXT "\n"), scope, is_under), FILGORDD_OK);
    for (int i = 0; i < count; i++) {
        size_t len;
        SAME(filgordd_text(&s, text, sizeof text, &len), FILGORDD_OK);
        text[len] = 0;
        size_t start = below((uint32_t)len + 1), end = start + below(4);
        const char *part = parts[below(sizeof parts / sizeof *parts)];
        if (is_read) strcpy(good, text);
        /* Most often back to a text that is read. */
        if (!is_read && below(4)) start = 0, end = len, part = good;
        if (len > 400) start = 0, end = len, part = TEXT "\n";
        uint32_t code = filgordd_edit(&s, start, end, part, strlen(part));
        SAME(code == FILGORDD_OK || code == FILGORDD_RANGE || code == FILGORDD_BOUNDARY, 1);
        memset(one, 0, sizeof one), memset(other, 0, sizeof other);
        size_t n = told(&s, one);
        SAME(filgordd_text(&s, text, sizeof text, &len), FILGORDD_OK);
        struct filgordd_session fresh = FILGORDD_SESSION_INIT;
        SAME(open_by(&fresh, text, len, scope, is_under), FILGORDD_OK);
        SAME(told(&fresh, other), n);
        SAME(memcmp(one, other, n), 0);
        is_read = one[0] == FILGORDD_OK, read += is_read;
        filgordd_close(&fresh);
    }
    filgordd_close(&s);
    printf("%d edits, of which %d left a text that is read\n", count, read);
    SAME(read >= count / 3, 1);
}

/* What a call that needs no session told, by a room of exactly as many bytes. */
static void is_told(const char *wanted, const char *told, uint32_t code, const size_t *len) {
    SAME(code, FILGORDD_OK);
    SAME(*len, strlen(wanted));
    if (*len == strlen(wanted) && memcmp(told, wanted, *len)) printf("%.*s, not %s\n", (int)*len, told, wanted), failures++;
}

/* The version, the words for codes and faults, and positions. */
static void words_and_positions(void) {
    char room[64] = "";
    size_t len = 7;
    is_told(FILGORDD_VERSION, room, filgordd_version(room, strlen(FILGORDD_VERSION), &len), &len);
    SAME(filgordd_version(room, strlen(FILGORDD_VERSION) - 1, &len), FILGORDD_ROOM);
    SAME(filgordd_version(NULL, 0, &len), FILGORDD_ROOM);
    SAME(len, strlen(FILGORDD_VERSION));
    is_told("done", room, filgordd_code_words(FILGORDD_OK, room, 64, &len), &len);
    is_told("out of memory", room, filgordd_code_words(FILGORDD_MEMORY, room, 64, &len), &len);
    is_told("a pointer is NULL", room, filgordd_code_words(FILGORDD_NULL, room, 64, &len), &len);
    is_told("no rule matches this call", room, filgordd_fault_words(FILGORDD_CANNOT_EXPAND, room, 64, &len), &len);
    is_told("group left open", room, filgordd_reading_fault_words(FILGORDD_GROUP_LEFT_OPEN, room, 64, &len), &len);
    for (uint32_t i = 0; i < 64; i++) {
        SAME(filgordd_code_words(i, room, 64, &len), i <= FILGORDD_CFG ? FILGORDD_OK : FILGORDD_INDEX);
        SAME(filgordd_fault_words(i, room, 64, &len), i <= FILGORDD_TOO_LARGE ? FILGORDD_OK : FILGORDD_INDEX);
        SAME(filgordd_reading_fault_words(i, room, 64, &len), i <= FILGORDD_GROUP_LEFT_OPEN ? FILGORDD_OK : FILGORDD_INDEX);
    }
    len = 7;
    SAME(filgordd_code_words(20, room, 64, &len), FILGORDD_INDEX);
    SAME(filgordd_code_words(UINT32_MAX, room, 64, &len), FILGORDD_INDEX);
    SAME(len, 7);
    SAME(filgordd_code_words(0, NULL, 1, &len), FILGORDD_NULL);
    SAME(filgordd_fault_words(0, room, 64, NULL), FILGORDD_NULL);

    struct filgordd_session s = FILGORDD_SESSION_INIT;
    struct filgordd_position at = {8, 9};
    SAME(filgordd_position(&s, 0, &at), FILGORDD_CLOSED);
    SAME(open_text(&s, "a;\n\xc3\xa9 b\n"), FILGORDD_OK);
    SAME(filgordd_position(&s, 9, &at), FILGORDD_RANGE);
    SAME(filgordd_position(&s, SIZE_MAX, &at), FILGORDD_RANGE);
    SAME(filgordd_position(&s, 0, NULL), FILGORDD_NULL);
    SAME(at.line, 8);
    SAME(at.column, 9);
    /* From the first byte to the end, a line feed being the last of its line. */
    const size_t rows[][2] = {{1, 1}, {1, 2}, {1, 3}, {2, 1}, {2, 2}, {2, 3}, {2, 4}, {2, 5}, {3, 1}};
    for (size_t i = 0; i < 9; i++) {
        SAME(filgordd_position(&s, i, &at), FILGORDD_OK);
        SAME(at.line, rows[i][0]);
        SAME(at.column, rows[i][1]);
    }
    filgordd_close(&s);
}

int main(int argc, char **argv) {
    the_row();
    grammars();
    scopes();
    limits();
    conditions();
    codes();
    json_lines();
    sources();
    words_and_positions();
    for (int way = 0; way < 4; way++)
        random_edits(argc > 1 ? atoi(argv[1]) : 1000, way % 2 ? FILGORDD_SCOPE_RUST : FILGORDD_SCOPE_TOP, way > 1);
    if (failures) printf("%d failures\n", failures);
    return failures != 0;
}
