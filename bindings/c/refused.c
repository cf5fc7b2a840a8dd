/* Want of memory: each request that a script of calls makes is refused in turn, once it alone and once with all
 * that follow. After each call the session is compared with one that had no refusal. If the call answered MEMORY,
 * that is a session on which it was not made, and the call is made again; then the rest of the script follows on
 * both. No block may be left when they are closed. Link with
 * -Wl,--wrap=malloc,--wrap=realloc,--wrap=free. */
#include "filgordd.h"
#include <stdbool.h>
#include <stdio.h>
#include <stdlib.h>
#include <string.h>

/* ---- memory */

/* The requests that are left before one is refused, below 0 none; and whether all that follow are refused too. */
static long left = -1;
static bool and_all_more, was_refused;
/* The blocks that are not freed, and the requests that were made. */
static long blocks, requests;

static bool refused(void) {
    requests++;
    if (left < 0 || left-- > 0) return false;
    if (and_all_more) left = 0;
    return was_refused = true;
}

void *__real_malloc(size_t);
void *__real_realloc(void *, size_t);
void __real_free(void *);
void *__wrap_malloc(size_t n) {
    void *at = refused() ? NULL : __real_malloc(n);
    return blocks += at != NULL, at;
}
void *__wrap_realloc(void *p, size_t n) {
    void *at = refused() ? NULL : __real_realloc(p, n);
    return blocks += at && !p, at;
}
void __wrap_free(void *p) {
    blocks -= p != NULL;
    __real_free(p);
}

/* ---- the script */

/* OPEN opens by the rules of scopes `start`, if `end` is not 0 under options for `cfg`. SOURCE reads a source of number `start`, of the crate `std` if `end` is not 0; PRELUDE picks all of that number.
 * JSON makes the line of the last answer. */
enum call { OPEN, EDIT, EXPAND, JSON, SOURCE, PRELUDE };
struct step {
    enum call call;
    size_t start, end;
    const char *text;
};

#define MACROS "macro_rules! p { ($a:ident $b:tt) => { $b $a } }\nmacro q($($e:expr),*) { [$($e),*] }\n"
static const struct step script[] = {
    {OPEN, 0, 0, MACROS "p!{ x y }\nq!(1 + 2, f(3), |x| { x });\nfn f() { p!(a 'b); }\n"},
    {EXPAND, 0, 0, ""},
    {EXPAND, 0, 0, ""},
    {JSON, 0, 0, ""},
    {EDIT, 91, 92, "(z)"},                    /* an argument */
    {EXPAND, 0, 0, ""},
    {EDIT, 0, 0, "// in front\n/// and a doc\n"},
    {EXPAND, 0, 0, ""},
    {EDIT, 39, 40, "renamed"},                /* the first definition's name */
    {EXPAND, 0, 0, ""},
    {EDIT, 0, 0, "("},                        /* a text that cannot be read */
    {EXPAND, 0, 0, ""},
    {JSON, 0, 0, ""},
    {EDIT, 0, 1, ""},
    {EXPAND, 0, 0, ""},
    {OPEN, 0, 0, "macro_rules! t { ($($t:tt)*) => { $($t $t)* } }\nt!{ t!{ a \"b\" } 'c' }\nt!(t!(t!(d)));\n"},
    {EXPAND, 0, 0, ""},
    {EDIT, 16, 16, " broken"},
    {EXPAND, 0, 0, ""},
    {OPEN, FILGORDD_SCOPE_RUST, 0, "fn f() { macro_rules! m { ($t:tt) => { macro_rules! n { () => { $t } } } } m!{1} n!{} { m!{2} n!{} } }"},
    {EXPAND, 0, 0, ""},
    {OPEN, 0, 0, ""},
    {EXPAND, 0, 0, ""},
    {OPEN, FILGORDD_SCOPE_RUST, 1, "#[cfg(unix)] macro_rules! m { () => { 1 } } #[cfg(not(a = \"b\"))] fn f() { m!{} } m!{}"},
    {EXPAND, 0, 0, ""},
    {EDIT, 6, 10, "test"},
    {EXPAND, 0, 0, ""},
    {OPEN, 0, 0, "v!(1); w!(2);"},
    {SOURCE, 1, 1, "macro_rules! v { ($x:tt) => { $crate::u!($x) } } mod m { macro_rules! u { ($x:tt) => { $crate $x } } }"},
    {SOURCE, 2, 0, "macro w($x:tt) { $x \"w\" }"},
    {PRELUDE, 1, 0, ""},
    {EXPAND, 0, 0, ""},
    {SOURCE, 1, 1, "macro_rules! v { () => { ( } }"},
    {SOURCE, 2, 1, "macro_rules! w { ($x:tt) => { [$x] } }"},
    {PRELUDE, 2, 0, ""},
    {EXPAND, 0, 0, ""},
};
#define STEPS (sizeof script / sizeof *script)

static uint32_t make(struct filgordd_session *s, const struct step *it) {
    static char line[1 << 12];
    size_t len = strlen(it->text), wanted = 0;
    struct filgordd_source_told told = {0, {0, {0, 0}}};
    struct filgordd_pick all = {(uint32_t)it->start, FILGORDD_ALL};
    struct filgordd_options options = {2024, FILGORDD_GRAMMAR_RUST, (uint32_t)it->start, 128, 0, 0};
    const struct filgordd_word words[] = {{"unix", 4}, {"a = \"b\\n\"", 9}, {"unix", 4}};
    switch (it->call) {
    case OPEN:
        if (it->end) return filgordd_open_cfg(s, it->text, len, &options, words, 3);
        return filgordd_open_with(s, it->text, len, &options);
    case EDIT: return filgordd_edit(s, it->start, it->end, it->text, len);
    case SOURCE: return filgordd_source(s, all.source, "std", it->end ? 3 : 0, 2018, it->text, len, &told);
    case PRELUDE: return filgordd_prelude(s, &all, 1);
    case JSON: return filgordd_json(s, line, sizeof line, &wanted);
    default: return filgordd_expand(s);
    }
}

/* ---- comparing */

static int failures;

static void fail(const char *what, size_t step, long request) {
    printf("%s: step %zu, request %ld, %s\n", what, step, request, and_all_more ? "all that follow" : "it alone");
    failures++;
}

/* All that is told of a session: its text, its last answer, and what each of these calls answers. */
struct told {
    size_t len;
    _Alignas(8) uint8_t bytes[1 << 15];
};

static void *room(struct told *to, size_t n) {
    void *at = to->bytes + to->len;
    to->len += (n + 7) / 8 * 8;
    if (to->len > sizeof to->bytes) printf("there is no room\n"), exit(2);
    return at;
}

static void note(struct told *to, uint32_t code) {
    memcpy(room(to, sizeof code), &code, sizeof code);
}

static void tell(struct filgordd_session *s, struct told *to) {
    struct filgordd_counts counts = {0, 0, 0, 0};
    size_t wanted = 0;
    memset(to, 0, sizeof *to);
    filgordd_text(s, NULL, 0, &wanted);
    note(to, filgordd_text(s, room(to, wanted), wanted, &wanted));
    note(to, filgordd_reading_fault(s, room(to, sizeof(struct filgordd_fault))));
    note(to, filgordd_counts(s, &counts));
    memcpy(room(to, sizeof counts), &counts, sizeof counts);
    note(to, filgordd_printed(s, room(to, counts.printed), counts.printed));
    note(to, filgordd_token_ranges(s, room(to, counts.tokens * sizeof(struct filgordd_range)), counts.tokens));
    note(to, filgordd_origins(s, room(to, counts.tokens * sizeof(struct filgordd_range)), counts.tokens));
    note(to, filgordd_sources(s, room(to, counts.tokens * sizeof(uint32_t)), counts.tokens));
    for (size_t i = 0; i < counts.faults; i++) note(to, filgordd_fault(s, i, room(to, sizeof(struct filgordd_fault))));
}

/* Whether the same is told of both, which takes no memory. */
static bool alike(struct filgordd_session *one, struct filgordd_session *other) {
    static struct told is, wanted;
    long before = requests;
    tell(one, &is), tell(other, &wanted);
    return requests == before && is.len == wanted.len && !memcmp(is.bytes, wanted.bytes, is.len);
}

/* ---- refusing */

/* Makes the script with a request refused in one step. Whether that step made so many requests. */
static bool refuse(size_t step, long request) {
    struct filgordd_session s = FILGORDD_SESSION_INIT, other = FILGORDD_SESSION_INIT;
    bool met = false;
    for (size_t i = 0; i < STEPS; i++) {
        if (i == step) {
            left = request, was_refused = false;
            uint32_t code = make(&s, &script[i]);
            left = -1, met = was_refused;
            if (code == FILGORDD_MEMORY) {
                if (!met) fail("MEMORY, and nothing was refused", i, request);
                if (!alike(&s, &other)) fail("the refused call changed something", i, request);
            } else {
                if (code != make(&other, &script[i])) fail("another code", i, request);
                if (!alike(&s, &other)) fail("another answer", i, request);
                continue;
            }
        }
        if (make(&s, &script[i]) != make(&other, &script[i])) fail("another code afterwards", i, request);
        if (!alike(&s, &other)) fail("another answer afterwards", i, request);
    }
    long before = requests;
    filgordd_close(&s), filgordd_close(&other);
    if (requests != before) fail("closing asked for memory", step, request);
    if (blocks) fail("blocks are left", step, request), blocks = 0;
    return met;
}

int main(void) {
    long runs = 0;
    for (int more = 0; more < 2; more++) {
        and_all_more = more;
        for (size_t step = 0; step < STEPS; step++)
            for (long request = 0; refuse(step, request); request++) runs++;
    }
    printf("%zu calls, %ld refusals, %d failures\n", STEPS, runs, failures);
    return failures != 0 || runs < 100;
}
