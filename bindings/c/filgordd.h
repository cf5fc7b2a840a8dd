/* Filgordd for C: sessions over a text that is edited and expanded.
 *
 * Link the library filgordd of a release (`pkg-config --cflags --libs filgordd`). Of the sources, link libfilgordd_c.a
 * (`rt lib` in crates/filgordd_c) and liblibc_c.a of the Rattle kit.
 *
 *     struct filgordd_session session = FILGORDD_SESSION_INIT;
 *     if (filgordd_open(&session, text, strlen(text), 2024, 128, FILGORDD_GRAMMAR_RUST)) return 1;
 *     uint32_t code = filgordd_expand(&session);
 *     ...
 *     filgordd_close(&session);
 *
 * Ownership. The caller provides the struct, which is FILGORDD_SESSION_INIT before its first use, and
 * owns what it holds until filgordd_close. An open session has to be closed once, or its memory is
 * never freed. Closing it again does nothing. The struct may be moved while no call runs, but not
 * used as two copies: a copy of an open session is not known to be one, and closing both frees twice.
 *
 * Memory. Each function below says what its pointers are to. In all of them:
 *   - The memory is there, and initialised, until the call returns: room that is only written to as well,
 *     with anything, as by calloc. No call keeps a pointer that it is passed, and none hands one out.
 *   - It is aligned as C aligns its type: bytes anywhere, numbers, ranges, faults and picks at 4,
 *     sessions, options, counts, lengths, words and what is told of a source at 8.
 *   - No two pointers of a call overlap, but words may share bytes. Nobody else writes what they are to during
 *     the call, nor reads what it writes. No element is read or written beyond the length that is said.
 *   - A pointer with a length may be NULL if the length is 0, but that of a word. Any other pointer that is NULL
 *     is refused.
 *
 * Answers. Texts are copied in, and answers are copied out into room that the caller provides. An answer
 * stays until the next filgordd_expand that gives one; edits leave it.
 *
 * Threads. A session is used by one call at a time, on any thread. It may go from one thread to another
 * if what the second does comes after what the first did, as by a lock, or where a thread starts or is
 * joined. Two threads may use two sessions at once: no call is passed two of them, they share nothing, and
 * the library has no variable of its own, not by thread either. No call may come from a signal handler,
 * or from the forked child of a process with threads.
 *
 * Stack. filgordd_expand takes most, and a thread whose stack is too small ends the process by a signal. No
 * proof speaks of it. Measured, on unproved builds, it takes
 *   - 20 KiB, and 800 bytes for each level of calls: 220 KiB for 255;
 *   - with the grammar of Rust up to 290 KiB more, where 4,096 of its rules are in one another, as in
 *     `..` 4,090 times: what is deeper is not taken, and no rule fits the call;
 *   - with the small grammar 5 to 13 bytes more for each level of a type, so its bound is the text's length.
 * So 2 MiB are enough with the grammar of Rust, and 4 MiB leave room for other builds. Nothing else that a
 * text nests takes stack. The other calls took less than 8 KiB.
 *
 * Sources. A text may use definitions of other texts. A source is a text that was read for its definitions,
 * those of its inline modules too; it belongs to the session, and has a number from 1 on. The definitions
 * that a text is expanded after are its prelude, which is empty at first: filgordd_prelude picks them out of
 * the sources of the session. Its own definitions come after them, so they are nearer.
 *
 * Codes. Each function but filgordd_close returns one. A call that is refused changes nothing: neither
 * the session, nor its answer, nor what the pointers point to, except for the wanted length of a
 * text or line. No call ends the program, unwinds, reads or writes a file, or starts a thread.
 *
 * Proved. The library is proved, under the caller's part of the bargain, which nothing checks: what is
 * said above of memory, and that nobody writes a session's struct. The proofs are of a session that stays
 * on one thread, and speak neither of the stack nor of freeing; docs/decisions/0043-sessions-may-move.md
 * says why a session may move. Memory comes from malloc, realloc and free. They have to be one allocator's,
 * may be called from any thread, and align a block to each power of two up to 16 that divides its size. */
#ifndef FILGORDD_H
#define FILGORDD_H

#include <stddef.h>
#include <stdint.h>

#ifdef __cplusplus
extern "C" {
#endif

/* The version of this header. That of the library is what filgordd_version tells. */
#define FILGORDD_VERSION "0.1.0"

/* A session, or none. `held` is NULL if there is none; only FILGORDD_SESSION_INIT and calls write it. */
struct filgordd_session {
    void *held;
};
#define FILGORDD_SESSION_INIT {NULL}

enum filgordd_code {
    FILGORDD_OK = 0,
    FILGORDD_UNREAD = 1,   /* the text cannot be read as trees: filgordd_reading_fault says why */
    FILGORDD_MEMORY = 2,   /* there is no memory for it */
    FILGORDD_TOKENS = 3,   /* there would be more than 4,294,967,295 tokens */
    FILGORDD_NUMBERS = 4,  /* more than 4,294,967,295 definitions would have got an id */
    FILGORDD_CLOSED = 5,   /* the struct holds no session */
    FILGORDD_UTF8 = 6,     /* the bytes are not UTF-8 */
    FILGORDD_LENGTH = 7,   /* a text would have more than 4,294,967,295 bytes */
    FILGORDD_EDITION = 8,  /* there is no such edition */
    FILGORDD_GRAMMAR = 9,  /* there is no such grammar */
    FILGORDD_BOUNDARY = 10, /* an offset is within a character */
    FILGORDD_RANGE = 11,   /* the bytes are not all in the text, or end before they start */
    FILGORDD_NOTHING = 12, /* the last answer is not of this kind, or there is none */
    FILGORDD_INDEX = 13,   /* there is nothing of this index */
    FILGORDD_ROOM = 14,    /* there is not enough room; nothing was written to it */
    FILGORDD_NULL = 15,    /* a pointer is NULL, and not to be */
    FILGORDD_ROOT = 16,    /* the word cannot stand for a crate */
    FILGORDD_SOURCE = 17,  /* there is no source of this number, or, of number 0, there can be none */
    FILGORDD_SCOPE = 18,   /* there are no such rules of scopes */
    FILGORDD_CFG = 19      /* a word names no option for conditional compilation */
};

/* What fragments such as `$e:expr` take. The grammar of Rust, in the edition of the session, knows all
 * fragments; the small one has no statements, no items, no closures and no control flow. */
enum filgordd_grammar {
    FILGORDD_GRAMMAR_SMALL = 0,
    FILGORDD_GRAMMAR_RUST = 1
};

/* Which definitions a name can find. By the rules of Rust's textual scope those of the lists around the call come
 * first: of a block, a module, a result; and the `;` behind an item's call goes with the call. By those of the top level
 * there are only those that are pieces of a text, and each `;` stays. */
enum filgordd_scope {
    FILGORDD_SCOPE_TOP = 0,
    FILGORDD_SCOPE_RUST = 1
};

enum filgordd_fault_kind {
    FILGORDD_CANNOT_EXPAND = 0,     /* no rule fits the call */
    FILGORDD_BROKEN_DEFINITION = 1, /* the definition's rules cannot be parsed */
    FILGORDD_RECURSION_LIMIT = 2,   /* no level is left for the call */
    FILGORDD_NESTED_DEFINITION = 3, /* `macro_rules` or `macro` is in the output */
    FILGORDD_UNSPELLABLE = 4,       /* a token has no spelling, and was omitted */
    FILGORDD_TOO_LARGE = 5          /* the call makes more than the options say */
};

enum filgordd_reading_fault_kind {
    FILGORDD_BAD_TOKEN = 0,
    FILGORDD_CLOSER_DOES_NOT_FIT = 1,
    FILGORDD_GROUP_LEFT_OPEN = 2
};

/* What a session is opened with: an edition, 2015, 2018, 2021 or 2024; a grammar and rules of scopes, of the enums
 * above; how many levels of calls are expanded; how many calls may be expanded for one call of the text, itself among
 * them, and how many tokens rules may put out for it, each 0 for no limit. A call that makes more stays. */
struct filgordd_options {
    uint32_t edition, grammar, scope;
    uint8_t depth;
    size_t calls, tokens;
};

/* A word of a list, of `len` bytes of UTF-8. It names an option for conditional compilation, as after `--cfg` of rustc:
 * `NAME`, or `NAME="VALUE"` with a string of Rust. Blanks and comments around these do not count. */
struct filgordd_word {
    const void *bytes;
    size_t len;
};

/* The bytes of a text from `start` up to, but not including, `end`. */
struct filgordd_range {
    uint32_t start, end;
};

/* A fault, of one of the two enums above, and the bytes of the expanded text that it is reported at. */
struct filgordd_fault {
    uint32_t kind;
    struct filgordd_range range;
};

/* How much an expansion has: bytes of its printed text, printed tokens, faults, and pieces that were
 * expanded anew since the last text that was read did not have them. */
struct filgordd_counts {
    size_t printed, tokens, faults, expanded;
};

/* What a text is read as: how many definitions the source has, or, if it cannot be read, the fault, which is
 * of enum filgordd_reading_fault_kind, and the bytes of that text. */
struct filgordd_source_told {
    size_t definitions;
    struct filgordd_fault fault;
};

/* A definition of a source, by the source's number and the definition's index there. The index FILGORDD_ALL
 * stands for all definitions of the source that are in no inline module and have no attribute
 * `rustc_builtin_macro`, in order. */
struct filgordd_pick {
    uint32_t source, index;
};
#define FILGORDD_ALL UINT32_MAX

/* Where a byte of a text is: its line, and its byte column, both from 1, as `filgordd expand` prints them. Lines end at
 * line feeds. */
struct filgordd_position {
    size_t line, column;
};

/* The calls as the library exports them. Here no pointer may be NULL, also if there are no elements: it
 * is then any that is aligned. C callers use the functions below, which test that. */
uint32_t filgordd_raw_open(struct filgordd_session *, const uint8_t *, size_t, uint32_t, uint8_t, uint32_t);
uint32_t filgordd_raw_open_with(struct filgordd_session *, const uint8_t *, size_t, const struct filgordd_options *);
uint32_t filgordd_raw_open_cfg(struct filgordd_session *, const uint8_t *, size_t, const struct filgordd_options *,
                               const struct filgordd_word *, size_t);
void filgordd_raw_close(struct filgordd_session *);
uint32_t filgordd_raw_text(struct filgordd_session *, uint8_t *, size_t, size_t *);
uint32_t filgordd_raw_is_boundary(struct filgordd_session *, size_t);
uint32_t filgordd_raw_fits(struct filgordd_session *, size_t, size_t, size_t);
uint32_t filgordd_raw_edit(struct filgordd_session *, size_t, size_t, const uint8_t *, size_t);
uint32_t filgordd_raw_expand(struct filgordd_session *);
uint32_t filgordd_raw_counts(struct filgordd_session *, struct filgordd_counts *);
uint32_t filgordd_raw_printed(struct filgordd_session *, uint8_t *, size_t);
uint32_t filgordd_raw_json(struct filgordd_session *, uint8_t *, size_t, size_t *);
uint32_t filgordd_raw_fault(struct filgordd_session *, size_t, struct filgordd_fault *);
uint32_t filgordd_raw_reading_fault(struct filgordd_session *, struct filgordd_fault *);
uint32_t filgordd_raw_origins(struct filgordd_session *, struct filgordd_range *, size_t);
uint32_t filgordd_raw_token_ranges(struct filgordd_session *, struct filgordd_range *, size_t);
uint32_t filgordd_raw_source(struct filgordd_session *, uint32_t, const uint8_t *, size_t, uint32_t, const uint8_t *,
                             size_t, struct filgordd_source_told *);
uint32_t filgordd_raw_prelude(struct filgordd_session *, const struct filgordd_pick *, size_t);
uint32_t filgordd_raw_sources(struct filgordd_session *, uint32_t *, size_t);
uint32_t filgordd_raw_position(struct filgordd_session *, size_t, struct filgordd_position *);
uint32_t filgordd_raw_version(uint8_t *, size_t, size_t *);
uint32_t filgordd_raw_code_words(uint32_t, uint8_t *, size_t, size_t *);
uint32_t filgordd_raw_fault_words(uint32_t, uint8_t *, size_t, size_t *);
uint32_t filgordd_raw_reading_fault_words(uint32_t, uint8_t *, size_t, size_t *);

/* In all of them `s` is to a session's struct, which is FILGORDD_SESSION_INIT before its first use. */

/* Opens a session over a copy of the text, in place of what the struct holds, which is closed.
 * `text` is to `len` bytes, which are only read.
 * `edition` is 2015, 2018, 2021 or 2024; `depth` is how many levels of calls are expanded (the program
 * `expand` takes 128); `grammar` is one of the enum above. Names find pieces of texts alone, as by
 * FILGORDD_SCOPE_TOP. Nothing is expanded yet. If it is refused, what the struct held stays open.
 * OK, EDITION, GRAMMAR, LENGTH, UTF8, MEMORY, NULL. */
static inline uint32_t filgordd_open(struct filgordd_session *s, const void *text, size_t len, uint32_t edition,
                                     uint8_t depth, uint32_t grammar) {
    if (!s || (!text && len)) return FILGORDD_NULL;
    return filgordd_raw_open(s, text ? (const uint8_t *)text : (const uint8_t *)"", len, edition, depth, grammar);
}

/* The same by all options: `options` is to one struct, which is only read. `cfg` is not evaluated: nothing is left
 * out. OK, EDITION, GRAMMAR, SCOPE, LENGTH, UTF8, MEMORY, NULL. */
static inline uint32_t filgordd_open_with(struct filgordd_session *s, const void *text, size_t len,
                                          const struct filgordd_options *options) {
    if (!s || !options || (!text && len)) return FILGORDD_NULL;
    return filgordd_raw_open_with(s, text ? (const uint8_t *)text : (const uint8_t *)"", len, options);
}

/* The same, and `cfg` is evaluated: exactly the options that the words name are set, for as long as the session is
 * open. Definitions, and whole items in lists of items, whose `cfg` is then false are left out, those of sources too;
 * docs/GUIDE.md says which items are whole. `words` is to `n` structs, each to bytes, which are only read; with none
 * no option is set, so that what needs one is left out.
 * OK, EDITION, GRAMMAR, SCOPE, CFG, LENGTH, UTF8, TOKENS (of a word), MEMORY, NULL. */
static inline uint32_t filgordd_open_cfg(struct filgordd_session *s, const void *text, size_t len,
                                         const struct filgordd_options *options, const struct filgordd_word *words,
                                         size_t n) {
    struct filgordd_word none = {"", 0};
    if (!s || !options || (!text && len) || (!words && n)) return FILGORDD_NULL;
    for (size_t i = 0; i < n; i++)
        if (!words[i].bytes) return FILGORDD_NULL;
    return filgordd_raw_open_cfg(s, text ? (const uint8_t *)text : (const uint8_t *)"", len, options,
                                 words ? words : &none, n);
}

/* Closes the session and frees all that it holds. Nothing happens if there is none. */
static inline void filgordd_close(struct filgordd_session *s) {
    if (s) filgordd_raw_close(s);
}

/* The text: its length to `*wanted`, and its bytes to the beginning of the room. `room` is to `len` bytes,
 * which may be more than the text has, and `wanted` to a length. OK, CLOSED, ROOM, NULL. */
static inline uint32_t filgordd_text(struct filgordd_session *s, void *room, size_t len, size_t *wanted) {
    uint8_t none = 0;
    if (!s || !wanted || (!room && len)) return FILGORDD_NULL;
    return filgordd_raw_text(s, room ? (uint8_t *)room : &none, len, wanted);
}

/* Whether offset `at` is a character boundary of the text, its end included: OK if it is, and BOUNDARY or
 * RANGE if not. Also CLOSED, NULL. */
static inline uint32_t filgordd_is_boundary(struct filgordd_session *s, size_t at) {
    return s ? filgordd_raw_is_boundary(s, at) : (uint32_t)FILGORDD_NULL;
}

/* Whether `len` bytes can replace those from `start` to `end`, as far as lengths go: OK if so, and RANGE
 * or LENGTH if not. Also CLOSED, NULL. */
static inline uint32_t filgordd_fits(struct filgordd_session *s, size_t start, size_t end, size_t len) {
    return s ? filgordd_raw_fits(s, start, end, len) : (uint32_t)FILGORDD_NULL;
}

/* Replaces the bytes from `start` to `end`. `replacement` is to `len` bytes, which are only read.
 * OK, CLOSED, RANGE, LENGTH, BOUNDARY, UTF8, MEMORY, NULL. */
static inline uint32_t filgordd_edit(struct filgordd_session *s, size_t start, size_t end, const void *replacement,
                                     size_t len) {
    if (!s || (!replacement && len)) return FILGORDD_NULL;
    return filgordd_raw_edit(s, start, end, replacement ? (const uint8_t *)replacement : (const uint8_t *)"", len);
}

/* Expands the text. The answer, an expansion or a reading fault, is kept in place of the last one.
 * OK, UNREAD; and if there is no answer CLOSED, MEMORY, TOKENS, NUMBERS, NULL. */
static inline uint32_t filgordd_expand(struct filgordd_session *s) {
    return s ? filgordd_raw_expand(s) : (uint32_t)FILGORDD_NULL;
}

/* How much the expansion has. `into` is to one struct. OK, CLOSED, NOTHING, NULL. */
static inline uint32_t filgordd_counts(struct filgordd_session *s, struct filgordd_counts *into) {
    return s && into ? filgordd_raw_counts(s, into) : (uint32_t)FILGORDD_NULL;
}

/* The printed text: `counts.printed` bytes of UTF-8, without a NUL. `room` is to `len` bytes.
 * OK, CLOSED, NOTHING, ROOM, NULL. */
static inline uint32_t filgordd_printed(struct filgordd_session *s, void *room, size_t len) {
    uint8_t none = 0;
    if (!s || (!room && len)) return FILGORDD_NULL;
    return filgordd_raw_printed(s, room ? (uint8_t *)room : &none, len);
}

/* The last answer as a line of JSON, an `expansion` or `unread` of docs/JSON.md, without a line feed: its length to
 * `*wanted`, and its bytes to the beginning of the room. NOTHING if the text was edited since. `room` is to `len` bytes,
 * which may be more than the line has, and `wanted` to a length. The line is made at each call.
 * OK, CLOSED, NOTHING, LENGTH (the printed text has more than 4,294,967,295 bytes), MEMORY, ROOM, NULL. */
static inline uint32_t filgordd_json(struct filgordd_session *s, void *room, size_t len, size_t *wanted) {
    uint8_t none = 0;
    if (!s || !wanted || (!room && len)) return FILGORDD_NULL;
    return filgordd_raw_json(s, room ? (uint8_t *)room : &none, len, wanted);
}

/* The fault of this index, in order of start, end and kind. `into` is to one struct.
 * OK, CLOSED, NOTHING, INDEX, NULL. */
static inline uint32_t filgordd_fault(struct filgordd_session *s, size_t index, struct filgordd_fault *into) {
    return s && into ? filgordd_raw_fault(s, index, into) : (uint32_t)FILGORDD_NULL;
}

/* The reading fault. `into` is to one struct. OK, CLOSED, NOTHING, NULL. */
static inline uint32_t filgordd_reading_fault(struct filgordd_session *s, struct filgordd_fault *into) {
    return s && into ? filgordd_raw_reading_fault(s, into) : (uint32_t)FILGORDD_NULL;
}

/* Where each of the `counts.tokens` printed tokens comes from: bytes of the expanded text, or of the source
 * that filgordd_sources names, as only a prelude can bring about. `room` is to `len` structs.
 * OK, CLOSED, NOTHING, ROOM, NULL. */
static inline uint32_t filgordd_origins(struct filgordd_session *s, struct filgordd_range *room, size_t len) {
    struct filgordd_range none = {0, 0};
    if (!s || (!room && len)) return FILGORDD_NULL;
    return filgordd_raw_origins(s, room ? room : &none, len);
}

/* Where each of them is in the printed text. A lifetime is two tokens, its quote and its name. They are
 * found at each call, without memory. `room` is to `len` structs.
 * OK, CLOSED, NOTHING, ROOM, LENGTH (of the printed text), NULL. */
static inline uint32_t filgordd_token_ranges(struct filgordd_session *s, struct filgordd_range *room, size_t len) {
    struct filgordd_range none = {0, 0};
    if (!s || (!room && len)) return FILGORDD_NULL;
    return filgordd_raw_token_ranges(s, room ? room : &none, len);
}

/* Reads a text of `len` bytes as the source of this number, from 1 on, in place of the one that has it. The
 * prelude stays as it is, of the old source too. Without a root the text belongs to the crate of the session's
 * text, and `edition` is not looked at. Else it belongs to another crate: `$crate` in its definitions is
 * printed as `root`, of `root_len` bytes of UTF-8, such as `std`, and they are of that edition. `into` is to
 * one struct, in which how many definitions the source has is written, or, if the text cannot be read, the
 * fault; then the old source stays.
 * OK, UNREAD; and if the text is not read CLOSED, SOURCE, ROOT, EDITION, LENGTH, UTF8, MEMORY, TOKENS, NULL. */
static inline uint32_t filgordd_source(struct filgordd_session *s, uint32_t number, const void *root, size_t root_len,
                                       uint32_t edition, const void *text, size_t len,
                                       struct filgordd_source_told *into) {
    const uint8_t *none = (const uint8_t *)"";
    if (!s || !into || (!root && root_len) || (!text && len)) return FILGORDD_NULL;
    return filgordd_raw_source(s, number, root ? (const uint8_t *)root : none, root_len, edition,
                               text ? (const uint8_t *)text : none, len, into);
}

/* From the next expansion on the text is expanded after these definitions, in order, the nearest last. Besides,
 * every definition of each source of another crate is seen behind the crate's root, as by `$crate::name` in
 * another of its definitions, unless it has the attribute `rustc_builtin_macro`. Nothing that was expanded is
 * lost: only pieces of which a look-up now gives another definition are expanded anew. `picks` is to `n`
 * structs, which are only read; with none only what is seen behind roots is left.
 * OK, CLOSED, SOURCE, INDEX, MEMORY, TOKENS (of a definition, with its `$crate`), NULL. */
static inline uint32_t filgordd_prelude(struct filgordd_session *s, const struct filgordd_pick *picks, size_t n) {
    struct filgordd_pick none = {0, 0};
    if (!s || (!picks && n)) return FILGORDD_NULL;
    return filgordd_raw_prelude(s, picks ? picks : &none, n);
}

/* Which text each of the `counts.tokens` printed tokens comes from: 0 for the expanded text, or the number of a
 * source. `room` is to `len` numbers. OK, CLOSED, NOTHING, ROOM, NULL. */
static inline uint32_t filgordd_sources(struct filgordd_session *s, uint32_t *room, size_t len) {
    uint32_t none = 0;
    if (!s || (!room && len)) return FILGORDD_NULL;
    return filgordd_raw_sources(s, room ? room : &none, len);
}

/* Where the offset `at` of the text is, that of its end included, counted from the beginning of the text. A fault and
 * an origin are of the text that was expanded: ask before it is edited. `into` is to one struct.
 * OK, CLOSED, RANGE, NULL. */
static inline uint32_t filgordd_position(struct filgordd_session *s, size_t at, struct filgordd_position *into) {
    return s && into ? filgordd_raw_position(s, at, into) : (uint32_t)FILGORDD_NULL;
}

/* The four calls below need no session. They write the length of a text in ASCII, without a NUL, to `*wanted`, and the
 * text to the beginning of the room, as filgordd_text does. `room` is to `len` bytes: 64 are enough for each.
 * OK, ROOM, NULL; and INDEX if there is no such number, and then nothing is written. */

/* The version of the library, as "0.1.0". */
static inline uint32_t filgordd_version(void *room, size_t len, size_t *wanted) {
    uint8_t none = 0;
    if (!wanted || (!room && len)) return FILGORDD_NULL;
    return filgordd_raw_version(room ? (uint8_t *)room : &none, len, wanted);
}

/* The words for a code, of enum filgordd_code. */
static inline uint32_t filgordd_code_words(uint32_t code, void *room, size_t len, size_t *wanted) {
    uint8_t none = 0;
    if (!wanted || (!room && len)) return FILGORDD_NULL;
    return filgordd_raw_code_words(code, room ? (uint8_t *)room : &none, len, wanted);
}

/* The words for a fault, of enum filgordd_fault_kind: those that `filgordd expand` prints. */
static inline uint32_t filgordd_fault_words(uint32_t kind, void *room, size_t len, size_t *wanted) {
    uint8_t none = 0;
    if (!wanted || (!room && len)) return FILGORDD_NULL;
    return filgordd_raw_fault_words(kind, room ? (uint8_t *)room : &none, len, wanted);
}

/* The words for a reading fault, of enum filgordd_reading_fault_kind: those that `filgordd expand` prints. */
static inline uint32_t filgordd_reading_fault_words(uint32_t kind, void *room, size_t len, size_t *wanted) {
    uint8_t none = 0;
    if (!wanted || (!room && len)) return FILGORDD_NULL;
    return filgordd_raw_reading_fault_words(kind, room ? (uint8_t *)room : &none, len, wanted);
}

#ifdef __cplusplus
}
#endif
#endif
