/* Expands a text after definitions of two others, of its own crate and of another, and tells of each token where it is from. */
#include <filgordd.h>
#include <stdio.h>
#include <string.h>

static const char *const texts[] = {
    "f(two!(), id!(z))",
    "macro_rules! two { () => { $crate::TWO } }",
    "macro_rules! id { ($x:expr) => { ($x) } }",
};

static int read_sources(struct filgordd_session *s) {
    struct filgordd_source_told told = {0, {0, {0, 0}}};
    const struct filgordd_pick picks[] = {{1, FILGORDD_ALL}, {2, 0}};
    if (filgordd_source(s, 1, "std", 3, 2024, texts[1], strlen(texts[1]), &told)) return 1;
    if (filgordd_source(s, 2, NULL, 0, 0, texts[2], strlen(texts[2]), &told)) return 1;
    return filgordd_prelude(s, picks, 2) != 0;
}

int main(void) {
    struct filgordd_session session = FILGORDD_SESSION_INIT;
    struct filgordd_range at[32] = {{0, 0}}, from[32] = {{0, 0}};
    struct filgordd_counts counts = {0, 0, 0, 0};
    uint32_t sources[32] = {0};
    char printed[256] = "";
    if (filgordd_open(&session, texts[0], strlen(texts[0]), 2024, 128, FILGORDD_GRAMMAR_RUST)) return 1;
    int failed = read_sources(&session) || filgordd_expand(&session) || filgordd_counts(&session, &counts) ||
                 filgordd_printed(&session, printed, sizeof printed) || filgordd_token_ranges(&session, at, 32) ||
                 filgordd_origins(&session, from, 32) || filgordd_sources(&session, sources, 32);
    for (size_t i = 0; !failed && i < counts.tokens; i++)
        printf("%.*s\ttext %u, bytes %u to %u: %.*s\n", (int)(at[i].end - at[i].start), printed + at[i].start, sources[i],
               from[i].start, from[i].end, (int)(from[i].end - from[i].start), texts[sources[i]] + from[i].start);
    filgordd_close(&session);
    return failed;
}
