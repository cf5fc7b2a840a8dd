/* Edits a text of many calls, and tells how many pieces each answer expanded anew: one for each call that an edit touches. */
#include <filgordd.h>
#include <stdio.h>
#include <string.h>

#define CALLS 1000

static char text[64 + CALLS * 16];

static void show(struct filgordd_session *s, const char *what) {
    struct filgordd_counts counts = {0, 0, 0, 0};
    if (filgordd_expand(s) || filgordd_counts(s, &counts)) return;
    printf("%s: %zu tokens, %zu pieces expanded\n", what, counts.tokens, counts.expanded);
}

int main(void) {
    struct filgordd_session session = FILGORDD_SESSION_INIT;
    size_t len = sprintf(text, "macro_rules! p { ($a:ident $b:tt) => { $b $a } }\n");
    for (int i = 0; i < CALLS; i++) len += sprintf(text + len, "p!{ x%d y }\n", i);
    if (filgordd_open(&session, text, len, 2024, 128, FILGORDD_GRAMMAR_RUST)) return 1;
    show(&session, "all of it");
    size_t at = strstr(text, "x500") - text;
    int failed = filgordd_edit(&session, at, at + 4, "z", 1);
    show(&session, "one name is another");
    failed |= filgordd_edit(&session, 0, 0, "// a comment\n", 13);
    show(&session, "a comment in front");
    filgordd_close(&session);
    return failed != 0;
}
