/* Expands a text, edits it, and expands it again: what each token of the answer comes from. */
#include "filgordd.h"
#include <stdio.h>
#include <stdlib.h>
#include <string.h>

static int show(struct filgordd_session *s) {
    uint32_t code = filgordd_expand(s);
    if (code == FILGORDD_UNREAD) {
        struct filgordd_fault fault = {0, {0, 0}};
        filgordd_reading_fault(s, &fault);
        printf("unread: kind %u at %u to %u\n", fault.kind, fault.range.start, fault.range.end);
        return 0;
    }
    if (code) return printf("refused: %u\n", code), 1;

    struct filgordd_counts counts = {0, 0, 0, 0};
    filgordd_counts(s, &counts);
    char *printed = calloc(counts.printed, 1);
    struct filgordd_range *at = calloc(counts.tokens, sizeof *at), *from = calloc(counts.tokens, sizeof *from);
    code = filgordd_printed(s, printed, counts.printed);
    if (!code) code = filgordd_token_ranges(s, at, counts.tokens);
    if (!code) code = filgordd_origins(s, from, counts.tokens);
    if (!code) {
        fwrite(printed, 1, counts.printed, stdout);
        for (size_t i = 0; i < counts.tokens; i++)
            printf("  %.*s from %u to %u\n", (int)(at[i].end - at[i].start), printed + at[i].start, from[i].start, from[i].end);
        for (size_t i = 0; i < counts.faults; i++) {
            struct filgordd_fault fault = {0, {0, 0}};
            filgordd_fault(s, i, &fault);
            printf("  fault: kind %u at %u to %u\n", fault.kind, fault.range.start, fault.range.end);
        }
        printf("  expanded: %zu\n", counts.expanded);
    }
    free(printed), free(at), free(from);
    return code != 0;
}

int main(void) {
    const char *text = "macro_rules! p { ($a:ident $b:tt) => { $b $a } } p!{ x y }";
    struct filgordd_session session = FILGORDD_SESSION_INIT;
    if (filgordd_open(&session, text, strlen(text), 2024, 128, FILGORDD_GRAMMAR_RUST)) return 1;
    int failed = show(&session);
    failed |= filgordd_edit(&session, 55, 56, "z", 1) || show(&session);
    failed |= filgordd_edit(&session, 53, 54, "1", 1) || show(&session);
    failed |= filgordd_edit(&session, 57, 58, "", 0) || show(&session);
    filgordd_close(&session);
    return failed;
}
