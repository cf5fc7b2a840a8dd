/* Expands a file: `expand FILE`. Prints the expansion, and each fault with its line, its column and its words. */
#include <filgordd.h>
#include <stdio.h>
#include <stdlib.h>

static char text[1 << 20];

/* A line of a fault, as `filgordd expand` prints it. */
static void tell(struct filgordd_session *s, struct filgordd_fault fault, int is_read) {
    struct filgordd_position at = {0, 0};
    char words[64] = "";
    size_t len = 0;
    filgordd_position(s, fault.range.start, &at);
    if (is_read) filgordd_fault_words(fault.kind, words, sizeof words, &len);
    else filgordd_reading_fault_words(fault.kind, words, sizeof words, &len);
    fprintf(stderr, "line %zu, byte column %zu: %.*s\n", at.line, at.column, (int)len, words);
}

static int show(struct filgordd_session *s) {
    struct filgordd_fault fault = {0, {0, 0}};
    struct filgordd_counts counts = {0, 0, 0, 0};
    if (!filgordd_reading_fault(s, &fault)) return tell(s, fault, 0), 1;
    if (filgordd_counts(s, &counts)) return 1;
    char *printed = calloc(counts.printed + 1, 1);
    if (!printed || filgordd_printed(s, printed, counts.printed)) return free(printed), 1;
    fwrite(printed, 1, counts.printed, stdout);
    free(printed);
    for (size_t i = 0; i < counts.faults; i++)
        if (!filgordd_fault(s, i, &fault)) tell(s, fault, 1);
    return counts.faults != 0;
}

int main(int argc, char **argv) {
    FILE *file = argc == 2 ? fopen(argv[1], "rb") : NULL;
    if (!file) return fputs("usage: expand FILE\n", stderr), 2;
    size_t len = fread(text, 1, sizeof text, file);
    fclose(file);
    struct filgordd_session session = FILGORDD_SESSION_INIT;
    const struct filgordd_options options = {2024, FILGORDD_GRAMMAR_RUST, FILGORDD_SCOPE_RUST, 128, 0, 0};
    uint32_t code = filgordd_open_with(&session, text, len, &options);
    if (!code) code = filgordd_expand(&session);
    if (code && code != FILGORDD_UNREAD) {
        char words[64] = "";
        filgordd_code_words(code, words, sizeof words, &len);
        fprintf(stderr, "expand: %.*s\n", (int)len, words);
        return filgordd_close(&session), 2;
    }
    int status = show(&session);
    filgordd_close(&session);
    return status;
}
