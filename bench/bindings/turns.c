/* The program bench/edits/main.rt.in through C: the same input, the same calls, the same output. */
#include "filgordd.h"
#include <stdio.h>
#include <stdlib.h>
#include <string.h>

static size_t tokens, expanded;

static int told(struct filgordd_session *s) {
    struct filgordd_counts counts = {0, 0, 0, 0};
    if (filgordd_expand(s) || filgordd_counts(s, &counts)) return 1;
    tokens = counts.tokens, expanded = counts.expanded;
    return 0;
}

static int open_text(struct filgordd_session *s, const char *text, size_t len) {
    return filgordd_open(s, text, len, 2024, 128, FILGORDD_GRAMMAR_SMALL) || told(s);
}

static char *input(size_t *len) {
    size_t room = 1 << 16, n;
    char *bytes = malloc(room);
    for (*len = 0; (n = fread(bytes + *len, 1, room - *len - 1, stdin)); *len += n)
        if (room - *len - n < 2) bytes = realloc(bytes, room *= 2);
    bytes[*len] = 0;
    return bytes;
}

int main(void) {
    size_t len, turns, at;
    char what, word[64], *bytes = input(&len), *text = strchr(bytes, '\n');
    if (!text || sscanf(bytes, "%c %zu %zu %63s", &what, &turns, &at, word) != 4) return 2;
    *text++ = 0, len -= (size_t)(text - bytes);
    if (!strcmp(word, "+")) word[0] = '\n';
    struct filgordd_session session = FILGORDD_SESSION_INIT;
    int failed = open_text(&session, text, len);
    for (size_t i = 0; i < turns && !failed; i++) {
        if (what == 's') {
            struct filgordd_session other = FILGORDD_SESSION_INIT;
            failed = open_text(&other, text, len);
            filgordd_close(&other);
        } else {
            size_t n = strlen(word);
            failed = i % 2 ? filgordd_edit(&session, at, at + n, "", 0) : filgordd_edit(&session, at, at, word, n);
            if (!failed) failed = told(&session);
        }
    }
    filgordd_close(&session);
    free(bytes);
    if (failed) return 2;
    printf("%zu %zu\n", tokens, expanded);
    return 0;
}
