/* Runs a script of calls of the library, and prints of each the microseconds of processor time, and of an answer how many
 * tokens and pieces that were expanded anew it has. Under callgrind each call is a dump of its own. The lines are
 *     o FILE               opens a session over the text of a file
 *     s NUMBER ROOT FILE   reads a file as a source; ROOT is - for the crate of the text
 *     p [NUMBER..]         the prelude: all definitions of these sources
 *     e START END [WORD]   replaces bytes by a word
 *     x                    expands
 * and what stands behind a # in a line is its name. */
#include "filgordd.h"
#include <stdio.h>
#include <stdlib.h>
#include <string.h>
#include <time.h>
#ifdef NO_CALLGRIND
#define CALLGRIND_ZERO_STATS
#define CALLGRIND_DUMP_STATS_AT(name)
#else
#include <valgrind/callgrind.h>
#endif

static struct filgordd_session session = FILGORDD_SESSION_INIT;
static struct filgordd_counts counts;

static char *text_of(const char *path, size_t *len) {
    FILE *file = fopen(path, "rb");
    if (!file) exit(3);
    size_t room = 1 << 16, n;
    char *bytes = malloc(room);
    for (*len = 0; (n = fread(bytes + *len, 1, room - *len, file)); *len += n)
        if (*len + n == room) bytes = realloc(bytes, room *= 2);
    fclose(file);
    return bytes;
}

/* A call, whose arguments are read before the clock and the counter start. */
struct step {
    char what, *text, word[64], root[64];
    size_t len, start, end, picks;
    uint32_t number;
    struct filgordd_pick pick[64];
};

static struct step step_of(char *line) {
    struct step s = {.what = line[0]};
    char path[4096] = "";
    int at = 1, n;
    switch (s.what) {
    case 'o': if (sscanf(line, "o %4095s", path) != 1) exit(4); break;
    case 's': if (sscanf(line, "s %u %63s %4095s", &s.number, s.root, path) != 3) exit(4); break;
    case 'e': if (sscanf(line, "e %zu %zu %63s", &s.start, &s.end, s.word) < 2) exit(4); break;
    case 'p':
        for (; s.picks < 64 && sscanf(line + at, " %u%n", &s.number, &n) == 1; at += n)
            s.pick[s.picks++] = (struct filgordd_pick){s.number, FILGORDD_ALL};
        break;
    case 'x': break;
    default: exit(4);
    }
    if (path[0]) s.text = text_of(path, &s.len);
    return s;
}

static uint32_t run(struct step *s) {
    struct filgordd_source_told told;
    int own = !strcmp(s->root, "-");
    switch (s->what) {
    case 'o': return filgordd_open(&session, s->text, s->len, 2021, 128, FILGORDD_GRAMMAR_RUST);
    case 's': return filgordd_source(&session, s->number, own ? NULL : s->root, own ? 0 : strlen(s->root), 2021, s->text, s->len, &told);
    case 'e': return filgordd_edit(&session, s->start, s->end, s->word, strlen(s->word));
    case 'p': return filgordd_prelude(&session, s->pick, s->picks);
    default: return filgordd_expand(&session);
    }
}

static double now(void) {
    struct timespec t;
    clock_gettime(CLOCK_PROCESS_CPUTIME_ID, &t);
    return t.tv_sec * 1e6 + t.tv_nsec / 1e3;
}

int main(void) {
    char line[8192];
    while (fgets(line, sizeof line, stdin)) {
        line[strcspn(line, "\n")] = 0;
        char *name = strchr(line, '#');
        if (name) *name++ = 0;
        struct step s = step_of(line);
        double start = now();
        CALLGRIND_ZERO_STATS;
        uint32_t code = run(&s);
        CALLGRIND_DUMP_STATS_AT(name ? name : line);
        double taken = now() - start;
        free(s.text);
        if (code) {
            printf("%s: code %u\n", line, code);
            return 1;
        }
        printf("%s\t%.1f", name ? name : line, taken);
        if (s.what == 'x' && !filgordd_counts(&session, &counts)) printf("\t%zu\t%zu", counts.tokens, counts.expanded);
        puts("");
    }
    filgordd_close(&session);
    return 0;
}
