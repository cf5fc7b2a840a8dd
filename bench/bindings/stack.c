/* How much call stack a text takes: stack GRAMMAR EDITION DEPTH <TEXT. Opens it, expands it, asks all of the answer,
 * closes it, and hands it over as a word for `cfg`, each on a thread with a stack of its own. Prints for each call how many
 * bytes of it were written, and the code that expanding answered. */
#define _GNU_SOURCE
#include "filgordd.h"
#include <pthread.h>
#include <stdio.h>
#include <stdlib.h>
#include <string.h>
#include <sys/mman.h>

#define STACK ((size_t)1 << 30)

static struct filgordd_session session = FILGORDD_SESSION_INIT;
static char *text;
static size_t len;
static uint32_t grammar, edition, code;
static uint8_t depth;

static void *nothing(void *unused) {
    return unused;
}
static void *opened(void *unused) {
    code = filgordd_open(&session, text, len, edition, depth, grammar);
    return unused;
}
/* The text as a word for `cfg`. */
static void *named(void *unused) {
    const struct filgordd_options options = {edition, grammar, FILGORDD_SCOPE_RUST, depth, 0, 0};
    const struct filgordd_word words[] = {{"unix", 4}, {text, len}};
    struct filgordd_session other = FILGORDD_SESSION_INIT;
    filgordd_open_cfg(&other, "", 0, &options, words, 2);
    filgordd_close(&other);
    return unused;
}
static void *edited(void *unused) {
    filgordd_edit(&session, 0, 0, " ", 1);
    return unused;
}
static void *expanded(void *unused) {
    code = filgordd_expand(&session);
    return unused;
}
static void *asked(void *unused) {
    struct filgordd_counts counts = {0, 0, 0, 0};
    if (filgordd_counts(&session, &counts)) return unused;
    void *room = calloc(counts.printed + counts.tokens + counts.faults + 1, sizeof(struct filgordd_fault));
    filgordd_printed(&session, room, counts.printed);
    filgordd_token_ranges(&session, room, counts.tokens);
    filgordd_origins(&session, room, counts.tokens);
    for (size_t i = 0; i < counts.faults; i++) filgordd_fault(&session, i, room);
    free(room);
    return unused;
}
static void *closed(void *unused) {
    filgordd_close(&session);
    return unused;
}

/* The bytes of its stack that a thread writes, from the deepest one up. A page that was never written reads as
 * zeros, so none has to be painted. */
static size_t used(void *(*call)(void *)) {
    char *stack = mmap(NULL, STACK, PROT_READ | PROT_WRITE, MAP_PRIVATE | MAP_ANONYMOUS | MAP_NORESERVE, -1, 0);
    pthread_attr_t attributes;
    pthread_t thread;
    if (stack == MAP_FAILED || pthread_attr_init(&attributes) || pthread_attr_setstack(&attributes, stack, STACK) ||
        pthread_create(&thread, &attributes, call, NULL) || pthread_join(thread, NULL))
        perror("a thread"), exit(2);
    size_t lowest = 0;
    unsigned char there;
    while (lowest < STACK && (mincore(stack + lowest, 4096, &there), !(there & 1))) lowest += 4096;
    while (lowest < STACK && !stack[lowest]) lowest++;
    munmap(stack, STACK);
    return STACK - lowest;
}

int main(int argc, char **argv) {
    if (argc != 4) return 2;
    grammar = (uint32_t)atoi(argv[1]), edition = (uint32_t)atoi(argv[2]), depth = (uint8_t)atoi(argv[3]);
    size_t room = 1 << 16, n;
    for (text = malloc(room); (n = fread(text + len, 1, room - len, stdin)); len += n)
        if (room - len == n) text = realloc(text, room *= 2);
    size_t none = used(nothing), open = used(opened) - none, edit = used(edited) - none;
    size_t expand = used(expanded) - none, again = code, ask = used(asked) - none, close = used(closed) - none;
    size_t name = used(named) - none;
    printf("open %zu edit %zu expand %zu ask %zu close %zu cfg %zu code %zu\n", open, edit, expand, ask, close, name, again);
    return 0;
}
