/* Loaded before a program: refuses its growth number REFUSE_AT (a malloc or realloc) by answering NULL, once, and then adds to
   the file REFUSE_MET a line with how many bytes were asked for. */
#define _GNU_SOURCE
#include <dlfcn.h>
#include <fcntl.h>
#include <stdio.h>
#include <stdlib.h>
#include <unistd.h>

static long seen, refused_at = -1;

static void note(size_t size) {
    const char *met = getenv("REFUSE_MET");
    int file = met ? open(met, O_CREAT | O_WRONLY | O_APPEND, 0600) : -1;
    if (file < 0) return;
    char text[32];
    int length = snprintf(text, sizeof text, "%zu\n", size);
    if (write(file, text, length) != length) abort();
    close(file);
}

static int refuses(size_t size) {
    if (refused_at < 0) {
        const char *at = getenv("REFUSE_AT");
        refused_at = at ? atol(at) : 0;
    }
    if (++seen != refused_at) return 0;
    note(size);
    return 1;
}

void *malloc(size_t size) {
    static void *(*next)(size_t);
    if (!next) next = dlsym(RTLD_NEXT, "malloc");
    return refuses(size) ? NULL : next(size);
}

void *realloc(void *old, size_t size) {
    static void *(*next)(void *, size_t);
    if (!next) next = dlsym(RTLD_NEXT, "realloc");
    return refuses(size) ? NULL : next(old, size);
}
