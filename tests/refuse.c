/* A malloc that refuses one allocation, that of the number REFUSE_AT, and makes the file REFUSE_TOLD where it did: for LD_PRELOAD. */
#define _GNU_SOURCE
#include <dlfcn.h>
#include <fcntl.h>
#include <stdlib.h>
#include <unistd.h>
static long at = -1, count;
static int refused(void) {
    if (at < 0) { char *word = getenv("REFUSE_AT"); at = word ? atol(word) : 0; }
    count++;
    if (count != at) return 0;
    char *told = getenv("REFUSE_TOLD");
    if (told) { int unused = open(told, O_CREAT | O_WRONLY, 0600); if (unused >= 0) close(unused); }
    return 1;
}
void *malloc(size_t n) { static void *(*real)(size_t); if (!real) real = dlsym(RTLD_NEXT, "malloc"); return refused() ? 0 : real(n); }
void *realloc(void *p, size_t n) { static void *(*real)(void *, size_t); if (!real) real = dlsym(RTLD_NEXT, "realloc"); return refused() ? 0 : real(p, n); }
void *aligned_alloc(size_t a, size_t n) { static void *(*real)(size_t, size_t); if (!real) real = dlsym(RTLD_NEXT, "aligned_alloc"); return refused() ? 0 : real(a, n); }
int posix_memalign(void **p, size_t a, size_t n) { static int (*real)(void **, size_t, size_t); if (!real) real = dlsym(RTLD_NEXT, "posix_memalign"); return refused() ? 12 : real(p, a, n); }
