/* Refuses the growth of the number REFUSE, and says so on standard error. For LD_PRELOAD. */
#define _GNU_SOURCE
#include <dlfcn.h>
#include <stdlib.h>
#include <unistd.h>
static long left = -1;
static int refused(void) {
    if (left < 0) {
        const char *nth = getenv("REFUSE");
        left = nth ? atol(nth) : 0;
    }
    if (left == 0 || --left > 0) return 0;
    return write(2, "growth refused\n", 15) == 15;
}
void *malloc(size_t size) {
    static void *(*real)(size_t);
    if (!real) real = (void *(*)(size_t))dlsym(RTLD_NEXT, "malloc");
    return refused() ? 0 : real(size);
}
void *realloc(void *old, size_t size) {
    static void *(*real)(void *, size_t);
    if (!real) real = (void *(*)(void *, size_t))dlsym(RTLD_NEXT, "realloc");
    return refused() ? 0 : real(old, size);
}
