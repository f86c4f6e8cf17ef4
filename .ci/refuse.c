// Preloaded into a program: refuses its allocation number REFUSE, or its allocation number REFUSE_FROM and each later one,
// by whichever call of the C library, and says at the end how many it asked for.
#include <errno.h>
#include <stdio.h>
#include <stdlib.h>
#include <unistd.h>

void *__libc_malloc(size_t size);
void *__libc_calloc(size_t count, size_t size);
void *__libc_realloc(void *held, size_t size);
void *__libc_memalign(size_t alignment, size_t size);

static long made, only = -1, from;

static long number_of(const char *name) {
    const char *number = getenv(name);
    return number ? atol(number) : 0;
}

static int is_refused(void) {
    if (only < 0) {
        only = number_of("REFUSE");
        from = number_of("REFUSE_FROM");
    }
    made++;
    return made == only || (from > 0 && made >= from);
}

void *malloc(size_t size) {
    return is_refused() ? NULL : __libc_malloc(size);
}

void *calloc(size_t count, size_t size) {
    return is_refused() ? NULL : __libc_calloc(count, size);
}

void *realloc(void *held, size_t size) {
    return is_refused() ? NULL : __libc_realloc(held, size);
}

void *memalign(size_t alignment, size_t size) {
    return is_refused() ? NULL : __libc_memalign(alignment, size);
}

void *aligned_alloc(size_t alignment, size_t size) {
    return memalign(alignment, size);
}

int posix_memalign(void **made_at, size_t alignment, size_t size) {
    void *place = memalign(alignment, size);
    if (!place)
        return ENOMEM;
    *made_at = place;
    return 0;
}

__attribute__((destructor)) static void say(void) {
    char line[64];
    int length = snprintf(line, sizeof line, "allocations: %ld\n", made);
    if (write(STDERR_FILENO, line, length) != length)
        _exit(70);
}
