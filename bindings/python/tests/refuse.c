/* Fails allocations of the library, in a build of the module for tests: it is linked with --wrap, so that the library's malloc,
 * calloc, realloc, aligned_alloc and posix_memalign are intercepted here. */
#include <errno.h>
#include <stddef.h>

#define SEEN __attribute__((visibility("default")))

static size_t asked, refused;

/* From now on only the n-th request fails; none if n is 0. */
SEEN void bucket_refuse(size_t n) {
    asked = 0;
    refused = n;
}

/* How many requests there have been since. */
SEEN size_t bucket_asked(void) {
    return asked;
}

static int is_refused(void) {
    return ++asked == refused;
}

void *__real_malloc(size_t size);
void *__real_calloc(size_t count, size_t size);
void *__real_realloc(void *old, size_t size);
void *__real_aligned_alloc(size_t alignment, size_t size);
int __real_posix_memalign(void **made, size_t alignment, size_t size);

void *__wrap_malloc(size_t size) {
    return is_refused() ? NULL : __real_malloc(size);
}

void *__wrap_calloc(size_t count, size_t size) {
    return is_refused() ? NULL : __real_calloc(count, size);
}

void *__wrap_realloc(void *old, size_t size) {
    return is_refused() ? NULL : __real_realloc(old, size);
}

void *__wrap_aligned_alloc(size_t alignment, size_t size) {
    return is_refused() ? NULL : __real_aligned_alloc(alignment, size);
}

int __wrap_posix_memalign(void **made, size_t alignment, size_t size) {
    return is_refused() ? ENOMEM : __real_posix_memalign(made, alignment, size);
}
