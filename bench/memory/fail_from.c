/* Loaded before a program: each of its allocations fails, from the one on whose number FAIL_FROM says, or that one alone where
   FAIL_ONCE is set. Where one has failed, a byte comes to the descriptor FAIL_MARK. */
#include <errno.h>
#include <stdatomic.h>
#include <stdlib.h>
#include <unistd.h>

void *__libc_malloc(size_t);
void *__libc_calloc(size_t, size_t);
void *__libc_realloc(void *, size_t);
void *__libc_memalign(size_t, size_t);

static unsigned long long from;
static int mark, once;
static atomic_ullong taken;

__attribute__((constructor)) static void begin(void) {
    const char *number = getenv("FAIL_FROM"), *descriptor = getenv("FAIL_MARK");
    mark = descriptor ? atoi(descriptor) : -1;
    once = getenv("FAIL_ONCE") != NULL;
    from = number ? strtoull(number, NULL, 10) : 0;
}

/* Whether this allocation fails. Before the constructor has run none does, and none is counted. */
static int fails(void) {
    if (from == 0) return 0;
    unsigned long long number = atomic_fetch_add(&taken, 1) + 1;
    if (number < from || (once && number > from)) return 0;
    if (number == from && write(mark, "f", 1) != 1) _exit(125);
    errno = ENOMEM;
    return 1;
}

void *malloc(size_t size) { return fails() ? NULL : __libc_malloc(size); }
void *calloc(size_t count, size_t size) { return fails() ? NULL : __libc_calloc(count, size); }
void *realloc(void *old, size_t size) { return fails() ? NULL : __libc_realloc(old, size); }
void *memalign(size_t align, size_t size) { return fails() ? NULL : __libc_memalign(align, size); }
void *aligned_alloc(size_t align, size_t size) { return memalign(align, size); }

int posix_memalign(void **to, size_t align, size_t size) {
    int before = errno;
    void *got = memalign(align, size);
    errno = before;
    if (got == NULL) return ENOMEM;
    *to = got;
    return 0;
}
