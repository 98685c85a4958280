// Refuses one allocation of the program that it is loaded into: the one whose number, from 1, stands in REFUSED_ALLOCATION. It then makes
// the file that REFUSED_MARK names. Made by tests/run_refused_allocations.sh; it needs the GNU C library.
#include <errno.h>
#include <fcntl.h>
#include <stdatomic.h>
#include <stdlib.h>
#include <unistd.h>

void *__libc_malloc(size_t size);
void *__libc_calloc(size_t count, size_t size);
void *__libc_realloc(void *place, size_t size);
void *__libc_memalign(size_t alignment, size_t size);

static atomic_long asked;
static long refused;
static const char *mark;

__attribute__((constructor)) static void begin(void) {
    const char *number = getenv("REFUSED_ALLOCATION");
    mark = getenv("REFUSED_MARK");
    atomic_store(&asked, 0);
    refused = number == NULL ? 0 : atol(number);
}

static int is_refused(void) {
    if (refused == 0 || atomic_fetch_add(&asked, 1) + 1 != refused)
        return 0;
    if (mark != NULL)
        close(open(mark, O_CREAT | O_WRONLY, 0600));
    errno = ENOMEM;
    return 1;
}

void *malloc(size_t size) {
    return is_refused() ? NULL : __libc_malloc(size);
}

void *calloc(size_t count, size_t size) {
    return is_refused() ? NULL : __libc_calloc(count, size);
}

void *realloc(void *place, size_t size) {
    return is_refused() ? NULL : __libc_realloc(place, size);
}

void *aligned_alloc(size_t alignment, size_t size) {
    return is_refused() ? NULL : __libc_memalign(alignment, size);
}

int posix_memalign(void **place, size_t alignment, size_t size) {
    if (is_refused())
        return ENOMEM;
    *place = __libc_memalign(alignment, size);
    return *place == NULL ? ENOMEM : 0;
}
