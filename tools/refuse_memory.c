/* Refuses requests for memory of a program that it is loaded before (LD_PRELOAD).
 *
 * REFUSE_MEMORY=N        refuses request N, counted from 1 over all threads
 * REFUSE_FROM_THERE=yes  refuses all later ones too
 * REFUSE_COUNT=FILE      keeps the number of requests in the file, as a number of this machine
 *
 * Build: cc -O2 -shared -fPIC -o refuse_memory.so refuse_memory.c
 */
#include <errno.h>
#include <fcntl.h>
#include <stdatomic.h>
#include <stddef.h>
#include <stdlib.h>
#include <sys/mman.h>
#include <unistd.h>

extern void *__libc_malloc(size_t);
extern void *__libc_calloc(size_t, size_t);
extern void *__libc_realloc(void *, size_t);
extern void *__libc_memalign(size_t, size_t);

static atomic_long own_count;
static atomic_long *requests = &own_count;
static long refused;
static int from_there;
static atomic_int ready;

/* The count lies in the file itself, since a program may end without a word to its libraries. */
static atomic_long *count_in(const char *path) {
    int file = open(path, O_RDWR | O_CREAT | O_TRUNC, 0600);
    if (file < 0 || ftruncate(file, sizeof(atomic_long)) != 0)
        return &own_count;
    void *page = mmap(NULL, sizeof(atomic_long), PROT_READ | PROT_WRITE, MAP_SHARED, file, 0);
    close(file);
    return page == MAP_FAILED ? &own_count : page;
}

static __attribute__((constructor)) void begin(void) {
    const char *number = getenv("REFUSE_MEMORY");
    const char *path = getenv("REFUSE_COUNT");
    refused = number ? atol(number) : 0;
    from_there = getenv("REFUSE_FROM_THERE") != NULL;
    if (path != NULL)
        requests = count_in(path);
    atomic_store(&ready, 1);
}

/* Whether this request is refused; what comes before main isn't counted. */
static int refuses(void) {
    if (!atomic_load(&ready))
        return 0;
    long number = atomic_fetch_add(requests, 1) + 1;
    return refused > 0 && (number == refused || (from_there && number > refused));
}

void *malloc(size_t size) {
    if (refuses()) {
        errno = ENOMEM;
        return NULL;
    }
    return __libc_malloc(size);
}

void *calloc(size_t count, size_t size) {
    if (refuses()) {
        errno = ENOMEM;
        return NULL;
    }
    return __libc_calloc(count, size);
}

void *realloc(void *block, size_t size) {
    if (refuses()) {
        errno = ENOMEM;
        return NULL;
    }
    return __libc_realloc(block, size);
}

void *aligned_alloc(size_t align, size_t size) {
    if (refuses()) {
        errno = ENOMEM;
        return NULL;
    }
    return __libc_memalign(align, size);
}

int posix_memalign(void **block, size_t align, size_t size) {
    if (refuses())
        return ENOMEM;
    void *found = __libc_memalign(align, size);
    if (found == NULL)
        return ENOMEM;
    *block = found;
    return 0;
}
