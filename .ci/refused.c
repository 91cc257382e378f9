/* Refuses growths of memory to a program that is started with this in LD_PRELOAD, and counts them. The environment says which:
   REFUSE=N      the growth with this number, counted from 1 when the program begins, is refused
   REFUSE_ON=1   and each one after it too
   GROWTHS=FILE  this file holds, in its first eight bytes, how many were asked for so far; it need not be there yet.
   The program may end without a last call, so the file is mapped into memory, and counts as they come. */
#define _GNU_SOURCE
#include <errno.h>
#include <fcntl.h>
#include <stddef.h>
#include <stdint.h>
#include <stdlib.h>
#include <sys/mman.h>
#include <unistd.h>

extern void *__libc_malloc(size_t size);
extern void *__libc_calloc(size_t count, size_t size);
extern void *__libc_realloc(void *old, size_t size);
extern void *__libc_memalign(size_t alignment, size_t size);

static uint64_t own_count = 0;
static uint64_t *count = &own_count;
static uint64_t first = 0;
static int goes_on = 0;

__attribute__((constructor)) static void begin(void)
{
    const char *number = getenv("REFUSE");
    const char *path = getenv("GROWTHS");
    int file = path ? open(path, O_RDWR | O_CREAT | O_CLOEXEC, 0644) : -1;
    void *shared = MAP_FAILED;

    if (file >= 0 && ftruncate(file, sizeof *count) == 0)
        shared = mmap(NULL, sizeof *count, PROT_READ | PROT_WRITE, MAP_SHARED, file, 0);
    if (file >= 0)
        close(file);
    if (shared != MAP_FAILED)
        count = shared;
    goes_on = getenv("REFUSE_ON") != NULL;
    first = number ? strtoull(number, NULL, 10) : 0;
    __atomic_store_n(count, 0, __ATOMIC_SEQ_CST);
}

/* Whether the growth that is asked for is one to be refused. Threads may ask at once. */
static int is_refused(void)
{
    uint64_t now = __atomic_add_fetch(count, 1, __ATOMIC_SEQ_CST);

    return first != 0 && (now == first || (goes_on && now > first));
}

static void *refused(void)
{
    errno = ENOMEM;
    return NULL;
}

void *malloc(size_t size)
{
    return is_refused() ? refused() : __libc_malloc(size);
}

void *calloc(size_t number, size_t size)
{
    return is_refused() ? refused() : __libc_calloc(number, size);
}

void *realloc(void *old, size_t size)
{
    return is_refused() ? refused() : __libc_realloc(old, size);
}

void *reallocarray(void *old, size_t number, size_t size)
{
    size_t whole;

    return __builtin_mul_overflow(number, size, &whole) ? refused() : realloc(old, whole);
}

void *memalign(size_t alignment, size_t size)
{
    return is_refused() ? refused() : __libc_memalign(alignment, size);
}

void *aligned_alloc(size_t alignment, size_t size)
{
    return memalign(alignment, size);
}

int posix_memalign(void **made, size_t alignment, size_t size)
{
    void *place;

    if (alignment % sizeof(void *) != 0 || alignment == 0 || (alignment & (alignment - 1)) != 0)
        return EINVAL;
    place = memalign(alignment, size);
    if (place == NULL)
        return ENOMEM;
    *made = place;
    return 0;
}
