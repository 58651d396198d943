/* Stands before the C library's calls for memory: counts them and refuses some of them. tools/refuse-growths compiles
   it and has it loaded (LD_PRELOAD) into each program that it runs. The program is told by the environment:

     REFUSE_TELL   a file of at least 16 bytes, to which this writes, as two numbers of 8 bytes: the requests and the
                   refusals so far. It is shared memory, so that it tells of a run that crashed, too.
     REFUSE_FROM   the number of the first request that is refused, from 1; 0 or missing: none
     REFUSE_LAST   the number of the last request that is refused; 0 or missing: all from the first on

   Requests are counted from the time that the program's own constructors run, over all of its threads. A request for
   no bytes is counted as any. A refusal is the C library's own: no block, and ENOMEM. */

#define _GNU_SOURCE
#include <dlfcn.h>
#include <errno.h>
#include <fcntl.h>
#include <stdatomic.h>
#include <stddef.h>
#include <stdint.h>
#include <stdlib.h>
#include <sys/mman.h>
#include <unistd.h>

/* the C library's own calls, by the names that it keeps for those who stand before it */
extern void *__libc_malloc(size_t size);
extern void *__libc_calloc(size_t count, size_t size);
extern void *__libc_realloc(void *block, size_t size);
extern void *__libc_memalign(size_t alignment, size_t size);

struct told {
    _Atomic uint64_t requests;
    _Atomic uint64_t refusals;
};

static struct told nobody;
static struct told *told = &nobody;
static uint64_t first;
static uint64_t last = UINT64_MAX;
static _Atomic int counts;

static uint64_t number_of(const char *name)
{
    const char *text = getenv(name);
    return text == NULL ? 0 : strtoull(text, NULL, 10);
}

__attribute__((constructor)) static void begin(void)
{
    const char *path = getenv("REFUSE_TELL");
    if (path != NULL) {
        int file = open(path, O_RDWR | O_CLOEXEC);
        void *shared = MAP_FAILED;
        if (file >= 0) {
            shared = mmap(NULL, sizeof *told, PROT_READ | PROT_WRITE, MAP_SHARED, file, 0);
            close(file);
        }
        if (shared == MAP_FAILED)
            _exit(125);
        told = shared;
    }
    first = number_of("REFUSE_FROM");
    if (number_of("REFUSE_LAST") != 0)
        last = number_of("REFUSE_LAST");
    atomic_store(&counts, 1);
}

/* Counts a request; gives whether it is refused. */
static int refuses(void)
{
    uint64_t request;
    if (!atomic_load(&counts))
        return 0;
    request = atomic_fetch_add(&told->requests, 1) + 1;
    if (first == 0 || request < first || request > last)
        return 0;
    atomic_fetch_add(&told->refusals, 1);
    errno = ENOMEM;
    return 1;
}

void *malloc(size_t size)
{
    return refuses() ? NULL : __libc_malloc(size);
}

void *calloc(size_t count, size_t size)
{
    return refuses() ? NULL : __libc_calloc(count, size);
}

void *realloc(void *block, size_t size)
{
    return refuses() ? NULL : __libc_realloc(block, size);
}

void *memalign(size_t alignment, size_t size)
{
    return refuses() ? NULL : __libc_memalign(alignment, size);
}

void *aligned_alloc(size_t alignment, size_t size)
{
    return memalign(alignment, size);
}

int posix_memalign(void **block, size_t alignment, size_t size)
{
    void *made = memalign(alignment, size);
    if (made == NULL)
        return ENOMEM;
    *block = made;
    return 0;
}
