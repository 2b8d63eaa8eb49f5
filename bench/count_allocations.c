/* Counts the calls for memory of a program that it is loaded into, says at the end on standard error how many there were, and can refuse
   one of them:

       cc -O2 -shared -fPIC -o count_allocations.so count_allocations.c
       LD_PRELOAD=./count_allocations.so PROGRAM

   With COUNT_FILE=NAME in the environment the numbers stand in that file, six of eight bytes each in the order of the line at the end, all
   the while that the program runs; a program that ends without the C library says nothing at its end. With REFUSE=N the call of this
   number, from 1 on, gets no memory, and with REFUSE_RUN=K beside it so many from that one on.

   Each call is counted, whether it gets memory or not, but for free of no memory. The memory is that of the GNU C library,
   by the names that it keeps for this. */

#include <errno.h>
#include <fcntl.h>
#include <stdatomic.h>
#include <stddef.h>
#include <stdio.h>
#include <stdlib.h>
#include <sys/mman.h>
#include <unistd.h>

void *__libc_malloc(size_t size);
void *__libc_calloc(size_t count, size_t size);
void *__libc_realloc(void *memory, size_t size);
void *__libc_memalign(size_t alignment, size_t size);
void __libc_free(void *memory);

enum { mallocs, callocs, reallocs, aligned_allocs, posix_memaligns, frees, KINDS };

static atomic_ulong own[KINDS];
static atomic_ulong *calls = own;
static atomic_ulong asked; /* for memory, where one call is to be refused */
static unsigned long refused; /* the number of that call, or 0 */
static unsigned long run = 1; /* so many are refused from it on */

/* Counts a call, and says whether it is one that is refused. */
static int count(int kind)
{
    unsigned long number;

    atomic_fetch_add_explicit(&calls[kind], 1, memory_order_relaxed);
    if (refused == 0 || kind == frees)
        return 0;
    number = atomic_fetch_add_explicit(&asked, 1, memory_order_relaxed) + 1;
    if (number < refused || number - refused >= run)
        return 0;
    errno = ENOMEM; /* as the C library does, which looks for it itself */
    return 1;
}

__attribute__((constructor)) static void refuse(void)
{
    const char *number = getenv("REFUSE");
    const char *more = getenv("REFUSE_RUN");

    if (number != NULL)
        refused = strtoul(number, NULL, 10);
    if (more != NULL)
        run = strtoul(more, NULL, 10);
}

__attribute__((constructor)) static void share(void)
{
    const char *name = getenv("COUNT_FILE");
    int file = name == NULL ? -1 : open(name, O_RDWR | O_CREAT, 0600);
    void *shared;

    if (file < 0 || ftruncate(file, sizeof own) != 0)
        return;
    shared = mmap(NULL, sizeof own, PROT_READ | PROT_WRITE, MAP_SHARED, file, 0);
    if (shared != MAP_FAILED)
        calls = shared;
}

void *malloc(size_t size)
{
    return count(mallocs) ? NULL : __libc_malloc(size);
}

void *calloc(size_t members, size_t size)
{
    return count(callocs) ? NULL : __libc_calloc(members, size);
}

void *realloc(void *memory, size_t size)
{
    return count(reallocs) ? NULL : __libc_realloc(memory, size);
}

void *aligned_alloc(size_t alignment, size_t size)
{
    return count(aligned_allocs) ? NULL : __libc_memalign(alignment, size);
}

int posix_memalign(void **memory, size_t alignment, size_t size)
{
    void *got = count(posix_memaligns) ? NULL : __libc_memalign(alignment, size);

    if (got == NULL)
        return ENOMEM;
    *memory = got;
    return 0;
}

void free(void *memory)
{
    if (memory != NULL)
        count(frees);
    __libc_free(memory);
}

__attribute__((destructor)) static void report(void)
{
    char line[256];
    int length = snprintf(line, sizeof line,
        "malloc %lu calloc %lu realloc %lu aligned_alloc %lu posix_memalign %lu free %lu\n",
        atomic_load(&calls[mallocs]), atomic_load(&calls[callocs]), atomic_load(&calls[reallocs]),
        atomic_load(&calls[aligned_allocs]), atomic_load(&calls[posix_memaligns]), atomic_load(&calls[frees]));

    if (write(STDERR_FILENO, line, (size_t)length) < 0)
        _exit(1);
}
