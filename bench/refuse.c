/* Lets one allocation of a program fail: bench/refusals loads it before the C library.

   The calls of malloc, calloc and realloc are counted from the start of the process, over all threads. The one of the number
   REFUSE answers that there is no memory; with 0 none does. The file COUNTS, of 8 bytes, always has the count: it is mapped, so
   that it stays however the process ends. Links against nothing but glibc, whose own names for these functions it calls. */
#include <errno.h>
#include <fcntl.h>
#include <stdatomic.h>
#include <stddef.h>
#include <stdlib.h>
#include <sys/mman.h>
#include <unistd.h>

void *__libc_malloc(size_t);
void *__libc_calloc(size_t, size_t);
void *__libc_realloc(void *, size_t);

static _Atomic unsigned long before; /* what is called before the file is mapped */
static _Atomic unsigned long *calls = &before;
static unsigned long refused;

__attribute__((constructor)) static void begin(void)
{
    const char *file = getenv("COUNTS");
    const char *number = getenv("REFUSE");
    int descriptor = file ? open(file, O_RDWR | O_CLOEXEC) : -1;
    void *mapped = MAP_FAILED;
    if (descriptor >= 0) {
        mapped = mmap(NULL, sizeof before, PROT_READ | PROT_WRITE, MAP_SHARED, descriptor, 0);
        close(descriptor);
    }
    if (mapped == MAP_FAILED)
        _exit(127);
    calls = mapped;
    refused = number ? strtoul(number, NULL, 10) : 0;
    atomic_store(calls, before);
}

static int is_refused(void)
{
    if (atomic_fetch_add(calls, 1) + 1 != refused)
        return 0;
    errno = ENOMEM;
    return 1;
}

void *malloc(size_t size)
{
    return is_refused() ? NULL : __libc_malloc(size);
}

void *calloc(size_t count, size_t size)
{
    return is_refused() ? NULL : __libc_calloc(count, size);
}

void *realloc(void *old, size_t size)
{
    return is_refused() ? NULL : __libc_realloc(old, size);
}
