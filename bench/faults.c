/* Lets one read or write of a program fail, or move a single byte: bench/faults loads it before the C library.

   The calls of read and write are counted together from the start of the process, over all threads. The one of the number FAIL
   answers EIO and moves nothing; the one of the number SHORT, where it is of several bytes, moves at most one. With 0 none does.
   The file IO_COUNTS, of 16 bytes, always has the count, and then 1 where the call that was struck is a read, and 2 where it is a
   write: it is mapped, so that it stays however the process ends. */
#include <errno.h>
#include <fcntl.h>
#include <stdatomic.h>
#include <stddef.h>
#include <stdlib.h>
#include <sys/mman.h>
#include <sys/syscall.h>
#include <sys/types.h>
#include <unistd.h>

static _Atomic unsigned long before[2]; /* what is called before the file is mapped */
static _Atomic unsigned long *calls = before;
static unsigned long failed, cut;

static unsigned long number_in(const char *name)
{
    const char *number = getenv(name);
    return number ? strtoul(number, NULL, 10) : 0;
}

__attribute__((constructor)) static void begin(void)
{
    const char *file = getenv("IO_COUNTS");
    int descriptor = file ? open(file, O_RDWR | O_CLOEXEC) : -1;
    void *mapped = MAP_FAILED;
    if (descriptor >= 0) {
        mapped = mmap(NULL, sizeof before, PROT_READ | PROT_WRITE, MAP_SHARED, descriptor, 0);
        close(descriptor);
    }
    if (mapped == MAP_FAILED)
        _exit(127);
    calls = mapped;
    failed = number_in("FAIL");
    cut = number_in("SHORT");
    atomic_store(calls, before[0]);
}

static ssize_t moved(long call, int descriptor, const void *bytes, size_t count)
{
    unsigned long number = atomic_fetch_add(calls, 1) + 1;
    if (number == failed || number == cut)
        atomic_store(calls + 1, call == SYS_read ? 1 : 2);
    if (number == failed) {
        errno = EIO;
        return -1;
    }
    return syscall(call, descriptor, bytes, number == cut && count > 1 ? (size_t)1 : count);
}

ssize_t read(int descriptor, void *bytes, size_t count)
{
    return moved(SYS_read, descriptor, bytes, count);
}

ssize_t write(int descriptor, const void *bytes, size_t count)
{
    return moved(SYS_write, descriptor, bytes, count);
}

ssize_t __write(int descriptor, const void *bytes, size_t count)
{
    return moved(SYS_write, descriptor, bytes, count);
}
