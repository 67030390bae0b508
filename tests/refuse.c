/* Stands before the C library of a program (LD_PRELOAD) and refuses what the environment names:
 *
 *   REFUSE_REQUEST=N   the Nth request for memory, from 1
 *   REFUSE_FROM=N      each request from the Nth on
 *   REFUSE_WRITE=N     the Nth write to standard output (no room is left on the device)
 *   REFUSE_READ=N      the Nth read of any file (an error of the device)
 *   ONE_BYTE=1         no read or write takes more than one byte
 *   COUNT_TO=FILE      FILE has how many requests, writes and reads there were, as three numbers of 8 bytes
 */
#define _GNU_SOURCE
#include <errno.h>
#include <fcntl.h>
#include <stdatomic.h>
#include <stdlib.h>
#include <sys/mman.h>
#include <sys/syscall.h>
#include <sys/uio.h>
#include <unistd.h>

void *__libc_malloc(size_t);
void *__libc_calloc(size_t, size_t);
void *__libc_realloc(void *, size_t);
void *__libc_memalign(size_t, size_t);

struct counts {
    atomic_long requests, writes, reads;
};
static struct counts own, *counts = &own;
static long request, from, write_at, read_at, one_byte;
static int ready;

static long number(const char *name)
{
    const char *text = getenv(name);
    return text ? atol(text) : 0;
}

/* The file holds the counts themselves, since a program may end without its last functions. */
static void count_to(const char *file)
{
    void *place;
    int to = file ? open(file, O_RDWR | O_CREAT | O_TRUNC, 0666) : -1;
    if (to < 0)
        return;
    if (ftruncate(to, sizeof own) == 0) {
        place = mmap(NULL, sizeof own, PROT_READ | PROT_WRITE, MAP_SHARED, to, 0);
        if (place != MAP_FAILED)
            counts = place;
    }
    close(to);
}

__attribute__((constructor)) static void begin(void)
{
    request = number("REFUSE_REQUEST");
    from = number("REFUSE_FROM");
    write_at = number("REFUSE_WRITE");
    read_at = number("REFUSE_READ");
    one_byte = number("ONE_BYTE");
    count_to(getenv("COUNT_TO"));
    ready = 1;
}

/* Whether this request is refused. What is asked for before the program begins is not counted. */
static int refused(void)
{
    long now;
    if (!ready)
        return 0;
    now = atomic_fetch_add(&counts->requests, 1) + 1;
    if (now != request && !(from && now >= from))
        return 0;
    errno = ENOMEM;
    return 1;
}

void *malloc(size_t size) { return refused() ? NULL : __libc_malloc(size); }
void *calloc(size_t count, size_t size) { return refused() ? NULL : __libc_calloc(count, size); }
void *realloc(void *old, size_t size) { return refused() ? NULL : __libc_realloc(old, size); }
void *memalign(size_t to, size_t size) { return refused() ? NULL : __libc_memalign(to, size); }
void *aligned_alloc(size_t to, size_t size) { return refused() ? NULL : __libc_memalign(to, size); }

int posix_memalign(void **place, size_t to, size_t size)
{
    void *found;
    if (refused())
        return ENOMEM;
    found = __libc_memalign(to, size);
    if (!found)
        return ENOMEM;
    *place = found;
    return 0;
}

ssize_t write(int to, const void *bytes, size_t count)
{
    if (to == 1 && ready) {
        if (atomic_fetch_add(&counts->writes, 1) + 1 == write_at) {
            errno = ENOSPC;
            return -1;
        }
        if (one_byte && count > 1)
            count = 1;
    }
    return syscall(SYS_write, to, bytes, count);
}

ssize_t writev(int to, const struct iovec *parts, int count)
{
    if (to == 1 && ready && count > 0)
        return write(to, parts[0].iov_base, parts[0].iov_len);
    return syscall(SYS_writev, to, parts, count);
}

ssize_t read(int of, void *bytes, size_t count)
{
    if (ready) {
        if (atomic_fetch_add(&counts->reads, 1) + 1 == read_at) {
            errno = EIO;
            return -1;
        }
        if (one_byte && count > 1)
            count = 1;
    }
    return syscall(SYS_read, of, bytes, count);
}
