// Refuses one call of the process that it is preloaded into, counted from 1: the REFUSED_REQUEST-th request for memory, or the
// REFUSED_WRITE-th write, as if the disk were full. A write is a call that writes bytes, locks a file, changes its permissions,
// brings it to the disk, or renames it. When the call is made, a byte is written on descriptor 9, so that who runs the process knows. Releasing memory is never
// refused.
#define _GNU_SOURCE
#include <errno.h>
#include <fcntl.h>
#include <stdio.h>
#include <stdlib.h>
#include <sys/file.h>
#include <sys/stat.h>
#include <sys/syscall.h>
#include <unistd.h>

// The C library's own calls, under the names that it has for them besides.
void *__libc_malloc(size_t size);
void *__libc_calloc(size_t count, size_t size);
void *__libc_realloc(void *old, size_t size);
void *__libc_memalign(size_t alignment, size_t size);

static unsigned long requests_left, writes_left;

// The number in a variable, or 0.
static unsigned long number_in(const char *name) {
    const char *number = getenv(name);
    return number ? strtoul(number, NULL, 10) : 0;
}

__attribute__((constructor)) static void begin(void) {
    requests_left = number_in("REFUSED_REQUEST");
    writes_left = number_in("REFUSED_WRITE");
}

// Counts a call of which so many are left up to the one to be refused: whether it is that, which fails with the error.
static int is_counted_out(unsigned long *left, int error) {
    if (*left == 0 || --*left > 0) return 0;
    if (syscall(SYS_write, 9, "!", 1) != 1) abort();
    errno = error;
    return 1;
}

static int is_refused(void) { return is_counted_out(&requests_left, ENOMEM); }

static int is_refused_write(void) { return is_counted_out(&writes_left, ENOSPC); }

void *malloc(size_t size) { return is_refused() ? NULL : __libc_malloc(size); }

void *calloc(size_t count, size_t size) { return is_refused() ? NULL : __libc_calloc(count, size); }

void *realloc(void *old, size_t size) { return is_refused() ? NULL : __libc_realloc(old, size); }

void *memalign(size_t alignment, size_t size) { return is_refused() ? NULL : __libc_memalign(alignment, size); }

void *aligned_alloc(size_t alignment, size_t size) { return memalign(alignment, size); }

int posix_memalign(void **memory, size_t alignment, size_t size) {
    void *taken = memalign(alignment, size);
    if (!taken) return ENOMEM;
    *memory = taken;
    return 0;
}

ssize_t write(int file, const void *bytes, size_t size) { return is_refused_write() ? -1 : syscall(SYS_write, file, bytes, size); }

// The name that the C library has for it besides.
ssize_t __write(int file, const void *bytes, size_t size) { return write(file, bytes, size); }

int flock(int file, int how) { return is_refused_write() ? -1 : (int)syscall(SYS_flock, file, how); }

int fchmod(int file, mode_t mode) { return is_refused_write() ? -1 : (int)syscall(SYS_fchmod, file, mode); }

int fsync(int file) { return is_refused_write() ? -1 : (int)syscall(SYS_fsync, file); }

int rename(const char *old, const char *new) { return is_refused_write() ? -1 : renameat(AT_FDCWD, old, AT_FDCWD, new); }
