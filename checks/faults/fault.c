/* Stands before the C library, and has its calls fail as the environment says:
 *   REFUSE       the allocation of this number, from 1, is refused
 *   REFUSE_FROM  each allocation from this number on is refused
 *   FAIL_READ    the read of standard input of this number fails
 *   FAIL_WRITE   the write to standard output of this number fails
 *   MOST         a read of standard input, and a write to standard output, moves at most so many bytes
 *   COUNT        a file, into which the number of allocations is written at the end
 */
#define _GNU_SOURCE
#include <dlfcn.h>
#include <errno.h>
#include <fcntl.h>
#include <stdio.h>
#include <stdlib.h>
#include <unistd.h>

extern void *__libc_malloc(size_t), *__libc_realloc(void *, size_t), *__libc_calloc(size_t, size_t);

static long refuse, refuse_from, fail_read, fail_write, most;
static long allocations, reads, writes;
static int is_set;
static ssize_t (*next_read)(int, void *, size_t);
static ssize_t (*next_write)(int, const void *, size_t);

static long number(const char *name) {
    const char *text = getenv(name);
    return text ? atol(text) : 0;
}

__attribute__((constructor)) static void begin(void) {
    next_read = dlsym(RTLD_NEXT, "read");
    next_write = dlsym(RTLD_NEXT, "write");
    refuse = number("REFUSE");
    refuse_from = number("REFUSE_FROM");
    fail_read = number("FAIL_READ");
    fail_write = number("FAIL_WRITE");
    most = number("MOST");
    is_set = 1;
}

__attribute__((destructor)) static void end(void) {
    const char *path = getenv("COUNT");
    char text[32];
    int length, file;
    if (!path) return;
    is_set = 0;
    length = snprintf(text, sizeof text, "%ld\n", allocations);
    file = open(path, O_WRONLY | O_CREAT | O_TRUNC, 0644);
    if (next_write(file, text, length) != length) _exit(99);
    close(file);
}

static int is_refused(void) {
    if (!is_set) return 0;
    allocations++;
    return allocations == refuse || (refuse_from && allocations >= refuse_from);
}

void *malloc(size_t size) {
    return is_refused() ? NULL : __libc_malloc(size);
}

void *realloc(void *old, size_t size) {
    return is_refused() ? NULL : __libc_realloc(old, size);
}

void *calloc(size_t count, size_t size) {
    return is_refused() ? NULL : __libc_calloc(count, size);
}

ssize_t read(int file, void *bytes, size_t count) {
    if (file == 0) {
        if (++reads == fail_read) {
            errno = EIO;
            return -1;
        }
        if (most && count > (size_t)most) count = most;
    }
    return next_read(file, bytes, count);
}

ssize_t write(int file, const void *bytes, size_t count) {
    if (file == 1) {
        if (++writes == fail_write) {
            errno = EIO;
            return -1;
        }
        if (most && count > (size_t)most) count = most;
    }
    return next_write(file, bytes, count);
}
