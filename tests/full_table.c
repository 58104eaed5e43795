// Loaded into a program (LD_PRELOAD), has it see the system's table of open files full: a call that would make a descriptor of
// the number TABLE or above fails by ENFILE. Programs that it starts aren't touched.
#define _GNU_SOURCE
#include <dlfcn.h>
#include <errno.h>
#include <fcntl.h>
#include <stdarg.h>
#include <stdlib.h>
#include <sys/socket.h>
#include <unistd.h>

static int size = 1 << 30;

__attribute__((constructor)) static void read_size(void) {
    const char *table = getenv("TABLE");
    if (table) size = atoi(table);
    unsetenv("TABLE");
    unsetenv("LD_PRELOAD");
}

static int within(int fd) {
    if (fd < size) return fd;
    close(fd);
    errno = ENFILE;
    return -1;
}

#define NEXT(type, name) ((type)dlsym(RTLD_NEXT, name))

int accept4(int fd, struct sockaddr *address, socklen_t *length, int flags) {
    return within(NEXT(int (*)(int, struct sockaddr *, socklen_t *, int), "accept4")(fd, address, length, flags));
}

int socket(int family, int type, int protocol) {
    return within(NEXT(int (*)(int, int, int), "socket")(family, type, protocol));
}

int open64(const char *path, int flags, ...) {
    va_list rest;
    va_start(rest, flags);
    int mode = va_arg(rest, int);
    va_end(rest);
    return within(NEXT(int (*)(const char *, int, int), "open64")(path, flags, mode));
}
