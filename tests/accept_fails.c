// Loaded into a program (LD_PRELOAD), has its accept4 of internet connections fail for a while: ACCEPT_FAILS=ERRNO:MILLISECONDS, from the
// first call on. Programs that it starts aren't touched.
#define _GNU_SOURCE
#include <dlfcn.h>
#include <errno.h>
#include <stdio.h>
#include <stdlib.h>
#include <sys/socket.h>
#include <time.h>
#include <unistd.h>

static int number;
static long milliseconds;

__attribute__((constructor)) static void read_words(void) {
    const char *words = getenv("ACCEPT_FAILS");
    if (words && sscanf(words, "%d:%ld", &number, &milliseconds) != 2) number = 0;
    unsetenv("ACCEPT_FAILS");
    unsetenv("LD_PRELOAD");
}

static long now(void) {
    struct timespec time;
    clock_gettime(CLOCK_MONOTONIC, &time);
    return time.tv_sec * 1000 + time.tv_nsec / 1000000;
}

int accept4(int fd, struct sockaddr *address, socklen_t *length, int flags) {
    static int (*next)(int, struct sockaddr *, socklen_t *, int);
    static long begin;
    if (!next) next = (int (*)(int, struct sockaddr *, socklen_t *, int))dlsym(RTLD_NEXT, "accept4");
    int family = 0;
    socklen_t size = sizeof family;
    if (number && !getsockopt(fd, SOL_SOCKET, SO_DOMAIN, &family, &size) && family != AF_UNIX) {
        if (!begin) begin = now();
        if (now() - begin < milliseconds) {
            errno = number;
            return -1;
        }
    }
    return next(fd, address, length, flags);
}
