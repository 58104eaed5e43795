// Loaded into a program (LD_PRELOAD), kills or stops it at a call of the C library, with no chance to do anything:
// AT_CALL=NAME:NUMBER:before|after:KILL|STOP, at the NUMBERth call of NAME. Programs that it starts aren't touched.
// Of connect and bind only those count that have a path.
#define _GNU_SOURCE
#include <dlfcn.h>
#include <signal.h>
#include <stdio.h>
#include <stdlib.h>
#include <string.h>
#include <sys/socket.h>
#include <unistd.h>

static char name[16], side[8], word[8];
static int number;

__attribute__((constructor)) static void read_state(void) {
    const char *at = getenv("AT_CALL");
    if (at && sscanf(at, "%15[^:]:%d:%7[^:]:%7s", name, &number, side, word) != 4) name[0] = 0;
    unsetenv("AT_CALL");
    unsetenv("LD_PRELOAD");
}

static void end_here(int is_it, const char *when) {
    if (is_it && !strcmp(side, when)) kill(getpid(), strcmp(word, "KILL") ? SIGSTOP : SIGKILL);
}

#define AT(answer_type, call, counts, parameters, arguments)               \
    answer_type call parameters {                                          \
        static answer_type(*next) parameters;                              \
        static int count;                                                  \
        if (!next) next = (answer_type(*) parameters)dlsym(RTLD_NEXT, #call); \
        int is_it = (counts) && !strcmp(name, #call) && ++count == number; \
        end_here(is_it, "before");                                         \
        answer_type answer = next arguments;                               \
        end_here(is_it, "after");                                          \
        return answer;                                                     \
    }

#define HAS_PATH (address->sa_family == AF_UNIX)
AT(int, connect, HAS_PATH, (int fd, const struct sockaddr *address, socklen_t size), (fd, address, size))
AT(int, bind, HAS_PATH, (int fd, const struct sockaddr *address, socklen_t size), (fd, address, size))
AT(int, listen, 1, (int fd, int backlog), (fd, backlog))
AT(ssize_t, sendmsg, 1, (int fd, const struct msghdr *message, int flags), (fd, message, flags))
AT(ssize_t, recvmsg, 1, (int fd, struct msghdr *message, int flags), (fd, message, flags))
AT(int, rename, 1, (const char *from, const char *to), (from, to))
