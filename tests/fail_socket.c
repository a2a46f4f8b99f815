/* Lists what a program asks of the system for its sockets, in the file that CALLS_LIST names: in which interest one is watched, and for how long its calls may wait. It loses one connection:
   the one whose number, counted from 1, stands in LOSE_AT. Loaded before the C library (LD_PRELOAD). */
#define _GNU_SOURCE
#include <dlfcn.h>
#include <errno.h>
#include <fcntl.h>
#include <stdio.h>
#include <stdlib.h>
#include <sys/epoll.h>
#include <sys/socket.h>
#include <sys/time.h>
#include <unistd.h>

static unsigned long count;

static void tell(const char *name, long long number) {
    const char *list = getenv("CALLS_LIST");
    char text[96];
    int length = snprintf(text, sizeof text, "%s %lld\n", name, number);
    int file = list ? open(list, O_WRONLY | O_CREAT | O_APPEND, 0600) : -1;
    if (file < 0 || write(file, text, (size_t)length) != length)
        _exit(99);
    close(file);
}

/* A connection that was taken, or the one that is lost. */
static int taken(int connection) {
    const char *at = getenv("LOSE_AT");
    if (connection < 0)
        return connection;
    if (at && ++count == strtoul(at, NULL, 10)) {
        close(connection);
        tell("lost", 0);
        errno = ECONNABORTED;
        return -1;
    }
    return connection;
}

#define NEXT(name) ((__typeof__(&name))dlsym(RTLD_NEXT, #name))

int accept(int listener, struct sockaddr *from, socklen_t *size) { return taken(NEXT(accept)(listener, from, size)); }

int accept4(int listener, struct sockaddr *from, socklen_t *size, int flags) { return taken(NEXT(accept4)(listener, from, size, flags)); }

int epoll_ctl(int set, int what, int socket, struct epoll_event *event) {
    if (what == EPOLL_CTL_ADD)
        tell("watched", event->events);
    return NEXT(epoll_ctl)(set, what, socket, event);
}

int setsockopt(int socket, int level, int name, const void *value, socklen_t size) {
    if (level == SOL_SOCKET && (name == SO_RCVTIMEO || name == SO_SNDTIMEO))
        tell(name == SO_RCVTIMEO ? "reads" : "writes", ((const struct timeval *)value)->tv_sec);
    return NEXT(setsockopt)(socket, level, name, value, size);
}
