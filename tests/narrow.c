/*
 * Makes a program's ends narrow, and leads its connections elsewhere. It is loaded before the C library (LD_PRELOAD), and
 * what it does is said by the environment, by numbers:
 *
 * STEP: how many bytes a call of recv gives at most, and one of send or a write to the standard output takes.
 * SEND_ROOM: how many bytes send takes in all. Then it fails.
 * WRITE_ROOM: how many bytes the standard output takes in all. Then it takes none.
 * LEAD_TO: the port of 127.0.0.1 that each connection is led to, and each name is looked up as that address. The names, the
 * addresses and ports that were asked for, and that lines are sent without delay, are added to the file that LED names, on
 * a line each.
 * REFUSING: an address that each name has before that one, and that refuses each connection.
 * WATCHED, UNWATCHED: so many sockets are watched for events, and for so many after them that is refused.
 * ENDS_LATE: no event reports that a peer sends no more, as if it had ended after the events were asked for.
 * WRITABLE: how often poll finds that a socket takes bytes. A connection that begins is found so once.
 * LATER: by how many seconds the clock goes forward when events are waited for first.
 * CLOCK: a file that says by how many milliseconds the clock is forward.
 * ELSEWHERE: who is accepted from 127.7.0.0/16 comes from 10.7.0.0/16, and from 127.8.0.0/16 from 2001:db8:0:1::/64.
 * BUFFER: how many bytes the system keeps for an accepted connection.
 */
#define _GNU_SOURCE
#include <arpa/inet.h>
#include <dlfcn.h>
#include <errno.h>
#include <fcntl.h>
#include <netdb.h>
#include <netinet/in.h>
#include <netinet/tcp.h>
#include <poll.h>
#include <stdint.h>
#include <stdio.h>
#include <stdlib.h>
#include <sys/epoll.h>
#include <sys/socket.h>
#include <sys/syscall.h>
#include <time.h>
#include <unistd.h>

static size_t number_of(const char *name, size_t otherwise)
{
    const char *text = getenv(name);
    return text ? strtoul(text, NULL, 10) : otherwise;
}

static size_t least(size_t one, size_t other)
{
    return one < other ? one : other;
}

/* How much of this size a call takes: STEP at most, and no more than is left of the room of this name. */
static size_t part_of(size_t size, const char *room, size_t used)
{
    return least(least(size, number_of("STEP", SIZE_MAX)), number_of(room, SIZE_MAX) - used);
}

/* Adds a line of these words to the file that LED names. */
static void report(const char *what, const char *name, const char *more)
{
    const char *path = getenv("LED");
    int file = path ? open(path, O_WRONLY | O_APPEND | O_CLOEXEC) : -1;
    if (file >= 0) {
        dprintf(file, "%s %s%s\n", what, name, more);
        close(file);
    }
}

ssize_t recv(int wire, void *into, size_t size, int flags)
{
    ssize_t (*real)(int, void *, size_t, int) = dlsym(RTLD_NEXT, "recv");
    return real(wire, into, least(size, number_of("STEP", SIZE_MAX)), flags);
}

ssize_t send(int wire, const void *from, size_t size, int flags)
{
    static size_t sent;
    ssize_t (*real)(int, const void *, size_t, int) = dlsym(RTLD_NEXT, "send");
    size_t part = part_of(size, "SEND_ROOM", sent);
    if (part == 0) {
        errno = EPIPE;
        return -1;
    }
    ssize_t count = real(wire, from, part, flags);
    sent += count > 0 ? (size_t)count : 0;
    return count;
}

ssize_t write(int file, const void *from, size_t size)
{
    static size_t written;
    ssize_t (*real)(int, const void *, size_t) = dlsym(RTLD_NEXT, "write");
    if (file != STDOUT_FILENO)
        return real(file, from, size);
    size_t part = part_of(size, "WRITE_ROOM", written);
    ssize_t count = part == 0 ? 0 : real(file, from, part);
    written += count > 0 ? (size_t)count : 0;
    return count;
}

int poll(struct pollfd *asked, nfds_t count, int wait)
{
    static size_t found;
    int (*real)(struct pollfd *, nfds_t, int) = dlsym(RTLD_NEXT, "poll");
    for (nfds_t i = 0; i < count; i++)
        if (asked[i].events & POLLOUT && found++ >= number_of("WRITABLE", SIZE_MAX))
            asked[i].events &= ~POLLOUT;
    return real(asked, count, wait);
}

int setsockopt(int wire, int level, int name, const void *value, socklen_t size)
{
    int (*real)(int, int, int, const void *, socklen_t) = dlsym(RTLD_NEXT, "setsockopt");
    if (level == IPPROTO_TCP && name == TCP_NODELAY && size == sizeof(int) && *(const int *)value)
        report("send", "without delay", "");
    return real(wire, level, name, value, size);
}

int epoll_ctl(int set, int what, int file, struct epoll_event *event)
{
    static size_t added;
    int (*real)(int, int, int, struct epoll_event *) = dlsym(RTLD_NEXT, "epoll_ctl");
    size_t past = what == EPOLL_CTL_ADD ? added++ - number_of("WATCHED", SIZE_MAX) : SIZE_MAX;
    if (past < number_of("UNWATCHED", 0)) {
        errno = ENOMEM;
        return -1;
    }
    return real(set, what, file, event);
}

static time_t later;

/* By how many milliseconds the file that CLOCK names says that the clock is forward. */
static long forward(void)
{
    const char *path = getenv("CLOCK");
    char text[32] = "";
    int file = path ? open(path, O_RDONLY | O_CLOEXEC) : -1;
    if (file >= 0) {
        if (read(file, text, sizeof text - 1) < 0)
            text[0] = 0;
        close(file);
    }
    return strtol(text, NULL, 10);
}

int clock_gettime(clockid_t clock, struct timespec *now)
{
    int answer = (int)syscall(SYS_clock_gettime, clock, now);
    if (clock == CLOCK_MONOTONIC) {
        long thousandths = now->tv_nsec / 1000000 + forward();
        now->tv_sec += later + thousandths / 1000;
        now->tv_nsec = thousandths % 1000 * 1000000 + now->tv_nsec % 1000000;
    }
    return answer;
}

int accept4(int door, struct sockaddr *from, socklen_t *length, int flags)
{
    int (*real)(int, struct sockaddr *, socklen_t *, int) = dlsym(RTLD_NEXT, "accept4");
    int wire = real(door, from, length, flags);
    int buffer = (int)number_of("BUFFER", 0);
    if (wire >= 0 && buffer)
        setsockopt(wire, SOL_SOCKET, SO_SNDBUF, &buffer, sizeof buffer);
    if (wire >= 0 && getenv("ELSEWHERE") && from->sa_family == AF_INET) {
        struct sockaddr_in *peer = (struct sockaddr_in *)from;
        uint32_t address = ntohl(peer->sin_addr.s_addr);
        if (address >> 16 == (127 << 8 | 7))
            peer->sin_addr.s_addr = htonl(10u << 24 | (address & 0xffffff));
        if (address >> 16 == (127 << 8 | 8)) {
            struct sockaddr_in6 other = {.sin6_family = AF_INET6, .sin6_port = peer->sin_port};
            char text[40];
            snprintf(text, sizeof text, "2001:db8:0:1::%x", address & 0xffff);
            inet_pton(AF_INET6, text, &other.sin6_addr);
            *(struct sockaddr_in6 *)from = other;
            *length = sizeof other;
        }
    }
    return wire;
}

int epoll_wait(int set, struct epoll_event *events, int most, int wait)
{
    int (*real)(int, struct epoll_event *, int, int) = dlsym(RTLD_NEXT, "epoll_wait");
    int count = real(set, events, most, wait);
    later = (time_t)number_of("LATER", 0);
    for (int i = 0; i < count; i++)
        if (getenv("ENDS_LATE"))
            events[i].events &= ~EPOLLRDHUP;
    return count;
}

int getaddrinfo(const char *host, const char *service, const struct addrinfo *hints, struct addrinfo **found)
{
    int (*real)(const char *, const char *, const struct addrinfo *, struct addrinfo **) = dlsym(RTLD_NEXT, "getaddrinfo");
    if (!getenv("LEAD_TO"))
        return real(host, service, hints, found);
    report("look up", host, "");
    const char *refusing = getenv("REFUSING");
    int fault = real(refusing ? refusing : "127.0.0.1", service, hints, found);
    if (!refusing || fault)
        return fault;
    struct addrinfo *last = *found;
    while (last->ai_next)
        last = last->ai_next;
    return real("127.0.0.1", service, hints, &last->ai_next);
}

int connect(int wire, const struct sockaddr *address, socklen_t length)
{
    int (*real)(int, const struct sockaddr *, socklen_t) = dlsym(RTLD_NEXT, "connect");
    if (!getenv("LEAD_TO") || address->sa_family != AF_INET)
        return real(wire, address, length);
    struct sockaddr_in led = *(const struct sockaddr_in *)address;
    char port[8];
    snprintf(port, sizeof port, ":%d", ntohs(led.sin_port));
    report("connect", inet_ntoa(led.sin_addr), port);
    const char *refusing = getenv("REFUSING");
    if (refusing && led.sin_addr.s_addr == inet_addr(refusing)) {
        errno = ECONNREFUSED;
        return -1;
    }
    led.sin_addr.s_addr = htonl(INADDR_LOOPBACK);
    led.sin_port = htons((uint16_t)number_of("LEAD_TO", 0));
    return real(wire, (const struct sockaddr *)&led, sizeof led);
}
