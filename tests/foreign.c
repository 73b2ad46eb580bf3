/*
 * Tries each function of arm64/foreign.c, at its edges too, and prints how many checks there were. It is begun with two words,
 * `word` and an empty one.
 */
#define _GNU_SOURCE
#include <errno.h>
#include <fcntl.h>
#include <limits.h>
#include <netdb.h>
#include <netinet/in.h>
#include <signal.h>
#include <stdbool.h>
#include <stdint.h>
#include <stdio.h>
#include <stdlib.h>
#include <string.h>
#include <sys/epoll.h>
#include <sys/resource.h>
#include <unistd.h>

struct tried {
    bool ok;
    uint8_t *p;
};
struct event {
    uint32_t events;
    uint64_t data;
};
struct address {
    uint8_t bytes[128];
    uint32_t length;
};
struct tried rattle_alloc(size_t, size_t), rattle_realloc(uint8_t *, size_t, size_t, size_t);
void rattle_dealloc(uint8_t *), rattle_set_errno(int32_t);
int32_t rattle_errno(void), rattle_set_nonblocking(int32_t, bool);
int32_t rattle_epoll_ctl(int32_t, int32_t, int32_t, uint32_t, uint64_t);
ssize_t rattle_arg(size_t, uint8_t *, size_t), rattle_epoll_wait(int32_t, struct event *, size_t, int32_t);
ssize_t rattle_lookup_host(const uint8_t *, struct address *, size_t);

static int checks, failed;

static void check(bool holds, int line)
{
    checks++;
    if (!holds) {
        failed++;
        printf("foreign: FAILED: line %d\n", line);
    }
}
#define CHECK(holds) check(holds, __LINE__)

static const uint8_t *name(const char *text)
{
    static uint8_t room[PATH_MAX];
    memset(room, 0, sizeof room);
    memcpy(room, text, strlen(text));
    return room;
}

static void heap(void)
{
    struct tried empty = rattle_alloc(0, 1), other = rattle_alloc(0, 1), one = rattle_alloc(40, 16);
    CHECK(empty.ok && other.ok && empty.p && other.p && empty.p != other.p);
    CHECK(one.ok && (uintptr_t)one.p % 16 == 0);
    memset(one.p, 7, 40);
    struct tried grown = rattle_realloc(one.p, 40, 4000, 16);
    CHECK(grown.ok && (uintptr_t)grown.p % 16 == 0 && grown.p[0] == 7 && grown.p[39] == 7);
    struct tried refused = rattle_alloc((size_t)1 << 62, 8), kept = rattle_realloc(grown.p, 4000, (size_t)1 << 62, 16);
    CHECK(!refused.ok && refused.p && !kept.ok && kept.p && grown.p[39] == 7);
    struct tried none = rattle_realloc(grown.p, 0, 0, 16);
    CHECK(none.ok && none.p);
    struct tried again = rattle_realloc(none.p, 0, 24, 8);
    CHECK(again.ok && again.p);
    rattle_dealloc(again.p), rattle_dealloc(empty.p), rattle_dealloc(other.p);
}

static void arguments(void)
{
    uint8_t room[8];
    memset(room, '-', sizeof room);
    CHECK(rattle_arg(0, room, 0) == -2 && room[0] == '-');
    CHECK(rattle_arg(1, room, 4) == 4 && !memcmp(room, "word----", 8));
    CHECK(rattle_arg(2, room, 0) == 0 && rattle_arg(3, room, 8) == -1 && rattle_arg(SIZE_MAX, room, 8) == -1);
    memset(room, '-', sizeof room);
    CHECK(rattle_arg(1, room, 3) == -2 && !memcmp(room, "wor-----", 8));
}

static void errors_and_pipes(void)
{
    int ends[2];
    char byte;
    signal(SIGPIPE, SIG_IGN);
    rattle_set_errno(ENOTSOCK);
    CHECK(rattle_errno() == ENOTSOCK && errno == ENOTSOCK);
    CHECK(pipe(ends) == 0 && rattle_set_nonblocking(ends[0], true) == 0);
    CHECK(read(ends[0], &byte, 1) == -1 && rattle_errno() == EAGAIN);
    CHECK(rattle_set_nonblocking(ends[0], false) == 0 && !(fcntl(ends[0], F_GETFL) & O_NONBLOCK));
    close(ends[0]);
    CHECK(write(ends[1], "x", 1) == -1 && rattle_errno() == EPIPE);
    close(ends[1]);
    CHECK(rattle_set_nonblocking(ends[1], true) == -1 && rattle_errno() == EBADF);
}

/* Three pipes that can be read, of which a room of two has two at a time, with the numbers that they were added by. */
static void readiness(void)
{
    struct event events[4];
    int set = epoll_create1(0), ends[3][2];
    uint64_t seen = 0;
    CHECK(rattle_epoll_wait(set, events, 4, 0) == 0);
    for (int i = 0; i < 3; i++) {
        CHECK(pipe(ends[i]) == 0 && write(ends[i][1], "x", 1) == 1);
        CHECK(rattle_epoll_ctl(set, EPOLL_CTL_ADD, ends[i][0], EPOLLIN, 0x123456789abcdef0 + i) == 0);
    }
    CHECK(rattle_epoll_ctl(set, EPOLL_CTL_ADD, ends[0][0], EPOLLIN, 0) == -1 && rattle_errno() == EEXIST);
    memset(events, 0x55, sizeof events);
    CHECK(rattle_epoll_wait(set, events, 3, -1) == 3);
    for (int i = 0; i < 3; i++) {
        CHECK(events[i].events == EPOLLIN && events[i].data - 0x123456789abcdef0 < 3);
        seen |= 1 << (events[i].data & 3);
    }
    CHECK(seen == 7 && events[3].events == 0x55555555 && events[3].data == 0x5555555555555555);
    CHECK(rattle_epoll_wait(set, events, 2, -1) == 2 && events[1].events == EPOLLIN);
    close(ends[1][1]), close(ends[2][1]);
    CHECK(rattle_epoll_ctl(set, EPOLL_CTL_DEL, ends[0][0], 0, 0) == 0);
    CHECK(rattle_epoll_ctl(set, EPOLL_CTL_MOD, ends[1][0], 0, 9) == 0);
    CHECK(rattle_epoll_ctl(set, EPOLL_CTL_DEL, ends[2][0], 0, 0) == 0);
    CHECK(rattle_epoll_wait(set, events, 4, -1) == 1 && events[0].events == EPOLLHUP && events[0].data == 9);
    CHECK(rattle_epoll_wait(set, events, 0, 0) == -1 && rattle_errno() == EINVAL);
    CHECK(rattle_epoll_wait(-1, events, 4, 0) == -1 && rattle_errno() == EBADF);
}

static void names(void)
{
    struct address found[4];
    struct sockaddr_in four;
    struct sockaddr_in6 six;
    memset(found, 0x55, sizeof found);
    CHECK(rattle_lookup_host(name("192.0.2.7"), found, 4) == 1 && found[0].length == sizeof four);
    memcpy(&four, found[0].bytes, sizeof four);
    CHECK(four.sin_family == AF_INET && four.sin_port == 0 && four.sin_addr.s_addr == htonl(0xc0000207));
    CHECK(found[0].bytes[sizeof four] == 0x55 && found[1].length == 0x55555555);
    CHECK(rattle_lookup_host(name("::1"), found, 1) == 1 && found[0].length == sizeof six);
    memcpy(&six, found[0].bytes, sizeof six);
    CHECK(six.sin6_family == AF_INET6 && six.sin6_port == 0 && IN6_IS_ADDR_LOOPBACK(&six.sin6_addr));
    CHECK(rattle_lookup_host(name("192.0.2.7"), found, 0) == 0);
    CHECK(rattle_lookup_host(name("no such name"), found, 4) < 0);
    CHECK(rattle_lookup_host(name(""), found, 4) < 0);
}

int main(void)
{
    heap(), errors_and_pipes(), readiness(), names(), arguments();
    printf("foreign: %d checks, %d failed\n", checks, failed);
    return failed != 0;
}
