/*
 * The C functions that the programs call and the C library lacks, for ARM64, for which the Rattle kit has none. The kit states
 * what each must do in its libraries os and libc, in the file that a line above each names. Nothing proves that they do it:
 * docs/PROVED.md names this file as trusted, and tests/foreign.c tries each of them.
 *
 * A slice comes as a pointer and a length. A text of PATH_MAX bytes is ended by a 0.
 */
#define _GNU_SOURCE
#include <errno.h>
#include <fcntl.h>
#include <limits.h>
#include <netdb.h>
#include <stdbool.h>
#include <stdint.h>
#include <stdlib.h>
#include <string.h>
#include <sys/epoll.h>
#include <unistd.h>

/* libc/src/types.rt, Tried. Where there is no memory, `p` is the address of a byte that nobody owns. */
struct tried {
    bool ok;
    uint8_t *p;
};

static uint8_t nothing;

static struct tried tried(uint8_t *p)
{
    return (struct tried){p != NULL, p ? p : &nothing};
}

/* libc/src/heap.rt, rattle_alloc. `align` divides 16, as every block of malloc does. An empty block has an address of its own. */
struct tried rattle_alloc(size_t size, size_t align)
{
    (void)align;
    return tried(malloc(size ? size : 1));
}

/* libc/src/heap.rt, rattle_realloc. realloc would free a block that is to be empty. */
struct tried rattle_realloc(uint8_t *old, size_t kept, size_t size, size_t align)
{
    (void)kept, (void)align;
    return tried(realloc(old, size ? size : 1));
}

/* libc/src/heap.rt, rattle_dealloc. */
void rattle_dealloc(uint8_t *p)
{
    free(p);
}

/* os/src/c.rt, rattle_errno and rattle_set_errno. */
int32_t rattle_errno(void)
{
    return errno;
}

void rattle_set_errno(int32_t error)
{
    errno = error;
}

static size_t words;
static char **word;

/* The C library calls it with main's arguments, before main. */
__attribute__((constructor)) static void keep(int argc, char **argv)
{
    words = argc;
    word = argv;
}

/* os/src/c.rt, rattle_arg. */
ssize_t rattle_arg(size_t i, uint8_t *room, size_t most)
{
    if (i >= words)
        return -1;
    size_t length = strlen(word[i]);
    memcpy(room, word[i], length < most ? length : most);
    return length <= most ? (ssize_t)length : -2;
}

/* os/src/c.rt, rattle_set_nonblocking. */
int32_t rattle_set_nonblocking(int32_t fd, bool on)
{
    int flags = fcntl(fd, F_GETFL);
    if (flags < 0)
        return -1;
    return fcntl(fd, F_SETFL, on ? flags | O_NONBLOCK : flags & ~O_NONBLOCK);
}

/* os/src/c.rt, EpollEvent. C's epoll_event is packed on x86-64, and as long as this one elsewhere. */
struct event {
    uint32_t events;
    uint64_t data;
};

_Static_assert(sizeof(struct epoll_event) <= sizeof(struct event), "C's events fit in place of ours");

/* os/src/c.rt, rattle_epoll_ctl. */
int32_t rattle_epoll_ctl(int32_t set, int32_t op, int32_t fd, uint32_t events, uint64_t data)
{
    struct epoll_event event = {.events = events, .data.u64 = data};
    return epoll_ctl(set, op, fd, &event);
}

/* os/src/c.rt, rattle_epoll_wait. The events come as C's, and are moved to their places from the last one on. */
ssize_t rattle_epoll_wait(int32_t set, struct event *events, size_t most, int32_t timeout)
{
    int room = most < 4096 ? (int)most : 4096;
    int count = epoll_wait(set, (struct epoll_event *)events, room, timeout);
    for (int i = count - 1; i >= 0; i--) {
        struct epoll_event one;
        memcpy(&one, (char *)events + i * sizeof one, sizeof one);
        struct event moved = {one.events, one.data.u64};
        memcpy(&events[i], &moved, sizeof moved);
    }
    return count;
}

/* os/src/c.rt, RawAddr. */
struct address {
    uint8_t bytes[128];
    uint32_t length;
};

/* os/src/c.rt, rattle_lookup_host. The codes of getaddrinfo's errors are negative. */
ssize_t rattle_lookup_host(const uint8_t name[PATH_MAX], struct address *found, size_t most)
{
    struct addrinfo wanted = {.ai_socktype = SOCK_STREAM}, *all = NULL;
    int error = getaddrinfo((const char *)name, NULL, &wanted, &all);
    if (error)
        return error;
    size_t count = 0;
    for (struct addrinfo *it = all; it && count < most; it = it->ai_next)
        if ((it->ai_family == AF_INET || it->ai_family == AF_INET6) && it->ai_addrlen <= sizeof found->bytes) {
            memcpy(found[count].bytes, it->ai_addr, it->ai_addrlen);
            found[count++].length = it->ai_addrlen;
        }
    freeaddrinfo(all);
    return count;
}
