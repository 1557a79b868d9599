/*
 * Loaded into a program by LD_PRELOAD, refuses calls of it by their numbers, counted from 0.
 *
 * REFUSE_KIND    memory, reads, writes, accepts, polls, controls or syncs: what is counted, and refused; receiving is
 *                reading, sending is writing, and a control is a call of epoll_ctl
 * REFUSE_AT      the number of the first call that is refused; none is if it is not given
 * REFUSE_MORE    if it is given, every later call is refused too
 * REFUSE_SHORT   if it is given, a read or write is not refused but moves one byte
 * REFUSE_COUNT   a file descriptor, to which the number of calls is written at the end, as decimal digits
 *
 * A refused allocation gives NULL with ENOMEM, a refused control -1 with ENOSPC, as if too many sockets were watched,
 * and any other refused call gives -1 with EIO.
 */
#define _GNU_SOURCE
#include <errno.h>
#include <stdio.h>
#include <stdlib.h>
#include <string.h>
#include <sys/epoll.h>
#include <sys/socket.h>
#include <sys/syscall.h>
#include <unistd.h>

static unsigned long count;
static unsigned long first = ~0UL;
static int more, one_byte, count_to = -1;
static char kind;

__attribute__((constructor)) static void begin(void) {
    const char *text = getenv("REFUSE_KIND");
    char named = text ? text[0] : 'm';
    if ((text = getenv("REFUSE_AT"))) first = strtoul(text, NULL, 10);
    more = getenv("REFUSE_MORE") != NULL;
    one_byte = getenv("REFUSE_SHORT") != NULL;
    if ((text = getenv("REFUSE_COUNT"))) count_to = atoi(text);
    /* What ran before this is not of the program. */
    count = 0;
    kind = named;
}

__attribute__((destructor)) static void end(void) {
    char digits[24];
    if (count_to < 0) return;
    kind = 0;
    int length = snprintf(digits, sizeof digits, "%lu", count);
    syscall(SYS_write, count_to, digits, length);
}

static int is_refused(char of) {
    unsigned long number;
    if (kind != of) return 0;
    number = count++;
    return number == first || (more && number > first);
}

extern void *__libc_malloc(size_t);
extern void *__libc_calloc(size_t, size_t);
extern void *__libc_realloc(void *, size_t);
extern void *__libc_memalign(size_t, size_t);

static void *no_memory(void) {
    errno = ENOMEM;
    return NULL;
}

void *malloc(size_t size) {
    return is_refused('m') ? no_memory() : __libc_malloc(size);
}

void *calloc(size_t items, size_t size) {
    return is_refused('m') ? no_memory() : __libc_calloc(items, size);
}

void *realloc(void *old, size_t size) {
    return is_refused('m') ? no_memory() : __libc_realloc(old, size);
}

void *aligned_alloc(size_t alignment, size_t size) {
    return is_refused('m') ? no_memory() : __libc_memalign(alignment, size);
}

void *memalign(size_t alignment, size_t size) {
    return aligned_alloc(alignment, size);
}

int posix_memalign(void **out, size_t alignment, size_t size) {
    void *made = aligned_alloc(alignment, size);
    if (!made) return ENOMEM;
    *out = made;
    return 0;
}

static ssize_t failed(void) {
    errno = EIO;
    return -1;
}

ssize_t read(int file, void *buffer, size_t size) {
    if (is_refused('r')) {
        if (!one_byte) return failed();
        size = size < 1 ? size : 1;
    }
    return syscall(SYS_read, file, buffer, size);
}

ssize_t recv(int file, void *buffer, size_t size, int flags) {
    if (is_refused('r')) {
        if (!one_byte) return failed();
        size = size < 1 ? size : 1;
    }
    return syscall(SYS_recvfrom, file, buffer, size, flags, NULL, NULL);
}

ssize_t write(int file, const void *buffer, size_t size) {
    if (is_refused('w')) {
        if (!one_byte) return failed();
        size = size < 1 ? size : 1;
    }
    return syscall(SYS_write, file, buffer, size);
}

ssize_t send(int file, const void *buffer, size_t size, int flags) {
    if (is_refused('w')) {
        if (!one_byte) return failed();
        size = size < 1 ? size : 1;
    }
    return syscall(SYS_sendto, file, buffer, size, flags, NULL, 0);
}

int accept4(int file, struct sockaddr *address, socklen_t *length, int flags) {
    return is_refused('a') ? failed() : syscall(SYS_accept4, file, address, length, flags);
}

int epoll_wait(int file, struct epoll_event *events, int most, int timeout) {
    return is_refused('p') ? failed() : syscall(SYS_epoll_wait, file, events, most, timeout);
}

int epoll_ctl(int file, int what, int of, struct epoll_event *event) {
    if (is_refused('c')) {
        errno = ENOSPC;
        return -1;
    }
    return syscall(SYS_epoll_ctl, file, what, of, event);
}

int fsync(int file) {
    return is_refused('s') ? failed() : syscall(SYS_fsync, file);
}

int fdatasync(int file) {
    return is_refused('s') ? failed() : syscall(SYS_fdatasync, file);
}
