/*
 * Loaded into a program by LD_PRELOAD, writes a line for each call of some kinds to the file of the path CALLS_LOG:
 *
 *     open FILE PATH           a file was opened
 *     close FILE
 *     seek FILE PLACE          the place from the start at which it is read and written next
 *     read FILE COUNT          so many bytes were read
 *     write FILE COUNT         so many bytes were written
 *     sync FILE                what was written is on the disk
 *     send SOCKET COUNT        so many bytes were sent
 *
 * FILE and SOCKET are descriptors. The line is written after a call that succeeded. That of a send is written before the
 * call, so that it is there once a client has the bytes.
 */
#define _GNU_SOURCE
#include <fcntl.h>
#include <stdarg.h>
#include <stdio.h>
#include <stdlib.h>
#include <sys/socket.h>
#include <sys/syscall.h>
#include <unistd.h>

static int calls_log = -1;

__attribute__((constructor)) static void begin(void) {
    const char *path = getenv("CALLS_LOG");
    if (path) calls_log = syscall(SYS_openat, AT_FDCWD, path, O_WRONLY | O_CREAT | O_APPEND | O_CLOEXEC, 0644);
}

static void say(const char *form, ...) {
    char line[4200];
    va_list values;
    if (calls_log < 0) return;
    va_start(values, form);
    int length = vsnprintf(line, sizeof line, form, values);
    va_end(values);
    if (length > 0 && length < (int)sizeof line) syscall(SYS_write, calls_log, line, length);
}

int open(const char *path, int flags, ...) {
    va_list values;
    va_start(values, flags);
    mode_t mode = flags & (O_CREAT | O_TMPFILE) ? va_arg(values, mode_t) : 0;
    va_end(values);
    int file = syscall(SYS_openat, AT_FDCWD, path, flags, mode);
    if (file >= 0) say("open %d %s\n", file, path);
    return file;
}

int close(int file) {
    int closed = syscall(SYS_close, file);
    if (closed == 0) say("close %d\n", file);
    return closed;
}

off_t lseek(int file, off_t by, int from) {
    off_t place = syscall(SYS_lseek, file, by, from);
    if (place >= 0) say("seek %d %ld\n", file, (long)place);
    return place;
}

ssize_t read(int file, void *buffer, size_t size) {
    ssize_t count = syscall(SYS_read, file, buffer, size);
    if (count >= 0) say("read %d %ld\n", file, (long)count);
    return count;
}

ssize_t write(int file, const void *buffer, size_t size) {
    ssize_t count = syscall(SYS_write, file, buffer, size);
    if (count >= 0) say("write %d %ld\n", file, (long)count);
    return count;
}

int fsync(int file) {
    int synced = syscall(SYS_fsync, file);
    if (synced == 0) say("sync %d\n", file);
    return synced;
}

ssize_t send(int socket, const void *buffer, size_t size, int flags) {
    say("send %d %zu\n", socket, size);
    return syscall(SYS_sendto, socket, buffer, size, flags, NULL, 0);
}
