/* Readers and writers as files and pipes seldom are. The environment says how:

   STREAM_READ    the stream whose reads are changed: `-` for standard input, else the whole path of an open file
   READ_MOST      so many bytes at most by each read; 0 for a random number of 1 to 64
   READ_SEED      where those random numbers begin
   READ_FAILS_AT  the first read fails that comes when so many bytes were given
   READ_LATE      where it is set, the first read after the end fails
   STREAM_WRITE   the file descriptor whose writes are changed
   WRITE_MOST     so many bytes at most by each write
   WRITE_FAILS_AT the first write fails that comes when so many bytes were taken
   STREAM_ERRNO   why they fail; 0, for a write, where it takes no byte and does not fail
   STREAM_LOG     a file, to which each changed call adds a line: `r` or `w`, how many bytes were asked for or handed over, how
                  many came or were taken (-1: it failed)

   Only one read and one write fail: what tried again would be answered. */
#define _GNU_SOURCE
#include <errno.h>
#include <fcntl.h>
#include <stdio.h>
#include <stdlib.h>
#include <string.h>
#include <sys/syscall.h>
#include <sys/uio.h>
#include <unistd.h>

static long given, taken;
static int read_failed, write_failed, ended;
static unsigned random_state;

static long number(const char *name, long otherwise) {
    const char *text = getenv(name);
    return text ? atol(text) : otherwise;
}

static void tell(char kind, size_t asked, long moved) {
    char line[64];
    const char *path = getenv("STREAM_LOG");
    if (!path) return;
    int log = syscall(SYS_openat, AT_FDCWD, path, O_WRONLY | O_APPEND | O_CREAT, 0600);
    if (log < 0) return;
    syscall(SYS_write, log, line, snprintf(line, sizeof line, "%c %zu %ld\n", kind, asked, moved));
    syscall(SYS_close, log);
}

/* Whether the descriptor is the stream whose reads are changed. */
static int is_read(int fd) {
    const char *path = getenv("STREAM_READ");
    char link[64], target[4096];
    if (!path) return 0;
    if (strcmp(path, "-") == 0) return fd == 0;
    snprintf(link, sizeof link, "/proc/self/fd/%d", fd);
    long length = syscall(SYS_readlink, link, target, sizeof target);
    return length > 0 && (size_t)length == strlen(path) && memcmp(target, path, length) == 0;
}

static long fails(char kind, size_t asked, int why) {
    tell(kind, asked, why ? -1 : 0);
    if (!why) return 0;
    errno = why;
    return -1;
}

static size_t least(size_t a, size_t b) {
    return a < b ? a : b;
}

ssize_t read(int fd, void *bytes, size_t asked) {
    if (!is_read(fd) || asked == 0) return syscall(SYS_read, fd, bytes, asked);
    long fails_at = number("READ_FAILS_AT", -1), most = number("READ_MOST", -1);
    if (!read_failed && ((fails_at >= 0 && given >= fails_at) || (ended && getenv("READ_LATE")))) {
        read_failed = 1;
        return fails('r', asked, number("STREAM_ERRNO", EIO));
    }
    size_t wanted = asked;
    if (most == 0) {
        if (!random_state) random_state = 1 + number("READ_SEED", 0);
        wanted = least(wanted, 1 + rand_r(&random_state) % 64);
    }
    if (most > 0) wanted = least(wanted, most);
    if (fails_at > given) wanted = least(wanted, fails_at - given);
    long came = syscall(SYS_read, fd, bytes, wanted);
    if (came > 0) given += came;
    if (came == 0) ended = 1;
    tell('r', asked, came);
    return came;
}

ssize_t write(int fd, const void *bytes, size_t handed) {
    if (fd != number("STREAM_WRITE", -1) || handed == 0) return syscall(SYS_write, fd, bytes, handed);
    long fails_at = number("WRITE_FAILS_AT", -1), most = number("WRITE_MOST", -1);
    if (!write_failed && fails_at >= 0 && taken >= fails_at) {
        write_failed = 1;
        return fails('w', handed, number("STREAM_ERRNO", EIO));
    }
    size_t wanted = handed;
    if (most > 0) wanted = least(wanted, most);
    if (fails_at > taken) wanted = least(wanted, fails_at - taken);
    long went = syscall(SYS_write, fd, bytes, wanted);
    if (went > 0) taken += went;
    tell('w', handed, went);
    return went;
}

/* A read or a write of several parts is one of the first part that holds a byte. */
ssize_t readv(int fd, const struct iovec *parts, int many) {
    for (int i = 0; i < many; i++)
        if (parts[i].iov_len) return read(fd, parts[i].iov_base, parts[i].iov_len);
    return 0;
}

ssize_t writev(int fd, const struct iovec *parts, int many) {
    for (int i = 0; i < many; i++)
        if (parts[i].iov_len) return write(fd, parts[i].iov_base, parts[i].iov_len);
    return 0;
}
