/* Refuses one request for memory: the one whose number, counted from 1, stands in REFUSED_REQUEST. Where there is one, the
   file that REFUSED_TOLD names is made.

   With REFUSED_ONE_IN it refuses each request with a chance of one in so many, in whatever thread it comes, until the program
   first writes to its standard output. The chances are made of REFUSED_SEED and the request's number, with no lock. How many it
   has refused by then is the text of the file that REFUSED_TOLD names. */
#define _GNU_SOURCE
#include <dlfcn.h>
#include <errno.h>
#include <fcntl.h>
#include <stdatomic.h>
#include <stddef.h>
#include <stdint.h>
#include <stdio.h>
#include <stdlib.h>
#include <sys/uio.h>
#include <unistd.h>

static atomic_long requests;
static atomic_long refused = -1;

static atomic_ulong one_in, seed;
static atomic_long refused_by_chance;
static atomic_int has_written;

__attribute__((constructor)) static void begin(void) {
    const char *chance = getenv("REFUSED_ONE_IN"), *of = getenv("REFUSED_SEED");
    seed = of ? strtoul(of, NULL, 10) : 0;
    one_in = chance ? strtoul(chance, NULL, 10) : 0;
}

/* Refusals end at the first write to standard output, and how many there were is told. */
static void end_at(int to) {
    const char *told = getenv("REFUSED_TOLD");
    if (to != STDOUT_FILENO || !one_in || has_written++ || !told) return;
    int file = open(told, O_CREAT | O_TRUNC | O_WRONLY, 0600);
    char text[32];
    int size = snprintf(text, sizeof text, "%ld", (long)refused_by_chance);
    if (write(file, text, (size_t)size) != size) abort();
    close(file);
}

/* The request's number and the seed, mixed as splitmix64 does it. */
static int is_refused_by_chance(void) {
    if (has_written) return 0;
    uint64_t mixed = (uint64_t)(++requests) * 0x9e3779b97f4a7c15u + (uint64_t)seed * 0xd1342543de82ef95u;
    mixed = (mixed ^ (mixed >> 30)) * 0xbf58476d1ce4e5b9u;
    mixed = (mixed ^ (mixed >> 27)) * 0x94d049bb133111ebu;
    if ((mixed ^ (mixed >> 31)) % one_in != 0) return 0;
    ++refused_by_chance;
    return 1;
}

static int is_refused(void) {
    if (one_in) return is_refused_by_chance();
    if (refused < 0) {
        const char *text = getenv("REFUSED_REQUEST");
        refused = text ? atol(text) : 0;
    }
    if (++requests != refused) return 0;
    const char *told = getenv("REFUSED_TOLD");
    if (told) close(open(told, O_CREAT | O_WRONLY, 0600));
    return 1;
}

ssize_t write(int to, const void *bytes, size_t count) {
    static ssize_t (*real)(int, const void *, size_t);
    if (!real) real = dlsym(RTLD_NEXT, "write");
    end_at(to);
    return real(to, bytes, count);
}

ssize_t writev(int to, const struct iovec *parts, int count) {
    static ssize_t (*real)(int, const struct iovec *, int);
    if (!real) real = dlsym(RTLD_NEXT, "writev");
    end_at(to);
    return real(to, parts, count);
}

void *malloc(size_t size) {
    static void *(*real)(size_t);
    if (!real) real = dlsym(RTLD_NEXT, "malloc");
    return is_refused() ? NULL : real(size);
}

void *realloc(void *old, size_t size) {
    static void *(*real)(void *, size_t);
    if (!real) real = dlsym(RTLD_NEXT, "realloc");
    return is_refused() ? NULL : real(old, size);
}

void *aligned_alloc(size_t align, size_t size) {
    static void *(*real)(size_t, size_t);
    if (!real) real = dlsym(RTLD_NEXT, "aligned_alloc");
    return is_refused() ? NULL : real(align, size);
}

int posix_memalign(void **out, size_t align, size_t size) {
    static int (*real)(void **, size_t, size_t);
    if (!real) real = dlsym(RTLD_NEXT, "posix_memalign");
    return is_refused() ? ENOMEM : real(out, align, size);
}
