/* Has another process save to the same path. When a file becomes one whose name is that in INTERFERED, first others become that one and the
   one with `.lines` behind its name: those at the path in INTERFERER, which are linked. So often as INTERFERENCES says.

   It stands before the library's own calls, by LD_PRELOAD. */
#define _GNU_SOURCE
#include <dlfcn.h>
#include <fcntl.h>
#include <stdio.h>
#include <stdlib.h>
#include <string.h>
#include <sys/syscall.h>
#include <unistd.h>

static long left = -1;

static void put(const char *from, const char *path, const char *end) {
    char source[4096], fresh[4096], target[4096];
    snprintf(source, sizeof source, "%s%s", from, end);
    snprintf(fresh, sizeof fresh, "%s%s.fresh", from, end);
    snprintf(target, sizeof target, "%s%s", path, end);
    if (link(source, fresh) || syscall(SYS_renameat2, AT_FDCWD, fresh, AT_FDCWD, target, 0)) abort();
}

static void interfere(const char *becomes) {
    const char *path = getenv("INTERFERED"), *from = getenv("INTERFERER"), *often = getenv("INTERFERENCES");
    if (!path || !from || !often || strcmp(becomes, path)) return;
    if (left < 0) left = atol(often);
    if (left == 0) return;
    left--;
    put(from, path, ".lines");
    put(from, path, "");
}

int rename(const char *old, const char *new) {
    interfere(new);
    return (int)syscall(SYS_renameat2, AT_FDCWD, old, AT_FDCWD, new, 0);
}

int renameat(int in, const char *old, int to, const char *new) {
    interfere(new);
    return (int)syscall(SYS_renameat2, in, old, to, new, 0);
}

int renameat2(int in, const char *old, int to, const char *new, unsigned flags) {
    interfere(new);
    return (int)syscall(SYS_renameat2, in, old, to, new, flags);
}
