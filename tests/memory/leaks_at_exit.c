/* Looks for lost memory where a program ends by _exit, as Rattle's do: the sanitizer's runtime looks at exit alone. */
#define _GNU_SOURCE
#include <dlfcn.h>
#include <stdlib.h>
#include <sys/syscall.h>
#include <unistd.h>

void _exit(int status) {
    void (*look)(void) = (void (*)(void))dlsym(RTLD_DEFAULT, "__lsan_do_leak_check");
    if (look) look();
    syscall(SYS_exit_group, status);
    abort();
}
