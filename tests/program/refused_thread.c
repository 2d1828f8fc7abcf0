/* Refuses to start one thread: the one whose number, counted from 1, stands in REFUSED_REQUEST. Where there is one, the file that
   REFUSED_TOLD names is made. */
#define _GNU_SOURCE
#include <dlfcn.h>
#include <errno.h>
#include <fcntl.h>
#include <pthread.h>
#include <stdatomic.h>
#include <stdlib.h>
#include <unistd.h>

static atomic_long starts;

int pthread_create(pthread_t *thread, const pthread_attr_t *attributes, void *(*begin)(void *), void *given) {
    static int (*real)(pthread_t *, const pthread_attr_t *, void *(*)(void *), void *);
    if (!real) real = dlsym(RTLD_NEXT, "pthread_create");
    const char *refused = getenv("REFUSED_REQUEST"), *told = getenv("REFUSED_TOLD");
    if (++starts != (refused ? atol(refused) : 0)) return real(thread, attributes, begin, given);
    if (told) close(open(told, O_CREAT | O_WRONLY, 0600));
    return EAGAIN;
}
