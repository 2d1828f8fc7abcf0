/* Calls libdomepeeler with a trace on standard input.
 *
 * refuse: refuses each request for memory in turn, and wants out of memory each time and an untouched room, or the same answer where the call can do
 * without, and nothing left that was not given back; linked with --wrap=malloc, --wrap=realloc and --wrap=free. Prints for each of the four calls
 * how many requests it made, and without how many of them it answered.
 * threads: 16 threads judge the trace, 6,250 times each; each report must be that of the first call.
 * flat: a million reports, and how much more memory the process had at its most than after the first thousand, in kilobytes. */
#include "../../recorders/domepeeler_judge.h"

#include <pthread.h>
#include <stdio.h>
#include <stdlib.h>
#include <string.h>
#include <sys/resource.h>

enum { ROOM = 1 << 20, THREADS = 16, TURNS = 6250 };

static char trace[ROOM], first[ROOM];
static size_t trace_length;

#ifdef REFUSES
static long requests, refused = -1, held;

void *__real_malloc(size_t size);
void *__real_realloc(void *old, size_t size);
void __real_free(void *old);

void *__wrap_malloc(size_t size) {
    if (requests++ == refused) return NULL;
    void *made = __real_malloc(size);
    held += made != NULL;
    return made;
}

void *__wrap_realloc(void *old, size_t size) {
    return requests++ == refused ? NULL : __real_realloc(old, size);
}

void __wrap_free(void *old) {
    held -= old != NULL;
    __real_free(old);
}

static char cert[ROOM];
static size_t cert_length;

static struct domepeeler_end call(int which, char *room) {
    if (which == 3) return domepeeler_verify(trace, trace_length, cert, cert_length, room, ROOM);
    if (which == 2) return domepeeler_cert(trace, trace_length, room, ROOM);
    return domepeeler_verdict(trace, trace_length, (uint32_t)which, room, ROOM);
}

static int refuse(int which) {
    static char room[ROOM], untouched[ROOM], whole[ROOM];
    memset(untouched, 'x', ROOM);
    memset(whole, 'x', ROOM);
    struct domepeeler_end wanted = call(which, whole);
    long without = 0;
    for (long n = 0;; n++) {
        memset(room, 'x', ROOM);
        requests = 0;
        refused = n;
        held = 0;
        struct domepeeler_end end = call(which, room);
        refused = -1;
        if (held != 0) return printf("call %d keeps %ld blocks when request %ld is refused\n", which, held, n), 1;
        int is_same = end.status == wanted.status && end.length == wanted.length && memcmp(room, whole, ROOM) == 0;
        if (requests <= n) return printf("%ld %ld\n", n, without), !is_same;
        if (is_same) {
            without++;
            continue;
        }
        if (end.status == DOMEPEELER_END_NO_TRACE && end.line == wanted.line && end.length == 0) continue; /* no memory for the words alone */
        if (end.status != DOMEPEELER_END_NO_MEMORY || end.length != 0 || memcmp(room, untouched, ROOM) != 0)
            return printf("call %d ends with %u when request %ld is refused\n", which, end.status, n), 1;
    }
}
#endif

static void *judge(void *wrong) {
    char *room = malloc(ROOM);
    for (int i = 0; i < TURNS && room != NULL; i++) {
        struct domepeeler_end end = domepeeler_verdict(trace, trace_length, 0, room, ROOM);
        if (end.status > 1 || memcmp(room, first, end.length) != 0) *(int *)wrong = 1;
    }
    free(room);
    return NULL;
}

static int threads(void) {
    pthread_t all[THREADS];
    int wrong[THREADS] = {0}, some = 0;
    for (int i = 0; i < THREADS; i++)
        if (pthread_create(&all[i], NULL, judge, &wrong[i]) != 0) return 1;
    for (int i = 0; i < THREADS; i++) pthread_join(all[i], NULL), some |= wrong[i];
    return some;
}

static long most_kilobytes(void) {
    struct rusage used;
    getrusage(RUSAGE_SELF, &used);
    return used.ru_maxrss;
}

static int flat(void) {
    static char room[ROOM];
    long before = 0;
    for (int i = 0; i < 1000000; i++) {
        if (i == 1000) before = most_kilobytes();
        if (domepeeler_verdict(trace, trace_length, 0, room, ROOM).status > 1) return 1;
    }
    return printf("%ld\n", most_kilobytes() - before), 0;
}

int main(int count, char **words) {
    trace_length = fread(trace, 1, sizeof trace, stdin);
    struct domepeeler_end end = domepeeler_verdict(trace, trace_length, 0, first, sizeof first);
    if (count != 2 || end.status > 2) return 2;
#ifdef REFUSES
    cert_length = domepeeler_cert(trace, trace_length, cert, sizeof cert).length;
    if (strcmp(words[1], "refuse") == 0) return refuse(0) || refuse(1) || refuse(2) || refuse(3);
#endif
    return strcmp(words[1], "threads") == 0 ? threads() : strcmp(words[1], "flat") == 0 ? flat() : 2;
}
