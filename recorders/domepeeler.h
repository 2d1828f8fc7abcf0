/* Records what the replicas of a list editor do and answer, and has Domepeeler judge it.
 *
 * Copy this file into your project; it needs C99 or C++, POSIX, and nothing else. docs/recording.md says where the calls go.
 *
 *     struct domepeeler *recording = domepeeler_new(2);
 *     const char *list[] = {"a"};
 *     unsigned n = domepeeler_insert(recording, 0, "a", 0, list, 1); // replica 0 inserted a at 0; its list is now: a
 *     const char *const *lists[] = {NULL, NULL};
 *     size_t names[] = {0, 0};
 *     unsigned is_recorded = domepeeler_received(recording, 1, 0, n) // that operation was applied at replica 1
 *         && domepeeler_delete(recording, 1, "a", NULL, 0)           // replica 1 deleted a; its list is now empty
 *         && domepeeler_read(recording, 0, list, 1)                  // replica 0 read its list
 *         && domepeeler_view(recording, 0, list, 1)                  // replica 0 showed this part of its list
 *         && domepeeler_delivered(recording, lists, names, 2)        // by now all has arrived everywhere; both are empty
 *         && domepeeler_save(recording, "session.trace");            // the trace as a file, for tools/explain
 *     if (!is_recorded || !domepeeler_passes(recording, NULL)) {     // asks the program: accepted, and no warning?
 *         puts(domepeeler_why(recording));
 *         char *words = domepeeler_explain(recording, NULL);         // what that means, in words, or NULL
 *         if (words) puts(words);
 *         return 1;
 *     }
 *     domepeeler_free(recording);
 *
 * Each call that a trace can't say answers 0 and leaves the recording as it was; domepeeler_why() then says why, and
 * domepeeler_full() whether it is that a limit of traces is reached: then end this session, and begin another. What was refused is
 * missing in the recording, so warnings and explanations begin with it. domepeeler_free() says on standard error where nothing has judged the
 * recording, explained it, saved it or taken its text since something was recorded or refused; exit() says it of what is not freed by then.
 * domepeeler_judge() answers the report as JSON, whatever the verdict is: a test that doesn't look at it passes.
 *
 * An editor with a server that orders changes (Jupiter and its kin) promises the weak list specification alone, and is right with
 * `refused 3` or more. For such a one ask, in the place of domepeeler_passes() and domepeeler_explain():
 *
 *     if (!domepeeler_passes_weak(recording, NULL)) return puts(domepeeler_why(recording)), 1; // domepeeler_explain_weak() explains
 *
 * A recording passes then where weak holds; `contents`, `position`, `doubled` and `refused 2` still fail, and so do warnings.
 *
 * The program judges, in a process of its own. Where you say `#define DOMEPEELER_LINKED` before this file is included, and link with libdomepeeler
 * (docs/library.md), the library does, in your process and in microseconds, unless a program is named by a call or by the environment's
 * DOMEPEELER, or the process was forked.
 *
 * domepeeler_stop(recording, 0, call_back, data) has the session judged after each call that takes a list. The call that answered wrong
 * calls back, where a debugger can stop, and answers 0; with 1, that after which weak doesn't hold.
 *
 * Where a test ends by abort(), as a failed assert() does, domepeeler_on_abort(recording, "failed.trace"), called when the session begins,
 * has the trace saved, and the verdict told on standard error, accepted or not.
 *
 * Where updates have vector clocks, domepeeler_received_clock() writes the receipts, and refuses what is not causal.
 *
 * An explanation names the line of code that made each call, since the calls that record are macros too, which hand in __FILE__ and
 * __LINE__. Where a function of yours makes the calls for others, let it take theirs and hand them on, and it names their lines:
 *
 *     #define typed(...) typed_from(__FILE__, __LINE__, __VA_ARGS__)
 *     void typed_from(const char *file, int line, const char *name) {
 *         list[0] = name;
 *         if (!domepeeler_insert_from(file, line, recording, 0, name, 0, list, 1)) puts(domepeeler_why(recording));
 *     }
 *
 * A pointer to such a call, and one in brackets as (domepeeler_insert)(...), is the plain function, which names no line.
 *
 * Threads may share a recording: each call is whole before the next one begins, and domepeeler_why() tells each thread of its own. Only the
 * pointer that domepeeler_text() answers is of use while no other thread records: else it leads to memory that was freed. With a C library
 * older than glibc 2.34 link with -pthread. */
#ifndef DOMEPEELER_H
#define DOMEPEELER_H

#ifndef _POSIX_C_SOURCE
#define _POSIX_C_SOURCE 200809L
#endif

#include <ctype.h>
#include <errno.h>
#include <fcntl.h>
#include <poll.h>
#include <pthread.h>
#include <signal.h>
#include <spawn.h>
#include <stdarg.h>
#include <stdio.h>
#include <stdlib.h>
#include <string.h>
#include <sys/stat.h>
#include <sys/wait.h>
#include <unistd.h>
#ifdef DOMEPEELER_LINKED
#include <domepeeler_judge.h>
#endif

#ifdef __cplusplus
extern "C" {
#else /* which the system's headers leave out where another one was included before this, and the language is strict */
ssize_t readlink(const char *path, char *target, size_t room);
#endif
extern char **environ;
#ifdef __cplusplus
}
#endif

enum {
    DOMEPEELER_REPLICAS = 16,
    DOMEPEELER_ENTRIES = 16384,
    DOMEPEELER_INSERTS = 4096,
    DOMEPEELER_NAMES = 4096,
    DOMEPEELER_PLACES = 262144,
    DOMEPEELER_BYTES = 32, /* of a name */
    DOMEPEELER_UUID = 36,  /* bytes */
    DOMEPEELER_HEAD = 2,   /* lines of a trace, before its entries */
    DOMEPEELER_SHORT = 1000, /* lines of a session that is judged by one thread, as more would be slower to begin */
    DOMEPEELER_NOTES = 20,
    DOMEPEELER_LETTERS = 200, /* of a note */
    DOMEPEELER_DELIVERED = 100, /* calls of domepeeler_delivered() that the explainer is told of, the last ones */
    DOMEPEELER_WORDS = 12 + 2 * DOMEPEELER_DELIVERED, /* of a command, and a NULL behind them */
    DOMEPEELER_TOLD = 5,      /* deletes, or inserts, that warnings tell one by one */
    DOMEPEELER_CHANGES = 3    /* that warnings tell one by one of those that a replica lacks, or has made nothing of */
};
#define DOMEPEELER_POSITION 4294967295LL

/* Of a call whose answer says whether it was recorded: a compiler warns where nobody looks at it. */
#if defined __GNUC__
#define DOMEPEELER_CHECKED __attribute__((warn_unused_result))
#else
#define DOMEPEELER_CHECKED
#endif

/* Of a variable of which each thread has its own. */
#if defined __cplusplus
#define DOMEPEELER_OWN thread_local
#elif defined __STDC_VERSION__ && __STDC_VERSION__ >= 201112L && !defined __STDC_NO_THREADS__
#define DOMEPEELER_OWN _Thread_local
#elif defined __GNUC__
#define DOMEPEELER_OWN __thread
#else
#define DOMEPEELER_OWN
#endif

/* What one replica has recorded: its counts; which of its operations insert or delete; how many operations of each other replica
 * it has received, now and at each operation of its own. */
struct domepeeler_replica {
    unsigned entries, operations, inserts, places, changed, room;
    unsigned others[DOMEPEELER_REPLICAS], *changes, (*pasts)[DOMEPEELER_REPLICAS];
};

/* From where in your code a line of the trace was recorded; the file is NULL where that is not known. */
struct domepeeler_caller {
    char *file;
    int line;
};

/* An id, and its name in the trace: of an id that is no name, or of a name that looks like what such an id becomes. */
struct domepeeler_id {
    char *id, name[DOMEPEELER_BYTES + 1];
};

/* The last change of an author that was not causal at a replica, 0 where there is none, or it has come since; what was lacking; and whether it
 * stays open whatever comes. */
struct domepeeler_open {
    unsigned n, lacking;
    int other, stays;
};

struct domepeeler {
    pthread_mutex_t *lock; /* held by each call */
    pthread_mutex_t *of_all;           /* held where one is listed, or no longer; NULL for one that is not */
    struct domepeeler **listed, *next; /* what leads to it in the list of those that are not freed, and the next one there */
    char *text;
    size_t length, room;
    int replicas, only; /* only is -1 where all replicas are recorded */
    struct domepeeler_replica of[DOMEPEELER_REPLICAS];
    struct domepeeler_id **ids;       /* in the order in which they came */
    size_t known, shortened, *places; /* places: by id, and behind these by name, where each stands in ids, counted from 1 */
    size_t slots;                     /* half of the places; a power of two, or 0 */
    char *notes[DOMEPEELER_NOTES];
    size_t noted;
    size_t (*deliveries)[2], delivered; /* of each call of domepeeler_delivered() its first and last line of the text */
    struct domepeeler_caller *callers;  /* of each line of the text behind its head */
    size_t called, callers_room;
    const char *file; /* from where the call comes that is under way, or NULL */
    int line;
    long process;   /* that began it */
    size_t refused; /* calls, but for limits where the response is not wrong as well, and what is not causal, which may come again */
    struct domepeeler_open open[DOMEPEELER_REPLICAS][DOMEPEELER_REPLICAS]; /* by replica and author: the last change that was refused so */
    int is_new; /* whether something was recorded, or refused, since it was judged, explained, saved or taken as text */
    int stops, is_weak_enough, is_wrong; /* whether calls are judged, and how; whether one was wrong */
    int is_stopping;                     /* whether the call that is under way is to call back when it ends */
    void (*call_back)(const char *words, void *data);
    void *data;
    char *wrong; /* the words for that, or NULL without memory */
    int full, is_limit_seen; /* whether the last one was at a limit; and whether the first of these was asked of, or there is none */
    char why[512], first[512]; /* of the last call that answered 0, and of the first one that was refused so */
    char limit[512]; /* of the first at a limit */
};

/* The code point at which the text stands, which is behind it then; -1 where there is no UTF-8. */
static inline long domepeeler_letter(const unsigned char **at) {
    static const long least[] = {0, 0x80, 0x800, 0x10000};
    unsigned char first = *(*at)++;
    int more = first < 0x80 ? 0 : first < 0xC0 ? -1 : first < 0xE0 ? 1 : first < 0xF0 ? 2 : first < 0xF8 ? 3 : -1;
    long point = more < 1 ? first : first & (0x3F >> more);
    for (int i = 0; i < more; i++) {
        if ((**at & 0xC0) != 0x80) return -1;
        point = point << 6 | (*(*at)++ & 0x3F);
    }
    return more < 0 || point < least[more] || (point >= 0xD800 && point < 0xE000) || point > 0x10FFFF ? -1 : point;
}

/* Whether it may be shown: neither controls, nor what breaks a line or turns the direction of writing. */
static inline int domepeeler_is_printable(long letter) {
    return letter >= 0x20 && (letter < 0x7F || letter > 0x9F) && (letter < 0x2028 || letter > 0x202E) &&
           (letter < 0x2066 || letter > 0x2069);
}

/* Puts a question mark in the place of what can't be shown. */
static inline void domepeeler_clean(char *text) {
    const unsigned char *at = (const unsigned char *)text;
    char *end = text;
    while (*at) {
        const unsigned char *from = at;
        if (!domepeeler_is_printable(domepeeler_letter(&at))) *end++ = '?';
        else
            while (from < at) *end++ = (char)*from++;
    }
    *end = 0;
}

/* Where the first sign stands of what CI services take for a command, if the text begins so; else its length. */
static inline size_t domepeeler_command(const char *text) {
    size_t first = strspn(text, " ");
    return !strncmp(text + first, "::", 2) || !strncmp(text + first, "##", 2) ? first : strlen(text);
}

/* Puts a name or an id for an error into the room, or the front of it: a byte that is no printable ASCII stands as `\x1b`, and so does the
 * first of `::` or `##` that begins it, behind spaces too, since CI services take a line that begins so for a command. */
static inline const char *domepeeler_escaped(const char *text, char *room, size_t bytes) {
    size_t first = domepeeler_command(text), length = 0;
    *room = 0;
    for (size_t at = 0; text[at] && length + 4 < bytes; at++) {
        int is_shown = text[at] >= ' ' && text[at] <= '~' && at != first;
        snprintf(room + length, bytes - length, is_shown ? "%c" : "\\x%02x", (unsigned char)text[at]);
        length += strlen(room + length);
    }
    return room;
}

/* The reason that a thread was told last, and the recording of which it is. */
struct domepeeler_reason {
    const struct domepeeler *of;
    char why[512];
};

static inline struct domepeeler_reason *domepeeler_reason(void) {
    static DOMEPEELER_OWN struct domepeeler_reason own;
    return &own;
}

/* Keeps why a call fails or is refused, for the thread that made it too. */
static inline void domepeeler_keep_why(struct domepeeler *d, const char *format, va_list words) {
    struct domepeeler_reason *own = domepeeler_reason();
    vsnprintf(d->why, sizeof d->why, format, words);
    memcpy(own->why, d->why, sizeof own->why);
    own->of = d;
}

/* A call of the recording is refused; full is 1 at a limit, and 2 where the response that reaches it is wrong as well. */
static inline unsigned domepeeler_refuse(struct domepeeler *d, int full, const char *format, ...) {
    va_list words;
    va_start(words, format);
    domepeeler_keep_why(d, format, words);
    va_end(words);
    d->full = !!full;
    if (full != 1) d->is_new = 1;
    if (full == 1 && !*d->limit) memcpy(d->limit, d->why, sizeof d->limit);
    if (full == 1 || !strncmp(d->why, "not causal: ", 12) || d->refused++) return 0;
    memcpy(d->first, d->why, sizeof d->first);
    return 0;
}

/* What was asked of a recording failed, which does not change it. */
static inline unsigned domepeeler_fail(struct domepeeler *d, const char *format, ...) {
    va_list words;
    va_start(words, format);
    domepeeler_keep_why(d, format, words);
    va_end(words);
    d->full = 0;
    return 0;
}

/* Puts the first line of the text into domepeeler_why(). Answers 0. */
static inline unsigned domepeeler_fail_by_line(struct domepeeler *d, const char *text) {
    return domepeeler_fail(d, "%.*s", (int)strcspn(text, "\n"), text);
}

/* Room for so many more bytes and the zero after them. */
static inline int domepeeler_grow(struct domepeeler *d, size_t more) {
    size_t room = d->room ? d->room : 256;
    while (room - d->length <= more) room *= 2;
    if (room == d->room) return 1;
    char *text = (char *)realloc(d->text, room);
    if (!text) return 0;
    d->text = text;
    d->room = room;
    return 1;
}

/* Appends to the text; there must be room. */
static inline void domepeeler_put(struct domepeeler *d, const char *words) {
    size_t length = strlen(words);
    memcpy(d->text + d->length, words, length + 1);
    d->length += length;
}

/* The place of a key among the ids, or among the names; one that is 0 is free. There is a free one. */
static inline size_t *domepeeler_place(const struct domepeeler *d, const char *key, int by_name) {
    size_t hash = 5381, *half = d->places + (by_name ? d->slots : 0);
    for (const char *letter = key; *letter; letter++) hash = hash * 33 + (unsigned char)*letter;
    for (size_t slot = (hash ^ hash >> 15) & (d->slots - 1);; slot = (slot + 1) & (d->slots - 1)) {
        const struct domepeeler_id *one = half[slot] ? d->ids[half[slot] - 1] : NULL;
        if (!one || strcmp(by_name ? one->name : one->id, key) == 0) return half + slot;
    }
}

/* What is known of the key, or NULL. */
static inline const struct domepeeler_id *domepeeler_find(const struct domepeeler *d, const char *key, int by_name) {
    size_t place = d->slots ? *domepeeler_place(d, key, by_name) : 0;
    return place ? d->ids[place - 1] : NULL;
}

/* Puts the first so many ids into their places, after all places were made free. */
static inline void domepeeler_arrange(struct domepeeler *d, size_t known) {
    memset(d->places, 0, 2 * d->slots * sizeof *d->places);
    for (d->known = 0; d->known < known; d->known++) {
        *domepeeler_place(d, d->ids[d->known]->id, 0) = d->known + 1;
        *domepeeler_place(d, d->ids[d->known]->name, 1) = d->known + 1;
    }
}

/* From now on the name is that of this id. Answers 1, or 0 without memory. */
static inline int domepeeler_keep(struct domepeeler *d, const char *id, const char *name) {
    if (2 * (d->known + 1) > d->slots) {
        size_t slots = d->slots ? 2 * d->slots : 64;
        struct domepeeler_id **ids = (struct domepeeler_id **)realloc(d->ids, slots * sizeof *ids);
        if (ids) d->ids = ids;
        size_t *places = ids ? (size_t *)realloc(d->places, 2 * slots * sizeof *places) : NULL;
        if (!places) return 0;
        d->places = places;
        d->slots = slots;
        domepeeler_arrange(d, d->known);
    }
    struct domepeeler_id *one = (struct domepeeler_id *)malloc(sizeof *one + strlen(id) + 1);
    if (!one) return 0;
    one->id = (char *)(one + 1);
    strcpy(one->id, id);
    strcpy(one->name, name);
    d->ids[d->known] = one;
    *domepeeler_place(d, one->id, 0) = *domepeeler_place(d, one->name, 1) = d->known + 1;
    d->known += 1;
    d->shortened += strcmp(id, name) != 0;
    return 1;
}

/* Forgets all ids but the first so many. */
static inline void domepeeler_forget(struct domepeeler *d, size_t known) {
    if (d->known == known) return;
    for (size_t i = known; i < d->known; i++) {
        d->shortened -= strcmp(d->ids[i]->id, d->ids[i]->name) != 0;
        free(d->ids[i]);
    }
    domepeeler_arrange(d, known);
}

/* Forgets the callers of all lines but the first so many. A file's name is kept once for the lines that follow one another. */
static inline void domepeeler_forget_callers(struct domepeeler *d, size_t called) {
    for (; d->called > called; d->called--) {
        char *file = d->callers[d->called - 1].file;
        if (d->called < 2 || d->callers[d->called - 2].file != file) free(file);
    }
}

/* The recording that is saved when the process aborts, and where to. */
struct domepeeler_abort {
    struct domepeeler *recording;
    const char *path;
};

static inline struct domepeeler_abort *domepeeler_aborting(void) {
    static struct domepeeler_abort last;
    return &last;
}

/* The recordings that this file of your program began and nobody has freed. */
struct domepeeler_all {
    pthread_mutex_t lock;
    struct domepeeler *first;
    int is_told;  /* whether the end of the process tells of them */
    long process; /* that began them; 0 where there was none */
};

static inline struct domepeeler_all *domepeeler_all(void) {
    static struct domepeeler_all all = {PTHREAD_MUTEX_INITIALIZER, NULL, 0, 0};
    return &all;
}

/* The process of these recordings, which a forked one inherits. */
static inline long domepeeler_process_of(struct domepeeler_all *all) {
#ifdef __GNUC__
    return __atomic_load_n(&all->process, __ATOMIC_ACQUIRE);
#else
    return all->process;
#endif
}

static inline void domepeeler_set_process(struct domepeeler_all *all) {
#ifdef __GNUC__
    __atomic_store_n(&all->process, (long)getpid(), __ATOMIC_RELEASE);
#else
    all->process = (long)getpid();
#endif
}

/* Whether nobody has what this process recorded, and so nobody has judged it. A session that is judged after each call lacks what was refused
 * alone. */
static inline int domepeeler_is_unjudged(const struct domepeeler *d) {
    size_t refused = d->refused;
    for (int i = 0; i < DOMEPEELER_REPLICAS * DOMEPEELER_REPLICAS; i++)
        refused += d->open[i / DOMEPEELER_REPLICAS][i % DOMEPEELER_REPLICAS].n > 0;
    return d->is_new && !d->is_wrong && (!d->stops || refused) && d->process == (long)getpid();
}

/* Says on standard error that nobody has what became of a recording as the words say. */
static inline void domepeeler_tell_unjudged(const struct domepeeler *d, const char *words) {
    const struct domepeeler_caller *last = d->called ? &d->callers[d->called - 1] : NULL;
    int is_placed = last && last->file;
    fprintf(stderr, "domepeeler: %s, and nothing has judged it, saved it or taken its text since something was %s", words,
            d->stops ? "refused" : "recorded or refused");
    if (is_placed) fprintf(stderr, "; its last line was recorded by %s:%d", last->file, last->line);
    fprintf(stderr, *d->why ? "; the last call that failed: %s\n" : "%s\n", d->why);
}

/* As the process ends, or the library that this is part of: says on standard error of what is not freed that nobody has it so far, of one whole
 * and how many more there are; but of one that is in a call, as where its call-back ends the process. */
static inline void domepeeler_tell_left(void) {
    struct domepeeler_all *all = domepeeler_all();
    size_t count = 0;
    if (domepeeler_process_of(all) != (long)getpid()) return; /* of a forked one, where another thread may have held the lock */
    pthread_mutex_lock(&all->lock);
    for (struct domepeeler *d = all->first; d; d = d->next) {
        d->of_all = NULL;
        if (pthread_mutex_trylock(d->lock)) continue;
        if (domepeeler_is_unjudged(d) && !count++) domepeeler_tell_unjudged(d, "at the end of the program a recording is still not freed");
        pthread_mutex_unlock(d->lock);
    }
    all->first = NULL;
    pthread_mutex_unlock(&all->lock);
    if (count > 1) fprintf(stderr, "domepeeler: and %lu more so\n", (unsigned long)(count - 1));
}

/* Lists a recording among those that are not freed. In a forked process, which begins with one thread, the list and its lock begin anew: some
 * other thread of the process before may have held it. */
static inline void domepeeler_list(struct domepeeler *d) {
    struct domepeeler_all *all = domepeeler_all();
    long before = domepeeler_process_of(all);
    if (before && before != (long)getpid()) {
        pthread_mutex_init(&all->lock, NULL);
        all->first = NULL;
        domepeeler_set_process(all);
    }
    pthread_mutex_lock(&all->lock);
    all->is_told = all->is_told || !atexit(domepeeler_tell_left);
    if (!before) domepeeler_set_process(all);
    d->next = all->first;
    if (d->next) d->next->listed = &d->next;
    d->listed = &all->first;
    all->first = d;
    d->of_all = &all->lock;
    pthread_mutex_unlock(&all->lock);
}

static inline void domepeeler_unlist(struct domepeeler *d) {
    pthread_mutex_t *lock = d->process == (long)getpid() ? d->of_all : NULL; /* a forked process has no part in that list */
    if (!lock) return;
    pthread_mutex_lock(lock);
    if (d->of_all) {
        *d->listed = d->next;
        if (d->next) d->next->listed = d->listed;
    }
    pthread_mutex_unlock(lock);
}

static inline void domepeeler_free(struct domepeeler *d) {
    if (!d) return;
    domepeeler_unlist(d);
    if (domepeeler_is_unjudged(d)) domepeeler_tell_unjudged(d, "a recording is freed");
    if (domepeeler_aborting()->recording == d) domepeeler_aborting()->recording = NULL;
    domepeeler_forget_callers(d, 0);
    free(d->callers);
    for (size_t i = 0; i < d->known; i++) free(d->ids[i]);
    for (size_t i = 0; i < d->noted; i++) free(d->notes[i]);
    for (int i = 0; i < d->replicas; i++) {
        free(d->of[i].changes);
        free(d->of[i].pasts);
    }
    free(d->ids);
    free(d->places);
    free(d->deliveries);
    free(d->text);
    free(d->wrong);
    if (domepeeler_reason()->of == d) domepeeler_reason()->of = NULL;
    if (d->lock) pthread_mutex_destroy(d->lock);
    free(d->lock);
    free(d);
}

/* The log of one replica of so many, on its own machine; -1 for a recording of all. NULL where the numbers are not 1 to 16
 * and below that, or memory is wanting. */
static inline struct domepeeler *domepeeler_new_only(int replicas, int only) {
    if (replicas < 1 || replicas > DOMEPEELER_REPLICAS || only < -1 || only >= replicas) return NULL;
    struct domepeeler *d = (struct domepeeler *)calloc(1, sizeof *d);
    pthread_mutex_t *lock = d ? (pthread_mutex_t *)malloc(sizeof *lock) : NULL;
    int is_ready = lock && !pthread_mutex_init(lock, NULL);
    if (is_ready) d->lock = lock;
    else free(lock);
    if (!is_ready || !domepeeler_grow(d, 64)) {
        domepeeler_free(d);
        return NULL;
    }
    d->process = (long)getpid();
    d->replicas = replicas;
    d->only = only;
    char first[64];
    snprintf(first, sizeof first, "trace 1\nreplicas %d\n", replicas);
    domepeeler_put(d, first);
    domepeeler_list(d);
    return d;
}

/* A session of so many replicas, 1 to 16; else NULL. */
static inline struct domepeeler *domepeeler_new(int replicas) { return domepeeler_new_only(replicas, -1); }

/* How many lines the text has. */
static inline size_t domepeeler_lines_now(const struct domepeeler *d) {
    size_t lines = DOMEPEELER_HEAD;
    for (int i = 0; i < d->replicas; i++) lines += d->of[i].entries;
    return lines;
}

static inline unsigned domepeeler_stop_now(struct domepeeler *d, int is_weak, void (*call_back)(const char *words, void *data), void *data) {
    if (d->only >= 0) return domepeeler_fail(d, "one replica's log can't be judged after each call, but only when the logs are merged");
    d->stops = 1;
    d->is_weak_enough = is_weak;
    d->call_back = call_back;
    d->data = data;
    return 1;
}

/* What is wrong with the session, if a call has stopped; else NULL. */
static inline const char *domepeeler_stopped_now(const struct domepeeler *d) {
    return !d->is_wrong ? NULL : d->wrong ? d->wrong : "The recording is not accepted. There is no memory for an explanation";
}

/* Ends a call whose answer is wrong, or was not judged; domepeeler_leave() calls back. */
static inline unsigned domepeeler_stop_by(struct domepeeler *d, const char *words) {
    d->is_stopping = 1;
    return domepeeler_fail_by_line(d, words);
}

/* Whether no call was wrong so far. */
static inline unsigned domepeeler_goes_on(struct domepeeler *d) {
    return !d->is_wrong || domepeeler_stop_by(d, domepeeler_stopped_now(d));
}

/* Behind a call that takes a list and answers so much; it stands below. */
static inline unsigned domepeeler_answered(struct domepeeler *d, unsigned said);

/* Keeps from where the line comes that is written next. Answers 1, or 0 without memory. */
static inline int domepeeler_keep_caller(struct domepeeler *d) {
    if (d->called == d->callers_room) {
        size_t room = d->callers_room ? 2 * d->callers_room : 64;
        void *callers = realloc(d->callers, room * sizeof *d->callers);
        if (!callers) return 0;
        d->callers = (struct domepeeler_caller *)callers;
        d->callers_room = room;
    }
    struct domepeeler_caller *caller = d->callers + d->called;
    char *before = d->called ? caller[-1].file : NULL;
    caller->file = d->file && before && !strcmp(before, d->file) ? before : NULL;
    caller->line = d->line;
    if (d->file && !caller->file) {
        caller->file = (char *)malloc(strlen(d->file) + 1);
        if (!caller->file) return 0;
        strcpy(caller->file, d->file);
    }
    d->called += 1;
    return 1;
}

/* The id, which is no name itself, that has this name in the trace; NULL where the name stands for no other id. */
static inline const char *domepeeler_id_of(const struct domepeeler *d, const char *name) {
    const struct domepeeler_id *one = domepeeler_find(d, name, 1);
    return one && strcmp(one->id, name) ? one->id : NULL;
}

/* Words that grow, as a text for free(); `is_short` where memory was wanting. */
struct domepeeler_words {
    char *text;
    size_t length, room;
    int is_short;
};

static inline void domepeeler_say(struct domepeeler_words *words, const char *format, ...) {
    va_list given;
    if (words->is_short) return;
    va_start(given, format);
    int more = vsnprintf(NULL, 0, format, given);
    va_end(given);
    size_t room = words->room ? words->room : 256;
    while (room - words->length <= (size_t)more) room *= 2;
    char *text = room == words->room ? words->text : (char *)realloc(words->text, room);
    words->is_short = !text;
    if (!text) return;
    words->text = text;
    words->room = room;
    va_start(given, format);
    vsnprintf(text + words->length, room - words->length, format, given);
    va_end(given);
    words->length += (size_t)more;
}

/* The text of the words; NULL without memory. */
static inline char *domepeeler_said(struct domepeeler *d, struct domepeeler_words *words) {
    if (!words->text) domepeeler_say(words, "%s", "");
    if (!words->is_short) return words->text;
    free(words->text);
    words->text = NULL;
    domepeeler_fail(d, "no memory");
    return NULL;
}

/* Says the caller's place in your code, with the file's path from this folder if it lies below that. */
static inline void domepeeler_say_place(struct domepeeler_words *said, const struct domepeeler_caller *caller, const char *here) {
    size_t length = strlen(here), start = said->length;
    int is_below = length && !strncmp(caller->file, here, length) && caller->file[length] == '/';
    domepeeler_say(said, "%s:%d", caller->file + (is_below ? length + 1 : 0), caller->line);
    if (!said->is_short) domepeeler_clean(said->text + start);
}

/* The folder in which the program runs, put into this room; else an empty text. */
static inline const char *domepeeler_here(char *room, size_t bytes) {
    if (!getcwd(room, bytes)) *room = 0;
    return room;
}

/* The caller of this line of the text, or NULL where it is not known. */
static inline const struct domepeeler_caller *domepeeler_caller_of(const struct domepeeler *d, size_t line) {
    if (line <= DOMEPEELER_HEAD || line - DOMEPEELER_HEAD > d->called) return NULL;
    const struct domepeeler_caller *caller = d->callers + (line - DOMEPEELER_HEAD - 1);
    return caller->file ? caller : NULL;
}

/* Opens a new file of this folder, which is so many bytes with the slash behind it, and puts its path into the room. Answers the file, or
 * -1. */
static inline int domepeeler_new_file(char *path, size_t room, const char *folder, size_t bytes, mode_t mode) {
    for (unsigned number = 0;; number++) {
        snprintf(path, room, "%.*s.domepeeler-%ld-%u", (int)bytes, folder, (long)getpid(), number);
        int file = open(path, O_RDWR | O_CREAT | O_EXCL, mode);
        if (file >= 0 || (errno != EEXIST && errno != EINTR)) return file;
    }
}

/* Writes all the bytes, and answers whether that went well; if not, errno tells why. */
static inline int domepeeler_put_out(int file, const char *bytes, size_t length) {
    while (length) {
        ssize_t written = write(file, bytes, length);
        if (written < 0 && errno != EINTR) return 0;
        if (written > 0) bytes += written, length -= (size_t)written;
    }
    return 1;
}

/* The bytes of a path up to its last slash. */
static inline size_t domepeeler_folder(const char *path) {
    const char *slash = strrchr(path, '/');
    return slash ? (size_t)(slash + 1 - path) : 0;
}

/* The path of what a path leads to by links, for free(); NULL without memory. */
static inline char *domepeeler_behind_links(const char *path) {
    enum { LINKS = 40, ROOM = 4096 };
    char *at = (char *)malloc(strlen(path) + 1), target[ROOM];
    if (at) strcpy(at, path);
    for (int links = 0; at && links < LINKS; links++) {
        ssize_t length = readlink(at, target, sizeof target);
        if (length <= 0 || length == ROOM) break;
        size_t folder = *target == '/' ? 0 : domepeeler_folder(at);
        char *next = (char *)malloc(folder + (size_t)length + 1);
        if (next) {
            memcpy(next, at, folder);
            memcpy(next + folder, target, (size_t)length);
            next[folder + (size_t)length] = 0;
        }
        free(at);
        at = next;
    }
    return at;
}

/* A file of its own beside the one that it is to become, so that this one appears whole or stays what it was. */
struct domepeeler_fresh {
    char *path, *becomes; /* for free() */
    const char *named;    /* as the caller has it */
};

static inline unsigned domepeeler_cannot_write_since(struct domepeeler *d, const char *path, const char *why) {
    char shown[400]; /* so that there is room for the reason behind a long path */
    return domepeeler_fail(d, "cannot write %s: %s", domepeeler_escaped(path, shown, sizeof shown), why);
}

static inline unsigned domepeeler_cannot_write(struct domepeeler *d, const char *path) {
    return domepeeler_cannot_write_since(d, path, strerror(errno));
}

/* Writes such a file. Answers 1; else there is none. */
static inline unsigned domepeeler_write_fresh(struct domepeeler *d, struct domepeeler_fresh *fresh, const char *path, const char *bytes,
                                              size_t length) {
    struct stat about;
    fresh->named = path;
    fresh->becomes = domepeeler_behind_links(path);
    size_t folder = fresh->becomes ? domepeeler_folder(fresh->becomes) : 0, room = folder + 64;
    fresh->path = fresh->becomes ? (char *)malloc(room) : NULL;
    if (!fresh->path) return domepeeler_fail(d, "no memory");
    int file = domepeeler_new_file(fresh->path, room, fresh->becomes, folder, 0666);
    if (file < 0) return domepeeler_cannot_write(d, path);
    int is_written = (stat(path, &about) || !chmod(fresh->path, about.st_mode & 0777)) && domepeeler_put_out(file, bytes, length);
    int why = errno;
    if (close(file) && is_written) is_written = 0, why = errno;
    if (is_written) return 1;
    unlink(fresh->path);
    errno = why;
    return domepeeler_cannot_write(d, path);
}

static inline unsigned domepeeler_put_fresh(struct domepeeler *d, const struct domepeeler_fresh *fresh) {
    if (!rename(fresh->path, fresh->becomes)) return 1;
    domepeeler_cannot_write(d, fresh->named);
    unlink(fresh->path);
    return 0;
}

static inline void domepeeler_free_fresh(struct domepeeler_fresh *fresh) {
    free(fresh->path);
    free(fresh->becomes);
}

/* Whether the file has these bytes, where it can be read. */
static inline int domepeeler_may_hold(const char *path, const char *bytes, size_t length) {
    int file = open(path, O_RDONLY), is_same = 1;
    char there[4096];
    size_t at = 0;
    while (file >= 0 && is_same) {
        ssize_t got = read(file, there, sizeof there);
        if (got < 0 && errno == EINTR) continue;
        if (got <= 0) {
            is_same = got < 0 || at == length;
            break;
        }
        is_same = (size_t)got <= length - at && !memcmp(there, bytes + at, (size_t)got);
        at += (size_t)got;
    }
    if (file >= 0) close(file);
    return is_same;
}

/* Writes the text, and what stands beside it, into files that become those of these names. Answers 1. */
static inline unsigned domepeeler_put_both(struct domepeeler *d, const char *path, const char *beside, const char *lines) {
    struct domepeeler_fresh trace = {NULL, NULL, NULL}, side = {NULL, NULL, NULL};
    unsigned is_saved = 0;
    if (domepeeler_write_fresh(d, &trace, path, d->text, d->length)) {
        is_saved = domepeeler_write_fresh(d, &side, beside, lines, strlen(lines)) && domepeeler_put_fresh(d, &side);
        if (is_saved) is_saved = domepeeler_put_fresh(d, &trace);
        else unlink(trace.path);
    }
    domepeeler_free_fresh(&trace);
    domepeeler_free_fresh(&side);
    return is_saved;
}

/* The same; again where another process has put its own beside this trace meanwhile. */
static inline unsigned domepeeler_save_both(struct domepeeler *d, const char *path, const char *beside, const char *lines) {
    enum { TRIES = 100, MILLISECONDS = 10 };
    for (unsigned i = 0; i < TRIES; i++) {
        if (!domepeeler_put_both(d, path, beside, lines)) return 0;
        if (domepeeler_may_hold(beside, lines, strlen(lines))) return 1;
        poll(NULL, 0, (int)(((unsigned)getpid() * 7919U + i * 31U) % MILLISECONDS)); /* another one each, so that they don't keep step */
    }
    return domepeeler_cannot_write_since(d, path, "another process saves there too");
}

/* Writes the text into a pipe or a device. Answers 1. */
static inline unsigned domepeeler_save_into(struct domepeeler *d, const char *path) {
    int file = open(path, O_WRONLY | O_CREAT | O_TRUNC, 0666), is_written = file >= 0 && domepeeler_put_out(file, d->text, d->length);
    int why = errno;
    if (file >= 0 && close(file) && is_written) is_written = 0, why = errno;
    errno = why;
    d->is_new = d->is_new && !is_written;
    return is_written ? 1 : domepeeler_cannot_write(d, path);
}

/* Says for each line of which it is known from where in your code it was recorded. */
static inline void domepeeler_say_callers(const struct domepeeler *d, struct domepeeler_words *said) {
    char room[4096];
    const char *here = domepeeler_here(room, sizeof room);
    for (size_t line = DOMEPEELER_HEAD + 1; line <= DOMEPEELER_HEAD + d->called; line++) {
        const struct domepeeler_caller *caller = domepeeler_caller_of(d, line);
        if (!caller) continue;
        domepeeler_say(said, "%zu ", line);
        domepeeler_say_place(said, caller, here);
        domepeeler_say(said, "\n");
    }
}

/* How it is told that a change is not causal: by author and number, replica, and twice what was lacking, with the author between; and what else
 * may be it. */
#define DOMEPEELER_NOT_CAUSAL                                                                                                        \
    "not causal: %d.%u was applied at replica %d before %d.%u, which replica %d had seen; %d.%u must arrive first or in the same "     \
    "update: perhaps it was lost, or only the call for it is missing%s"

static inline const char *domepeeler_more(int author, int other) {
    return other == author ? "; if the update carried more than one change, say how many (`changes`)" : "";
}

/* Says of the first change that is open why it was refused; nothing where there is none. */
static inline void domepeeler_say_open(const struct domepeeler *d, struct domepeeler_words *said, const char *before, const char *end) {
    for (int pair = 0; pair < d->replicas * d->replicas; pair++) {
        int replica = pair / d->replicas, author = pair % d->replicas;
        const struct domepeeler_open *open = &d->open[replica][author];
        if (!open->n) continue;
        domepeeler_say(said, "%sa call was refused, and what it says never came: ", before);
        domepeeler_say(said, DOMEPEELER_NOT_CAUSAL, author, open->n, replica, open->other, open->lacking, author, open->other, open->lacking,
                       domepeeler_more(author, open->other));
        domepeeler_say(said, "%s", end);
        return;
    }
}

/* Says whether calls were refused, each time between these words. */
static inline void domepeeler_say_refused(const struct domepeeler *d, struct domepeeler_words *said, const char *before, const char *end) {
    if (d->refused == 1) domepeeler_say(said, "%sa call was refused, so what it says is not recorded: %s%s", before, d->first, end);
    if (d->refused > 1)
        domepeeler_say(said, "%s%zu calls were refused, so what they say is not recorded; the first: %s%s", before, d->refused, d->first, end);
    if (*d->limit && !d->is_limit_seen)
        domepeeler_say(said, "%sa limit is reached, so what came later is not recorded: %s%s", before, d->limit, end);
    domepeeler_say_open(d, said, before, end);
}

static inline unsigned domepeeler_save_now(struct domepeeler *d, const char *path) {
    struct stat about;
    int is_there = !stat(path, &about);
    if (!is_there && !*path) return domepeeler_cannot_write(d, path); /* it is no name of this folder */
    if (is_there && !S_ISREG(about.st_mode)) return domepeeler_save_into(d, path);
    struct domepeeler_words beside = {NULL, 0, 0, 0}, lines = {NULL, 0, 0, 0};
    domepeeler_say(&beside, "%s.lines", path);
    domepeeler_say(&lines, "%zu\nlanguage c\n", domepeeler_lines_now(d));
    for (size_t i = 0; i < d->noted; i++) domepeeler_say(&lines, "note %s\n", d->notes[i]);
    for (size_t i = 0; i < d->delivered; i++) domepeeler_say(&lines, "delivered %zu %zu\n", d->deliveries[i][0], d->deliveries[i][1]);
    domepeeler_say_refused(d, &lines, "refused ", "\n");
    domepeeler_say_callers(d, &lines);
    int is_room = domepeeler_said(d, &beside) && domepeeler_said(d, &lines);
    unsigned is_saved = is_room && domepeeler_save_both(d, path, beside.text, lines.text);
    free(beside.text);
    free(lines.text);
    d->is_new = d->is_new && !is_saved;
    return is_saved;
}

static inline unsigned domepeeler_known(struct domepeeler *d, int replica) {
    if (d->process != (long)getpid())
        return domepeeler_refuse(d, 0, "this process was forked, so it would record into a copy that nothing judges: let each process keep "
                                       "a log of its own, and merge them");
    if (replica >= 0 && replica < d->replicas) return 1;
    return domepeeler_refuse(d, 0, "no replica %d among 0 to %d", replica, d->replicas - 1);
}

static inline unsigned domepeeler_acts(struct domepeeler *d, int replica) {
    if (!domepeeler_known(d, replica)) return 0;
    if (d->only < 0 || d->only == replica) return 1;
    return domepeeler_refuse(d, 0, "this log is of replica %d alone, not of %d", d->only, replica);
}

/* Whether an id has the form of a UUID: 8, 4, 4, 4 and 12 hexadecimal digits between dashes. */
static inline int domepeeler_is_uuid(const char *id) {
    for (size_t i = 0; i < DOMEPEELER_UUID; i++) {
        int is_dash = i == 8 || i == 13 || i == 18 || i == 23;
        if (!id[i] || (is_dash ? id[i] != '-' : !strchr("0123456789ABCDEFabcdef", id[i]))) return 0;
    }
    return !id[DOMEPEELER_UUID];
}

/* Puts what a short id with `@`, a comma, a colon or a slash becomes, if that is short enough, into the name: with a letter first, as `2-0` would look
 * like an operation's name. */
static inline void domepeeler_translate(const char *id, char *name) {
    size_t first = id[0] >= '0' && id[0] <= '9', length = strlen(id);
    if (first + length > DOMEPEELER_BYTES) return;
    if (first) name[0] = 'e';
    for (size_t i = 0; i <= length; i++) name[first + i] = id[i] && strchr("@,:/", id[i]) ? '-' : id[i];
}

/* Makes a name for an id, which no other id has. */
static inline const char *domepeeler_shorten(struct domepeeler *d, const char *id) {
    char name[DOMEPEELER_BYTES + 1] = "", shown[sizeof d->why];
    if (strlen(id) <= DOMEPEELER_BYTES) domepeeler_translate(id, name);
    else if (domepeeler_is_uuid(id))
        for (size_t i = 0, digits = 0; digits < DOMEPEELER_BYTES; i++)
            if (id[i] != '-') name[digits++] = id[i];
    for (size_t number = 1 + d->shortened; !*name || domepeeler_find(d, name, 1); number++) {
        if (d->only >= 0) {
            domepeeler_refuse(d, 0, "one replica's log can't give the id \"%s\" a short name, since each machine would give another",
                              domepeeler_escaped(id, shown, sizeof shown));
            return NULL;
        }
        snprintf(name, sizeof name, "long%zu", number);
    }
    if (domepeeler_keep(d, id, name)) return d->ids[d->known - 1]->name;
    domepeeler_refuse(d, 0, "no memory");
    return NULL;
}

/* The name of what is a name itself, unless it stands for another id. NULL if refused. */
static inline const char *domepeeler_own_name(struct domepeeler *d, const char *given) {
    if (strlen(given) < DOMEPEELER_BYTES && strncmp(given, "long", 4) && !strchr(given, '-')) return given; /* it never stands for an id */
    const struct domepeeler_id *one = domepeeler_find(d, given, 1);
    char shown[sizeof d->why];
    if (one ? strcmp(one->id, given) == 0 : domepeeler_keep(d, given, given)) return given;
    if (!one) domepeeler_refuse(d, 0, "no memory");
    else domepeeler_refuse(d, 0, "name \"%s\" is already used for the id \"%s\"", given, domepeeler_escaped(one->id, shown, sizeof shown));
    return NULL;
}

/* The name in the trace: what is given, or if that is no name but an id, a name that no other id has. NULL if refused. */
static inline const char *domepeeler_name(struct domepeeler *d, const char *given) {
    static const char *allowed = "@,:/ABCDEFGHIJKLMNOPQRSTUVWXYZabcdefghijklmnopqrstuvwxyz0123456789_-.";
    if (!given) {
        domepeeler_refuse(d, 0, "a name is a string, not NULL");
        return NULL;
    }
    size_t length = strlen(given);
    char shown[sizeof d->why];
    int is_long = length > DOMEPEELER_BYTES, is_id = length && strspn(given, allowed) == length;
    if (!is_long && is_id && strspn(given, allowed + 4) == length) return domepeeler_own_name(d, given);
    if (is_long || is_id) {
        const struct domepeeler_id *one = domepeeler_find(d, given, 0);
        return one ? one->name : domepeeler_shorten(d, given);
    }
    domepeeler_refuse(d, 0, "name \"%s\" is not 1 to 32 of A-Z a-z 0-9 _ - . (an id may have @ , : and / too)", domepeeler_escaped(given, shown, sizeof shown));
    return NULL;
}

static inline unsigned domepeeler_room(struct domepeeler *d, int replica) {
    if (d->of[replica].entries < DOMEPEELER_ENTRIES) return 1;
    return domepeeler_refuse(d, 1, "replica %d has %d entries, the most that a trace takes", replica, DOMEPEELER_ENTRIES);
}

/* The limits, in the order in which the program tests them. */
static inline unsigned domepeeler_fits(struct domepeeler *d, int replica, unsigned inserts, size_t names) {
    const struct domepeeler_replica *own = &d->of[replica];
    if (!domepeeler_room(d, replica)) return 0;
    if (own->inserts + inserts > DOMEPEELER_INSERTS)
        return domepeeler_refuse(d, 1, "replica %d has %d inserts, the most that a trace takes", replica,
                                 DOMEPEELER_INSERTS);
    size_t inserted = inserts;
    for (int r = 0; r < d->replicas; r++) inserted += d->of[r].inserts;
    int full = d->only < 0 && names > inserted ? 2 : 1; /* more names than were inserted are wrong, whatever comes */
    if (names > DOMEPEELER_NAMES)
        return domepeeler_refuse(d, full, "a response of %zu names; a trace takes at most %d", names,
                                 DOMEPEELER_NAMES);
    if (own->places + names > DOMEPEELER_PLACES)
        return domepeeler_refuse(d, full,
                                 "%zu names over the responses of replica %d; a trace takes at most %d",
                                 own->places + names, replica, DOMEPEELER_PLACES);
    return 1;
}

/* Room for what is kept of one more operation. */
static inline int domepeeler_one_more(struct domepeeler_replica *own) {
    if (own->operations < own->room) return 1;
    unsigned room = own->room ? 2 * own->room : 16;
    unsigned *changes = (unsigned *)realloc(own->changes, room * sizeof *changes);
    if (changes) own->changes = changes;
    void *pasts = changes ? realloc(own->pasts, room * sizeof *own->pasts) : NULL;
    if (!pasts) return 0;
    own->pasts = (unsigned(*)[DOMEPEELER_REPLICAS])pasts;
    own->room = room;
    return 1;
}

static inline unsigned domepeeler_line(struct domepeeler *d, int replica, const char *words, unsigned inserts,
                                       const char *const *response, size_t names) {
    for (size_t i = 0; i < names; i++)
        if (!domepeeler_name(d, response[i])) return 0;
    if (!domepeeler_fits(d, replica, inserts, names)) return 0;
    struct domepeeler_replica *own = &d->of[replica];
    int is_room = domepeeler_one_more(own) && domepeeler_grow(d, 16 + strlen(words) + names * (1 + DOMEPEELER_BYTES));
    if (!is_room || !domepeeler_keep_caller(d)) return domepeeler_refuse(d, 0, "no memory");
    own->entries += 1;
    own->inserts += inserts;
    own->places += (unsigned)names;
    char number[16];
    snprintf(number, sizeof number, "%d ", replica);
    domepeeler_put(d, number);
    domepeeler_put(d, words);
    domepeeler_put(d, " :");
    for (size_t i = 0; i < names; i++) {
        domepeeler_put(d, " ");
        domepeeler_put(d, domepeeler_name(d, response[i]));
    }
    domepeeler_put(d, "\n");
    d->is_new = 1;
    memcpy(own->pasts[own->operations++], own->others, sizeof own->others);
    if (words[0] == 'i' || words[0] == 'd') own->changes[own->changed++] = own->operations; /* ins, del */
    return own->operations;
}

/* Records an operation, or leaves all as it was, what is known of ids among it. */
static inline unsigned domepeeler_operation(struct domepeeler *d, int replica, const char *words, unsigned inserts,
                                            const char *const *response, size_t names, size_t known) {
    unsigned n = words ? domepeeler_line(d, replica, words, inserts, response, names) : 0;
    if (!n) domepeeler_forget(d, known);
    return n;
}

static inline unsigned domepeeler_insert_now(struct domepeeler *d, int replica, const char *name, long long position,
                                             const char *const *response, size_t names) {
    char words[80];
    size_t known = d->known;
    if (!domepeeler_goes_on(d) || !domepeeler_acts(d, replica) || !(name = domepeeler_name(d, name))) return 0;
    int is_right = position >= 0 && position <= DOMEPEELER_POSITION;
    if (!is_right)
        domepeeler_refuse(d, 0, "position %lld is not a whole number from 0 to %lld", position, DOMEPEELER_POSITION);
    snprintf(words, sizeof words, "ins %s %lld", name, position);
    return domepeeler_answered(d, domepeeler_operation(d, replica, is_right ? words : NULL, 1, response, names, known));
}

static inline unsigned domepeeler_delete_now(struct domepeeler *d, int replica, const char *name, const char *const *response,
                                             size_t names) {
    char words[80];
    size_t known = d->known;
    if (!domepeeler_goes_on(d) || !domepeeler_acts(d, replica) || !(name = domepeeler_name(d, name))) return 0;
    snprintf(words, sizeof words, "del %s", name);
    return domepeeler_answered(d, domepeeler_operation(d, replica, words, 0, response, names, known));
}

static inline unsigned domepeeler_read_now(struct domepeeler *d, int replica, const char *const *response, size_t names) {
    if (!domepeeler_goes_on(d) || !domepeeler_acts(d, replica)) return 0;
    return domepeeler_answered(d, domepeeler_operation(d, replica, "read", 0, response, names, d->known));
}

static inline unsigned domepeeler_view_now(struct domepeeler *d, int replica, const char *const *part, size_t names) {
    if (!domepeeler_goes_on(d) || !domepeeler_acts(d, replica)) return 0;
    unsigned n = domepeeler_operation(d, replica, "view", 0, part, names, d->known);
    if (n) d->text[strlen("trace ")] = '2';
    return domepeeler_answered(d, n);
}

/* Writes a receipt that may be written. */
static inline unsigned domepeeler_receipt(struct domepeeler *d, int replica, int author, long long n) {
    if (!domepeeler_room(d, replica)) return 0;
    struct domepeeler_replica *own = &d->of[replica];
    char line[64];
    snprintf(line, sizeof line, "%d recv %d %lld\n", replica, author, n);
    if (!domepeeler_grow(d, strlen(line)) || !domepeeler_keep_caller(d)) return domepeeler_refuse(d, 0, "no memory");
    domepeeler_put(d, line);
    d->is_new = 1;
    own->entries += 1;
    for (int other = 0; other < d->replicas && d->only < 0; other++) {
        unsigned seen = other == author ? (unsigned)n : d->of[author].pasts[n - 1][other];
        if (seen > own->others[other]) own->others[other] = seen;
    }
    return 1;
}

/* What has come by now is open no more. Answers what was said. */
static inline unsigned domepeeler_close_open(struct domepeeler *d, int replica, unsigned said) {
    for (int author = 0; author < d->replicas && said; author++) {
        struct domepeeler_open *open = &d->open[replica][author];
        if (open->n <= d->of[replica].others[author] && !open->stays) open->n = 0;
    }
    return said;
}

static inline unsigned domepeeler_received_now(struct domepeeler *d, int replica, int author, long long n) {
    if (!domepeeler_goes_on(d) || !domepeeler_acts(d, replica) || !domepeeler_known(d, author)) return 0;
    if (n < 1 || n > DOMEPEELER_POSITION)
        return domepeeler_refuse(d, 0, "operation number %lld is not a whole number from 1 to %lld", n,
                                 DOMEPEELER_POSITION);
    if (author == replica) return domepeeler_refuse(d, 0, "replica %d receives no operation of its own", replica);
    unsigned have = d->of[author].operations;
    if (n > have && d->only < 0)
        return domepeeler_refuse(d, 0, "%d.%lld cannot have arrived: replica %d has %u operations so far", author, n,
                                 author, have);
    return domepeeler_close_open(d, replica, domepeeler_receipt(d, replica, author, n));
}

/* The receipts that the replica lacks, each of the last change of an author, and a read of its list. Answers the read's number. */
static inline unsigned domepeeler_delivered_at(struct domepeeler *d, int replica, const char *const *list, size_t names) {
    for (int author = 0; author < d->replicas; author++) {
        const struct domepeeler_replica *of = &d->of[author];
        unsigned last = of->changed ? of->changes[of->changed - 1] : 0;
        if (author != replica && last > d->of[replica].others[author] && !domepeeler_receipt(d, replica, author, last)) return 0;
    }
    return domepeeler_line(d, replica, "read", 0, list, names);
}

/* Room for the lines of one more call of domepeeler_delivered(); it doubles where the calls so far are a power of two. */
static inline int domepeeler_one_more_delivery(struct domepeeler *d) {
    if (d->delivered & (d->delivered - 1)) return 1;
    void *deliveries = realloc(d->deliveries, (d->delivered ? 2 * d->delivered : 1) * sizeof *d->deliveries);
    if (deliveries) d->deliveries = (size_t(*)[2])deliveries;
    return deliveries != NULL;
}

static inline unsigned domepeeler_delivered_now(struct domepeeler *d, const char *const *const *lists, const size_t *names, size_t count) {
    struct domepeeler_replica before[DOMEPEELER_REPLICAS];
    size_t length = d->length, known = d->known, called = d->called, first = domepeeler_lines_now(d) + 1;
    if (!domepeeler_goes_on(d)) return 0;
    if (d->only >= 0)
        return domepeeler_refuse(d, 0, "one replica's log can't say that everything has arrived: the others are recorded elsewhere");
    if (count != (size_t)d->replicas)
        return domepeeler_refuse(d, 0, "delivered takes one list for each of the %d replicas, not %zu", d->replicas, count);
    if (!domepeeler_one_more_delivery(d)) return domepeeler_refuse(d, 0, "no memory");
    memcpy(before, d->of, sizeof before);
    unsigned is_said = 1;
    for (int replica = 0; replica < d->replicas && is_said; replica++)
        is_said = domepeeler_delivered_at(d, replica, lists[replica], names[replica]) > 0;
    for (int replica = 0; replica < d->replicas && !is_said; replica++) { /* what was said is taken back; the room stays */
        struct domepeeler_replica *own = &d->of[replica], now = *own;
        *own = before[replica];
        own->changes = now.changes;
        own->pasts = now.pasts;
        own->room = now.room;
    }
    if (is_said) {
        for (int replica = 0; replica < d->replicas; replica++) /* what is open stays so, though it counts as arrived */
            for (int author = 0; author < d->replicas; author++)
                d->open[replica][author].stays = d->open[replica][author].n > 0;
        d->deliveries[d->delivered][0] = first;
        d->deliveries[d->delivered++][1] = domepeeler_lines_now(d);
        return domepeeler_answered(d, 1);
    }
    d->text[d->length = length] = 0;
    domepeeler_forget(d, known);
    domepeeler_forget_callers(d, called);
    return 0;
}

static inline unsigned domepeeler_note_now(struct domepeeler *d, const char *text) {
    const unsigned char *at = (const unsigned char *)text;
    int is_right = at && *at;
    for (size_t letters = 0; is_right && *at; letters++)
        is_right = letters < DOMEPEELER_LETTERS && domepeeler_is_printable(domepeeler_letter(&at));
    if (!is_right)
        return domepeeler_fail(d, "a note is one line of 1 to %d printable characters", DOMEPEELER_LETTERS);
    if (d->noted == DOMEPEELER_NOTES) return domepeeler_fail(d, "a recording has %d notes, the most that it takes", DOMEPEELER_NOTES);
    char *note = (char *)malloc(strlen(text) + 1);
    if (!note) return domepeeler_refuse(d, 0, "no memory");
    strcpy(note, text);
    d->notes[d->noted++] = note;
    return 1;
}

/* How many of the replica's inserts and deletes are among its first operations, so many of them. */
static inline unsigned domepeeler_up_to(const struct domepeeler_replica *of, unsigned operations) {
    unsigned low = 0, high = of->changed;
    while (low < high) {
        unsigned middle = low + (high - low) / 2;
        if (of->changes[middle] <= operations) low = middle + 1;
        else high = middle;
    }
    return low;
}

/* How many operations of another replica, or of itself, the replica has. */
static inline unsigned domepeeler_has(const struct domepeeler *d, int replica, int other) {
    return other == replica ? d->of[replica].operations : d->of[replica].others[other];
}

static inline unsigned domepeeler_in_one_recording(struct domepeeler *d) {
    if (d->only < 0) return 1;
    return domepeeler_refuse(d, 0, "one replica's log does not know the changes of the others: send each operation's number, "
                                   "and call received");
}

static inline unsigned domepeeler_clock_now(struct domepeeler *d, int replica, unsigned *clock) {
    size_t refused = d->refused;
    unsigned is_told = domepeeler_acts(d, replica) && domepeeler_in_one_recording(d);
    d->refused = refused; /* nothing was to be recorded, so nothing is lost */
    if (!is_told) return 0;
    for (int other = 0; other < d->replicas; other++)
        clock[other] = domepeeler_up_to(&d->of[other], domepeeler_has(d, replica, other));
    return 1;
}

static inline unsigned domepeeler_check_clock(struct domepeeler *d, const unsigned *clock, size_t counts) {
    if (!domepeeler_in_one_recording(d)) return 0;
    if (counts != (size_t)d->replicas) return domepeeler_refuse(d, 0, "a clock has a count for each of %d replicas", d->replicas);
    for (int other = 0; other < d->replicas; other++)
        if (clock[other] > d->of[other].changed)
            return domepeeler_refuse(d, 0, "the clock counts %u changes of replica %d, which has recorded %u", clock[other], other,
                                     d->of[other].changed);
    return 1;
}

/* A change that is not causal is refused. It stays open until it has come, otherwise than by domepeeler_delivered(). Answers 0. */
static inline unsigned domepeeler_leave_open(struct domepeeler *d, int replica, int author, unsigned n, int other, unsigned lacking) {
    struct domepeeler_open *open = &d->open[replica][author];
    if (n >= open->n) {
        open->n = n;
        open->other = other;
        open->lacking = lacking;
    }
    return domepeeler_refuse(d, 0, DOMEPEELER_NOT_CAUSAL, author, n, replica, other, lacking, author, other, lacking,
                             domepeeler_more(author, other));
}

/* The replica has, or gets with the carried changes, which are the author's from the first one on, all that the author had seen at
 * its operation n. */
static inline unsigned domepeeler_check_causal(struct domepeeler *d, int replica, int author, unsigned n, const unsigned *clock,
                                               unsigned first) {
    for (int other = 0; other < d->replicas; other++) {
        const struct domepeeler_replica *of = &d->of[other];
        unsigned seen = domepeeler_up_to(of, other == author ? n - 1 : d->of[author].pasts[n - 1][other]);
        unsigned lacking = domepeeler_up_to(of, domepeeler_has(d, replica, other));
        if (clock[other] > seen) seen = clock[other];
        if (lacking < seen && (other != author || of->changes[lacking] < first))
            return domepeeler_leave_open(d, replica, author, n, other, of->changes[lacking]);
    }
    return 1;
}

static inline unsigned domepeeler_received_clock_now(struct domepeeler *d, int replica, int author, const unsigned *clock, size_t counts,
                                                     unsigned changes) {
    if (!domepeeler_goes_on(d) || !domepeeler_acts(d, replica) || !domepeeler_known(d, author)) return 0;
    if (author == replica) return domepeeler_refuse(d, 0, "replica %d receives no operation of its own", replica);
    if (!domepeeler_check_clock(d, clock, counts)) return 0;
    unsigned most = clock[author], *own = d->of[author].changes, have = domepeeler_has(d, replica, author);
    if (!most) return domepeeler_refuse(d, 0, "this is an update of replica %d, but its clock counts no change of replica %d", author, author);
    if (changes < 1 || changes > most)
        return domepeeler_refuse(d, 0, "an update carries 1 to %u of the changes that its clock counts, not %u", most, changes);
    for (unsigned i = most - changes; i < most; i++)
        if (own[i] > have && !domepeeler_check_causal(d, replica, author, own[i], clock, own[most - changes]))
            return 0;
    return own[most - 1] > have ? domepeeler_close_open(d, replica, domepeeler_receipt(d, replica, author, own[most - 1])) : 1;
}

/* A name that stands in the text. */
struct domepeeler_span {
    const char *at;
    size_t length;
};

static inline int domepeeler_compare(const void *one, const void *two) {
    const struct domepeeler_span *first = (const struct domepeeler_span *)one, *second = (const struct domepeeler_span *)two;
    int order = memcmp(first->at, second->at, first->length < second->length ? first->length : second->length);
    return order ? order : (first->length > second->length) - (first->length < second->length);
}

/* A receipt of author.n, or the delete n of the name by the author, in this line. */
struct domepeeler_event {
    int author;
    unsigned n;
    size_t line;
    struct domepeeler_span name;
};

/* What the entries of one replica in the text say: its operations; the lines of its changes; whether it has receipts; the names of the list
 * that it showed last, which a view is not, or NULL, and the number of that operation; which receipts came since, whether a view
 * follows them, and whether they bring changes. */
struct domepeeler_entries {
    unsigned operations, changed, since, last;
    int is_receiving, is_viewed, is_late;
    size_t *lines;
    struct domepeeler_event *arrived;
    const char *shown;
};

/* What warnings are made of. */
struct domepeeler_warned {
    const struct domepeeler *d;
    struct domepeeler_words *said;
    struct domepeeler_entries of[DOMEPEELER_REPLICAS];
    struct domepeeler_span *inserted, *shown; /* shown: the names of the lists that replicas showed last, one list behind the other */
    struct domepeeler_event *deletes;
    size_t *lines, inserts, deleted, ends;
    struct domepeeler_event *arrived;
    struct domepeeler_words past_end; /* inserts past the end of a list, of which there are so many ends */
};

/* What stands before the word number i of so many that are joined. */
static inline const char *domepeeler_joint(size_t i, size_t count) { return i == 0 ? "" : i + 1 == count ? " and " : ", "; }

static inline const char *domepeeler_plural(size_t count) { return count == 1 ? "" : "s"; }

/* Says the number of a line, and behind a comma its place in your code, where that is known. */
static inline void domepeeler_say_line(const struct domepeeler *d, struct domepeeler_words *said, size_t line) {
    char room[4096];
    const struct domepeeler_caller *caller = domepeeler_caller_of(d, line);
    domepeeler_say(said, caller ? "%zu, " : "%zu", line);
    if (caller) domepeeler_say_place(said, caller, domepeeler_here(room, sizeof room));
}

/* Says the changes, the first of them by name with their lines, or with those `in ` which they came, and how many more there are. */
static inline void domepeeler_say_changes(const struct domepeeler *d, struct domepeeler_words *said, const char *in,
                                          const struct domepeeler_event *changes, size_t count) {
    size_t most = DOMEPEELER_CHANGES, told = count < most ? count : most, words = told + (count > told);
    for (size_t i = 0; i < told; i++) {
        domepeeler_say(said, "%s%d.%u (%sline ", domepeeler_joint(i, words), changes[i].author, changes[i].n, in);
        domepeeler_say_line(d, said, changes[i].line);
        domepeeler_say(said, ")");
    }
    if (count > told) domepeeler_say(said, " and %zu more", count - told);
}

/* Reads an operation's entry. */
static inline void domepeeler_read_operation(struct domepeeler_warned *w, int replica, const char *kind, size_t line) {
    struct domepeeler_entries *own = &w->of[replica];
    const char *name = strchr(kind, ' ') + 1, *colon = strchr(kind, ':'), *end = strchr(kind, '\n');
    struct domepeeler_event event = {replica, ++own->operations, line, {name, strcspn(name, " ")}};
    own->is_viewed = *kind == 'v';
    if (!own->is_viewed) own->shown = colon + 1, own->since = 0, own->last = own->operations;
    if (*kind != 'i' && *kind != 'd') return; /* ins, del */
    own->lines[own->changed++] = line;
    if (*kind == 'd') {
        w->deletes[w->deleted++] = event;
        return;
    }
    w->inserted[w->inserts++] = event.name;
    long long before = -1, position = atoll(event.name.at + event.name.length);
    for (const char *letter = colon; letter < end; letter++) before += *letter == ' ';
    if (position <= before || w->ends++ >= DOMEPEELER_TOLD) return;
    domepeeler_say(&w->past_end, "line %zu, %d.%u: replica %d inserted %.*s at position %lld, past the end of a list of length %lld, so it "
                                 "counts as the end: is position %lld right?\n", line, replica, event.n, replica,
                   (int)event.name.length, event.name.at, position, before, position);
}

static inline void domepeeler_read_entries(struct domepeeler_warned *w) {
    const char *at = strchr(strchr(w->d->text, '\n') + 1, '\n') + 1;
    for (size_t line = DOMEPEELER_HEAD + 1; *at; line++, at = strchr(at, '\n') + 1) {
        char *kind;
        int replica = (int)strtol(at, &kind, 10);
        struct domepeeler_entries *own = &w->of[replica];
        if (strncmp(++kind, "recv", 4)) {
            domepeeler_read_operation(w, replica, kind, line);
            continue;
        }
        int author = (int)strtol(kind + 4, &kind, 10);
        struct domepeeler_event event = {author, (unsigned)strtoul(kind, NULL, 10), line, {NULL, 0}};
        own->is_receiving = 1;
        own->is_viewed = 0;
        own->arrived[own->since++] = event;
    }
}

/* The changes that never arrived at the replica, the first of them in the order of the text; none of an author of which it never hears.
 * Answers how many there are. */
static inline size_t domepeeler_lacked(const struct domepeeler_warned *w, int replica, struct domepeeler_event *first) {
    unsigned next[DOMEPEELER_REPLICAS];
    size_t count = 0;
    for (int author = 0; author < w->d->replicas; author++) {
        const struct domepeeler_replica *of = &w->d->of[author];
        next[author] = author == replica ? 0 : domepeeler_up_to(of, w->d->of[replica].others[author]);
        if (!next[author]) next[author] = of->changed;
        count += of->changed - next[author];
    }
    for (size_t told = 0; told < count && told < DOMEPEELER_CHANGES; told++) {
        int least = -1;
        for (int author = 0; author < w->d->replicas; author++)
            if (next[author] < w->d->of[author].changed &&
                (least < 0 || w->of[author].lines[next[author]] < w->of[least].lines[next[least]])) least = author;
        first[told].author = least;
        first[told].n = w->d->of[least].changes[next[least]];
        first[told].line = w->of[least].lines[next[least]++];
    }
    return count;
}

/* Whether what two replicas lack is told alike. */
static inline int domepeeler_lack_alike(const struct domepeeler_event *one, const struct domepeeler_event *two, size_t count) {
    for (size_t i = 0; i < count && i < DOMEPEELER_CHANGES; i++)
        if (one[i].line != two[i].line) return 0;
    return 1;
}

/* Says what never arrived at which replicas, and which these are. Answers how many changes that are, where it is one, and else more. */
static inline size_t domepeeler_say_lacked(const struct domepeeler_warned *w, struct domepeeler_words *never, int *lacks) {
    struct domepeeler_event first[DOMEPEELER_REPLICAS][DOMEPEELER_CHANGES];
    size_t counts[DOMEPEELER_REPLICAS], told = 0, all = 0;
    int like[DOMEPEELER_REPLICAS], alike[DOMEPEELER_REPLICAS]; /* of each the first one that lacks the same; of this, how many do */
    for (int i = 0; i < w->d->replicas; i++) {
        counts[i] = w->d->of[i].operations ? domepeeler_lacked(w, i, first[i]) : 0;
        like[i] = 0;
        while (like[i] < i && (like[like[i]] != like[i] || counts[like[i]] != counts[i] || !domepeeler_lack_alike(first[like[i]], first[i], counts[i])))
            like[i]++;
        alike[i] = 0;
        alike[like[i]]++;
        all += like[i] == i ? counts[i] : 0;
        lacks[i] = counts[i] > 0;
    }
    for (int i = 0; i < w->d->replicas; i++) {
        size_t said = 0;
        if (!counts[i] || like[i] != i) continue;
        domepeeler_say(never, "%s", told++ ? "; " : "");
        domepeeler_say_changes(w->d, never, "", first[i], counts[i]);
        domepeeler_say(never, " never arrived at replica%s ", domepeeler_plural((size_t)alike[i]));
        for (int other = i; other < w->d->replicas; other++)
            if (like[other] == i) domepeeler_say(never, "%s%d", domepeeler_joint(said++, (size_t)alike[i]), other);
    }
    return all;
}

/* Sorts the names behind the colon of a response, each once, into the room. Answers how many they are. */
static inline size_t domepeeler_set(const char *shown, struct domepeeler_span *names) {
    size_t count = 0, once = 0;
    for (; *shown == ' '; shown += names[count++].length) {
        names[count].at = ++shown;
        names[count].length = strcspn(shown, " \n");
    }
    qsort(names, count, sizeof *names, domepeeler_compare);
    for (size_t i = 0; i < count; i++)
        if (!once || domepeeler_compare(&names[once - 1], &names[i])) names[once++] = names[i];
    return once;
}

/* Puts into `like` for each replica the first one whose last list has the same names, or -1 where it showed none, or is late. Answers how many lists
 * there are. */
static inline size_t domepeeler_alike(const struct domepeeler_warned *w, int *like) {
    struct domepeeler_span *sets[DOMEPEELER_REPLICAS], *room = w->shown;
    size_t counts[DOMEPEELER_REPLICAS], lists = 0;
    for (int i = 0; i < w->d->replicas; i++) {
        like[i] = -1;
        if (!w->of[i].shown || w->of[i].is_late) continue;
        sets[i] = room;
        counts[i] = domepeeler_set(w->of[i].shown, sets[i]);
        room += counts[i];
        like[i] = i;
        for (int other = i - 1; other >= 0; other--) {
            if (like[other] != other || counts[other] != counts[i]) continue;
            size_t same = 0;
            while (same < counts[i] && !domepeeler_compare(&sets[other][same], &sets[i][same])) same++;
            if (same == counts[i]) like[i] = other;
        }
        lists += like[i] == i;
    }
    return lists;
}

/* Says the replicas whose list is like that of this one; those that showed a list, where it is -1. Answers how many they are. */
static inline size_t domepeeler_say_alike(const struct domepeeler_warned *w, struct domepeeler_words *said, const int *like, int one) {
    size_t count = 0, told = 0;
    for (int i = 0; i < w->d->replicas; i++) count += like[i] >= 0 && (one < 0 || like[i] == one);
    for (int i = 0; i < w->d->replicas; i++)
        if (like[i] >= 0 && (one < 0 || like[i] == one)) domepeeler_say(said, "%s%d", domepeeler_joint(told++, count), i);
    return count;
}

/* Of which replicas with changes one that did something never heard. Answers how many they are. */
static inline size_t domepeeler_unheard(const struct domepeeler_warned *w, int replica, int *others) {
    size_t count = 0;
    for (int author = 0; author < w->d->replicas && w->d->of[replica].operations; author++) {
        const struct domepeeler_replica *of = &w->d->of[author];
        if (author != replica && of->changed && of->changes[0] > w->d->of[replica].others[author]) others[count++] = author;
    }
    return count;
}

/* Whether the last lists that replicas showed differ as sets, and which changes never arrived at which replica. */
static inline void domepeeler_say_different(const struct domepeeler_warned *w) {
    struct domepeeler_words never = {NULL, 0, 0, 0}, none = {NULL, 0, 0, 0};
    int like[DOMEPEELER_REPLICAS], lacks[DOMEPEELER_REPLICAS], is_apart = 0;
    size_t count = domepeeler_say_lacked(w, &never, lacks), groups = 0, told = 0;
    const char *lost = count == 1 ? "Unless it was still on its way, it was lost or is held back" : "Unless they were still on their way, they were lost or are held back";
    w->said->is_short |= never.is_short;
    if (domepeeler_alike(w, like) > 1) {
        domepeeler_say(w->said, "the last lists of replicas ");
        domepeeler_say_alike(w, w->said, like, -1);
        for (int i = 0; i < w->d->replicas; i++) groups += like[i] == i && domepeeler_say_alike(w, &none, like, i) > 1;
        domepeeler_say(w->said, " differ");
        for (int i = 0; i < w->d->replicas; i++) {
            if (like[i] != i || domepeeler_say_alike(w, &none, like, i) < 2) continue;
            domepeeler_say(w->said, "%s", told ? "; " : " (");
            domepeeler_say_alike(w, w->said, like, i);
            domepeeler_say(w->said, " show the same one%s", ++told == groups ? ")" : "");
        }
        for (int i = 0; i < w->d->replicas; i++) is_apart |= lacks[i] && like[i] < 0;
        if (count) domepeeler_say(w->said, is_apart ? "\nin this recording %s. %s" : ": %s in this recording. %s", never.text ? never.text : "", lost);
        domepeeler_say(w->said, "\n");
    } else if (count) {
        domepeeler_say(w->said, "in this recording %s. %s\n", never.text ? never.text : "", lost);
    }
    free(never.text);
    free(none.text);
}

/* Of replicas that did something, and never heard of a change of another. */
static inline void domepeeler_say_unheard(const struct domepeeler_warned *w) {
    for (int i = 0; i < w->d->replicas; i++) {
        int others[DOMEPEELER_REPLICAS];
        size_t count = domepeeler_unheard(w, i, others);
        if (!count) continue;
        domepeeler_say(w->said, "replica %d never hears of replica%s ", i, domepeeler_plural(count));
        for (size_t k = 0; k < count; k++) domepeeler_say(w->said, "%s%d", domepeeler_joint(k, count), others[k]);
        domepeeler_say(w->said, ": no receipt brings it an insert or a delete from there, so nothing shows how it applies these. "
                                "At the end of a session let everyone receive everything, and then read the list\n");
    }
}

/* Of replicas whose last receipts bring changes, and are followed by no list that they show, or by a view alone. */
static inline void domepeeler_say_unshown(struct domepeeler_warned *w) {
    for (int i = 0; i < w->d->replicas; i++) {
        const struct domepeeler_replica *own = &w->d->of[i];
        struct domepeeler_entries *entries = &w->of[i];
        unsigned has[DOMEPEELER_REPLICAS] = {0}, news = 0;
        if (!own->operations) continue;
        if (entries->last) memcpy(has, own->pasts[entries->last - 1], sizeof has);
        has[i] = entries->last;
        for (unsigned k = 0; k < entries->since; k++) {
            struct domepeeler_event event = entries->arrived[k];
            int is_new = 0;
            for (int other = 0; other < w->d->replicas; other++) {
                unsigned seen = other == event.author ? event.n : w->d->of[event.author].pasts[event.n - 1][other];
                if (seen <= has[other]) continue;
                is_new |= domepeeler_up_to(&w->d->of[other], seen) > domepeeler_up_to(&w->d->of[other], has[other]);
                has[other] = seen;
            }
            if (is_new) entries->arrived[news++] = event;
        }
        if (!news) continue;
        entries->is_late = 1;
        domepeeler_say(w->said, "replica %d shows no list%s after it received ", i, entries->is_viewed ? " but a view" : "");
        domepeeler_say_changes(w->d, w->said, "in ", entries->arrived, news);
        domepeeler_say(w->said, ": let each replica read at the end\n");
    }
}

static inline void domepeeler_say_without_operation(const struct domepeeler_warned *w) {
    for (int i = 0; i < w->d->replicas; i++)
        if (!w->d->of[i].operations)
            domepeeler_say(w->said, "replica %d has %s: nothing that it showed is judged\n", i,
                           w->of[i].is_receiving ? "receipts, but no operation" : "no entry");
}

static inline void domepeeler_say_more(struct domepeeler_words *said, size_t count, const char *what, const char *which) {
    if (count <= DOMEPEELER_TOLD) return;
    count -= DOMEPEELER_TOLD;
    domepeeler_say(said, "and %zu more %s%s %s\n", count, what, domepeeler_plural(count), which);
}

/* Of deletes whose element is inserted nowhere. */
static inline void domepeeler_say_of_nothing(const struct domepeeler_warned *w) {
    size_t count = 0;
    qsort(w->inserted, w->inserts, sizeof *w->inserted, domepeeler_compare);
    for (size_t i = 0; i < w->deleted; i++) {
        const struct domepeeler_event *one = &w->deletes[i];
        if (bsearch(&one->name, w->inserted, w->inserts, sizeof *w->inserted, domepeeler_compare)) continue;
        if (count++ < DOMEPEELER_TOLD)
            domepeeler_say(w->said, "line %zu, %d.%u: replica %d deleted `%.*s`, which no line inserts, so nothing was there to "
                                    "delete: the name is wrong, or its insert was not recorded\n", one->line, one->author, one->n,
                           one->author, (int)one->name.length, one->name.at);
    }
    domepeeler_say_more(w->said, count, "delete", "of elements that no line inserts");
}

/* Room for what is read of so many entries, and of as many names in the lists that replicas showed last as they may have. */
static inline int domepeeler_warned_room(struct domepeeler_warned *w, size_t entries) {
    size_t names = 0, start = 0, most = DOMEPEELER_NAMES;
    for (int i = 0; i < w->d->replicas; i++) names += w->d->of[i].places < most ? w->d->of[i].places : most;
    w->inserted = (struct domepeeler_span *)malloc((entries + 1) * sizeof *w->inserted);
    w->shown = (struct domepeeler_span *)malloc((names + 1) * sizeof *w->shown);
    w->deletes = (struct domepeeler_event *)malloc((entries + 1) * sizeof *w->deletes);
    w->arrived = (struct domepeeler_event *)malloc((entries + 1) * sizeof *w->arrived);
    w->lines = (size_t *)malloc((entries + 1) * sizeof *w->lines);
    if (!w->inserted || !w->shown || !w->deletes || !w->arrived || !w->lines) return 0;
    for (int i = 0; i < w->d->replicas; i++) {
        w->of[i].lines = w->lines + start;
        w->of[i].arrived = w->arrived + start;
        start += w->d->of[i].entries;
    }
    return 1;
}

static inline char *domepeeler_warnings_now(struct domepeeler *d) {
    struct domepeeler_words said = {NULL, 0, 0, 0};
    struct domepeeler_warned w;
    size_t entries = domepeeler_lines_now(d) - DOMEPEELER_HEAD;
    if (d->only >= 0) {
        domepeeler_fail(d, "one replica's log is no recording: merge the logs first");
        return NULL;
    }
    domepeeler_say_refused(d, &said, "", "\n");
    if (!entries) domepeeler_say(&said, "nothing was recorded: the trace has no entry, so the verdict says nothing about your editor\n");
    if (!entries) return domepeeler_said(d, &said);
    memset(&w, 0, sizeof w);
    w.d = d;
    w.said = &said;
    if (domepeeler_warned_room(&w, entries)) {
        domepeeler_read_entries(&w);
        domepeeler_say_unshown(&w);
        domepeeler_say_different(&w);
        domepeeler_say_unheard(&w);
        domepeeler_say_without_operation(&w);
        domepeeler_say_of_nothing(&w);
        if (w.past_end.text) domepeeler_say(&said, "%s", w.past_end.text);
        domepeeler_say_more(&said, w.ends, "insert", "past the end of a list");
    } else {
        said.is_short = 1;
    }
    said.is_short |= w.past_end.is_short;
    free(w.inserted);
    free(w.shown);
    free(w.deletes);
    free(w.arrived);
    free(w.lines);
    free(w.past_end.text);
    return domepeeler_said(d, &said);
}

/* A file without a name that is read and written; -1 where there can be none. */
static inline int domepeeler_stream(void) {
    char path[4096];
    const char *folder = getenv("TMPDIR");
    if (!folder || !*folder || strlen(folder) > sizeof path / 2) folder = "/tmp";
    snprintf(path, sizeof path, "%s/", folder);
    size_t bytes = strlen(path);
    char *where = (char *)malloc(bytes + 1);
    if (!where) return -1;
    memcpy(where, path, bytes + 1);
    int file = domepeeler_new_file(path, sizeof path, where, bytes, 0600);
    free(where);
    if (file >= 0) unlink(path);
    return file;
}

/* All that stands in the file, for free(); NULL where it can't be read. */
static inline char *domepeeler_whole(int file) {
    off_t length = lseek(file, 0, SEEK_END);
    char *text = length < 0 || lseek(file, 0, SEEK_SET) ? NULL : (char *)malloc((size_t)length + 1);
    size_t have = 0;
    while (text && have < (size_t)length) {
        ssize_t more = read(file, text + have, (size_t)length - have);
        if (!more || (more < 0 && errno != EINTR)) break;
        if (more > 0) have += (size_t)more;
    }
    if (text) text[have] = 0;
    return text;
}

/* Begins the words, the first of which is the program, with these files as its three streams. Answers 0, or why they can't be run. */
static inline int domepeeler_begin(char *const *words, const int *files, pid_t *child) {
    posix_spawn_file_actions_t actions;
    int why = posix_spawn_file_actions_init(&actions);
    if (why) return why;
    for (int i = 0; i < 3 && !why; i++) why = posix_spawn_file_actions_adddup2(&actions, files[i], i);
    if (!why) why = posix_spawnp(child, words[0], &actions, NULL, words, environ);
    posix_spawn_file_actions_destroy(&actions);
    return why;
}

/* Begins the words so, waits for their end, and puts into the status how they ended. Answers 0, or why they can't be run, or -1 where how
 * they ended can't be learned. */
static inline int domepeeler_begin_and_wait(char *const *words, const int *files, int *status) {
    pid_t child;
    int why = domepeeler_begin(words, files, &child);
    if (why) return why;
    while (waitpid(child, status, 0) != child)
        if (errno != EINTR) return -1;
    return WIFEXITED(*status) && WEXITSTATUS(*status) == 127 ? ENOENT : 0; /* so says a system that finds out only in the child */
}

/* Begins or ends a time in which words are at work, in which the end of children is not ignored: where your program ignores SIGCHLD, the
 * system would forget how the words ended, and what they begin themselves. */
static inline void domepeeler_heed_children(int begins) {
#ifdef SA_NOCLDSTOP
    static pthread_mutex_t lock = PTHREAD_MUTEX_INITIALIZER;
    static unsigned running; /* in how many threads */
    static int is_ignored;
    static struct sigaction kept;
    pthread_mutex_lock(&lock);
    if (begins && !running++) {
        struct sigaction usual;
        memset(&usual, 0, sizeof usual);
        usual.sa_handler = SIG_DFL;
        is_ignored = !sigaction(SIGCHLD, NULL, &kept) && (kept.sa_handler == SIG_IGN || (kept.sa_flags & SA_NOCLDWAIT));
        if (is_ignored) sigaction(SIGCHLD, &usual, NULL);
    }
    if (!begins && !--running && is_ignored) sigaction(SIGCHLD, &kept, NULL);
    pthread_mutex_unlock(&lock);
#else
    (void)begins;
#endif
}

/* The same, heeding children. */
static inline int domepeeler_run(char *const *words, const int *files, int *status) {
    domepeeler_heed_children(1);
    int why = domepeeler_begin_and_wait(words, files, status), number = errno;
    domepeeler_heed_children(0);
    errno = number;
    return why;
}

/* Says how a program ended that printed nothing that is wanted. */
static inline void domepeeler_refuse_end(struct domepeeler *d, const char *program, int status, const char *why, const char *lacking) {
    char shown[200], told[200];
    program = domepeeler_escaped(program, shown, sizeof shown);
    why = domepeeler_escaped(why, told, sizeof told);
    if (WIFSIGNALED(status)) domepeeler_fail(d, "%s was ended by signal %d", program, WTERMSIG(status));
    else if (!*why)
        domepeeler_fail(d, "%s ended with status %d and printed no %s", program, WEXITSTATUS(status), lacking);
    else domepeeler_fail(d, "%s ended with status %d: %.160s", program, WEXITSTATUS(status), why);
}

/* Whether what is printed may be a report on this recording, as JSON or text: it counts its operations, and one that accepts comes with
 * status 0, any other with 1. What has no verdict is told of elsewhere. */
static inline int domepeeler_agrees(struct domepeeler *d, const char *report, int status) {
    char counted[40];
    unsigned operations = 0;
    int is_json = *report == '{', accepts = strstr(report, is_json ? "\"verdict\":\"accepted\"" : "\naccepted\n") != NULL;
    if (!(is_json ? strrchr(report, '}') && strstr(report, "\"verdict\":\"") : strchr(report, '\n') != NULL)) return 1;
    for (int i = 0; i < d->replicas; i++) operations += d->of[i].operations;
    snprintf(counted, sizeof counted, is_json ? "\"operations\":%u," : " operations %u ", operations);
    return status == !accepts && strstr(report, counted);
}

/* What the words print for this recording, with these files as the streams; NULL where that is not what is lacking then. */
static inline char *domepeeler_answer(struct domepeeler *d, const char *const *words, const int *files, const char *named,
                                      const char *lacking, char first) {
    char *given[DOMEPEELER_WORDS] = {NULL};
    int status = 0;
    for (size_t i = 0; words[i] && i < DOMEPEELER_WORDS - 1; i++) memcpy(&given[i], &words[i], sizeof *given); /* they are only read */
    int why = domepeeler_run(given, files, &status);
    char shown[200];
    domepeeler_escaped(words[0], shown, sizeof shown);
    if (why > 0) domepeeler_fail(d, "%s cannot be run (%s): set %s", shown, strerror(why), named);
    if (why < 0) domepeeler_fail(d, "how %s ended was not learned: %s", words[0], strerror(errno));
    if (why) return NULL;
    char *printed = WIFEXITED(status) && WEXITSTATUS(status) < 2 ? domepeeler_whole(files[1]) : NULL;
    if (printed && *printed && (!first || *printed == first)) {
        if (!first || domepeeler_agrees(d, printed, WEXITSTATUS(status))) return printed;
        domepeeler_fail(d, "%s ended with status %d and printed a report that is not on this recording", shown, WEXITSTATUS(status));
        free(printed);
        return NULL;
    }
    free(printed);
    char *said = domepeeler_whole(files[2]);
    if (said) said[strcspn(said, "\n")] = 0;
    domepeeler_refuse_end(d, words[0], status, said ? said : "", lacking);
    free(said);
    return NULL;
}

/* What the words print for this recording; free() it. NULL where they print nothing, or nothing that begins with this letter, if there
 * is one; that is what is lacking then. `named` says what to do where they can't be run. */
static inline char *domepeeler_ask(struct domepeeler *d, const char *const *words, const char *named, const char *lacking, char first) {
    if (d->only >= 0) {
        domepeeler_fail(d, "one replica's log is no recording: merge the logs first");
        return NULL;
    }
    int files[3];
    char *printed = NULL;
    for (int i = 0; i < 3; i++) files[i] = domepeeler_stream();
    int are_open = files[0] >= 0 && files[1] >= 0 && files[2] >= 0;
    if (are_open && domepeeler_put_out(files[0], d->text, d->length) && !lseek(files[0], 0, SEEK_SET))
        printed = domepeeler_answer(d, words, files, named, lacking, first);
    else
        domepeeler_fail(d, "no files for the program's streams: %s", strerror(errno));
    for (int i = 0; i < 3; i++)
        if (files[i] >= 0) close(files[i]);
    return printed;
}

/* The report, with what an accepted verdict may hide as its last key; both are freed. NULL without memory. */
static inline char *domepeeler_with_warnings(struct domepeeler *d, char *report, char *warnings) {
    struct domepeeler_words said = {NULL, 0, 0, 0};
    char *end = strrchr(report, '}');
    domepeeler_say(&said, "%.*s,\"warnings\":[", (int)(end - report), report);
    for (const char *at = warnings; *at; at++) {
        if (at == warnings || at[-1] == '\n') domepeeler_say(&said, "%s\"", at == warnings ? "" : ",");
        if (*at == '\n') domepeeler_say(&said, "\"");
        else domepeeler_say(&said, "%s%c", *at == '"' || *at == '\\' ? "\\" : "", *at);
    }
    domepeeler_say(&said, "]%s", end);
    free(report);
    free(warnings);
    return domepeeler_said(d, &said);
}

#ifdef DOMEPEELER_LINKED
/* What the program would print for this recording, by the library; free() it. NULL where there is no report. */
static inline char *domepeeler_linked(struct domepeeler *d, int is_json) {
    size_t room = 4096;
    for (char *report; (report = (char *)malloc(room + 1)) != NULL; free(report)) {
        struct domepeeler_end end = domepeeler_verdict(d->text, d->length, (uint32_t)is_json, report, room);
        report[end.length <= room ? end.length : 0] = 0;
        room = end.length;
        if (end.status == DOMEPEELER_END_NO_ROOM) continue;
        if (end.status <= DOMEPEELER_END_NOT_ACCEPTED && domepeeler_agrees(d, report, (int)end.status)) return report;
        domepeeler_fail(d, "libdomepeeler ended with status %u: %.160s", (unsigned)end.status, end.length ? report : end.line ? "a faulty line" : "memory");
        free(report);
        return NULL;
    }
    domepeeler_fail(d, "no memory");
    return NULL;
}
#endif

/* Whether the library judges: where it is linked, nobody names a program, the recording is no log of one replica, and this process was not
 * forked. */
static inline int domepeeler_is_linked(const struct domepeeler *d, const char *program) {
#ifdef DOMEPEELER_LINKED
    return (!program || !*program) && d->only < 0 && d->process == (long)getpid();
#else
    return (void)d, (void)program, 0;
#endif
}

/* What judges this recording: "libdomepeeler", or the program of this name, or of the environment's DOMEPEELER, or "domepeeler". */
static inline const char *domepeeler_judged_by(const struct domepeeler *d, const char *program) {
    if (!program) program = getenv("DOMEPEELER");
    return domepeeler_is_linked(d, program) ? "libdomepeeler" : program && *program ? program : "domepeeler";
}

/* The program's own report, as JSON; free() it. NULL where there is none. */
static inline char *domepeeler_report(struct domepeeler *d, const char *program) {
    if (!program) program = getenv("DOMEPEELER");
#ifdef DOMEPEELER_LINKED
    if (domepeeler_is_linked(d, program)) return domepeeler_linked(d, 1);
#endif
    if (!program || !*program) program = "domepeeler";
    const char *many[] = {program, "verdict", "--json", "-", NULL}, *few[] = {program, "verdict", "--workers", "1", "--json", "-", NULL};
    int is_short = domepeeler_lines_now(d) < DOMEPEELER_SHORT;
    char *report = domepeeler_ask(d, is_short ? few : many, "DOMEPEELER to the program's path", "report", '{');
    if (!report || (strrchr(report, '}') && strstr(report, "\"verdict\":\""))) return report;
    domepeeler_fail(d, "%s printed a report without a verdict", program);
    free(report);
    return NULL;
}

/* What is to be said beside a report: of one that passes what that may hide, and of any first whether calls were refused. For free(); NULL
 * where there is no answer. */
static inline char *domepeeler_beside(struct domepeeler *d, int is_passing) {
    struct domepeeler_words said = {NULL, 0, 0, 0};
    if (is_passing) return domepeeler_warnings_now(d);
    domepeeler_say_refused(d, &said, "", "\n");
    return domepeeler_said(d, &said);
}

static inline char *domepeeler_judge_now(struct domepeeler *d, const char *program) {
    char *report = domepeeler_report(d, program);
    if (!report) return NULL;
    char *warnings = domepeeler_beside(d, strstr(report, "\"verdict\":\"accepted\"") || strstr(report, "\"weak\":true"));
    if (warnings) d->is_new = 0;
    if (warnings) return domepeeler_with_warnings(d, report, warnings);
    free(report);
    domepeeler_fail(d, "no memory");
    return NULL;
}

/* Whether the recording passes: it is accepted, or with `is_weak` weak holds, and there is no warning. */
static inline unsigned domepeeler_passes_now(struct domepeeler *d, const char *program, int is_weak) {
    if (!program) program = getenv("DOMEPEELER");
    int is_linked = domepeeler_is_linked(d, program);
    if (!program || !*program) program = "domepeeler";
    const char *many[] = {program, "verdict", "-", NULL}, *few[] = {program, "verdict", "--workers", "1", "-", NULL};
    int is_short = domepeeler_lines_now(d) < DOMEPEELER_SHORT;
    char *report = NULL;
    if (!is_linked) report = domepeeler_ask(d, is_short ? few : many, "DOMEPEELER to the program's path", "report", 'r');
#ifdef DOMEPEELER_LINKED
    if (is_linked) report = domepeeler_linked(d, 0);
#endif
    if (!report) return 0;
    const char *verdict = strchr(report, '\n');
    if (verdict) d->is_new = 0;
    unsigned is_accepted = verdict && strncmp(verdict, "\naccepted\n", 10) == 0;
    unsigned holds = is_weak ? strstr(report, "\nweak yes\n") != NULL : is_accepted, is_weak_alone = !is_accepted;
    if (!verdict) domepeeler_fail(d, "%s printed a report without a verdict", program);
    else if (!holds) domepeeler_fail_by_line(d, verdict + 1);
    char *warnings = verdict ? domepeeler_beside(d, (int)holds) : NULL;
    free(report);
    if (warnings && *warnings) holds = domepeeler_fail_by_line(d, warnings);
    if (verdict && !warnings) domepeeler_fail(d, "no memory");
    holds = holds && warnings;
    if (holds && is_weak_alone) domepeeler_fail(d, "weak holds, strong doesn't");
    free(warnings);
    return holds;
}

/* The path, put into this room, of domepeeler-explain where it lies beside the program of the environment's DOMEPEELER; else the
 * command. */
static inline const char *domepeeler_beside_program(char *path, size_t room) {
    const char *command = "domepeeler-explain", *program = getenv("DOMEPEELER"), *slash = program ? strrchr(program, '/') : NULL;
    size_t folder = slash ? (size_t)(slash + 1 - program) : 0;
    struct stat about;
    if (!slash || folder + strlen(command) >= room) return command;
    memcpy(path, program, folder);
    strcpy(path + folder, command);
    return !stat(path, &about) && S_ISREG(about.st_mode) && !access(path, X_OK) ? path : command;
}

/* Whether what is said has this id's name, where that is a numbered one, as a word. */
static inline int domepeeler_is_told(const char *said, const struct domepeeler_id *one) {
    if (strcmp(one->id, one->name) == 0 || strncmp(one->name, "long", 4) || strchr(one->name, '-')) return 0;
    for (const char *at = strstr(said, one->name); at; at = strstr(at + 1, one->name)) {
        unsigned char before = at == said ? ' ' : (unsigned char)at[-1], behind = (unsigned char)at[strlen(one->name)];
        if (!isalnum(before) && !isalnum(behind)) return 1;
    }
    return 0;
}

/* The line of the trace that is named behind `line `, with something behind it that is no name; else 0. */
static inline size_t domepeeler_line_named(const char *said, const char *at) {
    char *end;
    unsigned char before = at == said ? ' ' : (unsigned char)at[-1];
    if (!isdigit((unsigned char)at[5]) || isalnum(before) || before == '_' || before > 127) return 0;
    size_t line = strtoul(at + 5, &end, 10);
    if ((*end && strchr(",):", *end)) || !strncmp(end, " of the trace,", 14)) return line;
    return !strncmp(end, " (", 2) && !strncmp(end + 2 + strspn(end + 2, "0123456789"), " recv ", 6) ? line : 0;
}

/* Says the places of the lines of the trace that are named in what is said, each once with all its lines. `named` has a zero for each line
 * of the text, and one more. */
static inline void domepeeler_say_named(const struct domepeeler *d, struct domepeeler_words *whole, const char *said, char *named) {
    char room[4096];
    const char *title = "\nIn your code\n", *here = domepeeler_here(room, sizeof room);
    size_t last = DOMEPEELER_HEAD + d->called;
    for (const char *at = strstr(said, "line "); at; at = strstr(at + 1, "line ")) {
        size_t line = domepeeler_line_named(said, at);
        if (domepeeler_caller_of(d, line)) named[line] = 1;
    }
    for (size_t first = DOMEPEELER_HEAD + 1; first <= last; first++) {
        size_t count = 0, told = 0;
        const struct domepeeler_caller *caller = domepeeler_caller_of(d, first), *other;
        if (!named[first]) continue;
        for (size_t line = first; line <= last; line++) {
            if (!named[line] || !(other = domepeeler_caller_of(d, line))) continue;
            if (other->line == caller->line && !strcmp(other->file, caller->file)) named[line] = 2, count++;
        }
        domepeeler_say(whole, "%s  line%s ", title, domepeeler_plural(count));
        for (size_t line = first; told < count; line++) {
            if (named[line] != 2) continue;
            domepeeler_say(whole, "%s%zu", domepeeler_joint(told++, count), line);
            named[line] = 0;
        }
        domepeeler_say(whole, ": ");
        domepeeler_say_place(whole, caller, here);
        domepeeler_say(whole, "\n");
        title = "";
    }
}

/* Says what is said, with the place behind each line that stands in brackets in what the verdict may hide. */
static inline void domepeeler_say_with_places(const struct domepeeler *d, struct domepeeler_words *whole, const char *said) {
    const char *title = "\nWhat this verdict may hide\n", *at = strstr(said, title), *end = at ? strstr(at + strlen(title), "\n\n") : NULL;
    for (at = at ? strstr(at, "line ") : NULL; at && (!end || at < end); at = strstr(at + 1, "line ")) {
        char *behind;
        int is_named = at[-1] == '(' || !strncmp(at - 4, "(in ", 4);
        size_t line = is_named && isdigit((unsigned char)at[5]) ? strtoul(at + 5, &behind, 10) : 0;
        if (!line || *behind != ')') continue;
        domepeeler_say(whole, "%.*s", (int)(at + 5 - said), said);
        domepeeler_say_line(d, whole, line);
        said = behind;
    }
    domepeeler_say(whole, "%s", said);
}

/* What is said, with the places of the lines in it, the ids of the numbered names in it, and the notes before its last section. */
static inline char *domepeeler_with_ids(struct domepeeler *d, char *said) {
    struct domepeeler_words whole = {NULL, 0, 0, 0};
    const char *title = "\nIds that were too long for a name\n";
    char *named = (char *)calloc(DOMEPEELER_HEAD + d->called + 1, 1), *last = strstr(said, "\nThe list specifications\n");
    if (last) *last = '\0';
    domepeeler_say_with_places(d, &whole, said);
    if (named) domepeeler_say_named(d, &whole, said, named);
    whole.is_short |= !named;
    free(named);
    for (size_t i = 0; i < d->known; i++) {
        const struct domepeeler_id *one = d->ids[i];
        if (!domepeeler_is_told(said, one)) continue;
        size_t bytes = 4 * strlen(one->id) + 5;
        char *shown = (char *)calloc(bytes, 1);
        if (shown) domepeeler_say(&whole, "%s  %s: %s\n", title, one->name, domepeeler_escaped(one->id, shown, bytes));
        whole.is_short |= !shown;
        free(shown);
        title = "";
    }
    for (size_t i = 0; i < d->noted; i++) {
        const char *note = d->notes[i];
        size_t first = domepeeler_command(note);
        domepeeler_say(&whole, "%s  %.*s", i ? "" : "\nYour notes\n", (int)first, note);
        if (note[first]) domepeeler_say(&whole, "\\x%02x%s", (unsigned char)note[first], note + first + 1);
        domepeeler_say(&whole, "\n");
    }
    if (last) domepeeler_say(&whole, "\n%s", last + 1);
    free(said);
    return domepeeler_said(d, &whole);
}

/* What the tool says; the goal is NULL, or what it is told of that. */
static inline char *domepeeler_explained(struct domepeeler *d, const char *explainer, const char *goal) {
    char path[4096], ranges[DOMEPEELER_DELIVERED][48];
    if (!explainer) explainer = getenv("DOMEPEELER_EXPLAIN");
    if (!explainer || !*explainer) explainer = domepeeler_beside_program(path, sizeof path);
    const char *words[DOMEPEELER_WORDS] = {explainer, "--language", "c"};
    struct domepeeler_words refused = {NULL, 0, 0, 0};
    size_t count = 3, first = d->delivered > DOMEPEELER_DELIVERED ? d->delivered - DOMEPEELER_DELIVERED : 0;
    for (size_t i = first; i < d->delivered; i++) {
        snprintf(ranges[i - first], sizeof *ranges, "%zu-%zu", d->deliveries[i][0], d->deliveries[i][1]);
        words[count++] = "--delivered";
        words[count++] = ranges[i - first];
    }
    if (goal) words[count++] = goal;
    domepeeler_say_refused(d, &refused, "", "\n");
    for (char *at = domepeeler_said(d, &refused); at && *at; at += strlen(at) + 1) {
        at[strcspn(at, "\n")] = 0;
        words[count++] = "--refused";
        words[count++] = at;
    }
    words[count] = "-";
    char *said = refused.is_short ? NULL : domepeeler_ask(d, words, "DOMEPEELER_EXPLAIN to the tool's path", "words", 0);
    free(refused.text);
    if (said) d->is_new = 0;
    return said ? domepeeler_with_ids(d, said) : NULL;
}

static inline char *domepeeler_explain_now(struct domepeeler *d, const char *explainer) {
    return domepeeler_explained(d, explainer, NULL);
}

static inline char *domepeeler_explain_weak_now(struct domepeeler *d, const char *explainer) {
    return domepeeler_explained(d, explainer, "--weak");
}

/* Keeps what is wrong with the session by this report. */
static inline void domepeeler_keep_wrong(struct domepeeler *d, const char *report) {
    const char *verdict = strstr(report, "\"verdict\":\"") + strlen("\"verdict\":\"");
    d->is_wrong = 1;
    d->wrong = domepeeler_explained(d, NULL, d->is_weak_enough ? "--weak" : NULL);
    if (!d->wrong) {
        struct domepeeler_words untold = {NULL, 0, 0, 0};
        domepeeler_say(&untold, "The recording is not accepted: %.*s. There is no explanation: %s", (int)strcspn(verdict, "\""), verdict, d->why);
        d->wrong = domepeeler_said(d, &untold);
    }
    for (size_t end = d->wrong ? strlen(d->wrong) : 0; end && d->wrong[end - 1] == '\n'; end--) d->wrong[end - 1] = 0;
}

/* What a call answers that takes a list and was to answer so much, when the session up to it is judged, where that is asked for. */
static inline unsigned domepeeler_answered(struct domepeeler *d, unsigned said) {
    if (!said || !d->stops) return said;
    char *report = domepeeler_report(d, NULL);
    if (!report) {
        d->is_stopping = 1; /* with the reason that is kept already */
        return 0;
    }
    int is_right = strstr(report, "\"verdict\":\"accepted\"") || (d->is_weak_enough && strstr(report, "\"weak\":true"));
    if (!is_right) domepeeler_keep_wrong(d, report);
    free(report);
    return is_right ? said : domepeeler_stop_by(d, domepeeler_stopped_now(d));
}

/* Waits until no other thread's call of this recording is under way, and keeps from where this one comes. */
static inline void domepeeler_enter(struct domepeeler *d, const char *file, int line) {
    pthread_mutex_lock(d->lock);
    d->file = file;
    d->line = line;
}

/* Ends the call that answers so much, and calls back where it was wrong: without the lock, as the call-back need not return. */
static inline unsigned domepeeler_leave(struct domepeeler *d, unsigned said) {
    char why[sizeof d->why];
    void (*call_back)(const char *words, void *data) = d->is_stopping ? d->call_back : NULL;
    void *data = d->data;
    const char *words = d->is_wrong ? domepeeler_stopped_now(d) : why;
    if (call_back) memcpy(why, d->why, sizeof why);
    d->is_stopping = 0;
    d->file = NULL;
    d->line = 0;
    pthread_mutex_unlock(d->lock);
    if (call_back) call_back(words, data);
    return said;
}

/* The calls below are for you. Each is whole before one of another thread on the same recording begins. */

/* Why this thread's last call that answered 0 or NULL did so; of NULL, why there is no recording. After domepeeler_passes_weak() answered 1
 * where strong fails, that weak holds. It stays until this thread's next call. */
static inline const char *domepeeler_why(const struct domepeeler *d) {
    struct domepeeler_reason *own = domepeeler_reason();
    if (!d) return "there is no recording: replicas are 1 to 16, a log is of one of them, and memory is needed";
    if (own->of == d) return own->why;
    pthread_mutex_lock(d->lock); /* another thread was told */
    memcpy(own->why, d->why, sizeof own->why);
    pthread_mutex_unlock(d->lock);
    return own->why;
}

/* Whether that was because a limit of traces is reached. Who asks this knows that the session ends there: else warnings say it. */
static inline int domepeeler_full(struct domepeeler *d) {
    if (!d) return 0;
    pthread_mutex_lock(d->lock);
    int is_full = d->full;
    d->is_limit_seen |= is_full;
    pthread_mutex_unlock(d->lock);
    return is_full;
}

/* The trace; of one replica's log the text that merge.py takes. It stays until the next call, also one of another thread: ask for it when no
 * other thread records. */
static inline const char *domepeeler_text(const struct domepeeler *d) {
    if (!d) return NULL;
    pthread_mutex_lock(d->lock);
    ((struct domepeeler *)(size_t)d)->is_new = 0; /* which is no part of what the text says */
    pthread_mutex_unlock(d->lock);
    return d->text;
}

/* How many lines the text has. A debugger's line N: if (domepeeler_lines(recording) == N) raise(SIGTRAP); */
static inline size_t domepeeler_lines(const struct domepeeler *d) {
    if (!d) return 0;
    pthread_mutex_lock(d->lock);
    size_t lines = domepeeler_lines_now(d);
    pthread_mutex_unlock(d->lock);
    return lines;
}

/* What is wrong with the session, if a call has stopped; else NULL. It stays until the recording is freed. */
static inline const char *domepeeler_stopped(const struct domepeeler *d) {
    if (!d) return NULL;
    pthread_mutex_lock(d->lock);
    const char *wrong = domepeeler_stopped_now(d);
    pthread_mutex_unlock(d->lock);
    return wrong;
}

/* The replica inserted the name at the position and then had this list. Answers the operation's number. */
DOMEPEELER_CHECKED static inline unsigned domepeeler_insert_from(const char *file, int line, struct domepeeler *d, int replica,
                                                                 const char *name, long long position, const char *const *response,
                                                                 size_t names) {
    if (!d) return 0;
    domepeeler_enter(d, file, line);
    return domepeeler_leave(d, domepeeler_insert_now(d, replica, name, position, response, names));
}

DOMEPEELER_CHECKED static inline unsigned domepeeler_insert(struct domepeeler *d, int replica, const char *name, long long position,
                                                            const char *const *response, size_t names) {
    return domepeeler_insert_from(NULL, 0, d, replica, name, position, response, names);
}

/* The replica deleted the name and then had this list. Answers the operation's number. */
DOMEPEELER_CHECKED static inline unsigned domepeeler_delete_from(const char *file, int line, struct domepeeler *d, int replica,
                                                                 const char *name, const char *const *response, size_t names) {
    if (!d) return 0;
    domepeeler_enter(d, file, line);
    return domepeeler_leave(d, domepeeler_delete_now(d, replica, name, response, names));
}

DOMEPEELER_CHECKED static inline unsigned domepeeler_delete(struct domepeeler *d, int replica, const char *name,
                                                            const char *const *response, size_t names) {
    return domepeeler_delete_from(NULL, 0, d, replica, name, response, names);
}

/* The replica read its list. Answers the operation's number. */
DOMEPEELER_CHECKED static inline unsigned domepeeler_read_from(const char *file, int line, struct domepeeler *d, int replica,
                                                               const char *const *response, size_t names) {
    if (!d) return 0;
    domepeeler_enter(d, file, line);
    return domepeeler_leave(d, domepeeler_read_now(d, replica, response, names));
}

DOMEPEELER_CHECKED static inline unsigned domepeeler_read(struct domepeeler *d, int replica, const char *const *response, size_t names) {
    return domepeeler_read_from(NULL, 0, d, replica, response, names);
}

/* The replica showed this part of its list, the window of an editor say. Answers the operation's number. */
DOMEPEELER_CHECKED static inline unsigned domepeeler_view_from(const char *file, int line, struct domepeeler *d, int replica,
                                                               const char *const *part, size_t names) {
    if (!d) return 0;
    domepeeler_enter(d, file, line);
    return domepeeler_leave(d, domepeeler_view_now(d, replica, part, names));
}

DOMEPEELER_CHECKED static inline unsigned domepeeler_view(struct domepeeler *d, int replica, const char *const *part, size_t names) {
    return domepeeler_view_from(NULL, 0, d, replica, part, names);
}

/* The author's operation n, and with it all that the author had seen by then, was applied at the replica. Answers 1. */
DOMEPEELER_CHECKED static inline unsigned domepeeler_received_from(const char *file, int line, struct domepeeler *d, int replica,
                                                                   int author, long long n) {
    if (!d) return 0;
    domepeeler_enter(d, file, line);
    return domepeeler_leave(d, domepeeler_received_now(d, replica, author, n));
}

DOMEPEELER_CHECKED static inline unsigned domepeeler_received(struct domepeeler *d, int replica, int author, long long n) {
    return domepeeler_received_from(NULL, 0, d, replica, author, n);
}

/* How many inserts and deletes of each replica this one has, one count for each: the vector clock of an update that it makes now.
 * Answers 1. */
DOMEPEELER_CHECKED static inline unsigned domepeeler_clock(struct domepeeler *d, int replica, unsigned *clock) {
    if (!d) return 0;
    domepeeler_enter(d, NULL, 0);
    return domepeeler_leave(d, domepeeler_clock_now(d, replica, clock));
}

/* The author's update with this vector clock was applied at the replica: it carries the last of the author's changes that the clock
 * counts, or so many of the last. The clock has for each replica how many of its inserts and deletes the author had seen, its own
 * with the carried ones among them. Writes the receipt, unless the replica has it already. Answers 1. */
DOMEPEELER_CHECKED static inline unsigned domepeeler_received_clock_from(const char *file, int line, struct domepeeler *d, int replica,
                                                                         int author, const unsigned *clock, size_t counts,
                                                                         unsigned changes) {
    if (!d) return 0;
    domepeeler_enter(d, file, line);
    return domepeeler_leave(d, domepeeler_received_clock_now(d, replica, author, clock, counts, changes));
}

DOMEPEELER_CHECKED static inline unsigned domepeeler_received_clock(struct domepeeler *d, int replica, int author, const unsigned *clock,
                                                                    size_t counts, unsigned changes) {
    return domepeeler_received_clock_from(NULL, 0, d, replica, author, clock, counts, changes);
}

/* By now everything has arrived everywhere, and each replica, from 0 upward, shows its list of these, which has so many names; count is
 * the number of lists. Writes for each replica the receipts that are missing, and a read. So a change that an editor has lost, or still
 * holds back, is `contents` there. The recording keeps which lines it wrote. Answers 1. */
DOMEPEELER_CHECKED static inline unsigned domepeeler_delivered_from(const char *file, int line, struct domepeeler *d,
                                                                    const char *const *const *lists, const size_t *names, size_t count) {
    if (!d) return 0;
    domepeeler_enter(d, file, line);
    return domepeeler_leave(d, domepeeler_delivered_now(d, lists, names, count));
}

DOMEPEELER_CHECKED static inline unsigned domepeeler_delivered(struct domepeeler *d, const char *const *const *lists, const size_t *names,
                                                               size_t count) {
    return domepeeler_delivered_from(NULL, 0, d, lists, names, count);
}

/* Keeps a word of yours, in UTF-8, on the whole recording, such as the seed of a random session: domepeeler_save() writes it, and
 * domepeeler_explain() names it. Answers 1. */
DOMEPEELER_CHECKED static inline unsigned domepeeler_note(struct domepeeler *d, const char *text) {
    if (!d) return 0;
    domepeeler_enter(d, NULL, 0);
    return domepeeler_leave(d, domepeeler_note_now(d, text));
}

/* From now on the session is judged after each call that takes a list. The first after which it is not accepted, or with is_weak, weak
 * doesn't hold, answers 0; its line is recorded. The call-back, unless it is NULL, gets the words of domepeeler_explain() in that call, and
 * may end the program, or in C++ throw; domepeeler_stopped() keeps them. Later calls that record do the same, and record nothing. Where the
 * program can't be run, each such call answers 0, calls back with the reason, and keeps nothing but domepeeler_why(). Answers 1; 0 of one
 * replica's log. */
DOMEPEELER_CHECKED static inline unsigned domepeeler_stop(struct domepeeler *d, int is_weak,
                                                          void (*call_back)(const char *words, void *data), void *data) {
    if (!d) return 0;
    domepeeler_enter(d, NULL, 0);
    return domepeeler_leave(d, domepeeler_stop_now(d, is_weak, call_back, data));
}

/* Writes the text into a file of this name; and first, into one with `.lines` behind the name, how many lines it has, so that the
 * tools notice where the end of the file is lost, the notes, which lines domepeeler_delivered() wrote, and from where in your code each
 * line was recorded. Each appears whole, or what stood there stays. A second recording that is saved under the same name takes the place of
 * the first, without a word: give each that you want to keep its own. A pipe or a device has no such file beside it. Answers 1. */
DOMEPEELER_CHECKED static inline unsigned domepeeler_save(struct domepeeler *d, const char *path) {
    if (!d) return 0;
    domepeeler_enter(d, NULL, 0);
    return domepeeler_leave(d, domepeeler_save_now(d, path));
}

/* What an accepted verdict on this recording may hide, a line each, for free(): a call that was refused (at a limit unless domepeeler_full()
 * was asked, and what was not causal unless it came later); a change that never arrived, a replica that shows nothing, a delete of what nothing
 * inserts. Empty where nothing is to be said; NULL where there is no answer. It asks no program, and takes time linear in the text. */
DOMEPEELER_CHECKED static inline char *domepeeler_warnings(struct domepeeler *d) {
    if (!d) return NULL;
    domepeeler_enter(d, NULL, 0);
    char *said = domepeeler_warnings_now(d);
    domepeeler_leave(d, 1);
    return said;
}

/* The report, as a line of JSON with its line feed, of the program on this recording; free() it. NULL where there is none. It has one more
 * key, `warnings`: a list of what the verdict may hide where it is accepted, or weak holds; of any other it says no more than whether calls
 * were refused. The program is that of the environment's DOMEPEELER, or domepeeler, where NULL is given. */
DOMEPEELER_CHECKED static inline char *domepeeler_judge(struct domepeeler *d, const char *program) {
    if (!d) return NULL;
    domepeeler_enter(d, NULL, 0);
    char *said = domepeeler_judge_now(d, program);
    domepeeler_leave(d, 1);
    return said;
}

/* Whether the recording passes: it is accepted, by the program's report, and no warning says what that may hide. Answers 1; else
 * domepeeler_why() has the first warning, such as that a call was refused, the verdict, or why there is none. The program is as for
 * domepeeler_judge(). */
DOMEPEELER_CHECKED static inline unsigned domepeeler_passes(struct domepeeler *d, const char *program) {
    if (!d) return 0;
    domepeeler_enter(d, NULL, 0);
    return domepeeler_leave(d, domepeeler_passes_now(d, program, 0));
}

/* Whether the recording passes where the editor promises the weak list specification alone: weak holds, by the program's report, and no
 * warning says what that may hide. Answers 1; else domepeeler_why() has the first warning, such as that a call was refused, the verdict, or
 * why there is none. The program is as for domepeeler_judge(). */
DOMEPEELER_CHECKED static inline unsigned domepeeler_passes_weak(struct domepeeler *d, const char *program) {
    if (!d) return 0;
    domepeeler_enter(d, NULL, 0);
    return domepeeler_leave(d, domepeeler_passes_now(d, program, 1));
}

/* What the report on this recording means, in words, with the lines of your code, and at the end the ids of the numbered names, and the
 * notes; free() it. Before them stands whether calls were refused. NULL where there is no answer. The tool is that of the environment's
 * DOMEPEELER_EXPLAIN, or domepeeler-explain, beside the program of DOMEPEELER or on the PATH, where NULL is given. */
DOMEPEELER_CHECKED static inline char *domepeeler_explain(struct domepeeler *d, const char *explainer) {
    if (!d) return NULL;
    domepeeler_enter(d, NULL, 0);
    char *said = domepeeler_explain_now(d, explainer);
    domepeeler_leave(d, 1);
    return said;
}

/* The same where the editor promises the weak list specification alone: it says first where that holds, and what comes with it. */
DOMEPEELER_CHECKED static inline char *domepeeler_explain_weak(struct domepeeler *d, const char *explainer) {
    if (!d) return NULL;
    domepeeler_enter(d, NULL, 0);
    char *said = domepeeler_explain_weak_now(d, explainer);
    domepeeler_leave(d, 1);
    return said;
}

/* Explains the recording on standard error and saves it, where the process aborts. Where another thread's call does not end within a
 * second, or this thread's own has aborted, it does so without the lock. */
static inline void domepeeler_aborted(int number) {
    enum { TRIES = 100, MILLISECONDS = 10 };
    struct domepeeler *d = domepeeler_aborting()->recording;
    int is_taken = EBUSY;
    domepeeler_aborting()->recording = NULL;
    signal(number, SIG_DFL); /* by which abort() ends, when this comes back */
    if (!d) return;
    for (int i = 0; i < TRIES && is_taken; i++)
        if ((is_taken = pthread_mutex_trylock(d->lock))) poll(NULL, 0, MILLISECONDS);
    const char *path = domepeeler_aborting()->path;
    char *words = domepeeler_explain_now(d, NULL);
    fprintf(stderr, "%s\n", words ? words : d->why);
    free(words);
    if (domepeeler_save_now(d, path)) fprintf(stderr, "The trace is saved: %s\n", path);
    else fprintf(stderr, "%s\n", d->why);
    if (!is_taken) pthread_mutex_unlock(d->lock);
}

/* From now on, until it is freed, has the recording explained on standard error and saved into a file of this name where the process ends by
 * abort(), as a failed assert() does. One recording at a time, the last one; the name must stay. It allocates memory then, so where
 * malloc() itself has aborted, it may fail again. */
static inline void domepeeler_on_abort(struct domepeeler *d, const char *path) {
    domepeeler_aborting()->recording = d;
    domepeeler_aborting()->path = path;
    signal(SIGABRT, domepeeler_aborted);
}

/* Each macro hands in the line of code from which the call comes; the file's name is copied. */
#define domepeeler_insert(...) domepeeler_insert_from(__FILE__, __LINE__, __VA_ARGS__)
#define domepeeler_delete(...) domepeeler_delete_from(__FILE__, __LINE__, __VA_ARGS__)
#define domepeeler_read(...) domepeeler_read_from(__FILE__, __LINE__, __VA_ARGS__)
#define domepeeler_view(...) domepeeler_view_from(__FILE__, __LINE__, __VA_ARGS__)
#define domepeeler_received(...) domepeeler_received_from(__FILE__, __LINE__, __VA_ARGS__)
#define domepeeler_received_clock(...) domepeeler_received_clock_from(__FILE__, __LINE__, __VA_ARGS__)
#define domepeeler_delivered(...) domepeeler_delivered_from(__FILE__, __LINE__, __VA_ARGS__)

#endif
