/* A fuzzer that finds a wrong order in a small list editor: libFuzzer makes schedules, and libdomepeeler judges each session.
 *
 *     clang -O2 -g -fsanitize=fuzzer fuzz.c $(pkg-config --cflags --libs domepeeler) -o fuzz && ./fuzz
 *
 * The editor keeps deleted elements, so that an insert behind one finds its place (RGA). It forgets one too early: once one other replica is known
 * to have the delete, where both must have it. To show this takes five operations of three replicas in one order, and a sixth read. */
#include <domepeeler_judge.h>

#include <stdarg.h>
#include <stdint.h>
#include <stdio.h>
#include <stdlib.h>
#include <string.h>

enum { REPLICAS = 3, MOST = 40, ROOM = 1 << 15 };

struct element { int id, clock, author, is_deleted, acknowledged; };
struct change { int id, anchor, clock, is_delete, number, seen[REPLICAS]; }; /* seen: how many changes of each replica its author had */
struct replica {
    struct element list[MOST];
    int length, clock, operations, seen[REPLICAS];
    struct change made[MOST];
    int changes;
};

static struct replica all[REPLICAS];
static char trace[ROOM];
static size_t written;
static int names;

static void say(const char *format, ...) {
    va_list words;
    va_start(words, format);
    written += (size_t)vsnprintf(trace + written, ROOM - written, format, words);
    va_end(words);
}

static void say_list(const struct replica *r) {
    for (int i = 0; i < r->length; i++)
        if (!r->list[i].is_deleted) say(" e%d", r->list[i].id);
    say("\n");
}

/* The place in the list of a visible position, or of an element; -1 where there is none. */
static int place_of(const struct replica *r, int position, int id) {
    for (int i = 0; i < r->length; i++) {
        if (id && r->list[i].id == id) return i;
        if (!id && !r->list[i].is_deleted && position-- == 0) return i;
    }
    return -1;
}

static void forget(struct replica *r, int place) {
    r->length--;
    memmove(&r->list[place], &r->list[place + 1], (size_t)(r->length - place) * sizeof r->list[0]);
}

static void apply(struct replica *r, int author, const struct change *change) {
    if (change->clock > r->clock) r->clock = change->clock;
    if (change->is_delete) {
        int at = place_of(r, 0, change->id);
        if (at >= 0) r->list[at].is_deleted = 1, r->list[at].acknowledged = change->clock;
        return;
    }
    int at = change->anchor ? place_of(r, 0, change->anchor) + 1 : 0; /* behind an element that is forgotten: the front */
    while (at < r->length && (r->list[at].clock > change->clock || (r->list[at].clock == change->clock && r->list[at].author > author))) at++;
    memmove(&r->list[at + 1], &r->list[at], (size_t)(r->length - at) * sizeof r->list[0]);
    r->list[at] = (struct element){change->id, change->clock, author, 0, 0};
    r->length++;
#ifndef REPAIRED
    for (int i = r->length; i-- > 0;) /* the planted bug: another replica has the delete, so nobody asks for the element again */
        if (r->list[i].is_deleted && change->clock > r->list[i].acknowledged && author != (int)(r - all)) forget(r, i);
#endif
}

static void make(int r, int is_delete, int position) {
    struct replica *own = &all[r];
    int visible = 0;
    for (int i = 0; i < own->length; i++) visible += !own->list[i].is_deleted;
    if (names + 1 == MOST || own->changes == MOST || (is_delete && visible == 0)) return;
    position %= visible + !is_delete;
    int at = place_of(own, is_delete ? position : position - 1, 0);
    struct change *change = &own->made[own->changes++];
    *change = (struct change){.clock = own->clock + 1, .is_delete = is_delete, .number = ++own->operations};
    memcpy(change->seen, own->seen, sizeof change->seen);
    if (is_delete) change->id = own->list[at].id;
    else change->id = ++names, change->anchor = position == 0 ? 0 : own->list[at].id;
    apply(own, r, change);
    own->seen[r]++;
    if (is_delete) say("%d del e%d :", r, change->id);
    else say("%d ins e%d %d :", r, change->id, position);
    say_list(own);
}

/* The next change of another replica arrives, if all that its author had has come. */
static void receive(int r, int author) {
    struct replica *own = &all[r];
    if (author == r || own->seen[author] == all[author].changes) return;
    const struct change *change = &all[author].made[own->seen[author]];
    for (int other = 0; other < REPLICAS; other++)
        if (other != author && change->seen[other] > own->seen[other]) return;
    apply(own, author, change);
    own->seen[author]++;
    say("%d recv %d %d\n%d read :", r, author, change->number, r);
    own->operations++;
    say_list(own);
}

int LLVMFuzzerTestOneInput(const uint8_t *bytes, size_t count) {
    static char report[ROOM];
    memset(all, 0, sizeof all);
    written = 0;
    names = 0;
    say("trace 1\nreplicas %d\n", REPLICAS);
    for (size_t i = 0; i < count && i < MOST; i++) {
        int r = bytes[i] % REPLICAS, action = bytes[i] / REPLICAS % 4, more = bytes[i] / REPLICAS / 4;
        if (action < 2) make(r, action, more);
        else receive(r, (r + action - 1) % REPLICAS);
    }
    struct domepeeler_end end = domepeeler_verdict(trace, written, 0, report, sizeof report);
    if (end.status == DOMEPEELER_END_ACCEPTED) return 0;
    fprintf(stderr, "%.*s%.*s", (int)written, trace, end.status == DOMEPEELER_END_NO_ROOM ? 0 : (int)end.length, report);
    abort();
}
