/* jupiter BUG SESSIONS FOLDER: as jupiter.mjs, which says what Jupiter is and what the bugs are, by the recorder of C. Prints for each
 * session one line: the number of its seed, `passes` and whether strong holds too, or `fails` and why. */
#include "../../../recorders/domepeeler.h"

enum { MOST_CLIENTS = 4, MOST_EDITS = 32, MOST_MESSAGES = 64 };
enum kind { NOTHING, INSERT, DELETE, PLACED }; /* PLACED is the server's word that a client's own change has its place */

struct change {
    enum kind kind;
    unsigned at, element, n, received;
    int client;
};

struct queue {
    struct change changes[MOST_MESSAGES];
    unsigned count;
};

struct list {
    unsigned elements[MOST_EDITS], count;
};

struct client {
    struct list list;
    struct queue waiting;    /* own changes of which the server has not told */
    unsigned sent, received; /* how many of these it was told of; messages of the server */
};

struct session {
    struct domepeeler *recording;
    struct client clients[MOST_CLIENTS];
    struct queue inbox[MOST_CLIENTS], outbox[MOST_CLIENTS];
    struct queue open[MOST_CLIENTS]; /* what each client was told, and may not have had when it sent the next */
    unsigned told[MOST_CLIENTS];     /* how many messages before these it has had */
    unsigned size, edits, elements, random, seed, lost, arrived;
};

static const char *bug;
static char names[MOST_EDITS + 1][8];

static int is(const char *planted) { return strcmp(bug, planted) == 0; }

static unsigned below(struct session *s, unsigned limit) {
    s->random = s->random * 1664525u + 1013904223u;
    return (unsigned)((unsigned long long)s->random * limit >> 32);
}

static void check(struct session *s, unsigned is_recorded) {
    if (is_recorded) return;
    fprintf(stderr, "%s\n", domepeeler_why(s->recording));
    exit(2);
}

static void push(struct queue *queue, struct change change) { queue->changes[queue->count++] = change; }

static void drop(struct queue *queue, unsigned count) {
    queue->count -= count;
    memmove(queue->changes, queue->changes + count, queue->count * sizeof *queue->changes);
}

static struct change shift(struct queue *queue) {
    struct change first = queue->changes[0];
    drop(queue, 1);
    return first;
}

/* The change as it is after another one, which is here already where the two meet, or is not. */
static struct change mapped(struct change change, struct change over, int is_here) {
    if (change.kind == NOTHING || over.kind == NOTHING) return change;
    if (over.kind == INSERT) {
        int is_first = is("tie") ? !is_here : change.client < over.client;
        int stays = change.at < over.at || (change.at == over.at && change.kind == INSERT && is_first);
        change.at += !stays;
    } else if (change.kind == INSERT) {
        change.at -= change.at > over.at && !is("unmapped");
    } else if (change.at == over.at && !is("double")) {
        change.kind = NOTHING;
    } else {
        change.at -= change.at > over.at;
    }
    return change;
}

/* What arrives, as it is after those that wait here, which are mapped over it. */
static struct change crossed(struct change arriving, struct queue *waiting) {
    for (unsigned i = 0; i < waiting->count; i++) {
        struct change here = waiting->changes[i];
        if (here.kind == PLACED) continue;
        waiting->changes[i] = mapped(here, arriving, 0);
        arriving = mapped(arriving, here, 1);
    }
    return arriving;
}

static void apply(struct list *list, struct change change) {
    if (change.kind == NOTHING) return;
    if (change.at > list->count) change.at = list->count;
    unsigned *at = list->elements + change.at, behind = list->count - change.at;
    if (change.kind == INSERT) {
        memmove(at + 1, at, behind * sizeof *at);
        *at = change.element;
        list->count++;
    } else if (behind) {
        memmove(at, at + 1, (behind - 1) * sizeof *at);
        list->count--;
    }
}

static const char *const *names_of(const struct list *list, const char **room) {
    for (unsigned i = 0; i < list->count; i++) room[i] = names[list->elements[i]];
    return room;
}

static void send_on(struct session *s, unsigned number) {
    struct client *client = &s->clients[number];
    unsigned most = number % 2 ? MOST_MESSAGES : 1;
    while (client->sent < client->waiting.count && client->sent < most) {
        struct change change = client->waiting.changes[client->sent++];
        change.received = client->received;
        push(&s->inbox[number], change);
    }
}

static void edit(struct session *s, unsigned number) {
    struct client *client = &s->clients[number];
    const char *room[MOST_EDITS];
    unsigned length = client->list.count;
    struct change change = {INSERT, 0, 0, 0, 0, (int)number};
    if (length && below(s, 5) < 2) {
        change.kind = DELETE;
        change.at = below(s, length);
        change.element = client->list.elements[change.at];
    } else {
        change.element = ++s->elements;
        change.at = below(s, length + 1);
    }
    apply(&client->list, change);
    const char *name = names[change.element], *const *list = names_of(&client->list, room);
    change.n = change.kind == INSERT ? domepeeler_insert(s->recording, (int)number, name, change.at, list, client->list.count)
                                     : domepeeler_delete(s->recording, (int)number, name, list, client->list.count);
    check(s, change.n);
    push(&client->waiting, change);
    send_on(s, number);
    s->edits--;
}

static void arrive(struct session *s, unsigned number, struct change message) {
    struct client *client = &s->clients[number];
    const char *room[MOST_EDITS];
    client->received++;
    if (message.kind == PLACED) {
        drop(&client->waiting, 1);
        client->sent--;
        send_on(s, number);
        return;
    }
    apply(&client->list, crossed(message, &client->waiting));
    check(s, domepeeler_received(s->recording, (int)number, message.client, message.n));
    check(s, domepeeler_read(s->recording, (int)number, names_of(&client->list, room), client->list.count));
}

static void place(struct session *s, unsigned number) {
    struct change change = shift(&s->inbox[number]), own = {PLACED, 0, 0, 0, 0, 0};
    drop(&s->open[number], change.received - s->told[number]);
    s->told[number] = change.received;
    change = crossed(change, &s->open[number]);
    for (unsigned other = 0; other < s->size; other++) {
        push(&s->outbox[other], other == number ? own : change);
        push(&s->open[other], other == number ? own : change);
    }
}

static int is_open(const struct queue *boxes, unsigned size) {
    unsigned open = 0;
    for (unsigned i = 0; i < size; i++) open += boxes[i].count;
    return open > 0;
}

static int is_last(const struct session *s) {
    int is_so = !s->edits && !is_open(s->inbox, s->size) && !s->outbox[0].count;
    for (unsigned i = 0; i < s->size; i++) is_so = is_so && s->clients[i].sent == s->clients[i].waiting.count;
    return is_so;
}

static void deliver(struct session *s, unsigned number) {
    struct change message = shift(&s->outbox[number]);
    int may_be_lost = is("dropped") && number == 0 && message.kind != PLACED;
    if (may_be_lost && (s->seed % 2 ? ++s->arrived == s->lost : (unsigned)is_last(s))) s->clients[0].received++;
    else arrive(s, number, message);
}

static void play(struct session *s) {
    const char *rooms[MOST_CLIENTS][MOST_EDITS];
    const char *const *lists[MOST_CLIENTS];
    size_t lengths[MOST_CLIENTS];
    while (s->edits || is_open(s->inbox, s->size) || is_open(s->outbox, s->size)) {
        unsigned number = below(s, s->size), what = below(s, 3);
        if (what == 0 && s->edits) edit(s, number);
        else if (what == 1 && s->inbox[number].count) place(s, number);
        else if (what == 2 && s->outbox[number].count) deliver(s, number);
    }
    for (unsigned i = 0; i < s->size; i++) {
        lists[i] = names_of(&s->clients[i].list, rooms[i]);
        lengths[i] = s->clients[i].list.count;
    }
    check(s, domepeeler_delivered(s->recording, lists, lengths, s->size));
}

static void tell(struct session *s, const char *folder) {
    char path[4096];
    snprintf(path, sizeof path, "%s/%s-%u.trace", folder, bug, s->seed);
    check(s, domepeeler_save(s->recording, path));
    if (domepeeler_passes_weak(s->recording, NULL)) {
        char *report = domepeeler_judge(s->recording, NULL);
        check(s, report != NULL);
        printf("%u passes %s\n", s->seed, strstr(report, "\"strong\":true") ? "accepted" : "refused");
        free(report);
    } else {
        printf("%u fails %s\n", s->seed, domepeeler_why(s->recording));
    }
}

int main(int count, char **words) {
    if (count != 4) return 2;
    bug = words[1];
    for (unsigned i = 0; i <= MOST_EDITS; i++) snprintf(names[i], sizeof names[i], "e%u", i);
    for (unsigned seed = 1; seed <= (unsigned)atoi(words[2]); seed++) {
        struct session *s = (struct session *)calloc(1, sizeof *s);
        if (!s) return 2;
        s->seed = seed;
        s->random = seed * 0x9e3779b1u;
        s->size = 2 + below(s, 3);
        s->lost = 1 + below(s, 4);
        s->edits = 16 + below(s, 17);
        s->recording = domepeeler_new((int)s->size);
        play(s);
        tell(s, words[3]);
        domepeeler_free(s->recording);
        free(s);
    }
    return 0;
}
