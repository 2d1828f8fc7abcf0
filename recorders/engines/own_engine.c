/* A list CRDT in C, which record.py asks for sessions: docs/engines.md. It needs no recorder, since it writes its trace itself.
 * An element is inserted after another one and stays for ever, a deleted one hidden; of two after the same one the greater id is first. */
#include <stdio.h>
#include <stdlib.h>
#include <string.h>

enum { REPLICAS = 16, MOST = 8192, NAME = 33 };

struct message { char kind, name[NAME], after[NAME]; int id; }; /* kind: i, d, or 0 of a read, which sends nothing */
struct item { char name[NAME]; int id, is_shown; }; /* id: a clock, and below it the author */
struct list { int operations, count, clock; struct item items[MOST]; };

static struct list lists[REPLICAS];
static struct message messages[REPLICAS][MOST]; /* of each operation, by author and number */

static int place_of(struct list *list, const char *name) {
    int place = 0;
    while (place < list->count && strcmp(list->items[place].name, name)) place++;
    return place;
}

static void apply(struct list *list, struct message *message) {
    if (message->kind == 'd') list->items[place_of(list, message->name)].is_shown = 0;
    if (message->kind != 'i') return;
    int place = *message->after ? place_of(list, message->after) + 1 : 0;
    while (place < list->count && list->items[place].id > message->id) place++;
    memmove(&list->items[place + 1], &list->items[place], sizeof *list->items * (size_t)(list->count++ - place));
    list->items[place] = (struct item){.id = message->id, .is_shown = 1};
    strcpy(list->items[place].name, message->name);
    if (message->id / REPLICAS > list->clock) list->clock = message->id / REPLICAS;
}

static int names_of(struct list *list, const char **names) {
    int count = 0;
    for (struct item *item = list->items; item < list->items + list->count; item++)
        if (item->is_shown) names[count++] = item->name;
    return count;
}

/* `r ins name where beside`, `r del name` or `r read`, and its line of the trace. What the list has not makes it a read. */
static void operation(int r, const char *name, const char *where, const char *beside) {
    const char *names[MOST], *sought = where ? beside : name;
    if (lists[r].operations + 1 == MOST || lists[r].count + 1 == MOST) exit(1);
    int count = names_of(&lists[r], names), found = 0, asked = -1;
    struct message *message = &messages[r][++lists[r].operations];
    *message = (struct message){.id = (lists[r].clock + 1) * REPLICAS + r};
    while (sought && found < count && strcmp(names[found], sought)) found++;
    if (where && !strcmp(where, "at")) asked = atoi(beside) < count ? atoi(beside) : count;
    else if (where && found < count) asked = found + !strcmp(where, "after");
    if (asked >= 0) message->kind = 'i', printf("%d ins %s %d :", r, name, asked);
    else if (name && !where && found < count) message->kind = 'd', printf("%d del %s :", r, name);
    else printf("%d read :", r);
    if (message->kind) strcpy(message->name, name);
    if (asked > 0) strcpy(message->after, names[asked - 1]);
    apply(&lists[r], message);
    count = names_of(&lists[r], names);
    for (int place = 0; place < count; place++) printf(" %s", names[place]);
    printf("\n");
}

int main(void) {
    static char line[1 << 18];
    while (fgets(line, sizeof line, stdin)) {
        char *words[5] = {strtok(line, " \n")};
        for (int i = 1; i < 5 && words[i - 1]; i++) words[i] = strtok(NULL, " \n");
        if (!strcmp(words[0], "plan")) memset(lists, 0, sizeof lists), printf("trace 1\nreplicas %s\n", words[1]);
        else if (!strcmp(words[0], "end")) printf("end\n"), fflush(stdout);
        else if (strcmp(words[1], "take")) operation(atoi(words[0]), words[2], words[3], words[4]);
        else for (char *word = words[4]; word; word = strtok(NULL, " \n")) { /* `r take q : 0.1 ..` */
            int r = atoi(words[0]), author = atoi(word), n = atoi(strchr(word, '.') + 1);
            apply(&lists[r], &messages[author][n]);
            printf("%d recv %d %d\n", r, author, n); /* after the message was applied */
        }
    }
    return 0;
}
