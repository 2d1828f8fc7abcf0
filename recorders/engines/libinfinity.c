/* libinfinity, and how it is recorded. Run it by record.py; it reads plans and writes traces. */
#include "../domepeeler.h"

#include <libinfinity/adopted/inf-adopted-algorithm.h>
#include <libinfinity/common/inf-init.h>
#include <libinfinity/common/inf-user-table.h>
#include <libinftext/inf-text-buffer.h>
#include <libinftext/inf-text-default-buffer.h>
#include <libinftext/inf-text-default-delete-operation.h>
#include <libinftext/inf-text-default-insert-operation.h>
#include <libinftext/inf-text-user.h>

enum { MOST_ELEMENTS = 4096, NAME = 16, FIRST = 0x4e00 };

/* The engine's list is a text: the element eN is the letter FIRST + N. */
struct replica {
    InfTextBuffer *buffer;
    InfUserTable *table;
    InfAdoptedAlgorithm *algorithm;
};

struct list {
    size_t count;
    char text[MOST_ELEMENTS][NAME];
    const char *names[MOST_ELEMENTS];
};

static struct domepeeler *recording;
static int replicas;
static struct replica at[DOMEPEELER_REPLICAS];
/* The message of each operation, by author and number; a read has none. */
static InfAdoptedRequest *messages[DOMEPEELER_REPLICAS][DOMEPEELER_ENTRIES + 1];
static struct list now;

static void stop(const char *why) {
    fprintf(stderr, "libinfinity.c: %s\n", why);
    exit(1);
}

static void begin(int count) {
    recording = domepeeler_new(count);
    if (!recording) stop("no recording of so many replicas");
    replicas = count;
    for (int r = 0; r < count; r++) {
        at[r].buffer = INF_TEXT_BUFFER(inf_text_default_buffer_new("UTF-8"));
        at[r].table = inf_user_table_new();
        for (int user = 0; user < count; user++) {
            char name[NAME];
            snprintf(name, sizeof name, "user %d", user);
            InfTextUser *new = inf_text_user_new(user + 1, name, inf_adopted_state_vector_new(), 0.0);
            inf_user_table_add_user(at[r].table, INF_USER(new));
            g_object_unref(new);
        }
        at[r].algorithm = inf_adopted_algorithm_new(at[r].table, INF_BUFFER(at[r].buffer));
    }
}

static void end(void) {
    printf("%send\n", domepeeler_text(recording));
    fflush(stdout);
    domepeeler_free(recording);
    for (int r = 0; r < replicas; r++) {
        g_object_unref(at[r].algorithm);
        g_object_unref(at[r].table);
        g_object_unref(at[r].buffer);
        for (int n = 0; n <= DOMEPEELER_ENTRIES; n++) g_clear_object(&messages[r][n]);
    }
}

/* The replica's list, as names. */
static struct list *list_of(int r) {
    InfTextChunk *chunk = inf_text_buffer_get_slice(at[r].buffer, 0, inf_text_buffer_get_length(at[r].buffer));
    gsize bytes;
    gchar *text = inf_text_chunk_get_text(chunk, &bytes);
    now.count = 0;
    for (const gchar *letter = text; letter < text + bytes; letter = g_utf8_next_char(letter)) {
        if (now.count == MOST_ELEMENTS) stop("a list of more elements than a response of a trace takes");
        snprintf(now.text[now.count], NAME, "e%u", g_utf8_get_char(letter) - FIRST);
        now.names[now.count] = now.text[now.count];
        now.count++;
    }
    g_free(text);
    inf_text_chunk_free(chunk);
    return &now;
}

/* Where the replica's list has the name; the list's length where it has not. */
static size_t place_of(int r, const char *name) {
    struct list *list = list_of(r);
    size_t place = 0;
    while (place < list->count && strcmp(list->names[place], name)) place++;
    return place;
}

static void execute(int r, InfAdoptedRequest *request) {
    GError *error = NULL;
    if (!inf_adopted_algorithm_execute_request(at[r].algorithm, request, TRUE, &error)) stop(error->message);
}

/* One change by the user; answers the message for the others. */
static InfAdoptedRequest *change(int r, InfAdoptedOperation *operation) {
    InfAdoptedUser *user = INF_ADOPTED_USER(inf_user_table_lookup_user_by_id(at[r].table, r + 1));
    InfAdoptedRequest *request =
        inf_adopted_algorithm_generate_request(at[r].algorithm, INF_ADOPTED_REQUEST_DO, user, operation);
    InfAdoptedRequest *message = inf_adopted_request_copy(request);
    execute(r, request);
    g_object_unref(request);
    g_object_unref(operation);
    return message;
}

static InfTextChunk *letter_of(int r, const char *name) {
    gchar letter[6];
    gint bytes = g_unichar_to_utf8(FIRST + (gunichar)atoi(name + 1), letter);
    InfTextChunk *chunk = inf_text_chunk_new("UTF-8");
    inf_text_chunk_insert_text(chunk, 0, letter, (gsize)bytes, 1, (guint)r + 1);
    return chunk;
}

/* Keeps the message under the operation's name, or ends where the call was refused. */
static void said(int r, unsigned n, InfAdoptedRequest *message) {
    if (!n) stop(domepeeler_why(recording));
    messages[r][n] = message;
}

static void insert(int r, const char *name, size_t position) {
    InfTextChunk *chunk = letter_of(r, name);
    InfAdoptedOperation *operation =
        INF_ADOPTED_OPERATION(inf_text_default_insert_operation_new((guint)position, chunk));
    InfAdoptedRequest *message = change(r, operation);
    inf_text_chunk_free(chunk);
    struct list *list = list_of(r); /* after the local change */
    said(r, domepeeler_insert(recording, r, name, (long long)position, list->names, list->count), message);
}

static void delete(int r, const char *name, size_t position) {
    InfTextChunk *chunk = inf_text_buffer_get_slice(at[r].buffer, (guint)position, 1);
    InfAdoptedOperation *operation =
        INF_ADOPTED_OPERATION(inf_text_default_delete_operation_new((guint)position, chunk));
    InfAdoptedRequest *message = change(r, operation);
    inf_text_chunk_free(chunk);
    struct list *list = list_of(r);
    said(r, domepeeler_delete(recording, r, name, list->names, list->count), message);
}

static void read_list(int r) {
    struct list *list = list_of(r);
    said(r, domepeeler_read(recording, r, list->names, list->count), NULL);
}

static void take(int r, char **operations) {
    for (; *operations; operations++) {
        int author = atoi(*operations), n = atoi(strchr(*operations, '.') + 1);
        if (messages[author][n]) {
            InfAdoptedRequest *request = inf_adopted_request_copy(messages[author][n]);
            execute(r, request);
            g_object_unref(request);
        }
        if (!domepeeler_received(recording, r, author, n)) stop(domepeeler_why(recording)); /* after it was applied */
    }
}

/* One line of a plan. What the list must have and has not turns an operation into a read, which shows it. */
static void play(char **words) {
    int r = atoi(words[0]);
    size_t length = list_of(r)->count;
    if (!strcmp(words[1], "take")) {
        take(r, words + 4);
    } else if (!strcmp(words[1], "ins") && !strcmp(words[3], "at")) {
        size_t asked = (size_t)atoi(words[4]);
        insert(r, words[2], asked < length ? asked : length);
    } else if (!strcmp(words[1], "ins") && place_of(r, words[4]) < length) {
        insert(r, words[2], place_of(r, words[4]) + !strcmp(words[3], "after"));
    } else if (!strcmp(words[1], "del") && place_of(r, words[2]) < length) {
        delete(r, words[2], place_of(r, words[2]));
    } else {
        read_list(r);
    }
}

int main(void) {
    char *line = NULL;
    size_t room = 0;
    inf_init(NULL);
    while (getline(&line, &room, stdin) > 0) {
        char **words = g_strsplit(g_strchomp(line), " ", -1);
        if (!strcmp(words[0], "plan")) begin(atoi(words[1]));
        else if (!strcmp(words[0], "end")) end();
        else play(words);
        g_strfreev(words);
    }
    free(line);
    return 0;
}
