/* Makes the calls that stand on standard input, in fields between tabs, of the C recorder: see tests/tools/recorders.py. */
#include "../../../recorders/domepeeler.h"

enum { MOST_WORDS = 5000 };

static char *words[MOST_WORDS];
static size_t count;

/* Splits the line, without its end, at the tabs; a record separator stands for a line feed. */
static void split(char *line) {
    count = 0;
    line[strcspn(line, "\n")] = 0;
    for (char *letter = line; *letter; letter++)
        if (*letter == 0x1e) *letter = '\n';
    for (char *word = line; word; count++) {
        char *tab = strchr(word, '\t');
        if (tab) *tab = 0;
        words[count] = word;
        word = tab ? tab + 1 : NULL;
    }
}

static int is(const char *word) { return strcmp(words[0], word) == 0; }

static const char *called_back; /* with these words */

static void call_back(const char *words, void *data) { *(const char **)data = words; }

/* Says what stopped a call, in one line, if it was told to the call-back too; else why there was no verdict. */
static void stopped(struct domepeeler *d) {
    const char *words = domepeeler_stopped(d), *letter = words && words == called_back ? words : "and was not called back";
    if (!words) printf("failed %s\n", domepeeler_why(d));
    else printf("stopped ");
    for (; words && *letter; letter++)
        if (*letter == '\n') printf(" / ");
        else putchar(*letter);
    if (words) puts("");
    called_back = NULL;
}

static void answer(struct domepeeler *d, unsigned n, int numbered) {
    if (!n && (called_back || domepeeler_stopped(d))) return stopped(d);
    if (n && numbered) printf("ok %u\n", n);
    if (n && !numbered) printf("ok\n");
    int is_uncausal = strncmp(domepeeler_why(d), "not causal: ", 12) == 0;
    if (!n) printf("%s %s\n", domepeeler_full(d) ? "full" : is_uncausal ? "uncausal" : "refused", domepeeler_why(d));
}

static void judge(struct domepeeler *d) {
    char *report = domepeeler_judge(d, NULL);
    if (report) printf("report %s", report);
    else printf("failed %s\n", domepeeler_why(d));
    free(report);
}

static void received_clock(struct domepeeler *d, int replica) {
    unsigned clock[MOST_WORDS];
    for (size_t i = 4; i < count; i++) clock[i - 4] = (unsigned)atoi(words[i]);
    answer(d, domepeeler_received_clock(d, replica, atoi(words[2]), clock, count - 4, (unsigned)atoi(words[3])), 0);
}

static void clock_of(struct domepeeler *d, int replica) {
    unsigned clock[DOMEPEELER_REPLICAS], is_told = domepeeler_clock(d, replica, clock);
    if (!is_told) return answer(d, 0, 0);
    printf("ok");
    for (int i = 0; i < d->replicas; i++) printf(" %u", clock[i]);
    puts("");
}

static void save(struct domepeeler *d) {
    if (domepeeler_save(d, words[1])) puts("ok");
    else printf("failed %s\n", domepeeler_why(d));
}

static void show(const char *text) {
    for (const char *line = text; *line; line = strchr(line, '\n') + 1)
        printf("| %.*s\n", (int)strcspn(line, "\n"), line);
    puts("ok");
}

static void passes(struct domepeeler *d, int is_weak) {
    if (is_weak ? domepeeler_passes_weak(d, NULL) : domepeeler_passes(d, NULL)) puts("passes");
    else printf("fails %s\n", domepeeler_why(d));
}

static void explain(struct domepeeler *d, int is_weak) {
    char *words = is_weak ? domepeeler_explain_weak(d, NULL) : domepeeler_explain(d, NULL);
    if (words) show(words);
    else printf("failed %s\n", domepeeler_why(d));
    free(words);
}

static void warnings(struct domepeeler *d) {
    char *lines = domepeeler_warnings(d);
    if (lines) show(lines);
    else answer(d, 0, 0);
    free(lines);
}

/* The lists stand one behind the other, with a field `/` between two. */
static void delivered(struct domepeeler *d) {
    const char *const *lists[MOST_WORDS];
    size_t names[MOST_WORDS], known = 0, begin = 1;
    for (size_t i = 1; i <= count; i++) {
        if (i < count && strcmp(words[i], "/")) continue;
        lists[known] = (const char *const *)words + begin;
        names[known++] = i - begin;
        begin = i + 1;
    }
    answer(d, domepeeler_delivered(d, lists, names, known), 0);
}

static struct domepeeler *begin(struct domepeeler *old) {
    struct domepeeler *d = domepeeler_new_only(atoi(words[1]), count > 2 ? atoi(words[2]) : -1);
    int is_stopping = strncmp(words[0], "stop", 4) == 0;
    if (d && is_stopping && !domepeeler_stop(d, is("stop_weak"), call_back, &called_back)) {
        printf("refused %s\n", domepeeler_why(d));
        domepeeler_free(d);
        return old;
    }
    puts(d ? "ok" : "refused");
    if (!d) return old;
    domepeeler_free(old);
    return d;
}

int main(void) {
    char *line = NULL;
    size_t room = 0;
    struct domepeeler *d = NULL;
    while (getline(&line, &room, stdin) > 0) {
        split(line);
        int replica = count > 1 ? atoi(words[1]) : 0;
        const char *const *list = (const char *const *)words;
        if (is("new") || is("stop") || is("stop_weak")) d = begin(d);
        if (is("insert")) answer(d, domepeeler_insert(d, replica, words[2], atoll(words[3]), list + 4, count - 4), 1);
        if (is("delete")) answer(d, domepeeler_delete(d, replica, words[2], list + 3, count - 3), 1);
        if (is("read")) answer(d, domepeeler_read(d, replica, list + 2, count - 2), 1);
        if (is("view")) answer(d, domepeeler_view(d, replica, list + 2, count - 2), 1);
        if (is("received")) answer(d, domepeeler_received(d, replica, atoi(words[2]), atoll(words[3])), 0);
        if (is("received_clock")) received_clock(d, replica);
        if (is("clock")) clock_of(d, replica);
        if (is("delivered")) delivered(d);
        if (is("note")) answer(d, domepeeler_note(d, words[1]), 0);
        if (is("lines")) printf("ok %zu\n", domepeeler_lines(d));
        if (is("warnings")) warnings(d);
        if (is("id_of")) printf(domepeeler_id_of(d, words[1]) ? "ok %s\n" : "none\n", domepeeler_id_of(d, words[1]));
        if (is("save")) save(d);
        if (is("judge")) judge(d);
        if (is("weak") || is("passes")) passes(d, is("weak"));
        if (is("explain") || is("explain_weak")) explain(d, is("explain_weak"));
        if (is("text")) show(domepeeler_text(d));
    }
    domepeeler_free(d);
    free(line);
    return 0;
}
