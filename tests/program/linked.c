/* Sessions that the recorder of C records and has judged: with DOMEPEELER_LINKED by the library, else by the program. It prints the same either way,
 * and with a word behind it, in how many microseconds a session of 51 lists is judged after each of them. */
#include "../../recorders/domepeeler.h"

#include <time.h>

static void tell(struct domepeeler *recording) {
    unsigned passes = domepeeler_passes(recording, NULL), passes_weak;
    printf("%u %s\n", passes, passes ? "" : domepeeler_why(recording));
    passes_weak = domepeeler_passes_weak(recording, NULL);
    printf("%u %s\n", passes_weak, domepeeler_why(recording));
    char *report = domepeeler_judge(recording, NULL);
    printf("%s\n", report ? report : domepeeler_why(recording));
    free(report);
    domepeeler_free(recording);
}

static void stopped(const char *words, void *data) {
    printf("stopped %.*s\n", (int)strcspn(words, "\n"), words);
    *(int *)data += 1;
}

/* 17 inserts by three replicas at the front, each shown everywhere; with `is_wrong` one list lacks an element. */
static void session(int stops, int is_wrong, int is_told) {
    struct domepeeler *recording = domepeeler_new(3);
    static char names[17][8];
    const char *list[17];
    int calls_back = 0;
    if (stops && !domepeeler_stop(recording, 0, stopped, &calls_back)) puts(domepeeler_why(recording));
    for (int i = 0; i < 17; i++) {
        snprintf(names[i], sizeof names[i], "a%d", i);
        for (int at = 0; at <= i; at++) list[at] = names[i - at];
        unsigned n = domepeeler_insert(recording, i % 3, names[i], 0, list, (size_t)i + 1);
        for (int other = 0; other < 3; other++) {
            if (other == i % 3) continue;
            if (!domepeeler_received(recording, other, i % 3, n)) break;
            if (!domepeeler_read(recording, other, list, (size_t)i + !(is_wrong && i == 9))) break;
        }
    }
    if (!is_told) {
        domepeeler_free(recording);
        return;
    }
    printf("%d\n", calls_back);
    tell(recording);
}

static void weak_alone(void) {
    struct domepeeler *recording = domepeeler_new(3);
    const char *lists[] = {"x", "a", "x", "x", "b", "b", "a"};
    int is_recorded = domepeeler_insert(recording, 0, "x", 0, &lists[0], 1) && domepeeler_received(recording, 1, 0, 1) && domepeeler_received(recording, 2, 0, 1)
        && domepeeler_insert(recording, 1, "a", 0, &lists[1], 2) && domepeeler_insert(recording, 2, "b", 1, &lists[3], 2)
        && domepeeler_delete(recording, 0, "x", NULL, 0) && domepeeler_received(recording, 0, 1, 1) && domepeeler_received(recording, 0, 2, 1)
        && domepeeler_read(recording, 0, &lists[5], 2);
    printf("%d\n", is_recorded);
    tell(recording);
}

int main(int count, char **words) {
    (void)words;
    struct domepeeler *empty = domepeeler_new(1);
    fprintf(stderr, "%s\n", domepeeler_judged_by(empty, NULL));
    tell(empty);
    session(0, 0, 1);
    session(0, 1, 1);
    session(1, 0, 1);
    session(1, 1, 1);
    weak_alone();
    if (count < 2) return 0;
    struct timespec begin, end;
    clock_gettime(CLOCK_MONOTONIC, &begin);
    for (int i = 0; i < 20; i++) session(1, 0, 0);
    clock_gettime(CLOCK_MONOTONIC, &end);
    printf("%.0f\n", ((double)(end.tv_sec - begin.tv_sec) * 1e6 + (double)(end.tv_nsec - begin.tv_nsec) / 1e3) / 20);
    return 0;
}
