/* Calls libdomepeeler with each file that is named, from memory that is just as long as the text, into rooms that are just as long as the output, and into
 * ones that are a byte shorter: under valgrind a read or write beyond any of them is told. */
#include "../../recorders/domepeeler_judge.h"

#include <stdio.h>
#include <stdlib.h>
#include <string.h>

static char *text, *cert;
static size_t length, cert_length;

static struct domepeeler_end call(int which, char *room, size_t size) {
    if (which == 2) return domepeeler_cert(text, length, room, size);
    if (which == 3) return domepeeler_verify(text, length, cert, cert_length, room, size);
    return domepeeler_verdict(text, length, (uint32_t)which, room, size);
}

static int is_right(int which) {
    char *none = malloc(1); /* a room of no bytes */
    struct domepeeler_end wanted = call(which, none, 0);
    free(none);
    if (wanted.status != DOMEPEELER_END_NO_ROOM) return 0;
    char *shorter = malloc(wanted.length), *room = malloc(wanted.length);
    struct domepeeler_end end = call(which, room, wanted.length), less = call(which, shorter, wanted.length - 1);
    int is_well = end.length == wanted.length && end.status < DOMEPEELER_END_NO_MEMORY && less.status == DOMEPEELER_END_NO_ROOM;
    for (size_t i = 0; i < wanted.length; i++) is_well &= room[i] != 0;
    if (which == 2 && end.status < 2) { /* its own certificate is right; else the checker has none to read */
        cert = room;
        cert_length = end.length;
        room = NULL;
    }
    free(shorter);
    free(room);
    return is_well;
}

int main(int count, char **files) {
    for (int i = 1; i < count; i++) {
        FILE *file = fopen(files[i], "rb");
        if (!file || fseek(file, 0, SEEK_END)) return 2;
        length = (size_t)ftell(file);
        rewind(file);
        text = malloc(length ? length : 1);
        if (fread(text, 1, length, file) != length) return 2;
        fclose(file);
        cert = malloc(1);
        cert_length = 0;
        char *no_cert = cert;
        for (int which = 0; which < 4; which++)
            if (!is_right(which)) return printf("%s: call %d\n", files[i], which), 1;
        if (cert != no_cert) free(no_cert);
        free(cert);
        free(text);
    }
    return printf("%d files\n", count - 1), 0;
}
