/* Judges recordings in your own process, by the library libdomepeeler.
 *
 *     cc test.c $(pkg-config --cflags --libs domepeeler)    or where the compiler looks there by itself: cc test.c -ldomepeeler
 *
 *     char report[65536];
 *     struct domepeeler_end end = domepeeler_verdict(trace, strlen(trace), 0, report, sizeof report);
 *     if (end.status != DOMEPEELER_END_ACCEPTED) printf("%.*s", end.status == DOMEPEELER_END_NO_ROOM ? 0 : (int)end.length, report);
 *
 * Each call reads what it is given and writes into the room that it is given, and nothing else. It starts no thread and keeps nothing, so calls
 * may be made from many threads at once. Memory comes from malloc() and realloc(), and goes back by free() before the call
 * ends.
 *
 * Don't call from a signal handler, nor in the forked child of a process that has threads: there run the program domepeeler.
 * Pointers are not NULL, even where the length is 0. The room does not overlap what is read. Nothing checks this of a C program. */
#ifndef DOMEPEELER_JUDGE_H
#define DOMEPEELER_JUDGE_H

#include <stddef.h>
#include <stdint.h>

#ifdef __cplusplus
extern "C" {
#endif

enum {
    DOMEPEELER_END_ACCEPTED = 0,     /* as the exit status of the command: some order has all responses; of verify: yes */
    DOMEPEELER_END_NOT_ACCEPTED = 1, /* a fault, or no order has all responses; of verify: no */
    DOMEPEELER_END_NO_TRACE = 2,     /* the text is no trace: `line` is the first faulty line, and the output says why, if there was memory for it */
    DOMEPEELER_END_NO_MEMORY = 3,    /* malloc() failed: there is no output */
    DOMEPEELER_END_NO_ROOM = 4       /* the room has fewer than `length` bytes: nothing was written, so call again with as many */
};

/* How a call ended. */
struct domepeeler_end {
    uint32_t status;
    uint32_t line; /* from 1 where the text is no trace, else 0 */
    size_t length; /* how many bytes the output has, without a NUL behind them */
};

/* The report that `domepeeler verdict` writes for this trace; with `json` other than 0, that of `domepeeler verdict --json`. For a text that is no
 * trace the output is what the command says behind `finder: `, without a line's end. */
struct domepeeler_end domepeeler_verdict(const char *trace, size_t trace_length, uint32_t json, char *output, size_t room);

/* The certificate that `domepeeler cert` writes for this trace. */
struct domepeeler_end domepeeler_cert(const char *trace, size_t trace_length, char *output, size_t room);

/* The line that `domepeeler verify` writes for a trace and a certificate: status 0 for a yes, and 1 for a no, also where a text does not read. */
struct domepeeler_end domepeeler_verify(const char *trace, size_t trace_length, const char *cert, size_t cert_length, char *output, size_t room);

/* The version of the library, as "0.2.0". */
struct domepeeler_end domepeeler_version(char *output, size_t room);

#ifdef __cplusplus
}
#endif
#endif
