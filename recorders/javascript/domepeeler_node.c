/* libdomepeeler for Node.js, by Node-API: verdict(trace) answers { status, stdout, stderr } as `domepeeler verdict --json` ends for this trace.
 *
 *     cc -shared -fPIC -I /usr/include/node domepeeler_node.c libdomepeeler.a -o domepeeler.node
 *
 * The recorder, domepeeler.mjs, loads it where it lies beside the installed library. */
#include "../domepeeler_judge.h"

#include <node_api.h>
#include <stdio.h>
#include <stdlib.h>
#include <string.h>

static napi_value thrown(napi_env env, const char *why) {
    napi_throw_error(env, NULL, why);
    return NULL;
}

static napi_value named(napi_env env, napi_value object, const char *name, const char *bytes, size_t length) {
    napi_value text;
    if (napi_create_string_utf8(env, bytes, length, &text) != napi_ok || napi_set_named_property(env, object, name, text) != napi_ok) return NULL;
    return object;
}

/* How the command would end. */
static napi_value ended(napi_env env, struct domepeeler_end end, const char *output) {
    static const char before[] = "finder: ";
    int is_report = end.status == DOMEPEELER_END_ACCEPTED || end.status == DOMEPEELER_END_NOT_ACCEPTED;
    char words[256];
    size_t length = 0;
    if (!is_report) {
        char line[32];
        snprintf(line, sizeof line, end.line ? "line %u" : "memory", (unsigned)end.line);
        const char *why = end.length ? output : line;
        size_t more = end.length ? end.length : strlen(why), room = sizeof words - sizeof before;
        memcpy(words, before, length = sizeof before - 1);
        memcpy(words + length, why, more < room ? more : room);
        length += more < room ? more : room;
    }
    napi_value answer, status;
    if (napi_create_object(env, &answer) != napi_ok || napi_create_uint32(env, end.status, &status) != napi_ok) return NULL;
    if (napi_set_named_property(env, answer, "status", status) != napi_ok) return NULL;
    if (!named(env, answer, "stdout", output, is_report ? end.length : 0)) return NULL;
    return named(env, answer, "stderr", words, length);
}

static napi_value verdict(napi_env env, napi_callback_info info) {
    napi_value given;
    size_t count = 1, length;
    if (napi_get_cb_info(env, info, &count, &given, NULL, NULL) != napi_ok || count != 1 ||
        napi_get_value_string_utf8(env, given, NULL, 0, &length) != napi_ok)
        return thrown(env, "verdict wants a trace's text");
    char *trace = malloc(length + 1), *output = NULL;
    struct domepeeler_end end = {DOMEPEELER_END_NO_ROOM, 0, 4096};
    if (trace && napi_get_value_string_utf8(env, given, trace, length + 1, &length) == napi_ok) {
        while (end.status == DOMEPEELER_END_NO_ROOM) {
            size_t room = end.length;
            char *more = realloc(output, room);
            if (!more) break;
            output = more;
            end = domepeeler_verdict(trace, length, 1, output, room);
        }
    }
    napi_value answer = end.status == DOMEPEELER_END_NO_ROOM ? thrown(env, "out of memory") : ended(env, end, output);
    free(trace);
    free(output);
    return answer;
}

NAPI_MODULE_INIT() {
    napi_value call;
    if (napi_create_function(env, "verdict", NAPI_AUTO_LENGTH, verdict, NULL, &call) != napi_ok ||
        napi_set_named_property(env, exports, "verdict", call) != napi_ok)
        return NULL;
    return exports;
}
