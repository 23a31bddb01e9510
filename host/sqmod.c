/* What stands between a program in C and the proved functions of crates/sq_host_c: it tests that no pointer is null, which those
   take for granted, and measures names that end with a zero. It isn't proved. */

#include "sqmod.h"

#include <stdlib.h>
#include <string.h>

/* A handle, as crates/sq_host declares it. Only functions of sq_host_c change it. */
struct sqmod_session {
    uint64_t word;
    void *kept;
};

/* A function of sq_host_c, and the one of sqmod.h with the same parameters, which calls it where no pointer is null. */
#define ASKS(name, parameters, are_given, arguments) \
    int32_t sq_host_##name parameters; \
    int sqmod_##name parameters { \
        if (!(are_given)) return SQMOD_NULL; \
        return sq_host_##name arguments; \
    }

/* The same of a session. */
#define CALLS(name, parameters, are_given, arguments) \
    int32_t sq_host_##name parameters; \
    int sqmod_##name parameters { \
        if (session == NULL) return SQMOD_NOT_OPEN; \
        if (!(are_given)) return SQMOD_NULL; \
        return sq_host_##name arguments; \
    }

/* The same of functions that take a text, which may be null where it has no bytes. */
#define ADDS(name) \
    int32_t sq_host_##name(sqmod_session *session, const char *text, size_t length); \
    int sqmod_##name(sqmod_session *session, const char *text, size_t length) { \
        if (session == NULL) return SQMOD_NOT_OPEN; \
        if (text == NULL && length != 0) return SQMOD_NULL; \
        return sq_host_##name(session, text == NULL ? "" : text, length); \
    }

int32_t sq_host_start(sqmod_session *session);
int32_t sq_host_close(sqmod_session *session);
int32_t sq_host_procedure(sqmod_session *session, const char *module, size_t module_length, const char *name, size_t name_length,
                          size_t *procedure);
int32_t sq_host_table(sqmod_session *session, const char *user, size_t user_length, const char *name, size_t name_length);
int32_t sq_host_output_place(sqmod_session *session, const char *name, size_t length, size_t *place);

ASKS(error_text, (int code, char *room, size_t size, size_t *length), room && length, (code, room, size, length))
ASKS(version, (char *room, size_t size, size_t *length), room && length, (room, size, length))

ADDS(add_schema)
ADDS(add_module)
ADDS(add_digits)
ADDS(add_text)

CALLS(open, (sqmod_session *session, uint64_t rows), 1, (session, rows))
CALLS(refusal, (sqmod_session *session, char *room, size_t size, size_t *length), room && length, (session, room, size, length))
CALLS(why, (sqmod_session *session, size_t procedure, char *room, size_t size, size_t *length), room && length,
      (session, procedure, room, size, length))
CALLS(cause, (sqmod_session *session, char *room, size_t size, size_t *length), room && length, (session, room, size, length))
CALLS(add_number, (sqmod_session *session, int64_t unscaled, unsigned scale), 1, (session, unscaled, scale))
CALLS(add_start, (sqmod_session *session), 1, (session))
CALLS(drop_values, (sqmod_session *session), 1, (session))
CALLS(checked_values, (sqmod_session *session, size_t procedure, size_t *place), place, (session, procedure, place))
CALLS(call, (sqmod_session *session, size_t procedure), 1, (session, procedure))
CALLS(status, (sqmod_session *session, char sqlstate[6], int32_t *sqlcode), sqlstate && sqlcode, (session, sqlstate, sqlcode))
CALLS(outputs, (sqmod_session *session, size_t *count), count, (session, count))
CALLS(output_name, (sqmod_session *session, size_t place, char *room, size_t size, size_t *length), room && length,
      (session, place, room, size, length))
CALLS(output_kind, (sqmod_session *session, size_t place, int *kind), kind, (session, place, kind))
CALLS(output_number, (sqmod_session *session, size_t place, int64_t *unscaled, unsigned *scale), unscaled && scale,
      (session, place, unscaled, scale))
CALLS(output_digits, (sqmod_session *session, size_t place, char *room, size_t size, size_t *length), room && length,
      (session, place, room, size, length))
CALLS(output_text, (sqmod_session *session, size_t place, char *room, size_t size, size_t *length), room && length,
      (session, place, room, size, length))
CALLS(next_row, (sqmod_session *session), 1, (session))

int sqmod_new(sqmod_session **session) {
    if (session == NULL) return SQMOD_NULL;
    sqmod_session *made = calloc(1, sizeof *made);
    if (made == NULL) return SQMOD_NO_MEMORY;
    int answer = sq_host_start(made);
    if (answer == SQMOD_DONE) *session = made;
    else free(made);
    return answer;
}

int sqmod_procedure(sqmod_session *session, const char *module, const char *name, size_t *procedure) {
    if (session == NULL) return SQMOD_NOT_OPEN;
    if (module == NULL || name == NULL || procedure == NULL) return SQMOD_NULL;
    return sq_host_procedure(session, module, strlen(module), name, strlen(name), procedure);
}

int sqmod_table(sqmod_session *session, const char *user, const char *name) {
    if (session == NULL) return SQMOD_NOT_OPEN;
    if (user == NULL || name == NULL) return SQMOD_NULL;
    return sq_host_table(session, user, strlen(user), name, strlen(name));
}

int sqmod_output_place(sqmod_session *session, const char *name, size_t *place) {
    if (session == NULL) return SQMOD_NOT_OPEN;
    if (name == NULL || place == NULL) return SQMOD_NULL;
    return sq_host_output_place(session, name, strlen(name), place);
}

int sqmod_close(sqmod_session **session) {
    if (session == NULL) return SQMOD_NULL;
    if (*session == NULL) return SQMOD_NOT_OPEN;
    int answer = sq_host_close(*session);
    if (answer == SQMOD_DONE) {
        free(*session);
        *session = NULL;
    }
    return answer;
}
