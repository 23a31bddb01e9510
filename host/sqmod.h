/* Sessions of SQL-92 modules, for programs in C and COBOL.

   A session is opened from schema and module texts, and its procedures are called one after the other:

       sqmod_session *session = NULL;
       sqmod_new(&session);
       sqmod_add_schema(session, schema, schema_length);
       sqmod_add_module(session, module, module_length);
       sqmod_open(session, SQMOD_ROWS);
       sqmod_procedure(session, "M", "ADDROW", &addrow);
       sqmod_add_number(session, 1, 0);
       sqmod_add_number(session, -2, 0);
       sqmod_call(session, addrow);
       sqmod_status(session, sqlstate, &sqlcode);
       sqmod_close(&session);

   Each function answers SQMOD_DONE or one of the codes below it. What was asked is then not done, and what its pointers lead to
   is as it was, except that SQMOD_NO_ROOM sets the length, that sqmod_checked_values sets the place, and that sqmod_call always
   drops the values that were added.

   A text that comes out is put into a room, of which the caller says the size, with a zero behind it. The length does not count
   the zero.

   What is checked: a pointer that is null, a session that is null, a place that is out of range, a value that no parameter can
   have, values that don't fit, and calls that come too early or twice. Besides, a session begins with a word that it has only
   while it is open. It is there to find most pointers to something else. What can't be checked, and the caller has to keep:

   - a pointer that isn't null leads to memory of its type, and a text to as many bytes as its length says;
   - a session is what sqmod_new set, it isn't used after sqmod_close, and only the thread that made it uses it;
   - what a pointer leads to is no part of a session, nor of what another pointer of the same call leads to.

   Nothing is global: there may be any number of sessions, and none knows of another. */

#ifndef SQMOD_H
#define SQMOD_H

#include <stddef.h>
#include <stdint.h>

#ifdef __cplusplus
extern "C" {
#endif

enum {
    SQMOD_DONE = 0,
    SQMOD_NOT_OPEN = 1,      /* no session is there, or none is open yet */
    SQMOD_ALREADY_OPEN = 2,  /* the session is open already */
    SQMOD_REFUSED = 3,       /* a text is refused; sqmod_refusal says which, where and why */
    SQMOD_NO_MEMORY = 4,     /* memory ran out; tables and cursors are as they were */
    SQMOD_UNKNOWN = 5,       /* no such procedure, table or output, or nothing was called */
    SQMOD_BAD_VALUE = 6,     /* no value, or a number of rows out of bounds */
    SQMOD_BAD_ARGUMENTS = 7, /* no procedure has this number, or the values don't fit its parameters */
    SQMOD_OTHER_KIND = 8,    /* the value is of another kind, and not null */
    SQMOD_NULL = 9,          /* a pointer is null */
    SQMOD_NO_ROOM = 10,      /* the room is too small for the text and its zero; the length is set to that of the text */
    SQMOD_IS_NULL = 11,      /* the value is null, so it is neither a number nor a text */
    SQMOD_NO_ROW = 12        /* no row is left, or no table is read */
};

/* The kinds of a value. */
enum { SQMOD_NULL_VALUE = 0, SQMOD_NUMBER = 1, SQMOD_TEXT = 2 };

/* The row numbers of a table that `sqmod run` takes when none is given. */
#define SQMOD_ROWS 1000000

/* The most bytes of a name, of a number that is written out, and of what a code means. */
#define SQMOD_NAME_LENGTH 18
#define SQMOD_NUMBER_LENGTH 21
#define SQMOD_ERROR_LENGTH 63

typedef struct sqmod_session sqmod_session;

/* What a code means, in words: a constant text for each, for a message. */
int sqmod_error_text(int code, char *room, size_t size, size_t *length);

/* The version of the library, as "0.1.0". */
int sqmod_version(char *room, size_t size, size_t *length);

/* Sets a session without texts. What the pointer led to before is not looked at. */
int sqmod_new(sqmod_session **session);

/* Adds a text, before the session is opened. The bytes are copied. */
int sqmod_add_schema(sqmod_session *session, const char *text, size_t length);
int sqmod_add_module(sqmod_session *session, const char *text, size_t length);

/* Reads the texts, as `sqmod run` does, and opens the session. A table has row numbers from 1 to `rows`, which is at most
   1000000000. No text can be taken back: where one is refused, close the session. */
int sqmod_open(sqmod_session *session, uint64_t rows);

/* The line of the last refusal: the kind of text and its number among those, from 1, the line and column, and the name, as in
   `module 1:3:14: BadParameter`. It is empty where nothing was refused. */
int sqmod_refusal(sqmod_session *session, char *room, size_t size, size_t *length);

/* Sets the number of a procedure. The names end with a zero, and are taken without regard to case. */
int sqmod_procedure(sqmod_session *session, const char *module, const char *name, size_t *procedure);

/* Why each call of a procedure answers 42000: the name of its fault and, behind a blank, of what the fault is about, as in
   `UnknownColumn PRIZE`. It is empty where the procedure has no fault. */
int sqmod_why(sqmod_session *session, size_t procedure, char *room, size_t size, size_t *length);

/* Why the last call did not end with 00000, in words, as `sqmod trace` says it: `PRIMARY KEY (K) of U.T: row 1 has K = 1 already`. It
   is empty where it ended with 00000. The answer is SQMOD_UNKNOWN where there is no last call. */
int sqmod_cause(sqmod_session *session, char *room, size_t size, size_t *length);

/* Adds a value for the next call, in the order in which the parameters are declared, SQLCODE and SQLSTATE left out: a number,
   which is `unscaled` divided by ten to the power of `scale`, of at most 18 digits; a number as its digits, as "-12.50", around which
   there may be white space; a text of at most 240 printable characters; or none, which starts the parameter at 0 or blanks. A null
   is an indicator parameter of -1. */
int sqmod_add_number(sqmod_session *session, int64_t unscaled, unsigned scale);
int sqmod_add_digits(sqmod_session *session, const char *digits, size_t length);
int sqmod_add_text(sqmod_session *session, const char *text, size_t length);
int sqmod_add_start(sqmod_session *session);

/* Drops the values that were added since the last call. */
int sqmod_drop_values(sqmod_session *session);

/* Whether a procedure can be called with the values that were added, which stay: SQMOD_DONE, or SQMOD_BAD_ARGUMENTS with the
   place, from 0, of the first value that does not fit its parameter. Where there are more or fewer values than parameters, or no
   such procedure, the place is the number of values. */
int sqmod_checked_values(sqmod_session *session, size_t procedure, size_t *place);

/* Calls a procedure with the values that were added, which are then gone. Any status is SQMOD_DONE. Where it answers a code, nothing
   was called, and there is no last call. */
int sqmod_call(sqmod_session *session, size_t procedure);

/* SQLSTATE, with a zero behind it, and SQLCODE of the last call. */
int sqmod_status(sqmod_session *session, char sqlstate[6], int32_t *sqlcode);

/* How many parameters the last call set, and of one of them, by its place from 0, the name, the kind, and the value.

   A null comes out as the kind SQMOD_NULL_VALUE; asked for a number, for digits or for a text it answers SQMOD_IS_NULL. So ask for
   the kind first where an output may be null. Beside a null that comes out its indicator, an output of its own, is -1; for a null
   without an indicator the call ends with 22002 and sets nothing. */
int sqmod_outputs(sqmod_session *session, size_t *count);
int sqmod_output_name(sqmod_session *session, size_t place, char *room, size_t size, size_t *length);
int sqmod_output_kind(sqmod_session *session, size_t place, int *kind);
int sqmod_output_number(sqmod_session *session, size_t place, int64_t *unscaled, unsigned *scale);
int sqmod_output_digits(sqmod_session *session, size_t place, char *room, size_t size, size_t *length);
int sqmod_output_text(sqmod_session *session, size_t place, char *room, size_t size, size_t *length);

/* The place of the parameter of this name, which ends with a zero and is taken without regard to case, among those that the last
   call set. */
int sqmod_output_place(sqmod_session *session, const char *name, size_t *place);

/* Begins to read the rows of a base table, by its user and name, as they are now: what calls do afterwards does not change them.
   sqmod_next_row then goes to the next row, from the first on, or answers SQMOD_NO_ROW. Until the next call or row the outputs
   are the values of that row, in the order of the columns: sqmod_outputs says how many there are, and they have no names. */
int sqmod_table(sqmod_session *session, const char *user, const char *name);
int sqmod_next_row(sqmod_session *session);

/* Ends the session, and sets it to null. */
int sqmod_close(sqmod_session **session);

#ifdef __cplusplus
}
#endif

#endif
