/* Rows with nulls, from C by the functions of sqmod.h alone: a FETCH into parameters with indicators, and then the table itself. */

#include <stdio.h>
#include <stdlib.h>
#include <string.h>

#include "sqmod.h"

static const char SCHEMA[] =
    "CREATE SCHEMA AUTHORIZATION U\n"
    "CREATE TABLE PUPIL (ID INTEGER, NAME CHARACTER(6), MARK NUMERIC(3,1))\n";

static const char MODULE[] =
    "MODULE P LANGUAGE C AUTHORIZATION U\n"
    "DECLARE X CURSOR FOR SELECT ID, NAME, MARK FROM PUPIL\n"
    "PROCEDURE ADDPUPIL (SQLCODE, :ID INTEGER, :NAME CHARACTER(6), :NO_NAME SMALLINT, :MARK NUMERIC(3,1), :NO_MARK SMALLINT);\n"
    "  INSERT INTO PUPIL VALUES (:ID, :NAME INDICATOR :NO_NAME, :MARK INDICATOR :NO_MARK);\n"
    "PROCEDURE OPX (SQLCODE);\n"
    "  OPEN X;\n"
    "PROCEDURE NEXTPUPIL (SQLCODE, :ID INTEGER, :NAME CHARACTER(6), :NO_NAME SMALLINT, :MARK NUMERIC(3,1), :NO_MARK SMALLINT);\n"
    "  FETCH X INTO :ID, :NAME INDICATOR :NO_NAME, :MARK INDICATOR :NO_MARK;\n";

/* Ends the program where a function of the library didn't do what it was asked, and says what it answered. */
static void expect(int answer) {
    char text[SQMOD_ERROR_LENGTH + 1];
    size_t length;
    if (answer == SQMOD_DONE) return;
    if (sqmod_error_text(answer, text, sizeof text, &length) == SQMOD_DONE) fprintf(stderr, "sqmod: %s\n", text);
    exit(2);
}

/* Prints a value that the last call or row gave, whatever its kind. */
static void print_value(sqmod_session *session, size_t place) {
    char room[32];
    size_t length;
    int kind;
    expect(sqmod_output_kind(session, place, &kind));
    switch (kind) {
    case SQMOD_NULL_VALUE:
        printf(" null");
        break;
    case SQMOD_NUMBER:
        expect(sqmod_output_digits(session, place, room, sizeof room, &length));
        printf(" %s", room);
        break;
    case SQMOD_TEXT:
        expect(sqmod_output_text(session, place, room, sizeof room, &length));
        printf(" '%s'", room);
        break;
    }
}

static void print_values(sqmod_session *session) {
    size_t count;
    expect(sqmod_outputs(session, &count));
    for (size_t place = 0; place < count; place++) print_value(session, place);
    printf("\n");
}

/* Calls a procedure with the values that were added, and gives SQLCODE. */
static int32_t called(sqmod_session *session, const char *name) {
    size_t procedure;
    char sqlstate[6];
    int32_t sqlcode;
    expect(sqmod_procedure(session, "P", name, &procedure));
    expect(sqmod_call(session, procedure));
    expect(sqmod_status(session, sqlstate, &sqlcode));
    return sqlcode;
}

/* A null pointer stands for a null. */
static void add_pupil(sqmod_session *session, int32_t id, const char *name, const char *mark) {
    expect(sqmod_add_number(session, id, 0));
    expect(name == NULL ? sqmod_add_start(session) : sqmod_add_text(session, name, strlen(name)));
    expect(sqmod_add_number(session, name == NULL ? -1 : 0, 0));
    expect(mark == NULL ? sqmod_add_start(session) : sqmod_add_digits(session, mark, strlen(mark)));
    expect(sqmod_add_number(session, mark == NULL ? -1 : 0, 0));
    if (called(session, "ADDPUPIL") != 0) exit(1);
}

int main(void) {
    sqmod_session *session = NULL;
    expect(sqmod_new(&session));
    expect(sqmod_add_schema(session, SCHEMA, strlen(SCHEMA)));
    expect(sqmod_add_module(session, MODULE, strlen(MODULE)));
    expect(sqmod_open(session, SQMOD_ROWS));
    add_pupil(session, 1, "ANN", "17.5");
    add_pupil(session, 2, "BOB", NULL);
    add_pupil(session, 3, NULL, "9");

    if (called(session, "OPX") != 0) exit(1);
    for (;;) {
        for (int at = 0; at < 5; at++) expect(sqmod_add_start(session));
        if (called(session, "NEXTPUPIL") != 0) break;
        printf("NEXTPUPIL");
        print_values(session);
    }

    expect(sqmod_table(session, "U", "PUPIL"));
    int answer = sqmod_next_row(session);
    for (; answer == SQMOD_DONE; answer = sqmod_next_row(session)) {
        printf("PUPIL");
        print_values(session);
    }
    if (answer != SQMOD_NO_ROW) expect(answer);
    expect(sqmod_close(&session));
    return 0;
}
