/* What a host program may do wrong, and what comes of it; values and nulls of each kind in and out; faults, values that don't fit,
   and rows of tables. */

#include <inttypes.h>
#include <stdio.h>
#include <string.h>

#include "checks_bound.h"
#include "sqmod.h"

static const char SCHEMA[] = "CREATE SCHEMA AUTHORIZATION U CREATE TABLE T (K SMALLINT NOT NULL PRIMARY KEY, PRICE NUMERIC(7,2),"
                             " NAME CHARACTER(6))";

/* The text of checks.sql, which the command line names. */
static char MODULE[4096];

static void say(const char *what, int answer) {
    printf("%s: %d\n", what, answer);
}

static sqmod_session *opened(const char *schema, const char *module) {
    sqmod_session *session = NULL;
    char line[256];
    size_t length;
    sqmod_new(&session);
    sqmod_add_schema(session, schema, strlen(schema));
    sqmod_add_module(session, module, strlen(module));
    int answer = sqmod_open(session, SQMOD_ROWS);
    say("open", answer);
    if (answer == SQMOD_REFUSED && sqmod_refusal(session, line, sizeof line, &length) == SQMOD_DONE) printf("%s\n", line);
    return session;
}

/* Refusals, with their lines. */
static void refusals(void) {
    sqmod_session *session = opened("CREATE SCHEMA AUTHORIZATION U\nCREATE TABLE T (A INTEGER, A INTEGER)", MODULE);
    sqmod_close(&session);
    session = opened(SCHEMA, "MODULE M LANGUAGE C AUTHORIZATION U PROCEDURE P (:A INTEGER); COMMIT;");
    sqmod_close(&session);
    session = opened(SCHEMA, "SELECT");
    sqmod_close(&session);
}

/* Calls that come too early, twice, or with nothing. */
static void wrong_calls(void) {
    sqmod_session *session = NULL;
    size_t procedure = 0, length = 0;
    char room[8];
    int32_t code;
    int kind;
    say("new null", sqmod_new(NULL));
    say("add to null", sqmod_add_schema(NULL, SCHEMA, strlen(SCHEMA)));
    say("call null", sqmod_call(NULL, 0));
    say("close null", sqmod_close(&session));
    sqmod_new(&session);
    say("null text", sqmod_add_schema(session, NULL, 3));
    say("no text", sqmod_add_schema(session, NULL, 0));
    sqmod_close(&session);
    sqmod_new(&session);
    sqmod_add_schema(session, SCHEMA, strlen(SCHEMA));
    sqmod_add_module(session, MODULE, strlen(MODULE));
    say("procedure too early", sqmod_procedure(session, "CHECKS", "ADD", &procedure));
    say("call too early", sqmod_call(session, 0));
    say("no rows", sqmod_open(session, 0));
    say("too many rows", sqmod_open(session, UINT64_C(1000000001)));
    say("open", sqmod_open(session, 1000));
    say("open twice", sqmod_open(session, 1000));
    say("text too late", sqmod_add_module(session, MODULE, strlen(MODULE)));
    say("status too early", sqmod_status(session, room, &code));
    say("unknown procedure", sqmod_procedure(session, "CHECKS", "SUB", &procedure));
    say("no name", sqmod_procedure(session, "CHECKS", "A B", &procedure));
    say("procedure", sqmod_procedure(session, "checks", "Add", &procedure));
    say("no values", sqmod_call(session, procedure));
    say("unknown number", sqmod_call(session, 77));
    say("19 digits", sqmod_add_number(session, INT64_C(1000000000000000000), 0));
    say("scale 19", sqmod_add_number(session, 1, 19));
    say("no digits", sqmod_add_digits(session, "1.2.3", 5));
    say("control character", sqmod_add_text(session, "a\nb", 3));
    say("output too early", sqmod_output_kind(session, 0, &kind));
    sqmod_add_number(session, 40000, 0);
    sqmod_add_start(session);
    sqmod_add_start(session);
    say("value that doesn't fit", sqmod_call(session, procedure));
    sqmod_add_text(session, "abc", 3);
    sqmod_drop_values(session);
    sqmod_add_number(session, 1, 0);
    sqmod_add_number(session, 250, 2);
    sqmod_add_text(session, "TEA", 3);
    say("call", sqmod_call(session, procedure));
    say("no output", sqmod_output_kind(session, 0, &kind));
    say("null room", sqmod_refusal(session, NULL, 8, &length));
    say("close", sqmod_close(&session));
    say("close twice", sqmod_close(&session));
}

/* Values of each kind, by the functions that were made of the module. */
static void values(void) {
    sqmod_session *session = opened(SCHEMA, MODULE), *other = opened(SCHEMA, MODULE);
    char sqlstate[6], price[SQMOD_NUMBER_LENGTH + 1] = "", name[8] = "", little[3];
    size_t price_length = 0, name_length = 0, place, length;
    int32_t sqlcode = 0;
    int16_t no_price = 0, key = 7;
    say("ADD", checks_add(session, sqlstate, &sqlcode, 1, "-12.5", 5, "TEA", 3));
    printf("%s %" PRId32 "\n", sqlstate, sqlcode);
    say("ADD", checks_add(session, sqlstate, &sqlcode, 1, "3", 1, "SALT", 4));
    printf("%s %" PRId32 "\n", sqlstate, sqlcode);
    say("ADD", checks_add(session, sqlstate, &sqlcode, 7, "0.05", 4, "", 0));
    say("ADD of no number", checks_add(session, sqlstate, &sqlcode, 8, "x", 1, "SALT", 4));
    say("GET", checks_get(session, sqlstate, 1, price, sizeof price, &price_length, &no_price, name, sizeof name, &name_length));
    printf("%s %s '%s' %d\n", sqlstate, price, name, no_price);
    say("GET", checks_get(session, sqlstate, 7, price, sizeof price, &price_length, &no_price, name, sizeof name, &name_length));
    printf("%s %s '%s' %d\n", sqlstate, price, name, no_price);
    say("GET without room", checks_get(session, sqlstate, 1, little, sizeof little, &price_length, &no_price, name, sizeof name, &name_length));
    printf("%zu\n", price_length);
    say("DOUBLED", checks_doubled(session, sqlstate, &key));
    printf("%s %d\n", sqlstate, key);
    say("place", sqmod_output_place(session, "K", &place));
    say("other kind", sqmod_output_text(session, place, name, sizeof name, &length));
    say("GET of the other", checks_get(other, sqlstate, 1, price, sizeof price, &price_length, &no_price, name, sizeof name, &name_length));
    printf("%s\n", sqlstate);
    say("null pointer", checks_doubled(session, sqlstate, NULL));
    sqmod_close(&session);
    sqmod_close(&other);
}

/* The values that the last call or row gave, with room and without. */
static void show_outputs(sqmod_session *session) {
    size_t count = 0, length;
    say("outputs", sqmod_outputs(session, &count));
    for (size_t place = 0; place < count; place++) {
        char name[SQMOD_NAME_LENGTH + 1] = "", room[16] = "";
        int64_t unscaled = 77;
        unsigned scale = 77;
        int kind = 77;
        int named = sqmod_output_name(session, place, name, sizeof name, &length);
        int asked = sqmod_output_kind(session, place, &kind);
        printf("  %zu: name %d %s, kind %d %d,", place, named, name, asked, kind);
        int answer = sqmod_output_number(session, place, &unscaled, &scale);
        printf(" number %d %" PRId64 " %u,", answer, unscaled, scale);
        length = 77;
        answer = sqmod_output_digits(session, place, room, sizeof room, &length);
        printf(" digits %d %zu '%s',", answer, length, room);
        length = 77;
        room[0] = 0;
        answer = sqmod_output_text(session, place, room, sizeof room, &length);
        printf(" text %d %zu '%s',", answer, length, room);
        length = 77;
        answer = sqmod_output_digits(session, place, room, 1, &length);
        printf(" digits without room %d %zu,", answer, length);
        length = 77;
        answer = sqmod_output_text(session, place, room, 0, &length);
        printf(" text without room %d %zu\n", answer, length);
    }
}

static size_t number_of(sqmod_session *session, const char *name) {
    size_t procedure = 0;
    if (sqmod_procedure(session, "CHECKS", name, &procedure) != SQMOD_DONE) printf("no procedure %s\n", name);
    return procedure;
}

/* Calls a procedure by hand, with numbers, and shows what it set. */
static void call_and_show(sqmod_session *session, const char *name, const int64_t *numbers, size_t count) {
    char sqlstate[6];
    int32_t sqlcode;
    for (size_t at = 0; at < count; at++) sqmod_add_number(session, numbers[at], 0);
    printf("%s: %d\n", name, sqmod_call(session, number_of(session, name)));
    say("status", sqmod_status(session, sqlstate, &sqlcode));
    printf("%s %" PRId32 "\n", sqlstate, sqlcode);
    show_outputs(session);
}

/* Nulls in and out, of each kind. */
static void nulls(void) {
    sqmod_session *session = opened(SCHEMA, MODULE);
    size_t place = 77;
    int kind = 77;
    call_and_show(session, "ADD_NULLS", (const int64_t[]){1, -1}, 2);
    call_and_show(session, "ADD_NULLS", (const int64_t[]){2, 0}, 2);
    for (int64_t key = 1; key <= 3; key++) {
        sqmod_add_number(session, key, 0);
        for (int at = 0; at < 4; at++) sqmod_add_start(session);
        call_and_show(session, "GET_NULLS", NULL, 0);
    }
    sqmod_add_number(session, 1, 0);
    for (int at = 0; at < 4; at++) sqmod_add_start(session);
    sqmod_call(session, number_of(session, "GET_NULLS"));
    say("place of a null", sqmod_output_place(session, "price", &place));
    say("its kind", sqmod_output_kind(session, place, &kind));
    printf("%zu %d\n", place, kind);
    say("place of no output", sqmod_output_place(session, "K", &place));
    say("place of no name", sqmod_output_place(session, "A B", &place));
    sqmod_add_number(session, 1, 0);
    for (int at = 0; at < 3; at++) sqmod_add_start(session);
    call_and_show(session, "GET", NULL, 0);
    sqmod_close(&session);
}

/* What is known of a call before it is made. */
static void trials(void) {
    sqmod_session *session = opened(SCHEMA, MODULE);
    size_t place = 77, length = 77;
    char room[64] = "";
    size_t add = number_of(session, "ADD");
    say("why", sqmod_why(session, number_of(session, "FAULTY"), room, sizeof room, &length));
    printf("%zu '%s'\n", length, room);
    say("why without room", sqmod_why(session, number_of(session, "FAULTY"), room, 4, &length));
    printf("%zu\n", length);
    say("why of what has no fault", sqmod_why(session, add, room, sizeof room, &length));
    printf("%zu '%s'\n", length, room);
    call_and_show(session, "FAULTY", NULL, 0);
    say("checked too few", sqmod_checked_values(session, add, &place));
    printf("%zu\n", place);
    sqmod_add_number(session, 1, 0);
    sqmod_add_number(session, 12345678, 2);
    sqmod_add_text(session, "PEPPER", 6);
    say("checked", sqmod_checked_values(session, add, &place));
    printf("%zu\n", place);
    say("checked for no procedure", sqmod_checked_values(session, 77, &place));
    printf("%zu\n", place);
    sqmod_add_start(session);
    say("checked too many", sqmod_checked_values(session, add, &place));
    printf("%zu\n", place);
    sqmod_drop_values(session);
    place = 77;
    sqmod_add_digits(session, " +1. ", 5);
    sqmod_add_digits(session, "-.5", 3);
    sqmod_add_text(session, "PEPPER  ", 8);
    say("checked what fits", sqmod_checked_values(session, add, &place));
    printf("%zu\n", place);
    call_and_show(session, "ADD", NULL, 0);
    const char *digits[] = {"", " ", "-", "+-1", "1-", "1 2", ".", "1..2", "1234567890123456789", "0.1234567890123456789", "x"};
    for (size_t at = 0; at < sizeof digits / sizeof *digits; at++) {
        printf("'%s': %d\n", digits[at], sqmod_add_digits(session, digits[at], strlen(digits[at])));
    }
    sqmod_close(&session);
}

/* Shows why the last call did not end with 00000. */
static void show_cause(sqmod_session *session) {
    char room[96] = "";
    size_t length = 77;
    say("cause", sqmod_cause(session, room, sizeof room, &length));
    printf("%zu '%s'\n", length, room);
}

/* Why calls fail, and what of a call that isn't made. */
static void causes(void) {
    sqmod_session *session = NULL;
    size_t length = 77, add;
    char room[4];
    say("cause of null", sqmod_cause(session, room, sizeof room, &length));
    sqmod_new(&session);
    say("cause too early", sqmod_cause(session, room, sizeof room, &length));
    sqmod_close(&session);
    session = opened(SCHEMA, MODULE);
    add = number_of(session, "ADD_NULLS");
    show_cause(session);
    for (int at = 0; at < 2; at++) {
        sqmod_add_number(session, 1, 0);
        sqmod_add_number(session, -1, 0);
        say("call", sqmod_call(session, add));
        show_cause(session);
    }
    say("cause without room", sqmod_cause(session, room, sizeof room, &length));
    printf("%zu\n", length);
    say("cause without pointers", sqmod_cause(session, NULL, 4, NULL));
    say("table", sqmod_table(session, "U", "T"));
    say("row", sqmod_next_row(session));
    show_cause(session);
    sqmod_call(session, number_of(session, "FAULTY"));
    show_cause(session);
    say("call without values", sqmod_call(session, add));
    show_cause(session);
    sqmod_close(&session);
}

/* The rows of a table, which calls made meanwhile don't change. */
static void rows(void) {
    sqmod_session *session = NULL;
    char sqlstate[6];
    int32_t sqlcode = 77;
    sqmod_new(&session);
    say("table too early", sqmod_table(session, "U", "T"));
    sqmod_close(&session);
    session = opened(SCHEMA, MODULE);
    say("no table read", sqmod_next_row(session));
    say("unknown table", sqmod_table(session, "U", "V"));
    say("no name of a table", sqmod_table(session, "U", "T T"));
    say("no rows", sqmod_table(session, "U", "T"));
    say("row", sqmod_next_row(session));
    checks_add(session, sqlstate, &sqlcode, 1, "-12.5", 5, "TEA", 3);
    call_and_show(session, "ADD_NULLS", (const int64_t[]){2, -1}, 2);
    say("table", sqmod_table(session, "u", "t"));
    say("row", sqmod_next_row(session));
    show_outputs(session);
    call_and_show(session, "ADD_NULLS", (const int64_t[]){3, -1}, 2);
    say("row", sqmod_next_row(session));
    show_outputs(session);
    say("row", sqmod_next_row(session));
    show_outputs(session);
    say("status", sqmod_status(session, sqlstate, &sqlcode));
    printf("%s %" PRId32 "\n", sqlstate, sqlcode);
    sqmod_close(&session);
}

/* What each code means, and the version. */
static void texts(void) {
    char room[SQMOD_ERROR_LENGTH + 1];
    size_t length;
    for (int code = -1; code <= SQMOD_NO_ROW + 1; code++) {
        say("text", sqmod_error_text(code, room, sizeof room, &length));
        printf("%d %zu %s\n", code, length, room);
    }
    say("text without room", sqmod_error_text(SQMOD_DONE, room, 4, &length));
    say("version", sqmod_version(room, sizeof room, &length));
    printf("%zu %s\n", length, room);
    say("version without pointers", sqmod_version(NULL, 0, NULL));
}

int main(int count, char **words) {
    FILE *opened = count == 2 ? fopen(words[1], "rb") : NULL;
    if (opened == NULL) return 1;
    size_t length = fread(MODULE, 1, sizeof MODULE - 1, opened);
    MODULE[length] = 0;
    fclose(opened);
    refusals();
    wrong_calls();
    values();
    nulls();
    trials();
    causes();
    rows();
    texts();
    return 0;
}
