/* Nulls of each kind, by functions that were made of nulls.sql: their targets stay as they are, with and without room, and what
   stands behind them is set. */

#include <inttypes.h>
#include <stdio.h>
#include <string.h>

#include "nulls_bound.h"
#include "sqmod.h"

static const char SCHEMA[] = "CREATE SCHEMA AUTHORIZATION U CREATE TABLE T (K SMALLINT NOT NULL PRIMARY KEY, S SMALLINT, I INTEGER,"
                             " N NUMERIC(5,2), D DECIMAL(7), C CHARACTER(4), V VARCHAR(8))";

/* The text of nulls.sql, which the command line names. */
static char MODULE[4096];

/* A target of each kind, with its indicator. */
struct row {
    int16_t k, s, s_null;
    int32_t i;
    int16_t i_null;
    char n[8];
    size_t n_length;
    int16_t n_null;
    char d[10];
    size_t d_length;
    int16_t d_null;
    char c[5];
    size_t c_length;
    int16_t c_null;
    char v[9];
    size_t v_length;
    int16_t v_null;
};

static void show(const struct row *row) {
    printf("  %d S=%d:%d I=%" PRId32 ":%d N=%s/%zu:%d D=%s/%zu:%d C=%s/%zu:%d V=%s/%zu:%d\n", row->k, row->s, row->s_null, row->i,
           row->i_null, row->n, row->n_length, row->n_null, row->d, row->d_length, row->d_null, row->c, row->c_length, row->c_null,
           row->v, row->v_length, row->v_null);
}

/* Fetches a row over targets that hold something else. `room` is how much of each text's room may be used. */
static void fetch(sqmod_session *session, size_t room) {
    struct row row = {77, 77, 77, 77, 77, "n", 1, 77, "d", 1, 77, "c", 1, 77, "v", 1, 77};
    char sqlstate[6] = "";
    int32_t sqlcode = 77;
    size_t n = room < sizeof row.n ? room : sizeof row.n, d = room < sizeof row.d ? room : sizeof row.d;
    size_t c = room < sizeof row.c ? room : sizeof row.c, v = room < sizeof row.v ? room : sizeof row.v;
    int answer = nulls_next_one(session, sqlstate, &sqlcode, &row.k, &row.s, &row.s_null, &row.i, &row.i_null, row.n, n,
                                &row.n_length, &row.n_null, row.d, d, &row.d_length, &row.d_null, row.c, c, &row.c_length,
                                &row.c_null, row.v, v, &row.v_length, &row.v_null);
    printf("NEXT_ONE %d %s %" PRId32 "\n", answer, sqlstate, sqlcode);
    /* A text for which there is no room leaves its room in no certain state. */
    if (answer == SQMOD_NO_ROOM) row.n[0] = row.d[0] = row.c[0] = row.v[0] = 0;
    show(&row);
}

static void get(sqmod_session *session, int16_t k) {
    char sqlstate[6] = "", text[9] = "v";
    int32_t i = 77;
    int16_t key = k, i_null = 77, text_null = 77;
    size_t length = 1;
    int answer = nulls_get(session, sqlstate, &key, &i, &i_null, text, sizeof text, &length, &text_null);
    printf("GET %d %s K=%d I=%" PRId32 ":%d V=%s/%zu:%d\n", answer, sqlstate, key, i, i_null, text, length, text_null);
}

int main(int count, char **words) {
    FILE *opened = count == 2 ? fopen(words[1], "rb") : NULL;
    sqmod_session *session = NULL;
    char sqlstate[6];
    int32_t i = 77;
    if (opened == NULL) return 1;
    size_t length = fread(MODULE, 1, sizeof MODULE - 1, opened);
    fclose(opened);
    sqmod_new(&session);
    sqmod_add_schema(session, SCHEMA, strlen(SCHEMA));
    sqmod_add_module(session, MODULE, length);
    printf("open: %d\n", sqmod_open(session, SQMOD_ROWS));
    nulls_put(session, sqlstate, 1, 5, -1, 6, -1, "1.5", 3, -1, "-7", 2, -1, "AB", 2, -1, "CD", 2, -1);
    nulls_put(session, sqlstate, 2, 5, 0, 6, 0, "1.5", 3, 0, "-7", 2, 0, "AB", 2, 0, "CD", 2, 0);
    nulls_put(session, sqlstate, 3, 5, -1, 6, 0, "1.5", 3, -1, "-7", 2, 0, "AB", 2, -1, "CD", 2, 0);
    nulls_put(session, sqlstate, 4, 5, 0, 6, -1, "1.5", 3, 0, "-7", 2, -1, "AB", 2, 0, "CD", 2, -1);
    nulls_open_all(session, sqlstate);
    for (int row = 0; row < 5; row++) fetch(session, 99);
    for (size_t room = 0; room < 4; room += 3) {
        printf("rooms of %zu\n", room);
        nulls_close_all(session, sqlstate);
        nulls_open_all(session, sqlstate);
        for (int row = 0; row < 4; row++) fetch(session, room);
    }
    get(session, 1);
    get(session, 2);
    get(session, 9);
    printf("BARE %d", nulls_bare(session, sqlstate, 1, &i));
    printf(" %s I=%" PRId32 "\n", sqlstate, i);
    sqmod_close(&session);
    return 0;
}
