/* examples/first from C: what its script does, by functions that `sqmod bind-c` made of the module. */

#include <inttypes.h>
#include <stdio.h>
#include <stdlib.h>

#include "first_bound.h"
#include "sqmod.h"

/* The bytes of a file, and how many there are. */
static char *text_of(const char *file, size_t *length) {
    FILE *opened = fopen(file, "rb");
    static char text[65536];
    if (opened == NULL) {
        perror(file);
        exit(1);
    }
    *length = fread(text, 1, sizeof text, opened);
    fclose(opened);
    return text;
}

/* Ends the program where a function of the library didn't do what it was asked. */
static void expect(sqmod_session *session, int answer) {
    char line[256];
    size_t length;
    if (answer == SQMOD_DONE) return;
    if (answer == SQMOD_REFUSED && sqmod_refusal(session, line, sizeof line, &length) == SQMOD_DONE) {
        fprintf(stderr, "%s\n", line);
    } else {
        fprintf(stderr, "sqmod answered %d\n", answer);
    }
    exit(2);
}

int main(int count, char **words) {
    sqmod_session *session = NULL;
    char cause[256];
    size_t length;
    int32_t sqlcode = 0, a = 0, b = 0;
    if (count != 3) {
        fprintf(stderr, "Usage: first SCHEMA MODULE\n");
        return 2;
    }
    expect(session, sqmod_new(&session));
    const char *text = text_of(words[1], &length);
    expect(session, sqmod_add_schema(session, text, length));
    text = text_of(words[2], &length);
    expect(session, sqmod_add_module(session, text, length));
    expect(session, sqmod_open(session, SQMOD_ROWS));

    expect(session, m_addrow(session, &sqlcode, 1, -2));
    printf("ADDROW %" PRId32 "\n", sqlcode);
    expect(session, m_addrow(session, &sqlcode, 3, 4));
    printf("ADDROW %" PRId32 "\n", sqlcode);
    expect(session, m_opx(session, &sqlcode));
    printf("OPX %" PRId32 "\n", sqlcode);
    expect(session, m_nextrow(session, &sqlcode, &a, &b));
    while (sqlcode == 0) {
        printf("NEXTROW %" PRId32 " A=%" PRId32 " B=%" PRId32 "\n", sqlcode, a, b);
        expect(session, m_nextrow(session, &sqlcode, &a, &b));
    }
    printf("NEXTROW %" PRId32 "\n", sqlcode);
    expect(session, m_clx(session, &sqlcode));
    printf("CLX %" PRId32 "\n", sqlcode);
    expect(session, m_clx(session, &sqlcode));
    printf("CLX %" PRId32 "\n", sqlcode);
    expect(session, sqmod_cause(session, cause, sizeof cause, &length));
    printf("CLX: %s\n", cause);
    expect(session, sqmod_close(&session));
    return 0;
}
