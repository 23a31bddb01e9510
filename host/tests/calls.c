/* Makes calls, each once more where it is refused memory, and prints a line for each as `sqmod run` does.

   calls ROWS FILE.. -- FILE.. -- FILE: the row numbers of a table, files with schemas, files with modules, and a file with a call
   in each line: the names of its module and its procedure, and its values, with a tab before each. A value is `n` and a number, `t` and
   a text, or `*`. tools/refuse_allocations.py refuses each allocation in turn; what is printed stays the same. */

#include <inttypes.h>
#include <stdio.h>
#include <stdlib.h>
#include <string.h>

#include "sqmod.h"

enum { MOST_BYTES = 1 << 16, MOST_FIELDS = 64, MOST_LINE = 4096 };

static char output[MOST_BYTES];
static char script[MOST_BYTES];

/* Ends the program, after the lines that were printed. */
static void end(const char *what, int answer) {
    fprintf(stderr, "%s: %d\n", what, answer);
    exit(1);
}

static size_t text_of(const char *name, char *room) {
    FILE *file = fopen(name, "r");
    if (file == NULL) end(name, SQMOD_NO_MEMORY);
    setvbuf(file, NULL, _IONBF, 0);
    size_t length = fread(room, 1, MOST_BYTES - 1, file);
    fclose(file);
    room[length] = 0;
    return length;
}

static int add(sqmod_session *session, const char *value) {
    switch (value[0]) {
    case 'n': return sqmod_add_digits(session, value + 1, strlen(value + 1));
    case 't': return sqmod_add_text(session, value + 1, strlen(value + 1));
    default: return sqmod_add_start(session);
    }
}

/* Makes the call of a line's fields. Where it isn't made, its values are dropped. */
static int attempt(sqmod_session *session, char **fields, size_t count) {
    size_t procedure;
    int answer = sqmod_procedure(session, fields[0], fields[1], &procedure);
    for (size_t i = 2; i < count && answer == SQMOD_DONE; i++) answer = add(session, fields[i]);
    if (answer == SQMOD_DONE) return sqmod_call(session, procedure);
    sqmod_drop_values(session);
    return answer;
}

/* Writes the value of an output to a room of MOST_LINE bytes. */
static int value_of(sqmod_session *session, size_t place, char *room) {
    int kind;
    size_t length;
    int answer = sqmod_output_kind(session, place, &kind);
    if (answer != SQMOD_DONE) return answer;
    if (kind == SQMOD_NUMBER) return sqmod_output_digits(session, place, room, MOST_LINE, &length);
    if (kind == SQMOD_NULL_VALUE) {
        strcpy(room, "NULL");
        return SQMOD_DONE;
    }
    room[0] = '\'';
    answer = sqmod_output_text(session, place, room + 1, MOST_LINE - 2, &length);
    strcat(room, "'");
    return answer;
}

/* Prints the line of the last call, once all of it is known. No text may have a quote. */
static void print(sqmod_session *session, char **fields) {
    static char line[MOST_BYTES];
    char sqlstate[6], name[SQMOD_NAME_LENGTH + 1], value[MOST_LINE];
    int32_t sqlcode;
    size_t count, length;
    int answer = sqmod_status(session, sqlstate, &sqlcode);
    if (answer == SQMOD_DONE) answer = sqmod_outputs(session, &count);
    if (answer != SQMOD_DONE) end("status", answer);
    int used = snprintf(line, sizeof line, "%s.%s %s %" PRId32, fields[0], fields[1], sqlstate, sqlcode);
    for (size_t place = 0; place < count; place++) {
        answer = sqmod_output_name(session, place, name, sizeof name, &length);
        if (answer == SQMOD_DONE) answer = value_of(session, place, value);
        if (answer != SQMOD_DONE) end("output", answer);
        used += snprintf(line + used, sizeof line - (size_t)used, " %s=%s", name, value);
        if ((size_t)used >= sizeof line) end("line", used);
    }
    puts(line);
}

static void make(sqmod_session *session, char *line) {
    char *fields[MOST_FIELDS];
    size_t count = 0;
    for (char *field = strtok(line, "\t"); field != NULL && count < MOST_FIELDS; field = strtok(NULL, "\t")) fields[count++] = field;
    if (count < 2) end("fields of a call", (int)count);
    int answer = attempt(session, fields, count);
    if (answer == SQMOD_NO_MEMORY) {
        fprintf(stderr, "a call is made again\n");
        answer = attempt(session, fields, count);
    }
    if (answer != SQMOD_DONE) end("call", answer);
    print(session, fields);
}

/* Opens a session of the files that the words name, and gives the words behind them. */
static char **opened(sqmod_session *session, char **words) {
    static char text[MOST_BYTES];
    uint64_t rows = strtoull(*words++, NULL, 10);
    int answer = SQMOD_DONE;
    for (; answer == SQMOD_DONE && strcmp(*words, "--") != 0; words++) {
        size_t length = text_of(*words, text);
        answer = sqmod_add_schema(session, text, length);
    }
    for (words++; answer == SQMOD_DONE && strcmp(*words, "--") != 0; words++) {
        size_t length = text_of(*words, text);
        answer = sqmod_add_module(session, text, length);
    }
    if (answer == SQMOD_DONE) answer = sqmod_open(session, rows);
    if (answer != SQMOD_DONE) end("open", answer);
    return words + 1;
}

int main(int argc, char **argv) {
    sqmod_session *session = NULL;
    if (argc < 5) end("words", argc);
    setvbuf(stdout, output, _IOFBF, sizeof output);
    int answer = sqmod_new(&session);
    if (answer != SQMOD_DONE) end("new", answer);
    char **words = opened(session, argv + 1);
    text_of(*words, script);
    for (char *line = script; *line != 0;) {
        char *next = strchr(line, '\n');
        if (next == NULL) end("line feed", 0);
        *next = 0;
        make(session, line);
        line = next + 1;
    }
    return sqmod_close(&session);
}
