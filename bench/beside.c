/* SQLite's side of bench/beside.py: statements that are prepared once, on a database in memory.
 *
 * Standard input has four parts, each but the last ended by a line with a full stop: SQL that is run before the clock starts;
 * statements, one a line, that are run in turn for each line of values; statements that are run once at the end; and the values,
 * integers, a line for each turn. A statement after "> " is run for each row of the statement before it, whose columns are its values.
 * It prints the seconds of the processor, how many numbers the queries gave, and a checksum of them.
 */
#include <sqlite3.h>
#include <stdint.h>
#include <stdio.h>
#include <stdlib.h>
#include <string.h>
#include <sys/resource.h>

enum { MOST_STATEMENTS = 16, MOST_VALUES = 4, LONGEST = 1 << 16 };

struct statement { sqlite3_stmt *made; int within; };
struct list { struct statement all[MOST_STATEMENTS]; int count; };
struct turn { int64_t values[MOST_VALUES]; int count; };

static sqlite3 *db;
static uint64_t numbers, checksum = 14695981039346656037u;
static char line[LONGEST];

static void stop(const char *what) {
    fprintf(stderr, "%s: %s\n", what, db ? sqlite3_errmsg(db) : "");
    exit(1);
}

static double seconds(void) {
    struct rusage used;
    getrusage(RUSAGE_SELF, &used);
    return used.ru_utime.tv_sec + used.ru_stime.tv_sec + (used.ru_utime.tv_usec + used.ru_stime.tv_usec) / 1e6;
}

static int more(void) {
    if (!fgets(line, sizeof line, stdin)) return 0;
    line[strcspn(line, "\n")] = 0;
    return strcmp(line, ".") != 0;
}

static void take(int64_t number) {
    ++numbers;
    checksum = (checksum ^ (uint64_t)number) * 1099511628211u;
}

static void read_statements(struct list *list) {
    while (more()) {
        struct statement *next = &list->all[list->count++];
        next->within = !strncmp(line, "> ", 2);
        if (sqlite3_prepare_v2(db, next->within ? line + 2 : line, -1, &next->made, 0)) stop(line);
    }
}

static void run(struct list *list, int at, const int64_t *values, int count) {
    sqlite3_stmt *made = list->all[at].made;
    int inner = at + 1 < list->count && list->all[at + 1].within, columns = sqlite3_column_count(made), step;
    int wanted = sqlite3_bind_parameter_count(made);
    for (int i = 0; i < count && i < wanted; ++i) sqlite3_bind_int64(made, i + 1, values[i]);
    while ((step = sqlite3_step(made)) == SQLITE_ROW) {
        int64_t row[MOST_VALUES];
        for (int i = 0; i < columns; ++i) take(row[i] = sqlite3_column_int64(made, i));
        if (inner) run(list, at + 1, row, columns);
    }
    if (step != SQLITE_DONE) stop("a step");
    sqlite3_reset(made);
}

static void run_all(struct list *list, const struct turn *turn) {
    for (int at = 0; at < list->count; ++at)
        if (!list->all[at].within) run(list, at, turn->values, turn->count);
}

static struct turn *read_turns(size_t *count) {
    size_t room = 1 << 10;
    struct turn *turns = malloc(room * sizeof *turns);
    while (fgets(line, sizeof line, stdin)) {
        if (*count == room) turns = realloc(turns, (room *= 2) * sizeof *turns);
        struct turn *turn = &turns[(*count)++];
        char *rest = line, *end;
        for (turn->count = 0; turn->count < MOST_VALUES; rest = end) {
            int64_t value = strtoll(rest, &end, 10);
            if (end == rest) break;
            turn->values[turn->count++] = value;
        }
    }
    return turns;
}

int main(void) {
    struct list each = {0}, last = {0};
    size_t count = 0;
    if (sqlite3_open(":memory:", &db)) stop("open");
    while (more())
        if (sqlite3_exec(db, line, 0, 0, 0)) stop(line);
    read_statements(&each);
    read_statements(&last);
    struct turn *turns = read_turns(&count);
    double before = seconds();
    for (size_t i = 0; i < count; ++i) run_all(&each, &turns[i]);
    run_all(&last, &(struct turn){0});
    printf("%.6f %llu %llu\n", seconds() - before, (unsigned long long)numbers, (unsigned long long)checksum);
    return 0;
}
