/* Times queries by the C libraries of beas and SQLite, for scripts/lib/timed_library.py.

    timed_library beas | sqlite | prepared TIMES [FILE..]

It reads the folder in which it runs. Of begun.beas and begun.sql each line is a statement that prepares the tables; each FILE is handed
over to beas. Of queries.txt each line is a query. prepared.txt has one with ? in the place of its integer, for which values.txt has
a value for each query. All are asked TIMES times, each from its text unless it is prepared, and every cell, an integer, is read.
It writes the least processor seconds of all queries, the number of rows that came, and the sum of their cells. */
#include "beas.h"
#include <stdio.h>
#include <stdlib.h>
#include <string.h>
#include <time.h>

typedef struct sqlite3 sqlite3;
typedef struct sqlite3_stmt sqlite3_stmt;
int sqlite3_open(const char *, sqlite3 **);
int sqlite3_close(sqlite3 *);
int sqlite3_exec(sqlite3 *, const char *, void *, void *, char **);
int sqlite3_prepare_v2(sqlite3 *, const char *, int, sqlite3_stmt **, const char **);
int sqlite3_step(sqlite3_stmt *);
int sqlite3_reset(sqlite3_stmt *);
int sqlite3_finalize(sqlite3_stmt *);
int sqlite3_bind_int64(sqlite3_stmt *, int, long long);
long long sqlite3_column_int64(sqlite3_stmt *, int);
int sqlite3_column_count(sqlite3_stmt *);
enum { SQLITE_ROW = 100, SQLITE_DONE = 101 };

/* A file with its lines. */
struct lines {
    char *bytes, **line;
    size_t length, count;
};

static struct {
    uint64_t rows, sum;
} found;

static void fail(const char *what, int status) {
    fprintf(stderr, "timed_library: %s: %d\n", what, status);
    exit(1);
}

static void see(const char *what, int status, int wanted) {
    if (status != wanted) fail(what, status);
}

static char *whole_file(const char *name, size_t *length) {
    FILE *file = fopen(name, "rb");
    if (!file) fail(name, 0);
    fseek(file, 0, SEEK_END);
    *length = (size_t)ftell(file);
    rewind(file);
    char *bytes = malloc(*length + 1);
    if (!bytes || fread(bytes, 1, *length, file) != *length) fail(name, 1);
    bytes[*length] = 0;
    fclose(file);
    return bytes;
}

static struct lines lines_of(const char *name) {
    struct lines it = {0};
    it.bytes = whole_file(name, &it.length);
    for (char *at = it.bytes; *at; at++) it.count += *at == '\n';
    it.line = malloc((it.count + 1) * sizeof *it.line);
    if (!it.line) fail(name, 2);
    size_t nth = 0;
    for (char *at = it.bytes; nth < it.count; nth++) {
        it.line[nth] = at;
        at = strchr(at, '\n');
        *at++ = 0;
    }
    return it;
}

static double seconds(void) {
    struct timespec now;
    clock_gettime(CLOCK_PROCESS_CPUTIME_ID, &now);
    return (double)now.tv_sec + 1e-9 * (double)now.tv_nsec;
}

/* ---- beas */

static void ask_beas(beas_database *db, const char *query) {
    uint64_t rows, columns;
    int64_t cell;
    see(query, beas_say(db, (const uint8_t *)query, strlen(query)), BEAS_DONE);
    see("rows", beas_count(db, &rows), BEAS_DONE);
    see("columns", beas_columns(db, &columns), BEAS_DONE);
    for (uint64_t row = 0; row < rows; row++)
        for (uint64_t column = 0; column < columns; column++) {
            see("cell", beas_cell_integer(db, row, column, &cell), BEAS_DONE);
            found.sum += (uint64_t)cell;
        }
    found.rows += rows;
}

static void hand_over(beas_database *db, const char *file) {
    size_t length;
    char *bytes = whole_file(file, &length);
    see(file, beas_add_file(db, (const uint8_t *)file, strlen(file), (const uint8_t *)bytes, length), BEAS_DONE);
    free(bytes);
}

static double time_beas(struct lines begun, struct lines queries, int times, char **files) {
    beas_database db = {0};
    beas_limits limits = {0};
    int32_t kind;
    double least = 1e9;
    if (beas_abi() != BEAS_ABI) fail("version of the interface", (int)beas_abi());
    see("open", beas_open(&db, &limits, 0, 0, 0), BEAS_DONE);
    for (; *files; files++) hand_over(&db, *files);
    for (size_t nth = 0; nth < begun.count; nth++) {
        see(begun.line[nth], beas_say(&db, (const uint8_t *)begun.line[nth], strlen(begun.line[nth])), BEAS_DONE);
        if (beas_kind(&db, &kind) != BEAS_DONE || kind == BEAS_REFUSED) fail(begun.line[nth], kind);
    }
    for (int run = 0; run < times; run++) {
        double began = seconds();
        for (size_t nth = 0; nth < queries.count; nth++) ask_beas(&db, queries.line[nth]);
        double spent = seconds() - began;
        least = spent < least ? spent : least;
    }
    see("close", beas_close(&db), BEAS_DONE);
    return least;
}

/* ---- SQLite */

static void read_rows(sqlite3_stmt *statement) {
    int columns = sqlite3_column_count(statement), status;
    while ((status = sqlite3_step(statement)) == SQLITE_ROW) {
        for (int column = 0; column < columns; column++) found.sum += (uint64_t)sqlite3_column_int64(statement, column);
        found.rows++;
    }
    see("step", status, SQLITE_DONE);
}

static void ask_sqlite(sqlite3 *db, const char *query) {
    sqlite3_stmt *statement;
    see(query, sqlite3_prepare_v2(db, query, -1, &statement, NULL), 0);
    read_rows(statement);
    sqlite3_finalize(statement);
}

static void ask_prepared(sqlite3_stmt *statement, long long value) {
    see("value", sqlite3_bind_int64(statement, 1, value), 0);
    read_rows(statement);
    sqlite3_reset(statement);
}

static double time_sqlite(struct lines begun, struct lines queries, struct lines values, int is_prepared, int times) {
    sqlite3 *db;
    sqlite3_stmt *statement = NULL;
    double least = 1e9;
    see("open", sqlite3_open(":memory:", &db), 0);
    for (size_t nth = 0; nth < begun.count; nth++) see(begun.line[nth], sqlite3_exec(db, begun.line[nth], NULL, NULL, NULL), 0);
    if (is_prepared) see("prepare", sqlite3_prepare_v2(db, queries.line[0], -1, &statement, NULL), 0);
    for (int run = 0; run < times; run++) {
        double began = seconds();
        for (size_t nth = 0; nth < (is_prepared ? values.count : queries.count); nth++) {
            if (is_prepared)
                ask_prepared(statement, atoll(values.line[nth]));
            else
                ask_sqlite(db, queries.line[nth]);
        }
        double spent = seconds() - began;
        least = spent < least ? spent : least;
    }
    if (is_prepared) sqlite3_finalize(statement);
    sqlite3_close(db);
    return least;
}

int main(int count, char **words) {
    if (count < 3) fail("wanted: a way and a number", count);
    int times = atoi(words[2]), is_beas = !strcmp(words[1], "beas"), is_prepared = !strcmp(words[1], "prepared");
    struct lines begun = lines_of(is_beas ? "begun.beas" : "begun.sql");
    struct lines queries = lines_of(is_prepared ? "prepared.txt" : "queries.txt"), values = {0};
    if (is_prepared) values = lines_of("values.txt");
    double least = is_beas ? time_beas(begun, queries, times, words + 3) : time_sqlite(begun, queries, values, is_prepared, times);
    printf("%.9f %llu %llu\n", least, (unsigned long long)found.rows, (unsigned long long)found.sum);
    return 0;
}
