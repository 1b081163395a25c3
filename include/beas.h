/* beas, a query engine that tells the cost of a query before it reads, for C.
 *
 * A database lies in the program's own memory and lives as long as it is open. It is asked statement by statement: each statement leaves a
 * report, which is there to be read until the next one. A database whose bytes are all 0 is closed:
 *
 *     beas_database db = {0};
 *     beas_limits limits = {0};
 *     beas_open(&db, &limits, 1, 1000, 0);
 *     beas_say(&db, text, length);
 *     ..
 *     beas_close(&db);
 *
 * Each call returns a status. A status other than BEAS_DONE says that nothing was done, and what the call writes to is as it was, unless
 * the call's own lines say more. A call that has a `length` sets it at BEAS_NO_ROOM too, to the room that is needed. What is proved holds
 * for a caller who keeps to these rules, which nothing checks:
 *
 *   - a database's bytes are all 0, or are what the last call left there; an open one is not copied;
 *   - no pointer is NULL, also where the length is 0; what one points to is whole, aligned, and the call's alone while it runs;
 *   - calls with one database come one after another, and all from the thread that opened it. Databases know nothing of each other. No
 *     call comes from a signal handler;
 *   - malloc, realloc and free are one allocator, and align each block to 16.
 */
#ifndef BEAS_H
#define BEAS_H

#include <stddef.h>
#include <stdint.h>

#ifdef __cplusplus
extern "C" {
#endif

/* The version of this interface. A library of another one is not to be called by a program that was compiled with this header. */
#define BEAS_ABI 1

typedef struct beas_database {
    uint64_t mark;
    void *at;
} beas_database;

/* The limits of a database. A field that is 0 stands for the limit that the program beas runs with, which is the greatest. */
typedef struct beas_limits {
    uint64_t tables;      /* at most 1024 */
    uint64_t columns;     /* of a table: at most 64 */
    uint64_t constraints; /* at most 65536 */
    uint64_t atoms;       /* of a block: at most 16 */
    uint64_t blocks;      /* of a query: at most 64 */
    uint64_t outputs;     /* of a block: at most 1024 */
    uint64_t rows;        /* of a table: at most 16777216 */
    uint64_t text;        /* bytes of a text: at most 65535 */
    uint64_t file;        /* bytes of a file: at most 67108864 */
} beas_limits;

/* What a call came to. */
enum {
    BEAS_DONE = 0,         /* the call did what it is for */
    BEAS_CLOSED = 1,       /* the database is closed */
    BEAS_NO_MEMORY = 2,    /* memory ran out */
    BEAS_NO_ROOM = 3,      /* what is asked for has more bytes, or items, than there is room for */
    BEAS_TOO_LONG = 4,     /* the text has more than 16,777,216 bytes */
    BEAS_NOT_TEXT = 5,     /* the bytes are not UTF-8 */
    BEAS_NO_STATEMENT = 6, /* the text has no statement */
    BEAS_SEVERAL = 7,      /* the text has more than one statement */
    BEAS_NOT_A_QUERY = 8,  /* what is to be priced or planned is not what could be opened: one query without GROUP BY and without a word before it */
    BEAS_ABSENT = 9,       /* the report has no such thing, or the query is refused, so it has no plan */
    BEAS_BAD_LIMIT = 10    /* a limit is greater than it may be */
};

/* The kinds of reports. */
enum {
    BEAS_NOTHING = 0,     /* no statement was said yet */
    BEAS_OK = 1,          /* a table or a constraint was made, or a constraint was dropped */
    BEAS_CHANGED = 2,     /* rows were added or removed: beas_count tells how many */
    BEAS_GREATEST = 3,    /* the size of the greatest group: beas_count */
    BEAS_PAIRS = 4,       /* pairs of columns: beas_count, beas_pair_most, beas_pair_name */
    BEAS_EXPLAINED = 5,   /* a query was announced and not run: beas_bound, beas_plan_text */
    BEAS_ANSWERED = 6,    /* a query was answered: beas_bound, beas_plan_text, beas_reads, columns, rows and cells */
    BEAS_GROUPED = 7,     /* a query in groups was answered: the same */
    BEAS_SPECIALISED = 8, /* columns that make a query covered were looked for: beas_count, beas_place_atom, beas_place_name */
    BEAS_OPENED = 9,      /* a session's query was announced: beas_session, beas_bound */
    BEAS_PROBED = 10,     /* a session's query made one probe: beas_session */
    BEAS_REFUSED = 11     /* the statement was refused and changed nothing: beas_refusal, beas_refusal_text */
};

/* The types of cells. */
enum {
    BEAS_INTEGER = 1, /* 64 bits with a sign */
    BEAS_TEXT = 2,    /* bytes of UTF-8 */
    BEAS_COUNT = 3,   /* of a group: 64 bits without a sign */
    BEAS_SUM = 4      /* of a group: 128 bits with a sign */
};

/* ---- a database */

/* The version of the interface that the library has. It is BEAS_ABI if library and header belong together. */
uint32_t beas_abi(void);

/* Opens a database with no table. What an open one held is let go. `budget` is the greatest number of tuples that a query may announce, if
 * `has_budget` isn't 0; answers have their plans if `explain` isn't 0. BEAS_BAD_LIMIT, BEAS_NO_MEMORY. */
int32_t beas_open(beas_database *db, const beas_limits *limits, uint8_t has_budget, uint64_t budget, uint8_t explain);

/* Changes the budget and `explain`. Queries that are open keep what they were opened with. */
int32_t beas_set(beas_database *db, uint8_t has_budget, uint64_t budget, uint8_t explain);

/* Hands over a file: LOAD of this name reads these bytes from then on. BEAS_NOT_TEXT of the name, BEAS_NO_MEMORY. */
int32_t beas_add_file(beas_database *db, const uint8_t *name, size_t name_length, const uint8_t *bytes, size_t length);

/* Carries out one statement, as a script's next one; the report is there afterwards. A semicolon may end it, an @ with a session's number
 * may begin it. BEAS_TOO_LONG, BEAS_NOT_TEXT, BEAS_NO_STATEMENT and BEAS_SEVERAL leave all as it was, the last report too.
 * BEAS_NO_MEMORY: tables, constraints and the last report are as they were. If it was a STEP, its query may be lost: it stays open, each
 * further STEP of it gives BEAS_NO_MEMORY, and its session stays busy until beas_drop_query. */
int32_t beas_say(beas_database *db, const uint8_t *text, size_t length);

/* Tells what EXPLAIN would report of one query if there were no budget; the report is there afterwards. Nothing is read. A text that the
 * grammar refuses is reported as refused. EXPLAIN, SCAN OK and SPECIALISE may not stand before the query, and it has no GROUP BY: these,
 * and other statements, are BEAS_NOT_A_QUERY. Else the same statuses as beas_say. */
int32_t beas_price(beas_database *db, const uint8_t *text, size_t length);

/* The plan of such a query as data, a text in JSON of `length` bytes, whatever the budget is; the last report stays. BEAS_ABSENT of a query
 * that is refused: beas_price reports why. BEAS_NO_ROOM; else the same statuses as beas_price. */
int32_t beas_plan_data(beas_database *db, const uint8_t *text, size_t text_length, uint8_t *into, size_t room, size_t *length);

/* Drops the open query of a session, if it has one, without a report. */
int32_t beas_drop_query(beas_database *db, uint32_t session);

/* Closes a database, and frees all that it held. */
int32_t beas_close(beas_database *db);

/* ---- the last report. Each call is BEAS_ABSENT where a report of this kind has no such thing */

/* The kind of the report. */
int32_t beas_kind(beas_database *db, int32_t *kind);

/* The number of the statement, from 1 on. Each statement that beas_say or beas_price reports on takes the next one; the last is
 * 4,294,967,295, at which it stays. */
int32_t beas_number(beas_database *db, uint32_t *number);

/* The report as the program beas writes it, of `length` bytes. BEAS_NO_MEMORY. */
int32_t beas_report_text(beas_database *db, uint8_t *into, size_t room, size_t *length);

/* The number of the refusal, from 1 to 32, and its text. BEAS_NO_MEMORY. */
int32_t beas_refusal(beas_database *db, uint32_t *number);
int32_t beas_refusal_text(beas_database *db, uint8_t *into, size_t room, size_t *length);

/* The number that was announced: the lower and the upper 64 bits. */
int32_t beas_bound(beas_database *db, uint64_t *low, uint64_t *high);

/* How many tuples were read: the lower and the upper 64 bits. */
int32_t beas_reads(beas_database *db, uint64_t *low, uint64_t *high);

/* The lines of the plan. An answer has none, and a length of 0, if `explain` was 0, for a session's query at its opening. */
int32_t beas_plan_text(beas_database *db, uint8_t *into, size_t room, size_t *length);

/* How many: rows that changed, members of the greatest group, pairs, rows of the answer, or columns that make a query covered. Where no
 * columns make the query covered it is BEAS_ABSENT. */
int32_t beas_count(beas_database *db, uint64_t *count);

/* The session. */
int32_t beas_session(beas_database *db, uint32_t *session);

/* ---- an answer. Columns and rows are counted from 0 */

/* How many columns it has. */
int32_t beas_columns(beas_database *db, uint64_t *count);

/* The name of a column. */
int32_t beas_column_name(beas_database *db, uint64_t column, uint8_t *into, size_t room, size_t *length);

/* The type of a column. An answer without rows tells none: BEAS_ABSENT. */
int32_t beas_column_type(beas_database *db, uint64_t column, int32_t *type);

/* One cell, by its type; BEAS_ABSENT of another type. */
int32_t beas_cell_integer(beas_database *db, uint64_t row, uint64_t column, int64_t *value);
int32_t beas_cell_text(beas_database *db, uint64_t row, uint64_t column, uint8_t *into, size_t room, size_t *length);
int32_t beas_cell_count(beas_database *db, uint64_t row, uint64_t column, uint64_t *value);
int32_t beas_cell_sum(beas_database *db, uint64_t row, uint64_t column, uint64_t *low, int64_t *high);

/* A whole column, from a row on: `count` cells. BEAS_ABSENT where there are fewer rows, or a cell has another type; what is written to is
 * then anything. Of no cells there is nothing to look at, so a `count` of 0 is BEAS_DONE. Of sums as many lower and upper parts are told as
 * there is room for of each. */
int32_t beas_column_integers(beas_database *db, uint64_t column, uint64_t first, int64_t *into, size_t count);
int32_t beas_column_counts(beas_database *db, uint64_t column, uint64_t first, uint64_t *into, size_t count);
int32_t beas_column_sums(beas_database *db, uint64_t column, uint64_t first, uint64_t *lows, size_t lows_count, int64_t *highs, size_t highs_count);

/* The bytes of a column's texts, one after another, and where each ends. `length` is set to the bytes of all, and `ends` to where each ends,
 * at BEAS_NO_ROOM too; `into` is as it was then. BEAS_ABSENT as for the other columns, BEAS_NO_MEMORY. Where the status is another, `ends`
 * is anything. `count` is the number of cells. */
int32_t beas_column_texts(beas_database *db, uint64_t column, uint64_t first, uint64_t *ends, size_t count, uint8_t *into, size_t room,
                          size_t *length);

/* ---- pairs of columns, and columns that make a query covered, counted from 0 */

/* The size of a pair's greatest group, and its names: 0 is the key, 1 the other column. */
int32_t beas_pair_most(beas_database *db, uint64_t pair, uint32_t *most);
int32_t beas_pair_name(beas_database *db, uint64_t pair, uint8_t which, uint8_t *into, size_t room, size_t *length);

/* The number of the atom of a column, from 1 on, and the column's name. */
int32_t beas_place_atom(beas_database *db, uint64_t place, uint32_t *atom);
int32_t beas_place_name(beas_database *db, uint64_t place, uint8_t *into, size_t room, size_t *length);

#ifdef __cplusplus
}
#endif

#endif
