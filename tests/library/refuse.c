/* Lets each allocation of a database's life fail in turn, asks again, and looks at the database afterwards. Linked with --wrap for malloc,
 * realloc and free, which it counts. */
#include "check.h"

static long calls, fails_at, live;

void *__real_malloc(size_t);
void *__real_realloc(void *, size_t);
void __real_free(void *);
void *__wrap_malloc(size_t);
void *__wrap_realloc(void *, size_t);
void __wrap_free(void *);

void *__wrap_malloc(size_t n)
{
    if (++calls == fails_at)
        return NULL;
    void *p = __real_malloc(n);
    live += p != NULL;
    return p;
}

void *__wrap_realloc(void *old, size_t n)
{
    if (++calls == fails_at)
        return NULL;
    void *p = __real_realloc(old, n);
    live += old == NULL && p != NULL;
    return p;
}

void __wrap_free(void *p)
{
    live -= p != NULL;
    __real_free(p);
}

static int ran_out;

/* Says a statement, again where memory ran out. Tables and constraints are then as they were, so it does the same. */
static void says(beas_database *db, const char *text, const char *wanted)
{
    int32_t status;
    while ((status = say(db, text)) == BEAS_NO_MEMORY)
        ran_out++;
    CHECK(status == BEAS_DONE);
    static char told[4096];
    size_t length = 0;
    while ((status = beas_report_text(db, (uint8_t *)told, sizeof told - 1, &length)) == BEAS_NO_MEMORY)
        ran_out++;
    CHECK(status == BEAS_DONE);
    told[length] = 0;
    if (strcmp(told, wanted)) {
        fprintf(stderr, "allocation %ld: %s\nreports\n%s", fails_at, text, told);
        exit(1);
    }
}

/* A query step by step. Where memory ran out in a step it is lost, and is opened anew: the statement's number tells how often. */
static void steps(beas_database *db)
{
    int32_t kind = 0, status;
    uint64_t count = 0;
    for (;;) {
        while ((status = say(db, "@3 SELECT DISTINCT b FROM t WHERE a = 1")) == BEAS_NO_MEMORY)
            ran_out++;
        CHECK(status == BEAS_DONE && beas_kind(db, &kind) == BEAS_DONE && kind == BEAS_OPENED);
        do {
            status = say(db, "@3 STEP");
            CHECK(status == BEAS_NO_MEMORY || (beas_kind(db, &kind) == BEAS_DONE && kind != BEAS_REFUSED));
        } while (status == BEAS_DONE && kind == BEAS_PROBED);
        if (status == BEAS_DONE)
            break;
        ran_out++;
        CHECK(beas_drop_query(db, 3) == BEAS_DONE);
    }
    CHECK(kind == BEAS_ANSWERED && beas_count(db, &count) == BEAS_DONE && count == 2);
}

static void life(void)
{
    static uint8_t bytes[1024];
    beas_database db = {0};
    int32_t status;
    uint64_t count = 0;
    size_t length = 0;
    while ((status = beas_open(&db, &standard, 0, 0, 1)) != BEAS_DONE) {
        CHECK(status == BEAS_NO_MEMORY && db.mark == 0);
        ran_out++;
    }
    says(&db, "CREATE TABLE t (a INTEGER, b TEXT)", "1 ok\n");
    says(&db, "CREATE ACCESS f ON t (a) FETCH (b) LIMIT 2", "2 ok\n");
    says(&db, "INSERT INTO t VALUES (1, 'a text that is longer than sixteen'), (2, 'y')", "3 ok 2 rows\n");
    says(&db, "INSERT INTO t VALUES (3, 'x'), (3, 'y'), (3, 'z')", "4 refused 12 row 3 breaks f at key (3)\n");
    while ((status = add_file(&db, "a file with a long name.csv", "a,b\n1,another\n")) != BEAS_DONE) {
        CHECK(status == BEAS_NO_MEMORY);
        ran_out++;
    }
    says(&db, "LOAD t FROM 'a file with a long name.csv'", "5 ok 1 rows\n");
    CHECK(beas_set(&db, 0, 0, 0) == BEAS_DONE);
    says(&db, "SELECT DISTINCT b FROM t WHERE a = 1",
         "6 bound 2\nb\na text that is longer than sixteen\nanother\n6 ok 2 rows 2 reads\n");
    while ((status = price(&db, "SELECT DISTINCT b FROM t WHERE a = 2")) != BEAS_DONE) {
        CHECK(status == BEAS_NO_MEMORY);
        ran_out++;
    }
    while ((status = plan_data(&db, "SELECT DISTINCT b FROM t WHERE a = 2", bytes, sizeof bytes, &length)) != BEAS_DONE) {
        CHECK(status == BEAS_NO_MEMORY && length == 0);
        ran_out++;
    }
    CHECK(length > 0 && bytes[0] == '{' && bytes[length - 1] == '}');
    while ((status = plan_data(&db, "SELECT DISTINCT a FROM t", bytes, sizeof bytes, &length)) != BEAS_ABSENT) {
        CHECK(status == BEAS_NO_MEMORY);
        ran_out++;
    }
    steps(&db);
    while ((status = say(&db, "DELETE FROM t WHERE a = 1")) != BEAS_DONE) {
        CHECK(status == BEAS_NO_MEMORY);
        ran_out++;
    }
    CHECK(beas_count(&db, &count) == BEAS_DONE && count == 2);
    CHECK(beas_close(&db) == BEAS_DONE);
}

int main(void)
{
    long all, times = 0;
    fails_at = calls = live = 0;
    life();
    CHECK(ran_out == 0 && live == 0);
    all = calls;
    for (fails_at = 1; fails_at <= all; fails_at++) {
        calls = live = ran_out = 0;
        life();
        CHECK(live == 0);
        times += ran_out;
    }
    printf("%ld allocations, each failing in turn: %ld calls ran out of memory, and were made again\n", all, times);
    return times == 0;
}
