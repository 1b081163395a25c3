/* Many databases one after another, and many statements in one: the memory in use doesn't grow. Few turns tell nothing of that. */
#include "check.h"
#include <unistd.h>

/* Pages that are in memory. */
static long resident(void)
{
    long all = 0, here = 0;
    FILE *file = fopen("/proc/self/statm", "r");
    if (file == NULL)
        return 0;
    CHECK(fscanf(file, "%ld %ld", &all, &here) == 2);
    fclose(file);
    return here;
}

int main(int count, char **words)
{
    CHECK(count == 3);
    long opens = atol(words[1]), turns = atol(words[2]);
    beas_database db = {0};
    for (long k = 0; k < opens; k++) {
        CHECK(beas_open(&db, &standard, 0, 0, 0) == BEAS_DONE);
        CHECK(say(&db, "CREATE TABLE t (a INTEGER, b TEXT)") == BEAS_DONE);
        if (k % 2)
            CHECK(beas_close(&db) == BEAS_DONE);
    }
    CHECK(beas_open(&db, &standard, 0, 0, 0) == BEAS_DONE);
    CHECK(say(&db, "CREATE TABLE t (a INTEGER, b TEXT)") == BEAS_DONE);
    CHECK(say(&db, "CREATE ACCESS f ON t (a) FETCH (b) LIMIT 3") == BEAS_DONE);
    CHECK(say(&db, "INSERT INTO t VALUES (1, 'one'), (2, 'two')") == BEAS_DONE);
    long begun = 0;
    uint64_t rows = 0;
    for (long k = 0; k < turns; k++) {
        if (k == turns / 10)
            begun = resident();
        CHECK(say(&db, "INSERT INTO t VALUES (1, 'a text that is longer than sixteen bytes')") == BEAS_DONE);
        CHECK(say(&db, "SELECT DISTINCT b FROM t WHERE a = 1") == BEAS_DONE);
        CHECK(beas_count(&db, &rows) == BEAS_DONE && rows == 2);
        CHECK(say(&db, "DELETE FROM t WHERE b = 'a text that is longer than sixteen bytes'") == BEAS_DONE);
        CHECK(beas_count(&db, &rows) == BEAS_DONE && rows == 1);
    }
    long ended = resident();
    CHECK(beas_close(&db) == BEAS_DONE);
    printf("%ld databases, %ld turns: %ld pages after a tenth of them, %ld at the end\n", opens, turns, begun, ended);
    return turns >= 10000 && ended > begun + 64;
}
