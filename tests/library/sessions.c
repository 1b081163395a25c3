/* 64 sessions with an open query each, beside one more, which has none. */
#include "check.h"

int main(void)
{
    beas_database db = {0};
    char text[128], wanted[128];
    uint32_t session = 0;
    uint64_t low = 0, high = 0;
    int32_t kind = 0;
    CHECK(beas_open(&db, &standard, 0, 0, 0) == BEAS_DONE);
    SAYS(&db, "CREATE TABLE t (a INTEGER, b INTEGER)", "1 ok\n");
    SAYS(&db, "CREATE ACCESS f ON t (a) FETCH (b) LIMIT 70", "2 ok\n");
    int number = 2;
    for (int k = 1; k <= 64; k++) {
        snprintf(text, sizeof text, "INSERT INTO t VALUES (1, %d)", k);
        CHECK(say(&db, text) == BEAS_DONE);
        snprintf(text, sizeof text, "@%d SELECT DISTINCT b FROM t WHERE a = 1", k);
        CHECK(say(&db, text) == BEAS_DONE);
        CHECK(beas_kind(&db, &kind) == BEAS_DONE && kind == BEAS_OPENED);
        CHECK(beas_session(&db, &session) == BEAS_DONE && session == (uint32_t)k);
        CHECK(beas_bound(&db, &low, &high) == BEAS_DONE && low == 70 && high == 0);
        number += 2;
    }
    SAYS(&db, "@65 STEP", "131 refused 30 session 65 not between 1 and 64\n");
    number = 131;
    for (int k = 64; k >= 1; k--) {
        snprintf(text, sizeof text, "@%d STEP", k);
        snprintf(wanted, sizeof wanted, "%d probed %d\n", ++number, k);
        SAYS(&db, text, wanted);
        CHECK(beas_kind(&db, &kind) == BEAS_DONE && kind == BEAS_PROBED);
    }
    /* each sees the rows that were there when it was opened */
    for (int k = 1; k <= 63; k++) {
        snprintf(text, sizeof text, "@%d STEP;", k);
        CHECK(say(&db, text) == BEAS_DONE);
        CHECK(beas_kind(&db, &kind) == BEAS_DONE && kind == BEAS_ANSWERED);
        CHECK(beas_count(&db, &low) == BEAS_DONE && low == (uint64_t)k);
    }
    CHECK(beas_drop_query(&db, 64) == BEAS_DONE && beas_drop_query(&db, 64) == BEAS_DONE);
    CHECK(beas_drop_query(&db, 1000000) == BEAS_DONE);
    CHECK(say(&db, "@64 STEP") == BEAS_DONE && beas_kind(&db, &kind) == BEAS_DONE && kind == BEAS_REFUSED);
    CHECK(beas_close(&db) == BEAS_DONE);
    return 0;
}
