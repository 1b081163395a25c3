/* Tries each call, and wrong use of each. */
#include "check.h"

static const char *tables = "CREATE TABLE cards (account INTEGER, card INTEGER, name TEXT)";
static const char *access_ = "CREATE ACCESS cards_of ON cards (account) FETCH (card, name) LIMIT 3";
static const char *rows = "INSERT INTO cards VALUES (7, -4111, 'one'), (7, 4222, ''), (8, 4111, 'three')";
static const char *query = "SELECT DISTINCT card, name FROM cards WHERE account = 7";
static const char *plan =
    "{\"bound\":\"3\",\"columns\":[\"card\",\"name\"],\"query\":{\"block\":0},\"blocks\":[{\"atoms\":[\"cards\"],\"classes\":[[0,1,2]],"
    "\"count\":3,\"constants\":[[0,7]],\"comparisons\":[],\"output\":[[0,1],[0,2]],\"guided\":false,\"steps\":[{\"atom\":0,"
    "\"table\":\"cards\",\"constraint\":\"cards_of\",\"key\":[\"account\"],\"fetch\":[\"card\",\"name\"],\"limit\":3,\"adds\":true}]}]}";
/* the right side is covered by the answers of the left one alone */
static const char *guided = "SELECT DISTINCT account FROM cards WHERE account = 8 AND card <> 1"
                            " EXCEPT SELECT DISTINCT account FROM cards WHERE name = 'it''s'";
static const char *guided_plan =
    "{\"bound\":\"12\",\"columns\":[\"account\"],\"query\":{\"except\":[{\"block\":0},{\"block\":1}]},\"blocks\":["
    "{\"atoms\":[\"cards\"],\"classes\":[[0,1,2]],\"count\":3,\"constants\":[[0,8]],\"comparisons\":[{\"left\":[0,1],\"sign\":\"<>\","
    "\"right\":{\"value\":1}}],\"output\":[[0,0]],\"guided\":false,\"steps\":[{\"atom\":0,\"table\":\"cards\",\"constraint\":\"cards_of\","
    "\"key\":[\"account\"],\"fetch\":[\"card\",\"name\"],\"limit\":3,\"adds\":true}]},"
    "{\"atoms\":[\"cards\"],\"classes\":[[0,1,2]],\"count\":3,\"constants\":[[2,\"it's\"]],\"comparisons\":[],\"output\":[[0,0]],"
    "\"guided\":true,\"steps\":[{\"atom\":0,\"table\":\"cards\",\"constraint\":\"cards_of\",\"key\":[\"account\"],"
    "\"fetch\":[\"card\",\"name\"],\"limit\":3,\"adds\":true}]}]}";
static const char *either = "SELECT card FROM cards WHERE account = 7 UNION (SELECT card FROM cards WHERE account = 8"
                            " EXCEPT SELECT card FROM cards WHERE account = 9)";

/* Whether bytes are a text's. */
static int is(const uint8_t *bytes, size_t length, const char *text)
{
    return length == strlen(text) && memcmp(bytes, text, length) == 0;
}

/* A closed database, or one with another mark, is refused by each call, and nothing is written. */
static void closed(beas_database *db)
{
    uint8_t bytes[8];
    int64_t integers[2];
    uint64_t counts[2], low = 77, high = 78;
    int64_t value = 79;
    int32_t kind = 80;
    uint32_t number = 81;
    size_t length = 82;
    beas_database was = *db;
    memset(bytes, '#', sizeof bytes);
    CHECK(beas_set(db, 0, 0, 1) == BEAS_CLOSED);
    CHECK(add_file(db, "a", "b") == BEAS_CLOSED);
    CHECK(say(db, query) == BEAS_CLOSED);
    CHECK(price(db, query) == BEAS_CLOSED);
    CHECK(plan_data(db, query, bytes, sizeof bytes, &length) == BEAS_CLOSED);
    CHECK(beas_drop_query(db, 1) == BEAS_CLOSED);
    CHECK(beas_kind(db, &kind) == BEAS_CLOSED);
    CHECK(beas_number(db, &number) == BEAS_CLOSED);
    CHECK(beas_report_text(db, bytes, sizeof bytes, &length) == BEAS_CLOSED);
    CHECK(beas_refusal(db, &number) == BEAS_CLOSED);
    CHECK(beas_refusal_text(db, bytes, sizeof bytes, &length) == BEAS_CLOSED);
    CHECK(beas_bound(db, &low, &high) == BEAS_CLOSED);
    CHECK(beas_reads(db, &low, &high) == BEAS_CLOSED);
    CHECK(beas_plan_text(db, bytes, sizeof bytes, &length) == BEAS_CLOSED);
    CHECK(beas_count(db, &low) == BEAS_CLOSED);
    CHECK(beas_session(db, &number) == BEAS_CLOSED);
    CHECK(beas_columns(db, &low) == BEAS_CLOSED);
    CHECK(beas_column_name(db, 0, bytes, sizeof bytes, &length) == BEAS_CLOSED);
    CHECK(beas_column_type(db, 0, &kind) == BEAS_CLOSED);
    CHECK(beas_cell_integer(db, 0, 0, &value) == BEAS_CLOSED);
    CHECK(beas_cell_text(db, 0, 0, bytes, sizeof bytes, &length) == BEAS_CLOSED);
    CHECK(beas_cell_count(db, 0, 0, &low) == BEAS_CLOSED);
    CHECK(beas_cell_sum(db, 0, 0, &low, &value) == BEAS_CLOSED);
    CHECK(beas_column_integers(db, 0, 0, integers, 2) == BEAS_CLOSED);
    CHECK(beas_column_counts(db, 0, 0, counts, 2) == BEAS_CLOSED);
    CHECK(beas_column_sums(db, 0, 0, counts, 2, integers, 2) == BEAS_CLOSED);
    CHECK(beas_column_texts(db, 0, 0, counts, 2, bytes, sizeof bytes, &length) == BEAS_CLOSED);
    CHECK(beas_pair_most(db, 0, &number) == BEAS_CLOSED);
    CHECK(beas_pair_name(db, 0, 0, bytes, sizeof bytes, &length) == BEAS_CLOSED);
    CHECK(beas_place_atom(db, 0, &number) == BEAS_CLOSED);
    CHECK(beas_place_name(db, 0, bytes, sizeof bytes, &length) == BEAS_CLOSED);
    CHECK(beas_close(db) == BEAS_CLOSED);
    CHECK(low == 77 && high == 78 && value == 79 && kind == 80 && number == 81 && length == 82);
    CHECK(is(bytes, 8, "########") && memcmp(db, &was, sizeof was) == 0);
}

/* Limits that are too great, or are used up. */
static void limits(void)
{
    beas_database db = {0};
    beas_limits asked = {0};
    uint64_t *fields[] = {&asked.tables, &asked.columns, &asked.constraints, &asked.atoms, &asked.blocks,
                          &asked.outputs, &asked.rows, &asked.text, &asked.file};
    const uint64_t most[] = {1024, 64, 65536, 16, 64, 1024, 16777216, 65535, 67108864};
    for (int i = 0; i < 9; i++) {
        *fields[i] = most[i] + 1;
        CHECK(beas_open(&db, &asked, 0, 0, 0) == BEAS_BAD_LIMIT && db.mark == 0);
        *fields[i] = UINT64_MAX;
        CHECK(beas_open(&db, &asked, 0, 0, 0) == BEAS_BAD_LIMIT && db.mark == 0);
        *fields[i] = most[i];
    }
    CHECK(beas_open(&db, &asked, 0, 0, 0) == BEAS_DONE);
    asked.rows = 2;
    CHECK(beas_open(&db, &asked, 0, 0, 0) == BEAS_DONE);
    SAYS(&db, tables, "1 ok\n");
    CHECK(say(&db, rows) == BEAS_DONE);
    int32_t kind = 0;
    CHECK(beas_kind(&db, &kind) == BEAS_DONE && kind == BEAS_REFUSED);
    CHECK(beas_close(&db) == BEAS_DONE);
}

/* What has no plan leaves what is written to as it was. */
static void no_plans(beas_database *db, const uint8_t *many, size_t count)
{
    uint8_t bytes[8] = "#######";
    size_t length = 82;
    CHECK(plan_data(db, "", bytes, 8, &length) == BEAS_NO_STATEMENT && plan_data(db, "a;b", bytes, 8, &length) == BEAS_SEVERAL);
    CHECK(beas_plan_data(db, many, count, bytes, 8, &length) == BEAS_TOO_LONG);
    CHECK(beas_plan_data(db, (const uint8_t *)"\xff", 1, bytes, 8, &length) == BEAS_NOT_TEXT);
    CHECK(plan_data(db, "INSERT INTO cards VALUES (1, 2, 'x')", bytes, 8, &length) == BEAS_NOT_A_QUERY);
    CHECK(plan_data(db, "@1 STEP", bytes, 8, &length) == BEAS_NOT_A_QUERY);
    CHECK(plan_data(db, "EXPLAIN SELECT DISTINCT card FROM cards WHERE account = 7", bytes, 8, &length) == BEAS_NOT_A_QUERY);
    CHECK(plan_data(db, "SCAN OK SELECT DISTINCT card FROM cards", bytes, 8, &length) == BEAS_NOT_A_QUERY);
    CHECK(plan_data(db, "SELECT", bytes, 8, &length) == BEAS_ABSENT);
    CHECK(plan_data(db, "SELECT DISTINCT nothing FROM cards", bytes, 8, &length) == BEAS_ABSENT);
    CHECK(plan_data(db, "SELECT DISTINCT account FROM cards WHERE card = 1", bytes, 8, &length) == BEAS_ABSENT);
    CHECK(is(bytes, 7, "#######") && length == 82);
}

/* Plans as data, whatever the budget is, with one byte too few and with just enough. */
static void plans(beas_database *db)
{
    static uint8_t bytes[4096];
    size_t length = 0, all;
    CHECK(beas_set(db, 1, 0, 0) == BEAS_DONE);
    CHECK(plan_data(db, query, bytes, sizeof bytes, &length) == BEAS_DONE && is(bytes, length, plan));
    CHECK(plan_data(db, guided, bytes, sizeof bytes, &length) == BEAS_DONE && is(bytes, length, guided_plan));
    CHECK(plan_data(db, either, bytes, sizeof bytes, &length) == BEAS_DONE && length > strlen(guided_plan));
    all = strlen(plan);
    memset(bytes, '#', sizeof bytes);
    CHECK(plan_data(db, query, bytes, all - 1, &length) == BEAS_NO_ROOM && length == all && bytes[0] == '#');
    CHECK(plan_data(db, query, bytes, 0, &length) == BEAS_NO_ROOM && length == all && bytes[0] == '#');
    CHECK(plan_data(db, query, bytes, all, &length) == BEAS_DONE && is(bytes, length, plan) && bytes[all] == '#');
    CHECK(beas_set(db, 0, 0, 0) == BEAS_DONE);
}

/* Texts that have no report leave the last one. */
static void texts(beas_database *db)
{
    static uint8_t many[16777217];
    uint32_t number = 0;
    SAYS(db, query, "4 bound 3\ncard,name\n-4111,one\n4222,\n4 ok 2 rows 2 reads\n");
    CHECK(say(db, "") == BEAS_NO_STATEMENT);
    CHECK(say(db, " ; -- nothing\n;") == BEAS_NO_STATEMENT);
    CHECK(say(db, "EXPLAIN; EXPLAIN") == BEAS_SEVERAL);
    CHECK(beas_say(db, (const uint8_t *)"\xff\xfe", 2) == BEAS_NOT_TEXT);
    CHECK(beas_add_file(db, (const uint8_t *)"\xff", 1, (const uint8_t *)"", 0) == BEAS_NOT_TEXT);
    memset(many, ' ', sizeof many);
    CHECK(beas_say(db, many, sizeof many) == BEAS_TOO_LONG);
    CHECK(beas_say(db, many, sizeof many - 1) == BEAS_NO_STATEMENT);
    CHECK(price(db, "") == BEAS_NO_STATEMENT && price(db, "a;b") == BEAS_SEVERAL);
    CHECK(beas_price(db, many, sizeof many) == BEAS_TOO_LONG);
    CHECK(price(db, "INSERT INTO cards VALUES (1, 2, 'x')") == BEAS_NOT_A_QUERY);
    no_plans(db, many, sizeof many);
    CHECK(beas_number(db, &number) == BEAS_DONE && number == 4);
    CHECK(!strncmp(report(db), "4 bound 3\n", 10));
}

/* An answer, cell by cell and column by column. */
static void answer(beas_database *db)
{
    uint8_t bytes[16];
    int64_t integers[3], value = 0;
    uint64_t counts[3], low = 0, high = 9, ends[3];
    size_t length = 0;
    int32_t kind = 0;
    uint32_t number = 0;
    CHECK(beas_kind(db, &kind) == BEAS_DONE && kind == BEAS_ANSWERED);
    CHECK(beas_bound(db, &low, &high) == BEAS_DONE && low == 3 && high == 0);
    CHECK(beas_reads(db, &low, &high) == BEAS_DONE && low == 2 && high == 0);
    CHECK(beas_count(db, &low) == BEAS_DONE && low == 2);
    CHECK(beas_columns(db, &low) == BEAS_DONE && low == 2);
    CHECK(beas_column_name(db, 1, bytes, sizeof bytes, &length) == BEAS_DONE && is(bytes, length, "name"));
    CHECK(beas_column_name(db, 2, bytes, sizeof bytes, &length) == BEAS_ABSENT);
    CHECK(beas_column_type(db, 0, &kind) == BEAS_DONE && kind == BEAS_INTEGER);
    CHECK(beas_column_type(db, 1, &kind) == BEAS_DONE && kind == BEAS_TEXT);
    CHECK(beas_column_type(db, 2, &kind) == BEAS_ABSENT);
    CHECK(beas_cell_integer(db, 0, 0, &value) == BEAS_DONE && value == -4111);
    CHECK(beas_cell_integer(db, 0, 1, &value) == BEAS_ABSENT && value == -4111);
    CHECK(beas_cell_integer(db, 2, 0, &value) == BEAS_ABSENT);
    CHECK(beas_cell_integer(db, UINT64_MAX, 0, &value) == BEAS_ABSENT);
    CHECK(beas_cell_integer(db, 0, UINT64_MAX, &value) == BEAS_ABSENT);
    CHECK(beas_cell_count(db, 0, 0, &low) == BEAS_ABSENT);
    CHECK(beas_cell_sum(db, 0, 0, &low, &value) == BEAS_ABSENT);
    CHECK(beas_cell_text(db, 0, 1, bytes, sizeof bytes, &length) == BEAS_DONE && is(bytes, length, "one"));
    memset(bytes, '#', sizeof bytes);
    CHECK(beas_cell_text(db, 0, 1, bytes, 2, &length) == BEAS_NO_ROOM && length == 3 && bytes[0] == '#');
    CHECK(beas_cell_text(db, 1, 1, bytes, 0, &length) == BEAS_DONE && length == 0 && bytes[0] == '#');
    CHECK(beas_column_integers(db, 0, 0, integers, 2) == BEAS_DONE && integers[0] == -4111 && integers[1] == 4222);
    CHECK(beas_column_integers(db, 0, 1, integers, 1) == BEAS_DONE && integers[0] == 4222);
    CHECK(beas_column_integers(db, 0, 0, integers, 3) == BEAS_ABSENT);
    CHECK(beas_column_integers(db, 0, UINT64_MAX, integers, 1) == BEAS_ABSENT);
    CHECK(beas_column_integers(db, 0, UINT64_MAX, integers, 0) == BEAS_DONE);
    CHECK(beas_column_integers(db, 1, 0, integers, 2) == BEAS_ABSENT);
    CHECK(beas_column_counts(db, 0, 0, counts, 2) == BEAS_ABSENT);
    CHECK(beas_column_sums(db, 0, 0, counts, 2, integers, 2) == BEAS_ABSENT);
    CHECK(beas_column_texts(db, 1, 0, ends, 2, bytes, sizeof bytes, &length) == BEAS_DONE);
    CHECK(is(bytes, length, "one") && ends[0] == 3 && ends[1] == 3);
    CHECK(beas_column_texts(db, 1, 0, ends, 2, bytes, 2, &length) == BEAS_NO_ROOM && length == 3);
    CHECK(beas_column_texts(db, 0, 0, ends, 2, bytes, sizeof bytes, &length) == BEAS_ABSENT);
    CHECK(beas_refusal(db, &number) == BEAS_ABSENT && beas_session(db, &number) == BEAS_ABSENT);
    CHECK(beas_refusal_text(db, bytes, sizeof bytes, &length) == BEAS_ABSENT);
    CHECK(beas_pair_most(db, 0, &number) == BEAS_ABSENT && beas_place_atom(db, 0, &number) == BEAS_ABSENT);
    CHECK(beas_plan_text(db, bytes, sizeof bytes, &length) == BEAS_DONE && length == 0);
}

/* The other kinds of reports. */
static void kinds(beas_database *db)
{
    uint8_t bytes[256];
    int64_t high = 0, highs[2];
    uint64_t low = 0, bound = 0, lows[2], counts[2];
    size_t length = 0;
    uint32_t number = 0;
    int32_t kind = 0;
    CHECK(say(db, "SELECT nothing") == BEAS_DONE);
    CHECK(beas_kind(db, &kind) == BEAS_DONE && kind == BEAS_REFUSED);
    CHECK(beas_refusal(db, &number) == BEAS_DONE && number == 1);
    CHECK(beas_refusal_text(db, bytes, sizeof bytes, &length) == BEAS_DONE && length > 0);
    bytes[length] = 0;
    char line[300];
    snprintf(line, sizeof line, "5 refused 1 %s\n", (const char *)bytes);
    CHECK(!strcmp(report(db), line));
    CHECK(beas_count(db, &low) == BEAS_ABSENT && beas_columns(db, &low) == BEAS_ABSENT);

    CHECK(beas_set(db, 1, 2, 1) == BEAS_DONE && say(db, query) == BEAS_DONE);
    CHECK(beas_refusal(db, &number) == BEAS_DONE && number == 21);
    CHECK(beas_refusal_text(db, bytes, sizeof bytes, &length) == BEAS_DONE && is(bytes, length, "bound 3 above budget 2"));
    CHECK(price(db, query) == BEAS_DONE && beas_kind(db, &kind) == BEAS_DONE && kind == BEAS_EXPLAINED);
    CHECK(beas_bound(db, &low, &bound) == BEAS_DONE && low == 3 && bound == 0);
    CHECK(beas_plan_text(db, bytes, sizeof bytes, &length) == BEAS_DONE && length > 0);
    CHECK(beas_reads(db, &low, &bound) == BEAS_ABSENT);
    CHECK(beas_set(db, 0, 2, 0) == BEAS_DONE);

    CHECK(say(db, "SELECT account, COUNT(DISTINCT card), SUM(DISTINCT card) FROM cards WHERE account = 7 GROUP BY account") == BEAS_DONE);
    CHECK(beas_kind(db, &kind) == BEAS_DONE);
    if (kind != BEAS_GROUPED) {
        fprintf(stderr, "%s", report(db));
        exit(1);
    }
    CHECK(beas_column_type(db, 1, &kind) == BEAS_DONE && kind == BEAS_COUNT);
    CHECK(beas_column_type(db, 2, &kind) == BEAS_DONE && kind == BEAS_SUM);
    CHECK(beas_cell_count(db, 0, 1, &low) == BEAS_DONE && low == 2);
    CHECK(beas_cell_sum(db, 0, 2, &low, &high) == BEAS_DONE && low == 111 && high == 0);
    CHECK(beas_column_counts(db, 1, 0, counts, 1) == BEAS_DONE && counts[0] == 2);
    CHECK(beas_column_sums(db, 2, 0, lows, 1, highs, 1) == BEAS_DONE && lows[0] == 111 && highs[0] == 0);

    CHECK(say(db, "DISCOVER cards LIMIT 1") == BEAS_DONE);
    CHECK(beas_kind(db, &kind) == BEAS_DONE && kind == BEAS_PAIRS && beas_count(db, &low) == BEAS_DONE && low > 0);
    CHECK(beas_pair_most(db, 0, &number) == BEAS_DONE && number == 1);
    CHECK(beas_pair_name(db, 0, 0, bytes, sizeof bytes, &length) == BEAS_DONE && is(bytes, length, "card"));
    CHECK(beas_pair_name(db, 0, 1, bytes, sizeof bytes, &length) == BEAS_DONE && length > 0);
    CHECK(beas_pair_most(db, low, &number) == BEAS_ABSENT);
    CHECK(say(db, "DISCOVER cards (account) FETCH (card)") == BEAS_DONE);
    CHECK(beas_kind(db, &kind) == BEAS_DONE && kind == BEAS_GREATEST && beas_count(db, &low) == BEAS_DONE && low == 2);
    CHECK(say(db, "SPECIALISE SELECT DISTINCT card FROM cards") == BEAS_DONE);
    CHECK(beas_kind(db, &kind) == BEAS_DONE && kind == BEAS_SPECIALISED && beas_count(db, &low) == BEAS_DONE && low == 1);
    CHECK(beas_place_atom(db, 0, &number) == BEAS_DONE && number == 1);
    CHECK(beas_place_name(db, 0, bytes, sizeof bytes, &length) == BEAS_DONE && is(bytes, length, "account"));
    CHECK(beas_place_atom(db, 1, &number) == BEAS_ABSENT);

    CHECK(say(db, "DELETE FROM cards WHERE account = 8") == BEAS_DONE);
    CHECK(beas_kind(db, &kind) == BEAS_DONE && kind == BEAS_CHANGED && beas_count(db, &low) == BEAS_DONE && low == 1);

    CHECK(add_file(db, "more.csv", "account,card,name\n9,1,a\n9,2,b\n") == BEAS_DONE);
    CHECK(say(db, "LOAD cards FROM 'more.csv'") == BEAS_DONE);
    CHECK(beas_kind(db, &kind) == BEAS_DONE);
    if (kind != BEAS_CHANGED) {
        fprintf(stderr, "%s", report(db));
        exit(1);
    }
}

/* LOAD reads what was handed over last under exactly its name, and no file of the system. */
static void files(void)
{
    beas_database db = {0};
    int32_t kind = 0;
    uint32_t number = 0;
    CHECK(beas_open(&db, &standard, 0, 0, 0) == BEAS_DONE);
    SAYS(&db, tables, "1 ok\n");
    SAYS(&db, "LOAD cards FROM 'it''s.csv'", "2 refused 15 cannot read 'it''s.csv'\n");
    CHECK(beas_kind(&db, &kind) == BEAS_DONE && kind == BEAS_REFUSED);
    CHECK(beas_refusal(&db, &number) == BEAS_DONE && number == 15);
    CHECK(add_file(&db, "it's.csv", "account,card,name\n9,1,a\n9,2,b\n") == BEAS_DONE);
    SAYS(&db, "LOAD cards FROM 'it''s.csv'", "3 ok 2 rows\n");
    SAYS(&db, "LOAD cards FROM 'IT''S.csv'", "4 refused 15 cannot read 'IT''S.csv'\n");
    SAYS(&db, "@2 LOAD cards FROM './it''s.csv'", "5 refused 15 cannot read './it''s.csv'\n");
    SAYS(&db, "LOAD cards FROM '/dev/null'", "6 refused 15 cannot read '/dev/null'\n");
    SAYS(&db, "LOAD cards FROM ''", "7 refused 15 cannot read ''\n");
    SAYS(&db, "LOAD others FROM 'none.csv'", "8 refused 4 unknown table others\n");
    CHECK(add_file(&db, "it's.csv", "") == BEAS_DONE);
    SAYS(&db, "LOAD cards FROM 'it''s.csv'", "9 refused 18 header mismatch\n");
    SAYS(&db, "DELETE FROM cards", "10 ok 2 rows\n");
    CHECK(beas_close(&db) == BEAS_DONE);
}

int main(void)
{
    beas_database db = {0}, wrong = {12345, NULL};
    int32_t kind = 9;
    uint32_t number = 9;
    size_t length = 9;
    CHECK(beas_abi() == BEAS_ABI);
    closed(&db);
    closed(&wrong);
    limits();
    files();
    CHECK(beas_open(&db, &standard, 0, 0, 0) == BEAS_DONE);
    CHECK(beas_kind(&db, &kind) == BEAS_DONE && kind == BEAS_NOTHING);
    CHECK(beas_number(&db, &number) == BEAS_ABSENT);
    CHECK(beas_report_text(&db, (uint8_t *)"", 0, &length) == BEAS_ABSENT && length == 9);
    SAYS(&db, tables, "1 ok\n");
    SAYS(&db, access_, "2 ok\n");
    SAYS(&db, rows, "3 ok 3 rows\n");
    plans(&db);
    texts(&db);
    answer(&db);
    kinds(&db);
    CHECK(beas_close(&db) == BEAS_DONE);
    closed(&db);
    return 0;
}
