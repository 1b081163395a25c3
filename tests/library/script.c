/* Says the pieces of a script one by one, and writes their reports.
 *
 *     script SCRIPT [--budget N] [--explain] [NAME FILE]..
 *
 * Each FILE is handed over under its NAME. */
#include "check.h"

typedef struct {
    uint8_t *bytes;
    size_t length;
} content;

static content read_all(const char *name)
{
    FILE *file = fopen(name, "rb");
    CHECK(file != NULL);
    size_t room = 1 << 24, got;
    content found = {malloc(room), 0};
    CHECK(found.bytes != NULL);
    while ((got = fread(found.bytes + found.length, 1, room - found.length, file)) > 0)
        found.length += got;
    fclose(file);
    return found;
}

/* Where the piece ends that begins at a place: at a semicolon outside quotes and comments, or at the end. */
static size_t end_of_piece(content script, size_t at)
{
    int quoted = 0;
    for (; at < script.length; at++) {
        uint8_t byte = script.bytes[at];
        if (byte == '\'')
            quoted = !quoted;
        else if (!quoted && byte == '-' && at + 1 < script.length && script.bytes[at + 1] == '-')
            while (at + 1 < script.length && script.bytes[at + 1] != '\n')
                at++;
        else if (!quoted && byte == ';')
            break;
    }
    return at;
}

static void write_report(beas_database *db)
{
    size_t length = 0;
    int32_t status = beas_report_text(db, (uint8_t *)"", 0, &length);
    CHECK(status == BEAS_NO_ROOM);
    uint8_t *bytes = malloc(length);
    CHECK(bytes != NULL);
    CHECK(beas_report_text(db, bytes, length, &length) == BEAS_DONE);
    fwrite(bytes, 1, length, stdout);
    free(bytes);
}

int main(int count, char **words)
{
    beas_database db = {0};
    uint64_t budget = 0;
    uint8_t has_budget = 0, explain = 0;
    CHECK(count > 1);
    content script = read_all(words[1]);
    int at = 2;
    for (; at < count && words[at][0] == '-'; at++) {
        if (!strcmp(words[at], "--explain")) {
            explain = 1;
        } else {
            has_budget = 1;
            budget = strtoull(words[++at], NULL, 10);
        }
    }
    CHECK(beas_open(&db, &standard, has_budget, budget, explain) == BEAS_DONE);
    for (; at + 1 < count; at += 2) {
        content file = read_all(words[at + 1]);
        CHECK(beas_add_file(&db, (const uint8_t *)words[at], strlen(words[at]), file.bytes, file.length) == BEAS_DONE);
        free(file.bytes);
    }
    for (size_t from = 0; from < script.length;) {
        size_t to = end_of_piece(script, from);
        int32_t status = beas_say(&db, script.bytes + from, to - from);
        CHECK(status == BEAS_DONE || status == BEAS_NO_STATEMENT);
        if (status == BEAS_DONE)
            write_report(&db);
        from = to + 1;
    }
    free(script.bytes);
    CHECK(beas_close(&db) == BEAS_DONE);
    return 0;
}
