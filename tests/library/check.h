/* What the tests share. */
#ifndef CHECK_H
#define CHECK_H

#include "beas.h"
#include <stdio.h>
#include <stdlib.h>
#include <string.h>

#define CHECK(fact)                                                            \
    do {                                                                       \
        if (!(fact)) {                                                         \
            fprintf(stderr, "%s:%d: %s\n", __FILE__, __LINE__, #fact);         \
            exit(1);                                                           \
        }                                                                      \
    } while (0)

static const beas_limits standard = {0};

static inline int32_t say(beas_database *db, const char *text)
{
    return beas_say(db, (const uint8_t *)text, strlen(text));
}

static inline int32_t price(beas_database *db, const char *text)
{
    return beas_price(db, (const uint8_t *)text, strlen(text));
}

static inline int32_t plan_data(beas_database *db, const char *text, uint8_t *into, size_t room, size_t *length)
{
    return beas_plan_data(db, (const uint8_t *)text, strlen(text), into, room, length);
}

static inline int32_t add_file(beas_database *db, const char *name, const char *bytes)
{
    return beas_add_file(db, (const uint8_t *)name, strlen(name), (const uint8_t *)bytes, strlen(bytes));
}

/* The report's text, in memory that the next call uses again. */
static inline const char *report(beas_database *db)
{
    static char text[65536];
    size_t length = 0;
    CHECK(beas_report_text(db, (uint8_t *)text, sizeof text - 1, &length) == BEAS_DONE);
    text[length] = 0;
    return text;
}

/* A statement that has this report. */
#define SAYS(db, statement, wanted)                                                                    \
    do {                                                                                               \
        CHECK(say(db, statement) == BEAS_DONE);                                                        \
        if (strcmp(report(db), wanted)) {                                                              \
            fprintf(stderr, "%s:%d: %s\nreports\n%s", __FILE__, __LINE__, statement, report(db));       \
            exit(1);                                                                                   \
        }                                                                                              \
    } while (0)

#endif
