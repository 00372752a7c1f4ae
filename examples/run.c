/* Runs of small tables written by hand. The schema is type Query { f: [Int] g: Int }, the operation { f g }; the resolvers answer f
 * with 42 and a string, which is no Int, and g with an error. Prints what a run in document order answers,
 *
 *     0 {"f":[42,null],"g":null}
 *     15 at 300: f.1
 *     1 at 301: g
 *
 * then the same with g taken first, which changes the order of the errors alone, and then `6`: a text buffer of 8 bytes is too short.
 *
 *     (cd crates/ladlehedge && rt lib)
 *     mkdir -p target
 *     cc -Wall -Wextra -Iinclude examples/run.c crates/ladlehedge/out/libladlehedge.a -o target/run
 *     target/run
 */
#include <inttypes.h>
#include <stdio.h>
#include "ladlehedge.h"

#define COUNT(array) (sizeof(array) / sizeof((array)[0]))

/* Names by their numbers, and kinds. */
enum { INT = 1, QUERY = 12, F = 13, G = 14 };
enum { SCALAR = 0, OBJECT = 2, NAMED = 0, LIST = 1, NULLABLE = 0, FIELD = 0, INTEGER = 3, STRING = 6 };
enum { ERROR_ANSWER = 1, LEAF_ANSWER = 2, LIST_ANSWER = 3, OBJECT_ANSWER = 4 };
/* A field without conditions, arguments and child set, its response key its name. */
#define FIELD_ROW(place, name, type) FIELD, 0, 0, place, name, name, 0, 0, 0, type

/* The names 0 to 11 are the same in all tables; the last byte is C's and is not lent. */
static const uint8_t pool[] =
    "__typename" "Int" "Float" "String" "Boolean" "ID"
    "__schema" "__type" "fields" "interfaces" "possibleTypes" "inputFields"
    "Query" "f" "g";
static const uint32_t names[] = {
    0, 10,  10, 3,  13, 5,  18, 6,  24, 7,  31, 2,
    33, 8,  41, 6,  47, 6,  53, 10,  63, 13,  76, 11,
    87, 5,  92, 1,  93, 1,
};

/* The text, and an error a line. Nothing behind the counts is looked at. */
static void print(struct ladlehedge_report report, const uint8_t *text, const uint32_t *errors)
{
    printf("%" PRIu32, report.code);
    if (report.code == LADLEHEDGE_ANSWERED)
        printf(" %.*s", (int)report.bytes, (const char *)text);
    printf("\n");
    const uint32_t *record = errors;
    for (uint32_t number = 0; number < report.records; number++) {
        const struct ladlehedge_error error = ladlehedge_error_at(record);
        printf("%" PRIu32 " at %" PRIu32 ":", error.code, error.place);
        for (uint32_t segment = 0; segment < error.segments; segment++) {
            const uint32_t value = error.path[2 * segment + 1];
            const char *const before = segment == 0 ? " " : ".";
            if (error.path[2 * segment] == 0)
                printf("%s%.*s", before, (int)names[2 * value + 1], (const char *)&pool[names[2 * value]]);
            else
                printf("%s%" PRIu32, before, value);
        }
        printf("\n");
        record = ladlehedge_after_error(error);
    }
}

int main(void)
{
    static const uint32_t type_refs[] = { NAMED, NULLABLE, INT,  LIST, NULLABLE, 0 };
    static const uint32_t types[] = { QUERY, OBJECT, 0, 2, 0, 0,  INT, SCALAR, 0, 0, 0, 0 };
    static const uint32_t fields[] = { F, 1, 0, 100, 0, 0,  G, 0, 0, 101, 0, 0 };
    static const uint32_t sets[] = { 0, 2 };
    static const uint32_t selections[] = { FIELD_ROW(300, F, 1), FIELD_ROW(301, G, 0) };
    static const uint32_t nodes[] = { INTEGER, 42, 0, 0, 0,  STRING, 92, 1, 0, 0 };
    static const uint32_t answers[] = {
        OBJECT_ANSWER, 0, QUERY, 1, 2, /* the root: the answers 1 and 2 */
        LIST_ANSWER, F, 3, 2, 0,       /* f: the answers 3 and 4 */
        ERROR_ANSWER, G, 0, 0, 0,
        LEAF_ANSWER, 0, 0, 0, 0,       /* the first node */
        LEAF_ANSWER, 0, 1, 0, 0,       /* and the second */
    };
    /* The tables that are not named are empty. */
    const struct ladlehedge_tables tables = {
        .pool = { pool, sizeof(pool) - 1 },
        .names = { names, COUNT(names) },
        .type_refs = { type_refs, COUNT(type_refs) },
        .types = { types, COUNT(types) },
        .fields = { fields, COUNT(fields) },
        .sets = { sets, COUNT(sets) },
        .selections = { selections, COUNT(selections) },
        .nodes = { nodes, COUNT(nodes) },
        .answers = { answers, COUNT(answers) },
        .root = 0,
    };
    static const uint32_t second_first[] = { 1 };
    const struct ladlehedge_words choices = { second_first, COUNT(second_first) };
    static uint8_t text[256];
    static uint32_t errors[64];
    const struct ladlehedge_buffers buffers = { { text, sizeof(text) }, { errors, COUNT(errors) } };
    const struct ladlehedge_buffers short_text = { { text, 8 }, { errors, COUNT(errors) } };

    print(ladlehedge_run_in_order(&tables, buffers), text, errors);
    print(ladlehedge_run_in_given_order(&tables, choices, buffers), text, errors);
    print(ladlehedge_run_in_order(&tables, short_text), text, errors);
    return 0;
}
