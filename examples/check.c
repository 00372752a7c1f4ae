/* The smallest lawful tables, written by hand: a schema with an empty type Query, an operation that selects nothing, and the
 * root's answer. Prints 0; then the kind of Query becomes one that is none, and it prints 1.
 *
 *     (cd crates/ladlehedge && rt lib)
 *     mkdir -p target
 *     cc -Wall -Wextra -Iinclude examples/check.c crates/ladlehedge/out/libladlehedge.a -o target/check
 *     target/check
 */
#include <inttypes.h>
#include <stdio.h>
#include "ladlehedge.h"

#define COUNT(array) (sizeof(array) / sizeof((array)[0]))

enum { QUERY = 12, OBJECT = 2, NO_KIND = 6, OBJECT_ANSWER = 4 };

int main(void)
{
    /* The names 0 to 11 are the same in all tables; the last byte is C's and is not lent. */
    static const uint8_t pool[] =
        "__typename" "Int" "Float" "String" "Boolean" "ID"
        "__schema" "__type" "fields" "interfaces" "possibleTypes" "inputFields"
        "Query";
    static const uint32_t names[] = {
        0, 10,  10, 3,  13, 5,  18, 6,  24, 7,  31, 2,
        33, 8,  41, 6,  47, 6,  53, 10,  63, 13,  76, 11,
        87, 5,
    };
    uint32_t types[] = { QUERY, OBJECT, 0, 0, 0, 0 };
    static const uint32_t sets[] = { 0, 0 };
    static const uint32_t answers[] = { OBJECT_ANSWER, 0, QUERY, 0, 0 };

    /* The tables that are not named are empty. */
    const struct ladlehedge_tables tables = {
        .pool = { pool, sizeof(pool) - 1 },
        .names = { names, COUNT(names) },
        .types = { types, COUNT(types) },
        .sets = { sets, COUNT(sets) },
        .answers = { answers, COUNT(answers) },
        .root = 0,
    };

    printf("%" PRIu32 "\n", ladlehedge_check_tables(&tables));
    types[1] = NO_KIND;
    printf("%" PRIu32 "\n", ladlehedge_check_tables(&tables));
    return 0;
}
