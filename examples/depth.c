/* A depth check of small tables written by hand. The operation is { fields { interfaces } }: prints `0 2 0`, the code, the depth
 * and the place. Then the inner field gets a set with a third such field, which is too deep, and it prints `8 0 302`: the place
 * is that field's.
 *
 *     (cd crates/ladlehedge && rt lib)
 *     mkdir -p target
 *     cc -Wall -Wextra -Iinclude examples/depth.c crates/ladlehedge/out/libladlehedge.a -o target/depth
 *     target/depth
 */
#include <inttypes.h>
#include <stdio.h>
#include "ladlehedge.h"

#define COUNT(array) (sizeof(array) / sizeof((array)[0]))

/* Names by their numbers, and kinds. */
enum { FIELDS = 8, INTERFACES = 9, POSSIBLE_TYPES = 10, QUERY = 12 };
enum { OBJECT = 2, NAMED = 0, NULLABLE = 0, FIELD = 0, OBJECT_ANSWER = 4 };
/* A field without conditions and arguments, its response key its name. */
#define FIELD_ROW(place, name, set) FIELD, 0, 0, place, name, name, 0, 0, set, 0
enum { SELECTION_WIDTH = 10, SET_WORD = 8 };

static void print(const struct ladlehedge_tables *tables)
{
    const struct ladlehedge_depth answer = ladlehedge_check_depth(tables);
    printf("%" PRIu32 " %" PRIu32 " %" PRIu32 "\n", answer.code, answer.depth, answer.place);
}

int main(void)
{
    /* The names 0 to 11 are the same in all tables; the last byte is C's and is not lent. */
    static const uint8_t pool[] =
        "__typename" "Int" "Float" "String" "Boolean" "ID"
        "__schema" "__type" "fields" "interfaces" "possibleTypes" "inputFields"
        "Query";
    static const uint32_t names[] = {
        0, 10,  10, 3,  13, 5,  18, 6,  24, 7,  31, 2,
        33, 8,  41, 6,  47, 6,  53, 10,  63, 13,  76, 11,
        87, 5,
    };
    static const uint32_t type_refs[] = { NAMED, NULLABLE, QUERY };
    static const uint32_t types[] = { QUERY, OBJECT, 0, 0, 0, 0 };
    /* Set 0 is the operation's, set 1 the outer field's; set 2 belongs to nobody at first. */
    static const uint32_t sets[] = { 0, 1,  1, 1,  2, 1 };
    uint32_t selections[] = {
        FIELD_ROW(300, FIELDS, 1),
        FIELD_ROW(301, INTERFACES, 0),
        FIELD_ROW(302, POSSIBLE_TYPES, 0),
    };
    uint32_t *const inner_set = &selections[SELECTION_WIDTH + SET_WORD];
    static const uint32_t answers[] = { OBJECT_ANSWER, 0, QUERY, 0, 0 };

    /* The tables that are not named are empty. */
    const struct ladlehedge_tables tables = {
        .pool = { pool, sizeof(pool) - 1 },
        .names = { names, COUNT(names) },
        .type_refs = { type_refs, COUNT(type_refs) },
        .types = { types, COUNT(types) },
        .sets = { sets, COUNT(sets) },
        .selections = { selections, COUNT(selections) },
        .answers = { answers, COUNT(answers) },
        .root = 0,
    };

    print(&tables);
    *inner_set = 2;
    print(&tables);
    return 0;
}
