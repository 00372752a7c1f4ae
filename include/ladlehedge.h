/* Ladlehedge from C: link libladlehedge.a, which `rt lib` in crates/ladlehedge writes (docs/LINKING.md).
 *
 * A caller fills a struct ladlehedge_tables with what it lends and passes it to an entry's inline function:
 *
 *     struct ladlehedge_tables tables = { .pool = {bytes, byte_count}, .names = {words, word_count}, .root = 0 };
 *     if (ladlehedge_check_tables(&tables) == LADLEHEDGE_ANSWERED) { .. }
 *     struct ladlehedge_depth answer = ladlehedge_check_depth(&tables);
 *
 * For a run it lends two buffers besides, and finds the answer in them:
 *
 *     struct ladlehedge_buffers buffers = { .text = {bytes, byte_count}, .errors = {words, word_count} };
 *     struct ladlehedge_report report = ladlehedge_run_in_order(&tables, buffers);
 *     if (report.code == LADLEHEDGE_ANSWERED) fwrite(bytes, 1, report.bytes, stdout);
 *
 * docs/TABLES.md says what the bytes and words mean. For a caller to know:
 *
 * - Any bytes, any words and any lengths may be lent: every entry looks for itself whether they are lawful, and says so.
 * - What the proof rests on is that each pointer leads to as many elements as its length says, aligned as C aligns them, and
 *   that nobody writes to them before the call returns. Tables may share memory. Nothing in them is written to.
 * - The two buffers of a run stay the caller's: the run writes to them, keeps no pointer to them and hands back numbers alone.
 *   They have a value to begin with, any; they share memory neither with each other nor with a table nor with the choices, and
 *   nobody else reads or writes them before the call returns.
 * - After a run every element of both buffers is determined: what the report counts, and zeros behind it. With a code other than
 *   0 nothing is counted and all is zeros, so that no half of a text is ever left.
 * - A table of length 0 may have a null pointer here. The exported functions themselves want a pointer that is not null and is
 *   aligned, also for a length of 0, as Rust's slices do; the inline functions see to that.
 * - The exported depth check and runs write to numbers of the caller's. The inline functions have their own and hand them back in
 *   a struct, so there is nothing to see to.
 * - Nothing is kept: once a call has returned, what was lent may change or go. There is no state, no heap, no lock and
 *   nothing to set up. Several threads may call at once.
 * - A length counts elements: bytes of the pool, words (not rows) of a table.
 * - Every call ends, but not every one soon. Measured: 0.1 ms for a table check with every table at its limit; half a second where
 *   texts of tens of kilobytes overlap, seconds where thousands of such keys were made to share a hash. A depth check walks a set
 *   as often as it is reached: sets that share selections, three in each of 31 levels, are 5 kB of tables and take months. A run
 *   does so too, and follows answers that lead back to earlier ones, up to paths of 32 segments.
 *   docs/LINKING.md has the figures, and how they come about.
 * - The archive is for x86-64 Linux.
 */
#ifndef LADLEHEDGE_H
#define LADLEHEDGE_H

#include <stddef.h>
#include <stdint.h>

#ifdef __cplusplus
extern "C" {
#endif

/* What an entry answers. A table check has 0 and 1, a depth check 0, 1, 3 and 8, a run 0 to 7. */
enum ladlehedge_code {
    LADLEHEDGE_ANSWERED = 0,            /* of a table check: the tables are lawful */
    LADLEHEDGE_UNLAWFUL = 1,            /* a table breaks a rule; of a run: or a buffer or the choices are too long */
    LADLEHEDGE_ASKS_FOR_SCHEMA = 2,     /* a selection asks for __schema or __type */
    LADLEHEDGE_TOO_FAR = 3,             /* a path over 32 segments; a 33rd open container, fragment or set */
    LADLEHEDGE_TOO_MANY_FIELDS = 4,     /* a 129th field is collected for one set */
    LADLEHEDGE_VARIABLE_IN_LITERAL = 5, /* a variable inside a literal that converts part by part */
    LADLEHEDGE_TEXT_TOO_LONG = 6,       /* the text buffer is too short for the answer */
    LADLEHEDGE_RECORDS_TOO_LONG = 7,    /* the error buffer is too short for the error records */
    LADLEHEDGE_TOO_DEEP = 8             /* depth check only: too deep, at a place */
};

/* The longest buffers and the most choices that may be lent: with more a run answers LADLEHEDGE_UNLAWFUL. */
enum {
    LADLEHEDGE_MOST_TEXT_BYTES = 65536,
    LADLEHEDGE_MOST_ERROR_WORDS = 16384,
    LADLEHEDGE_MOST_CHOICES = 4096
};

/* What a depth check answers: the depth is 0 unless the code is 0, the place is 0 unless the code is 8. */
struct ladlehedge_depth {
    uint32_t code;
    uint32_t depth;
    uint32_t place;
};

/* What a run answers, beside its two buffers: how many bytes of the text buffer are the data's JSON text, how many words of the
 * error buffer are error records, and how many records these are. All three are 0 unless the code is 0. */
struct ladlehedge_report {
    uint32_t code;
    uint32_t bytes;
    uint32_t words;
    uint32_t records;
};

/* The two buffers that a run is lent and writes to: they are the caller's before, meanwhile and after. */
struct ladlehedge_text_buffer {
    uint8_t *first;
    size_t length;
};

struct ladlehedge_error_buffer {
    uint32_t *first;
    size_t length;
};

struct ladlehedge_buffers {
    struct ladlehedge_text_buffer text;
    struct ladlehedge_error_buffer errors;
};

struct ladlehedge_bytes {
    const uint8_t *first;
    size_t length;
};

struct ladlehedge_words {
    const uint32_t *first;
    size_t length;
};

/* The sixteen things that every entry is lent, in the order of docs/TABLES.md. One that is all zeros lends nothing. */
struct ladlehedge_tables {
    struct ladlehedge_bytes pool;
    struct ladlehedge_words names;
    struct ladlehedge_words type_refs;
    struct ladlehedge_words types;
    struct ladlehedge_words members;
    struct ladlehedge_words fields;
    struct ladlehedge_words arguments;
    struct ladlehedge_words sets;
    struct ladlehedge_words selections;
    struct ladlehedge_words given;
    struct ladlehedge_words fragments;
    struct ladlehedge_words nodes;
    struct ladlehedge_words literals;
    struct ladlehedge_words variables;
    struct ladlehedge_words answers;
    uint32_t root;
};

/* The parameters by which an exported function is lent them: each slice as a pointer and then a length. */
#define LADLEHEDGE_TABLES_PARAMETERS \
    const uint8_t *pool, size_t pool_length, \
    const uint32_t *names, size_t names_length, \
    const uint32_t *type_refs, size_t type_refs_length, \
    const uint32_t *types, size_t types_length, \
    const uint32_t *members, size_t members_length, \
    const uint32_t *fields, size_t fields_length, \
    const uint32_t *arguments, size_t arguments_length, \
    const uint32_t *sets, size_t sets_length, \
    const uint32_t *selections, size_t selections_length, \
    const uint32_t *given, size_t given_length, \
    const uint32_t *fragments, size_t fragments_length, \
    const uint32_t *nodes, size_t nodes_length, \
    const uint32_t *literals, size_t literals_length, \
    const uint32_t *variables, size_t variables_length, \
    const uint32_t *answers, size_t answers_length, \
    uint32_t root

/* Exported by the library. No pointer may be null; the inline functions below take care of that. */
uint32_t ladlehedge_table_check(LADLEHEDGE_TABLES_PARAMETERS);

/* Returns the code. Each of the last two pointers leads to one number of the caller's, which is written whatever the code is:
 * not null, aligned, with a value to begin with, apart from the other one and from every table, and nobody else's during the
 * call. */
uint32_t ladlehedge_depth_check(LADLEHEDGE_TABLES_PARAMETERS, uint32_t *depth, uint32_t *place);

/* Both return the code. The text buffer and the error buffer are written whole, and the last three pointers lead to one number of
 * the caller's each, which is written whatever the code is: not null, aligned, with a value to begin with, each apart from the
 * others, from the buffers and from whatever else is lent, and nobody else's during the call. */
uint32_t ladlehedge_run(
    LADLEHEDGE_TABLES_PARAMETERS,
    uint8_t *text, size_t text_length,
    uint32_t *errors, size_t errors_length,
    uint32_t *bytes, uint32_t *words, uint32_t *records);
uint32_t ladlehedge_run_ordered(
    LADLEHEDGE_TABLES_PARAMETERS,
    const uint32_t *choices, size_t choices_length,
    uint8_t *text, size_t text_length,
    uint32_t *errors, size_t errors_length,
    uint32_t *bytes, uint32_t *words, uint32_t *records);

/* A place to point to for a slice of no words. */
static const uint32_t ladlehedge_no_words = 0;

static inline const uint8_t *ladlehedge_first_byte(struct ladlehedge_bytes lent)
{
    return lent.length == 0 ? (const uint8_t *)&ladlehedge_no_words : lent.first;
}

static inline const uint32_t *ladlehedge_first_word(struct ladlehedge_words lent)
{
    return lent.length == 0 ? &ladlehedge_no_words : lent.first;
}

/* A struct ladlehedge_tables behind a pointer as arguments for LADLEHEDGE_TABLES_PARAMETERS. */
#define LADLEHEDGE_LEND_WORDS(words) ladlehedge_first_word(words), (words).length
#define LADLEHEDGE_LEND(tables) \
    ladlehedge_first_byte((tables)->pool), (tables)->pool.length, \
    LADLEHEDGE_LEND_WORDS((tables)->names), \
    LADLEHEDGE_LEND_WORDS((tables)->type_refs), \
    LADLEHEDGE_LEND_WORDS((tables)->types), \
    LADLEHEDGE_LEND_WORDS((tables)->members), \
    LADLEHEDGE_LEND_WORDS((tables)->fields), \
    LADLEHEDGE_LEND_WORDS((tables)->arguments), \
    LADLEHEDGE_LEND_WORDS((tables)->sets), \
    LADLEHEDGE_LEND_WORDS((tables)->selections), \
    LADLEHEDGE_LEND_WORDS((tables)->given), \
    LADLEHEDGE_LEND_WORDS((tables)->fragments), \
    LADLEHEDGE_LEND_WORDS((tables)->nodes), \
    LADLEHEDGE_LEND_WORDS((tables)->literals), \
    LADLEHEDGE_LEND_WORDS((tables)->variables), \
    LADLEHEDGE_LEND_WORDS((tables)->answers), \
    (tables)->root

/* The table check: LADLEHEDGE_ANSWERED where the tables are lawful, otherwise LADLEHEDGE_UNLAWFUL. */
static inline uint32_t ladlehedge_check_tables(const struct ladlehedge_tables *tables)
{
    return ladlehedge_table_check(LADLEHEDGE_LEND(tables));
}

/* The depth check: how deep the operation nests the fields `fields`, `interfaces`, `possibleTypes` and `inputFields`. It looks
 * at the tables as the table check does, so that need not be asked before. */
static inline struct ladlehedge_depth ladlehedge_check_depth(const struct ladlehedge_tables *tables)
{
    struct ladlehedge_depth answer = { 0, 0, 0 };
    answer.code = ladlehedge_depth_check(LADLEHEDGE_LEND(tables), &answer.depth, &answer.place);
    return answer;
}

/* A run in document order. It makes a table check first, so that need not be asked before. A buffer of length 0 may have a null
 * pointer here. */
static inline struct ladlehedge_report ladlehedge_run_in_order(
    const struct ladlehedge_tables *tables, struct ladlehedge_buffers buffers)
{
    uint32_t places[2] = { 0, 0 }; /* for buffers of no elements, which are not written to */
    struct ladlehedge_report answer = { 0, 0, 0, 0 };
    answer.code = ladlehedge_run(
        LADLEHEDGE_LEND(tables),
        buffers.text.length == 0 ? (uint8_t *)&places[0] : buffers.text.first, buffers.text.length,
        buffers.errors.length == 0 ? &places[1] : buffers.errors.first, buffers.errors.length,
        &answer.bytes, &answer.words, &answer.records);
    return answer;
}

/* A run in a given order: whenever a selection set has groups left, the next choice, modulo their number, says which is taken; once
 * the choices are used up, the first. The choices are lent as a table is. */
static inline struct ladlehedge_report ladlehedge_run_in_given_order(
    const struct ladlehedge_tables *tables, struct ladlehedge_words choices, struct ladlehedge_buffers buffers)
{
    uint32_t places[2] = { 0, 0 };
    struct ladlehedge_report answer = { 0, 0, 0, 0 };
    answer.code = ladlehedge_run_ordered(
        LADLEHEDGE_LEND(tables),
        LADLEHEDGE_LEND_WORDS(choices),
        buffers.text.length == 0 ? (uint8_t *)&places[0] : buffers.text.first, buffers.text.length,
        buffers.errors.length == 0 ? &places[1] : buffers.errors.first, buffers.errors.length,
        &answer.bytes, &answer.words, &answer.records);
    return answer;
}

/* An error record: its code, 1 to 24, and its place, both as docs/TABLES.md and the documents have them, and its path. A segment is
 * two words, 0 and a response key (a row of the names), or 1 and a list index. The path points into the error buffer. */
struct ladlehedge_error {
    uint32_t code;
    uint32_t place;
    uint32_t segments;
    const uint32_t *path;
};

/* The record that begins at a word of the error buffer: the first begins at its first word, each other one where the one before
 * ends, as many as the report counts. */
static inline struct ladlehedge_error ladlehedge_error_at(const uint32_t *record)
{
    struct ladlehedge_error error = { record[0], record[1], record[2], record + 3 };
    return error;
}

static inline const uint32_t *ladlehedge_after_error(struct ladlehedge_error error)
{
    return error.path + 2 * (size_t)error.segments;
}

#ifdef __cplusplus
}
#endif

#endif
