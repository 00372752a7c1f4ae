//! Lawful tables of full size: those with a limit stand at it, but in the document that unfolds, which
//! is small. For measuring, so plain but for what a shape is about. Some are what an enemy would send:
//! rows that are shared as often as they can be, keys whose hashes are equal, long texts that overlap.

use tables::layout::{answer_kind, limit, selection_kind, type_kind, value_kind, width};
use tables::layout::{DEPTH_FIELDS, RESERVED};
use tables::{notation, Tables};

/// Bytes of a short key: as many hexadecimal digits as number all nodes.
const SHORT_KEY: usize = 4;
/// Bytes of a long key, where key i begins at the i-th byte behind the names.
pub const LONG_KEY: usize = limit::POOL - NAMES_END - limit::NODES;
/// Where in the pool keys may begin: all names stand before.
const NAMES_END: usize = 4_096;
/// Names that rows use where any would do: after the reserved ones.
const FIRST_NAME: usize = RESERVED.len();
/// Rows of the tables without a limit.
const MEMBERS: usize = limit::FIELDS;
const GIVEN: usize = limit::SELECTIONS;

/// Nothing in nodes but strings, each with a key of its own.
pub fn plain() -> Tables {
    let mut tables = Tables::default();
    add_names(&mut tables);
    add_short_keys(&mut tables);
    tables.nodes = nodes(NAMES_END, SHORT_KEY, SHORT_KEY);
    add_schema(&mut tables);
    add_document(&mut tables);
    add_answers(&mut tables);
    tables
}

/// The same, so that a run is answered: its operation has as many selections as may be collected, in 64
/// groups, each with an argument that is converted and a string for an answer.
pub fn answered() -> Tables {
    let mut tables = plain();
    let (scalar, last) = (limit::TYPES - 1, limit::SELECTIONS - limit::COLLECTED);
    tables.types[scalar * width::TYPES + 1..][..5].copy_from_slice(&[
        type_kind::SCALAR,
        0,
        0,
        0,
        0,
    ]);
    tables.type_refs[2] = word(FIRST_NAME + scalar);
    tables.sets[..2].copy_from_slice(&[word(last), word(limit::COLLECTED)]);
    // Of the literals, each of which is a list around the next, those in which few are open.
    for (row, given) in tables.given.chunks_exact_mut(width::GIVEN).enumerate() {
        given[1] = word(limit::LITERALS - limit::OPEN + row % limit::OPEN);
    }
    tables
}

/// Where in a long name the names differ.
#[derive(Debug, Clone, Copy)]
pub enum Differ {
    Early,
    Late,
}

/// All names that are not reserved have the most bytes that a name may have.
pub fn long_names(differ: Differ) -> Tables {
    let mut tables = plain();
    let mut start = NAMES_END + SHORT_KEY * limit::NODES;
    for number in FIRST_NAME..limit::NAMES {
        let name = match differ {
            Differ::Early => format!("n{number:03}{:a<60}", ""),
            Differ::Late => format!("{:a<60}n{number:03}", ""),
        };
        tables.pool[start..start + name.len()].copy_from_slice(name.as_bytes());
        tables.names[number * width::NAMES] = word(start);
        tables.names[number * width::NAMES + 1] = word(name.len());
        start += name.len();
    }
    tables
}

/// Bytes of a text that overlaps all others: each begins a character behind the last.
pub const OVERLAPPING: usize = limit::POOL - NAMES_END - 2 * limit::NODES;

/// All texts and keys are as long as the pool allows and of characters of two bytes. With a stray byte
/// in the pool, which no string has, the pool is not UTF-8 as a whole.
pub fn overlapping_texts(stray: bool) -> Tables {
    let mut tables = plain();
    for character in tables.pool[NAMES_END..].chunks_exact_mut(2) {
        character.copy_from_slice("é".as_bytes());
    }
    if stray {
        tables.pool[NAMES_END - 1] = 0x80;
    }
    tables.nodes = nodes(NAMES_END, 2, OVERLAPPING);
    tables
}

/// So many objects that all have the same children: every node that is left.
pub fn objects_that_share_keys(objects: usize) -> Tables {
    let mut tables = plain();
    make_objects(&mut tables, objects, limit::NODES - objects);
    tables
}

/// One object of so many keys that are as long as the pool allows and differ late.
pub fn one_object_of_long_keys(keys: usize) -> Tables {
    let mut tables = plain();
    let (start, length) = (NAMES_END, LONG_KEY);
    tables.pool[start..].fill(b'a');
    // Key i begins at start + i: the one `b` stands at another place in each.
    tables.pool[start + length - 1] = b'b';
    tables.nodes = nodes(start, 1, length);
    make_objects(&mut tables, 1, keys);
    tables
}

/// What the two words of a step are multiplied by in the port's hash of a key.
const HASH_FACTORS: [u64; 2] = [1_013_904_223, 1_640_531_527];

/// The port's hash of a key: eight bytes a step, and at last the last eight.
pub fn hash(key: &[u8]) -> u16 {
    // Bytes past the end are 0, and they are the upper ones.
    let word = |at: usize| {
        key.iter().skip(at).take(4).rev().fold(0, |word, byte| 256 * word + u64::from(*byte))
    };
    let mixed = |hash: u64, one: u64, two: u64| {
        ((hash + one) * HASH_FACTORS[0] + two * HASH_FACTORS[1]) / 65_536 % (1 << 32)
    };
    let length = key.len();
    let steps = (0..length / 8).fold(length as u64 % (1 << 32), |hash, step| {
        mixed(hash, word(8 * step), word(8 * step + 4))
    });
    let last = mixed(steps, word(length.saturating_sub(8)), word(length.saturating_sub(4)));
    (last / 256 % 65_536) as u16
}

/// Two times eight bytes that no key's hash tells apart: what they add to it is the same. A word of
/// the one is larger by the other's factor, and the other way round.
const ONE_HASH: [[u8; 8]; 2] =
    [*b"\x00\x7a\x37\x00\x5f\x00\x6f\x3c", *b"\x47\x00\x00\x62\x00\x0d\x00\x00"];

/// One object of so many keys that have one length and one hash and differ late. This is what an
/// enemy would do: the hash tells no two of them apart, so that all bytes are looked at.
///
/// Key i begins 8 * i bytes behind the names. All of them are the same eight bytes over and over, but
/// for eight others, which stand where the first key ends and so are in all of them.
pub fn one_object_of_keys_with_one_hash(keys: usize) -> Tables {
    let mut tables = plain();
    let (start, length) = (NAMES_END, key_with_one_hash(keys));
    assert!(8 * keys <= length, "a key without the other eight bytes");
    for (place, block) in tables.pool[start..].chunks_exact_mut(8).enumerate() {
        block.copy_from_slice(&ONE_HASH[usize::from(8 * (place + 1) == length)]);
    }
    tables.nodes = Vec::new();
    for row in 0..limit::NODES {
        // Node 0 is the object, the keys are those of the nodes behind it.
        let key = row.clamp(1, keys) - 1;
        let span = [word(start + 8 * key), word(length)];
        tables.nodes.extend([value_kind::STRING, span[0], span[1], span[0], span[1]]);
    }
    make_objects(&mut tables, 1, keys);
    tables
}

/// One object of these keys. What node is left has an empty key.
pub fn one_object_of(keys: &[Vec<u8>]) -> Tables {
    let mut tables = plain();
    tables.nodes = [value_kind::NULL, 0, 0, 0, 0].repeat(limit::NODES);
    let mut start = NAMES_END;
    for (key, row) in keys.iter().zip(tables.nodes.chunks_exact_mut(width::NODES).skip(1)) {
        tables.pool[start..start + key.len()].copy_from_slice(key);
        row[3..].copy_from_slice(&[word(start), word(key.len())]);
        start += key.len();
    }
    make_objects(&mut tables, 1, keys.len());
    tables
}

/// How long so many of these keys can be.
pub fn key_with_one_hash(keys: usize) -> usize {
    limit::POOL - NAMES_END - 8 * (keys - 1)
}

/// The tables in which rows are shared as often as they can be.
pub fn shared_rows() -> [(&'static str, Tables); 5] {
    [
        ("types", types_that_share_fields()),
        ("fields", fields_that_share_arguments()),
        ("selections", selections_that_share_arguments()),
        ("literals", literals_that_share_keys()),
        ("answers", answers_that_share_children()),
    ]
}

/// Every answer is an object of the same children, one for each name.
pub fn answers_that_share_children() -> Tables {
    let mut tables = plain();
    for row in tables.answers.chunks_exact_mut(width::ANSWERS) {
        row[0] = answer_kind::OBJECT;
        row[2..].copy_from_slice(&[word(FIRST_NAME), 1, word(limit::NAMES)]);
    }
    tables
}

/// As many fields as a type can have: one for each name but `__typename`.
pub const FIELDS_OF_A_TYPE: usize = limit::NAMES - 1;

/// Every type has the same fields, one for each name that a field may have.
pub fn types_that_share_fields() -> Tables {
    let mut tables = plain();
    for (number, row) in tables.fields.chunks_exact_mut(width::FIELDS).enumerate() {
        row[0] = word(1 + number % FIELDS_OF_A_TYPE);
    }
    for row in tables.types.chunks_exact_mut(width::TYPES) {
        row[2..4].copy_from_slice(&[0, word(FIELDS_OF_A_TYPE)]);
    }
    tables
}

/// Every field has the same arguments, one for each name.
pub fn fields_that_share_arguments() -> Tables {
    let mut tables = plain();
    for (number, row) in tables.arguments.chunks_exact_mut(width::ARGUMENTS).enumerate() {
        row[0] = word(number % limit::NAMES);
    }
    for row in tables.fields.chunks_exact_mut(width::FIELDS) {
        row[4..].copy_from_slice(&[0, word(limit::NAMES)]);
    }
    tables
}

/// Every selection is given the same arguments, one for each name.
pub fn selections_that_share_arguments() -> Tables {
    let mut tables = plain();
    for (number, row) in tables.given.chunks_exact_mut(width::GIVEN).enumerate() {
        row[0] = word(number % limit::NAMES);
    }
    for row in tables.selections.chunks_exact_mut(width::SELECTIONS) {
        row[6..8].copy_from_slice(&[0, word(limit::NAMES)]);
    }
    tables
}

/// So many sets, each of all selections. There is no limit to sets.
pub fn sets_that_share_selections(sets: usize) -> Tables {
    let mut tables = plain();
    for row in tables.selections.chunks_exact_mut(width::SELECTIONS) {
        row[8] = 0;
    }
    tables.fragments.clear();
    tables.sets = [0, word(limit::SELECTIONS)].repeat(sets);
    tables
}

/// Half of the literals are objects of the same children, the other half, one for each name.
pub fn literals_that_share_keys() -> Tables {
    let mut tables = plain();
    let objects = limit::LITERALS - limit::NAMES;
    for (number, row) in tables.literals.chunks_exact_mut(width::LITERALS).enumerate() {
        *row.last_mut().expect("a key") = word(number % limit::NAMES);
        if number < objects {
            row[..3].copy_from_slice(&[value_kind::OBJECT, word(objects), word(limit::NAMES)]);
        } else {
            row[0] = value_kind::NULL;
        }
    }
    tables
}

/// How often each fragment is spread in [`deep_document`].
pub const SPREADS: usize = limit::OPEN - 1;

/// A document for a depth check near its limits: 31 sets within one another, and in each of them all
/// 64 fragments are spread, so that 32 sets are open. A fragment is first met in the innermost set;
/// in the others it is met again. The answer is depth 2.
pub fn deep_document() -> Tables {
    let mut tables = plain();
    let spreads = SPREADS * limit::FRAGMENTS;
    // The rows that go one set down stand before the spreads of their set, the fields at the end.
    let fields = limit::SELECTIONS - spreads - (SPREADS - 1);
    tables.sets.clear();
    tables.selections.clear();
    tables.fragments.clear();
    for level in 0..SPREADS {
        let first = tables.selection_count();
        if level == 0 {
            tables.selections.extend(selection(selection_kind::FIELD, *DEPTH_FIELDS.start(), 1));
        } else if level + 1 < SPREADS {
            tables.selections.extend(selection(selection_kind::INLINE, 0, word(level + 1)));
        }
        for fragment in 0..limit::FRAGMENTS {
            let name = word(FIRST_NAME + fragment);
            tables.selections.extend(selection(selection_kind::SPREAD, name, 0));
        }
        tables.sets.extend([first, tables.selection_count() - first]);
    }
    let first = tables.selection_count();
    for _ in 0..fields {
        tables.selections.extend(selection(selection_kind::FIELD, *DEPTH_FIELDS.end(), 0));
    }
    for fragment in 0..limit::FRAGMENTS {
        let (name, set) = (word(FIRST_NAME + fragment), word(SPREADS + fragment));
        tables.sets.extend([first, word(fields)]);
        tables.fragments.extend([name, word(FIRST_NAME), set]);
    }
    tables
}

/// A document whose sets share selections, in small tables: in each of so many levels below the
/// operation there are so many selections, all of which lead to a set of all the next ones. A depth
/// check goes through as many times more sets in each level.
pub fn document_that_unfolds(across: usize, levels: usize) -> Tables {
    let mut tables = notation::tables("bare type Q { }", "{ }", "", "{ }");
    tables.sets = vec![0, word(across)];
    for level in 1..=levels {
        let next = if level < levels { [word(across * level), word(across)] } else { [0, 0] };
        for child in across * (level - 1)..across * level {
            tables.selections.extend(selection(selection_kind::INLINE, 0, word(child + 1)));
            tables.sets.extend(next);
        }
    }
    tables
}

/// How many sets a depth check of such a document goes through.
pub fn sets_unfolded(across: u64, levels: u32) -> u64 {
    (0..=levels).map(|level| across.pow(level)).sum()
}

/// A selection of a kind, with the words 4 and 8.
fn selection(kind: u32, name: u32, set: u32) -> [u32; width::SELECTIONS] {
    [kind, 0, 0, 0, name, 0, 0, 0, set, 0]
}

fn word(number: usize) -> u32 {
    u32::try_from(number).expect("a small number")
}

/// String nodes. Node i has the key and the text that begin `step * i` bytes after `start`.
fn nodes(start: usize, step: usize, length: usize) -> Vec<u32> {
    let node = |row: usize| {
        let span = [word(start + step * row), word(length)];
        [value_kind::STRING, span[0], span[1], span[0], span[1]]
    };
    (0..limit::NODES).flat_map(node).collect()
}

/// Makes the first nodes objects of so many children, which come after them.
fn make_objects(tables: &mut Tables, objects: usize, children: usize) {
    for row in tables.nodes.chunks_exact_mut(width::NODES).take(objects) {
        row[..3].copy_from_slice(&[value_kind::OBJECT, word(objects), word(children)]);
    }
}

fn add_names(tables: &mut Tables) {
    let reserved = RESERVED.iter().map(|name| name.to_string());
    let others = (FIRST_NAME..limit::NAMES).map(|number| format!("n{number}"));
    for name in reserved.chain(others) {
        tables.names.extend([word(tables.pool.len()), word(name.len())]);
        tables.pool.extend(name.bytes());
    }
    assert!(tables.pool.len() <= NAMES_END);
    tables.pool.resize(limit::POOL, b'.');
}

/// A key for each node.
fn add_short_keys(tables: &mut Tables) {
    for row in 0..limit::NODES {
        let start = NAMES_END + SHORT_KEY * row;
        tables.pool[start..start + SHORT_KEY].copy_from_slice(format!("{row:04x}").as_bytes());
    }
}

/// Each type has its share of the fields and members, each field an argument and a default; each
/// default is a list around the next, each type reference a list of the last.
fn add_schema(tables: &mut Tables) {
    let (fields, members) = (limit::FIELDS / limit::TYPES, MEMBERS / limit::TYPES);
    let name = |number: usize| word(FIRST_NAME + number);
    for row in 0..limit::TYPE_REFS {
        tables.type_refs.extend(if row == 0 { [0, 0, 0] } else { [1, 1, word(row - 1)] });
    }
    for row in 0..limit::TYPES {
        let (first_field, first_member) = (word(row * fields), word(row * members));
        tables.types.extend([name(row), type_kind::OBJECT, first_field, word(fields)]);
        tables.types.extend([first_member, word(members)]);
    }
    tables.members = (0..MEMBERS).map(|row| name(row % limit::TYPES)).collect();
    for row in 0..limit::FIELDS {
        tables.fields.extend([name(row % fields), word(row), word(row + 1), 0, word(row), 1]);
        tables.arguments.extend([name(0), word(row), word(row + 1), 0]);
    }
    for row in 1..limit::LITERALS {
        tables.literals.extend([value_kind::LIST, word(row), 1, 0, 0]);
    }
    tables.literals.extend([value_kind::NULL, 0, 0, 0, 0]);
}

/// Every selection is the operation's, with an argument and, as long as there are sets that no
/// fragment has, a child set of its own.
fn add_document(tables: &mut Tables) {
    let name = |number: usize| word(FIRST_NAME + number);
    let children = limit::SELECTIONS - limit::FRAGMENTS;
    tables.sets.extend([0, word(limit::SELECTIONS)]);
    for row in 0..limit::SELECTIONS {
        let child = if row < children { row + 1 } else { 0 };
        tables.sets.extend([0, 0]);
        tables.selections.extend([selection_kind::FIELD, 0, 0, 0, name(0), name(row % 64)]);
        tables.selections.extend([word(row), 1, word(child), 0]);
    }
    for row in 0..GIVEN {
        tables.given.extend([name(0), word(row % limit::LITERALS)]);
    }
    for row in 0..limit::FRAGMENTS {
        tables.fragments.extend([name(row), name(0), word(children + 1 + row)]);
    }
    for row in 0..limit::VARIABLES {
        tables.variables.extend([name(row), word(row)]);
    }
}

/// The root's object has an answer for every name, and the other answers are leaves.
fn add_answers(tables: &mut Tables) {
    let fields = word(limit::NAMES);
    tables.answers.extend([answer_kind::OBJECT, 0, word(FIRST_NAME), 1, fields]);
    for row in 1..limit::ANSWERS {
        tables.answers.extend([answer_kind::LEAF, word(row % limit::NAMES), word(row), 0, 0]);
    }
}
