//! Table files.

use tables::layout::RESERVED;
use tables::{file, notation, rules, Tables};

#[test]
fn tokens() {
    let text = r#"
        # a comment
        [names]   # and one behind a heading
        "Int"
        "a\"b\\c\nd\te\x46é" # and behind a row
        [nodes]
        3 4294967298L 0 0
        2 * 0 1 2 3 4
        0 * 9 9 9 9 9
        [pool]
        "tail" "s"
        [root]
        7
    "#;
    let tables = file::read(text).expect("a table file");
    assert_eq!(tables.pool, "Inta\"b\\c\nd\teFétails".as_bytes());
    assert_eq!(tables.names, [0, 3, 3, 12]);
    assert_eq!(tables.nodes, [3, 2, 1, 0, 0, 0, 1, 2, 3, 4, 0, 1, 2, 3, 4]);
    assert_eq!(tables.root, 7);
    assert!(tables.types.is_empty());
}

/// Words of each table that has words of its own, in rows that zeros make whole, and every word.
#[test]
fn words() {
    let rows: [(&str, &str, &[u32]); 8] = [
        ("type_refs", "named list nullable non-null", &[0, 1, 0, 1]),
        ("types", "scalar enum object interface union input", &[0, 1, 2, 3, 4, 5]),
        ("selections", "field spread inline none false true", &[0, 1, 2, 0, 1, 2]),
        ("nodes", "null false true integer negative float string", &[0, 1, 2, 3, 4, 5, 6]),
        ("nodes", "array list object", &[7, 7, 8]),
        ("literals", "null string array list object enum variable", &[0, 6, 7, 7, 8, 9, 10]),
        ("answers", "skip error leaf list object echo", &[0, 1, 2, 3, 4, 5]),
        ("fields", "none - @0 @4294967294", &[0, 0, 1, u32::MAX]),
    ];
    for (table, row, words) in rows {
        let whole = format!("[{table}]\n{row}{}", " 0".repeat(missing(table, words.len())));
        let tables = file::read(whole).expect(row);
        let (.., read) =
            tables.word_tables().into_iter().find(|(name, ..)| *name == table).expect(row);
        assert_eq!(&read[..words.len()], words, "{row}");
    }
}

/// How many words are missing to whole rows.
fn missing(table: &str, count: usize) -> usize {
    let tables = Tables::default();
    let width = tables.word_tables().iter().find(|(name, ..)| *name == table).expect(table).1;
    count.next_multiple_of(width) - count
}

#[test]
fn the_reserved_names() {
    let written: String = RESERVED.iter().map(|name| format!("\"{name}\" ")).collect();
    let by_word = file::read("[names]\nreserved \"Query\"\n[root]\n'ID").expect("a table file");
    assert_eq!(file::read(format!("[names]\n{written}\"Query\"\n[root]\n'ID")), Ok(by_word));
    let twice = file::read("[names]\n2 * reserved").expect("a table file");
    assert_eq!(twice.names[..24], twice.names[24..]);
}

#[test]
fn names_by_their_spelling() {
    let text = "[names]\n\"a\" \"b\"\n\"a\" 'a 'b\n[sets]\r\n'b $b @'b\t'a#\n[root]\n'b";
    let tables = file::read(text).expect("a table file");
    // The first of two that are equal, and also one that stands earlier in the row.
    assert_eq!(tables.names, [0, 1, 1, 1, 2, 1, 0, 1]);
    assert_eq!(tables.sets, [1, 4, 2, 0]);
    assert_eq!(tables.root, 1);
}

/// The bytes of a row's strings stand once, however often its words do.
#[test]
fn repeated_rows() {
    let tables = file::read("[names]\n2 * \"ab\"\n0 * \"c\"\n[sets]\n2 * none 1\n");
    let tables = tables.expect("a table file");
    assert_eq!(tables.pool, b"abc");
    assert_eq!(tables.names, [0, 2, 0, 2]);
    assert_eq!(tables.sets, [0, 1, 0, 1]);
}

/// In the pool it is the bytes that are repeated.
#[test]
fn repeated_bytes() {
    let tables = file::read("[pool]\n3 * \"ab\" \"c\"\n0 * \"d\"\n4294967295 * \"\"");
    assert_eq!(tables.expect("a table file").pool, b"abcabcabc");
}

/// A string is bytes: what is no UTF-8 goes into the pool as it stands.
#[test]
fn a_text_is_bytes() {
    let tables = file::read(b"[pool]\n\"\xFF\\xfE\r\"").expect("a table file");
    assert_eq!(tables.pool, b"\xFF\xFE\r");
}

/// What is wrong with a token, and the token.
#[test]
fn faults_of_a_token() {
    let no_table = "no such table";
    let heading = "nothing but a comment may follow a table's name";
    let no_number = "a number has digits only, and an L behind a 64-bit one";
    let too_large = "the number is too large";
    let no_word = "no such word in this table";
    let no_name = "no such name in [names] so far";
    let faults = [
        ("[names]\n\n[nomes]", 3, no_table, "[nomes]"),
        ("[names# and", 1, no_table, "[names"),
        ("[names] 1 2", 1, heading, "1"),
        ("[types]\n4294967296", 2, too_large, "4294967296"),
        ("[types]\n18446744073709551616L", 2, too_large, "18446744073709551616L"),
        ("[types]\n4294967296 * 0", 2, too_large, "4294967296"),
        ("[types]\n@4294967295", 2, too_large, "@4294967295"),
        ("[types]\n1x", 2, no_number, "1x"),
        ("[types]\n1LL", 2, no_number, "1LL"),
        ("[types]\n2* 0", 2, no_number, "2*"),
        ("[types]\n@", 2, no_number, "@"),
        ("[types]\n@+1", 2, no_number, "@+1"),
        ("[types]\n@1L", 2, no_number, "@1L"),
        ("[types]\n1 two", 2, no_word, "two"),
        ("[types]\nlist", 2, no_word, "list"),
        ("[types]\n-1", 2, no_word, "-1"),
        ("[types]\n2 *0", 2, no_word, "*0"),
        ("[types]\n2L * 0", 2, no_word, "*"),
        ("[types]\nreserved", 2, no_word, "reserved"),
        ("[names]\n\"a\" reserved", 2, no_word, "reserved"),
        ("[nodes]\nenum", 2, no_word, "enum"),
        ("[answers]\narray", 2, no_word, "array"),
        ("[types]\n'Int", 2, no_name, "'Int"),
        ("[names]\n'Int \"Int\"", 2, no_name, "'Int"),
        ("[names]\n\"In\"\n[types]\n$Int", 4, no_name, "$Int"),
        ("[names]\n5 2\n[types]\n@'ab", 4, no_name, "@'ab"),
        ("[pool]\n1 2", 2, "[pool] holds strings only", "1"),
    ];
    for (text, line, why, token) in faults {
        let message = format!("{why}: {token}");
        assert_eq!(file::read(text), Err(file::Fault { line, message }), "{text}");
    }
}

#[test]
fn faults() {
    let escape = r#"an escape is one of \" \\ \n \t \xHH"#;
    let faults = [
        ("1 2", 1, "a row before the first table, as [names]"),
        ("[names]\n\"Int", 2, "the string is not closed on its line"),
        ("[names]\n\"\\q\"", 2, escape),
        ("[names]\n\"\\xZZ\"", 2, escape),
        ("[names]\n\"\\x1\n\"", 2, escape),
        ("[names]\n\"a\"0", 2, "a blank has to follow a string"),
        ("[types]\n1 2 3 4 5", 2, "5 words, a row of types has 6"),
        ("[types]\n1 2 3 4 5 6 7", 2, "7 words, a row of types has 6"),
        ("[names]\n1", 2, "1 word, a row of names has 2"),
        ("[names]\nreserved 1", 2, "25 words, a row of names has 2"),
        ("[members]\n2 *", 2, "0 words, a row of members has 1"),
        ("[root]\n1 2", 2, "[root] has one number"),
        ("[root]\n1\n[types]\n[root]\n1", 5, "[root] has one number"),
        ("[members]\n20640 * 1\n1", 3, "more rows than ladle holds"),
        ("[members]\n4294967295 * 1", 2, "more rows than ladle holds"),
        ("[pool]\n69633 * \"a\"", 2, "more bytes of strings than ladle holds"),
        ("[pool]\n69632 * \"a\"\n\"a\"", 3, "more bytes of strings than ladle holds"),
    ];
    for (text, line, message) in faults {
        let message = message.to_string();
        assert_eq!(file::read(text), Err(file::Fault { line, message }), "{text}");
    }
}

#[test]
fn what_is_written_is_read() {
    let schema = "type Q { f(x: [Int!] = [1, -2]): Int g: Any } scalar Any";
    let answers = r#"{ f: 1, g: leaf {"\u0001é\"": [-9223372036854775808, 1.5, ""], "": 1} }"#;
    let built = notation::tables(schema, "{ f(x: {a: E}) g }", r#"{"v": "\\"}"#, answers);
    let text = file::write(&built);
    let read = file::read(&text).expect("a table file");
    assert_eq!(rules::check(&read), Ok(()));
    assert_eq!(file::write(&read), text);
    // Strings apart, the words are the same.
    assert_eq!((&read.types, &read.answers), (&built.types, &built.answers));
    assert_eq!((&read.selections, &read.fields), (&built.selections, &built.fields));
}

#[test]
fn shared_strings_that_would_not_fit_are_written_by_their_words() {
    let long = "x".repeat(1_000);
    let items = format!("\"{long}\", ").repeat(100);
    let answers = format!("{{ f: leaf [{items}] }}");
    let built = notation::tables("type Q { f: Int }", "{ f }", "", &answers);
    assert!(built.pool.len() < 2_000);
    let text = file::write(&built);
    assert_eq!(file::read(&text).as_ref(), Ok(&built));
}

#[test]
fn written_short() {
    let tables =
        notation::tables("type Q { a: Int  b: Int }", "{ a'1 a'1 a'1 b'2 }", "", "{ a: 1 }");
    let short = file::write_short(&tables);
    assert_eq!(file::read(&short), file::read(file::write(&tables)));
    assert!(short.contains("3 * 0 0 0 1 "), "equal rows stand once: {short}");
    assert!(!short.contains("[fragments]"), "an empty table is left out: {short}");
    assert!(short.starts_with("[names]\nreserved  \"Q\"  "), "rows share a line: {short}");
}

/// Equal strings each have their bytes, so a row with a string is not folded.
#[test]
fn written_short_with_equal_strings() {
    let tables = Tables { pool: b"ab".to_vec(), names: vec![0, 2, 0, 2], ..Tables::default() };
    let short = file::write_short(&tables);
    assert_eq!(short, "[names]\n\"ab\"  \"ab\"\n");
    assert_eq!(file::read(&short), file::read(file::write(&tables)));
}
