//! Writing a table file: numbers, strings where they stand, and the reserved names by their word.

use crate::layout::{limit, value_kind, width, RESERVED};
use crate::rows::{Span, Tables};

/// Which words of a row are a string: the columns of their first words.
fn string_columns(table: &str, row: &[u32]) -> &'static [usize] {
    let spelled = matches!(row[0], value_kind::FLOAT | value_kind::STRING);
    match table {
        "names" => &[0],
        "nodes" if spelled => &[1, 3],
        "nodes" => &[3],
        "literals" if spelled => &[1],
        _ => &[],
    }
}

/// The tables as a table file.
///
/// Strings are written where they stand, so that a reader can read them; reading gives each its
/// own bytes. Where that would make the pool too long, or a string lies outside of the pool, the
/// pool is written as it is and strings by their two words. A last row that is not whole is written
/// as it is, and no reader takes it.
pub fn write(tables: &Tables) -> String {
    let quoted = strings_fit(tables);
    let mut text = String::new();
    if !quoted {
        text += "[pool]\n";
        push_lines(&mut text, &pool_lines(tables));
    }
    for (name, width, words) in tables.word_tables() {
        text += &format!("[{name}]\n");
        push_lines(&mut text, &row_lines(tables, name, width, words, quoted));
    }
    text + &format!("[root]\n{}\n", tables.root)
}

/// The same in fewer lines: empty tables and a root of 0 are left out, equal rows that follow one
/// another are written once with their number, and others share a line.
pub fn write_short(tables: &Tables) -> String {
    let quoted = strings_fit(tables);
    let mut text = String::new();
    if !quoted {
        text += "[pool]\n";
        push_folded(&mut text, &pool_lines(tables), |_| true);
    }
    for (name, width, words) in tables.word_tables() {
        if words.is_empty() {
            continue;
        }
        text += &format!("[{name}]\n");
        let lines = row_lines(tables, name, width, words, quoted);
        // A row with a string stands alone: repeated, its bytes would be shared.
        push_folded(&mut text, &lines, |line| !line.contains('"'));
    }
    if tables.root != 0 {
        text += &format!("[root]\n{}\n", tables.root);
    }
    text
}

fn push_lines(text: &mut String, lines: &[String]) {
    for line in lines {
        *text += line;
        text.push('\n');
    }
}

/// Equal rows that may be folded and follow one another stand once, with their number, on a line of
/// their own. Of the others as many stand on a line as there is room for.
fn push_folded(text: &mut String, rows: &[String], may_fold: impl Fn(&str) -> bool) {
    let mut line = String::new();
    for equal in rows.chunk_by(|one, two| one == two && may_fold(one)) {
        let (row, count) = (&equal[0], equal.len());
        if count > 1 || line.len() + BETWEEN.len() + row.len() > LINE {
            push_line(text, &mut line);
        }
        if count > 1 {
            *text += &format!("{count} * {row}\n");
        } else {
            line += if line.is_empty() { "" } else { BETWEEN };
            line += row;
        }
    }
    push_line(text, &mut line);
}

/// The length of a line that rows share, and what stands between them.
const LINE: usize = 100;
const BETWEEN: &str = "  ";

/// The line so far, if there is one, and a new one.
fn push_line(text: &mut String, line: &mut String) {
    if !line.is_empty() {
        *text += line;
        text.push('\n');
        line.clear();
    }
}

/// The pool, where strings are not written where they stand.
fn pool_lines(tables: &Tables) -> Vec<String> {
    tables.pool.chunks(64).map(quote).collect()
}

/// The rows of a table, a line each; the reserved names are one.
fn row_lines(
    tables: &Tables,
    table: &str,
    width: usize,
    words: &[u32],
    quoted: bool,
) -> Vec<String> {
    let (mut lines, mut rest) = (Vec::new(), words);
    if quoted && table == "names" && has_reserved(tables) {
        lines.push("reserved".into());
        rest = &words[RESERVED.len() * width..];
    }
    lines.extend(rest.chunks(width).map(|row| row_text(tables, table, row, quoted)));
    lines
}

/// Whether the first names are the reserved ones. Every string has to lie in the pool.
fn has_reserved(tables: &Tables) -> bool {
    let rows = tables.names.chunks_exact(width::NAMES).take(RESERVED.len());
    let names = rows.map(|row| tables.bytes(Span { start: row[0], length: row[1] }));
    names.eq(RESERVED.iter().map(|name| name.as_bytes()))
}

/// Whether every string lies in the pool, and all of them, each by itself, in one of legal length.
fn strings_fit(tables: &Tables) -> bool {
    let mut total = 0;
    for (name, width, words) in tables.word_tables() {
        for row in words.chunks_exact(width) {
            for column in string_columns(name, row) {
                let end = u64::from(row[*column]) + u64::from(row[column + 1]);
                if end > tables.pool.len() as u64 {
                    return false;
                }
                total += row[column + 1] as usize;
            }
        }
    }
    total <= limit::POOL
}

fn row_text(tables: &Tables, table: &str, row: &[u32], quoted: bool) -> String {
    let columns: &[usize] = if quoted { string_columns(table, row) } else { &[] };
    let mut tokens = Vec::new();
    let mut column = 0;
    while column < row.len() {
        if columns.contains(&column) && column + 1 < row.len() {
            let span = Span { start: row[column], length: row[column + 1] };
            // Two zeros are how a row without a key is written.
            let absent = column == 3 && span == Span { start: 0, length: 0 };
            tokens.push(if absent { "0 0".into() } else { quote(tables.bytes(span)) });
            column += 2;
        } else {
            tokens.push(row[column].to_string());
            column += 1;
        }
    }
    tokens.join(" ")
}

fn quote(bytes: &[u8]) -> String {
    let mut text = String::from("\"");
    for byte in bytes {
        match byte {
            b'"' => text += "\\\"",
            b'\\' => text += "\\\\",
            b'\n' => text += "\\n",
            b'\t' => text += "\\t",
            b' '..=b'~' => text.push(*byte as char),
            other => text += &format!("\\x{other:02X}"),
        }
    }
    text.push('"');
    text
}
