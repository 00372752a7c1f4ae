//! `stack` measures how much stack the library's entries take: of each kind of call the most over the
//! bench's workloads, and over runs that are made to take much. The stack is painted before a call, and
//! looked at after it.

use bench::workloads::{DEPTH_CHECKS, RUNS, TABLE_CHECKS};
use std::arch::asm;
use std::ptr;
use std::thread;
use tables::{notation, Tables};

/// So much is painted; the thread has more.
const PAINTED: usize = 2 << 20;
const STACK: usize = 4 << 20;
const PAINT: u64 = 0xa5a5_5a5a_c3c3_3c3c;

fn main() {
    let most = |which: &[(String, usize)]| {
        let (name, bytes) = which.iter().max_by_key(|(_, bytes)| *bytes).expect("there is one");
        format!("{bytes:8} bytes, {name}")
    };
    let checks: Vec<_> = TABLE_CHECKS
        .iter()
        .filter(|workload| !matches!(workload.name, "hash" | "hashes" | "stray"))
        .flat_map(|workload| {
            (workload.make)().into_iter().map(move |tables| (workload.name, tables))
        })
        .collect();
    let measured: Vec<_> =
        checks.iter().map(|(name, tables)| (name.to_string(), of_check(tables))).collect();
    println!("table check  {}", most(&measured));
    let measured: Vec<_> = DEPTH_CHECKS
        .iter()
        .map(|workload| (workload.name.to_string(), of_depth_check(&(workload.make)()[0])))
        .collect();
    println!("depth check  {}", most(&measured));
    let measured: Vec<_> = RUNS
        .iter()
        .map(|run| (run.name.to_string(), of_run(&(run.make)(), &run.choices())))
        .collect();
    for (name, bytes) in &measured {
        println!("{bytes:8} bytes, {name}");
    }
    println!("run          {}", most(&measured));
    let measured = made_for_it();
    for (name, bytes) in &measured {
        println!("{bytes:8} bytes, {name}");
    }
    println!("worst        {}", most(&measured));
}

/// Runs that are made to take much.
fn made_for_it() -> Vec<(String, usize)> {
    let mut measured = Vec::new();
    for leaves in [1, 20, 60, 100, 127] {
        for levels in [8, 16, 24, 31, 32] {
            let tables = wide(leaves, levels, "");
            measured.push((format!("{leaves} leaves, {levels} levels"), of_run(&tables, &[])));
        }
    }
    for (leaves, levels) in [(1, 31), (126, 31), (126, 32)] {
        for (what, end) in ends() {
            let name = format!("{leaves} leaves, {levels} levels, {what}");
            measured.push((name, of_run(&wide(leaves, levels, &end), &[])));
        }
    }
    measured.push(("32 lists".into(), of_run(&lists(31), &[])));
    measured
}

/// What the innermost object is asked for besides.
fn ends() -> Vec<(&'static str, String)> {
    let nested = |count: usize, open: &str, inner: &str, close: &str| {
        format!("{}{inner}{}", open.repeat(count), close.repeat(count))
    };
    vec![
        ("30 fragments within one another", nested(30, "... on T { ", "v", " }")),
        ("31 fragments within one another", nested(31, "... on T { ", "v", " }")),
        ("a list of 32 levels echoed", format!("e(x: {})", nested(32, "[", "1", "]"))),
        ("an object of 31 levels echoed", format!("o(x: {})", nested(31, "{ i: ", "{ }", " }"))),
        ("a leaf of 32 levels", "j".into()),
        ("an error", "w".into()),
    ]
}

/// So many objects one within another. Each has so many leaves besides, in a fragment, and answers what the
/// one around it does.
fn wide(leaves: usize, levels: usize, end: &str) -> Tables {
    let names: Vec<String> = (0..leaves).map(|number| format!("l{number}")).collect();
    let fields: Vec<String> = names.iter().map(|name| format!("{name}: Int")).collect();
    let schema = format!(
        "type T {{ t: T v: Int w: Int! j: J e(x: {}Int{}): J o(x: I): J {} }} scalar J input I {{ i: I }}",
        "[".repeat(32),
        "]".repeat(32),
        fields.join(" ")
    );
    let document = format!(
        "{{ {} ...C {end} {} }} fragment C on T {{ {} }}",
        "...C t { ".repeat(levels),
        "}".repeat(levels),
        names.join(" ")
    );
    let leaf = format!("leaf {}1{}", "[".repeat(32), "]".repeat(32));
    let answers = format!("{{ t: T^0, v: 1, w: error, j: {leaf}, e: echo x, o: echo x }}");
    notation::tables(&schema, &document, "", &answers)
}

/// So many lists one within another.
fn lists(levels: usize) -> Tables {
    let (open, close) = ("[".repeat(levels), "]".repeat(levels));
    notation::tables(
        &format!("type Q {{ f: {open}Int{close} }}"),
        "{ f }",
        "",
        &format!("{{ f: {open}1{close} }}"),
    )
}

fn of_check(tables: &Tables) -> usize {
    let slices = tables.word_tables().map(|(_, _, words)| words.as_slice());
    let lent = ladlehedge::Tables::in_order(&tables.pool, slices, tables.root);
    taken_by(|| {
        ladlehedge::table_check(&lent).ok();
    })
}

fn of_depth_check(tables: &Tables) -> usize {
    let slices = tables.word_tables().map(|(_, _, words)| words.as_slice());
    let lent = ladlehedge::Tables::in_order(&tables.pool, slices, tables.root);
    taken_by(|| {
        ladlehedge::depth_check(&lent).ok();
    })
}

fn of_run(tables: &Tables, choices: &[u32]) -> usize {
    let slices = tables.word_tables().map(|(_, _, words)| words.as_slice());
    let lent = ladlehedge::Tables::in_order(&tables.pool, slices, tables.root);
    assert_eq!(ladlehedge::table_check(&lent), Ok(()), "they are lawful");
    let mut buffers = (vec![0; 65_536], vec![0; 16_384]);
    taken_by(|| {
        ladlehedge::run_ordered(&lent, choices, &mut buffers.0, &mut buffers.1).ok();
    })
}

/// How many bytes below its own frame a call takes, in a thread of its own.
fn taken_by(call: impl FnOnce() + Send) -> usize {
    thread::scope(|scope| {
        let thread = thread::Builder::new().stack_size(STACK).spawn_scoped(scope, || painted(call));
        thread.expect("there is a thread").join().expect("it ends")
    })
}

#[inline(never)]
fn painted(call: impl FnOnce()) -> usize {
    let here: usize;
    // SAFETY: the stack pointer is read.
    unsafe { asm!("mov {}, rsp", out(reg) here) };
    // What lies this far below is nobody's: behind the red zone, and within the thread's stack.
    let top = (here - 512) & !15;
    let bottom = top - PAINTED;
    for at in (bottom..top).step_by(8) {
        // SAFETY: see above; nothing is called between here and the end of the loop.
        unsafe { ptr::write_volatile(at as *mut u64, PAINT) };
    }
    call();
    // SAFETY: the same memory.
    let lowest = (bottom..top)
        .step_by(8)
        .find(|at| unsafe { ptr::read_volatile(*at as *const u64) } != PAINT);
    lowest.map_or(0, |lowest| here - lowest)
}
