//! Times of the library beside those of the walker: same process, same inputs,
//! release. Usage: `bench [open] [sums] [check] [judge] [run] [sheet] [log]`,
//! all without a word.
//! Nothing is asserted; the ratio is printed.

use cuplihang_tests::generate::*;
use cuplihang_tests::plain_sums;
use cuplihang_tests::walker::check::summary;
use cuplihang_tests::walker::log::{log_by, log_bytes};
use cuplihang_tests::walker::{self, Memories, Tally};
use std::cell::RefCell;
use std::hint::black_box;
use std::time::{Duration, Instant};

/// The time of one call of each: the best of several rounds, fewer where a call is
/// long, each long enough to read. The rounds take turns, so that other load falls
/// on all alike.
fn times<const N: usize>(mut works: [&mut dyn FnMut(); N]) -> [f64; N] {
    let mut best = [f64::INFINITY; N];
    let start = Instant::now();
    for rounds in 0..15 {
        if rounds >= 3 && start.elapsed() > Duration::from_secs(5) {
            break;
        }
        for (work, best) in works.iter_mut().zip(&mut best) {
            *best = best.min(round(work));
        }
    }
    best
}

fn round(work: &mut dyn FnMut()) -> f64 {
    let start = Instant::now();
    let mut calls = 0;
    while start.elapsed() < Duration::from_millis(20) {
        work();
        calls += 1;
    }
    start.elapsed().as_nanos() as f64 / f64::from(calls)
}

/// Cells of a memory, and of a line of 64 bytes.
const CELLS: usize = 4096;
const LINE: usize = 8;

/// What a service may use: an output, memories, choices. Library and walker are
/// lent the same, since where a memory stands decides up to a fifth of a copy.
struct Room {
    out: Vec<u8>,
    cells: Vec<u64>,
    choices: Vec<u8>,
}

impl Room {
    fn new(choices: &[u8]) -> RefCell<Room> {
        let cells = vec![0; 3 * (CELLS + LINE) + LINE];
        RefCell::new(Room { out: vec![0; 9000], cells, choices: choices.to_vec() })
    }

    /// Three memories, each beginning at a line and a line apart.
    fn memories(&mut self) -> ([&mut [u64]; 3], &[u8]) {
        let start = self.cells.as_ptr().align_offset(64);
        let mut parts = self.cells[start..].chunks_exact_mut(CELLS + LINE);
        (std::array::from_fn(|_| &mut parts.next().unwrap()[..CELLS]), &self.choices)
    }
}

/// A service on one file.
type Work = fn(&[u8], &mut Room);

/// Files for one line of the output.
type Inputs = (&'static str, Vec<Vec<u8>>);

/// A service on all these files.
fn on<'a>(files: &'a [Vec<u8>], room: &'a RefCell<Room>, work: Work) -> impl FnMut() + 'a {
    move || {
        for file in files {
            work(black_box(file), &mut room.borrow_mut());
        }
    }
}

/// Prints one line: the library's time, the walker's, the ratio. Gives the
/// library's time.
fn compare(name: &str, files: &[Vec<u8>], choices: &[u8], library: Work, walker: Work) -> f64 {
    let room = Room::new(choices);
    let [ours, theirs] = times([&mut on(files, &room, library), &mut on(files, &room, walker)]);
    println!("{name:<48} library {ours:>13.0} ns  walker {theirs:>13.0} ns  ratio {:.2}", ours / theirs);
    ours
}

/// The library's services.
mod library {
    use super::Work;
    use cuplihang_tests::archive;
    use std::hint::black_box;

    pub const OPEN: Work = |file, _| {
        black_box(archive::open(file));
    };

    pub const SUMS: Work = |file, _| {
        black_box(archive::back_sums(file));
    };

    pub const BACK_FIRST: Work = |file, _| {
        let (front, back) = file.split_at(file.len() / 2);
        black_box(archive::joined_sums(front, archive::packed(archive::back_sums(back))));
    };

    pub const CHECK: Work = |file, _| {
        black_box(archive::check(file));
    };

    pub const JUDGE: Work = |file, _| {
        black_box(archive::judge(file));
    };

    pub const EXPAND: Work = |file, room| {
        black_box(archive::expand(file, &mut room.out));
    };

    pub const RUN: Work = |file, room| {
        let (memories, choices) = room.memories();
        let (mut tally, mut end) = ([0; 3], [0; 5]);
        black_box(archive::run(file, memories, choices, &mut tally, &mut end));
    };

    /// The log stands where the choices do.
    pub const LOG: Work = |file, room| {
        black_box(archive::log_answer(file, &room.choices));
    };

    pub const SHEET: Work = |file, _| {
        let mut figures = [0; 25];
        let _ = black_box(archive::sheet(file[0].into(), &mut figures));
        black_box(figures);
    };
}

fn small_plans(seed: u64, count: usize) -> Vec<Vec<u8>> {
    let mut rng = Rng::new(seed);
    let draft = |_| {
        let shape = Shape::small(&mut rng);
        encode(&plain(&mut rng, &shape))
    };
    (0..count).map(draft).collect()
}

fn open_inputs() -> Vec<Inputs> {
    let mut rng = Rng::new(90);
    let shape = Shape::new(32, 4096, 1024, 8, 20);
    vec![
        ("open: small file (case 3)", vec![CASE_3.to_vec()]),
        ("open: largest plain file", vec![encode(&whole_arrays(128))]),
        ("open: largest declared file", vec![encode(&accepted(&mut rng, &shape, 32))]),
        ("open: deepest nesting", vec![encode(&deep_loops(16, 1024))]),
        ("open: ten thousand small files", small_plans(91, 10_000)),
    ]
}

fn bench_open() {
    for (name, files) in open_inputs() {
        compare(name, &files, &[], library::OPEN, |file, _| {
            let _ = black_box(walker::open(file));
        });
    }
}

/// The check sums beside those in Rust: with a remainder after each byte (the
/// walker), one byte at a time without one, and by columns as the library.
fn bench_sums() {
    let mut rng = Rng::new(97);
    let mut bytes = |length: usize| (0..length).map(|_| rng.draw() as u8).collect();
    for (name, input) in [("sums: 8,390 bytes", bytes(8390)), ("sums: 64 MiB", bytes(64 << 20))] {
        sums_beside(name, &[input]);
    }
    let walk: Work = |file, _| {
        let (front, back) = file.split_at(file.len() / 2);
        black_box(walker::joined(front, walker::sums(back)));
    };
    compare("sums: 8,390 bytes, back half first", &[bytes(8390)], &[], library::BACK_FIRST, walk);
}

fn sums_beside(name: &str, input: &[Vec<u8>]) {
    let length = input[0].len() as f64;
    let room = Room::new(&[]);
    let mut remainder = on(input, &room, |bytes, _| {
        black_box(walker::sums(bytes));
    });
    let mut by_bytes = on(input, &room, |bytes, _| {
        black_box(plain_sums::by_bytes(bytes));
    });
    let mut by_columns = on(input, &room, |bytes, _| {
        black_box(plain_sums::by_columns(bytes));
    });
    let in_rust = ["remainder at each byte", "byte by byte", "by columns"];
    let mut library = on(input, &room, library::SUMS);
    let [ours, theirs @ ..] = times([&mut library, &mut remainder, &mut by_bytes, &mut by_columns]);
    println!("{name:<48} library {ours:>13.0} ns  {:>7.3} bytes/ns", length / ours);
    for (form, time) in in_rust.iter().zip(theirs) {
        let speed = length / time;
        println!("{name:<48} in Rust, {form:<24} {speed:>7.3} bytes/ns  ratio {:.2}", ours / time);
    }
}

fn check_inputs() -> Vec<Inputs> {
    let mut rng = Rng::new(92);
    let nested = plain(&mut rng, &Shape::new(4, 64, 1024, 16, 30));
    vec![
        ("check: largest, nested at random", vec![encode(&nested)]),
        ("check: ten thousand small plans", small_plans(93, 10_000)),
    ]
}

fn bench_check() {
    let walk: Work = |file, _| {
        black_box(walker::check(file));
    };
    let one = |name, draft: &Draft| compare(name, &[encode(draft)], &[], library::CHECK, walk);
    let apart = one("check: largest, all cells told apart", &all_told_apart());
    for (name, files) in check_inputs() {
        compare(name, &files, &[], library::CHECK, walk);
    }
    let second = one("check: every 2nd of 4,096 cells", &stepped_apart(2));
    let third = one("check: every 3rd of 4,096 cells", &stepped_apart(3));
    println!("{:<48} {:.2} times the time", "check: every 2nd cell beside each", second / apart);
    println!("{:<48} {:.2} times the time", "check: every 3rd cell beside each", third / apart);
    let whole = one("check: largest, whole arrays, 4,096 cells", &whole_arrays(128));
    let small = one("check: the same records over 32 cells", &whole_arrays(1));
    println!("{:<48} {:.2} times the time", "check: 4,096 cells beside 32", whole / small);
    let long = one("check: 16 levels of loops, 1,024 records", &deep_loops(16, 1024));
    let short = one("check: 16 levels of loops, 512 records", &deep_loops(16, 512));
    let flat = one("check: 1 level of loops, 1,024 records", &deep_loops(1, 1024));
    println!("{:<48} {:.2} times the time", "check: 1,024 records beside 512", long / short);
    println!("{:<48} {:.2} times the time", "check: 16 levels beside 1", long / flat);
    let deep = one("check: 12 levels of two turns, 1,024 records", &deep_fixed(&[2; 12], 1024));
    let wide = one("check: one loop of 4,096 turns, 1,024 records", &deep_fixed(&[4096], 1024));
    let once = one("check: one loop of one turn, 1,024 records", &deep_fixed(&[1], 1024));
    println!("{:<48} {:.2} times the time", "check: 12 levels of two turns beside one turn", deep / once);
    println!("{:<48} {:.2} times the time", "check: 4,096 turns beside one", wide / once);
}

fn judge_inputs() -> Vec<Inputs> {
    let mut rng = Rng::new(94);
    let shape = Shape::new(32, 4096, 1024, 8, 20);
    let largest = encode(&accepted(&mut rng, &shape, 32));
    let writing = {
        let declarations = (0..32).map(|array| declare(17, 1, array)).collect();
        let writes = (0..990usize).map(|i| write(1, (i % 32) as u8, 0, 128)).collect();
        encode(&declared_draft(&[128; 32], &[call(1)], &[Pass { declarations, steps: writes }]))
    };
    let to_the_limit = encode(&sized(&mut rng, 1024));
    let small = (0..10_000).map(|_| encode(&accepted_small(&mut rng))).collect();
    vec![
        ("largest, 32 bodies", vec![largest]),
        ("one pass that writes 4,096 cells", vec![writing]),
        ("expansion of 1,024 records", vec![to_the_limit]),
        ("expansion far too large", vec![encode(&overflowing(&mut rng, 511))]),
        ("ten thousand small plans", small),
    ]
}

fn bench_judge() {
    for (name, files) in judge_inputs() {
        compare(&format!("judge: {name}"), &files, &[], library::JUDGE, |file, _| {
            black_box(walker::judge(file));
        });
        compare(&format!("expand: {name}"), &files, &[], library::EXPAND, |file, room| {
            black_box(walker::expand(file, &mut room.out));
        });
    }
}

/// Files and one list of choices for all of them.
fn run_inputs() -> Vec<(Inputs, Vec<u8>)> {
    let mut rng = Rng::new(95);
    let turns = [vec![1; 65_535], vec![0]].concat();
    let looping =
        |arrays: &[u16], arm: &[Step]| vec![encode(&Draft::plain(arrays, &[Step::Loop(arm.to_vec())]))];
    let large = [write(0, 0, 0, 4096), copy(1, 0, 0, 4096), copy(0, 0, 0, 4096)];
    let second = large.clone().map(|act| every(2, act));
    let in_turn = [copy(1, 0, 0, 64), copy(1, 1, 0, 64), copy(0, 0, 0, 64), copy(0, 1, 0, 64)];
    let mixed = [write(0, 0, 0, 1), need(1, 1), copy(1, 0, 0, 1), read(1, 0, 0, 1), mark(0, 1)];
    let nested = (0..20).map(|_| nested(&mut rng)).collect();
    let fixed = |counts: &[u16]| vec![encode(&deep_fixed(counts, 1024))];
    let at_random = choices(&mut rng, 65_536, 90);
    let short = choices(&mut rng, 40, 40);
    vec![
        (("run: long run, large copies", looping(&[4096], &large)), turns.clone()),
        (("run: the same of every 2nd cell", looping(&[4096], &second)), turns.clone()),
        (("run: long run, copies of 64 cells", vec![encode(&copying(4, 64))]), turns.clone()),
        (("run: the same of two arrays in turn", looping(&[64, 64], &in_turn)), turns.clone()),
        (("run: long run, one-cell records", looping(&[1, 1], &mixed)), turns.clone()),
        (("run: choices alone", looping(&[1], &[])), turns),
        (("run: 12 levels of two turns, 1,024 records", fixed(&[2; 12])), vec![]),
        (("run: one loop of 4,096 turns, 1,024 records", fixed(&[4096])), vec![]),
        (("run: 4,096 turns of nothing", vec![encode(&deep_fixed(&[4096], 1))]), vec![]),
        (("run: nested branches and loops at random", nested), at_random),
        (("run: ten thousand short runs", small_plans(96, 10_000)), short),
    ]
}

/// A plan that the check accepts: no run of it stops.
fn nested(rng: &mut Rng) -> Vec<u8> {
    let mut draft = plain(rng, &Shape::new(4, 64, 200, 16, 40));
    let stops = |file: &[u8]| summary(&walker::open(file).unwrap()).map(|stop| stop.record);
    mend(rng, &mut draft, 10_000, &stops);
    encode(&draft)
}

fn bench_run() {
    for ((name, files), list) in run_inputs() {
        compare(name, &files, &list, library::RUN, |file, room| {
            let ([host, card, latest], choices) = room.memories();
            let mut memories = Memories { sides: [host, card], latest };
            black_box(walker::run(file, &mut memories, choices, &mut Tally::default()));
        });
    }
    copied_cell();
}

/// The cost of a copied cell beside that of the same copy in Rust: all cells
/// compared with latest, then copied.
fn copied_cell() {
    const COPIES: usize = 1000;
    let cells = (COPIES * CELLS) as f64;
    let room = Room::new(&[1, 0]);
    let mut plain = || {
        let mut room = room.borrow_mut();
        let ([host, card, latest], _) = room.memories();
        for copy in 0..COPIES {
            let (from, to) = if copy % 2 == 0 { (&*host, &mut *card) } else { (&*card, &mut *host) };
            assert!(black_box(from) == black_box(&*latest));
            to.copy_from_slice(from);
        }
    };
    let file = [encode(&copying(COPIES, CELLS as u16))];
    let [ours, plain] = times([&mut on(&file, &room, library::RUN), &mut plain]);
    let (cell, plain_cell) = (ours / cells, plain / cells);
    println!(
        "{:<48} library {cell:>13.3} ns  in Rust {plain_cell:>12.3} ns  ratio {:.2}",
        "run: a copied cell",
        ours / plain
    );
}

/// A sheet takes no file: the one byte is the length of its sequences.
fn bench_sheet() {
    for n in [2, 24] {
        compare(&format!("sheet: sequences of length {n}"), &[vec![n]], &[], library::SHEET, |file, _| {
            let _ = black_box(walker::sheet(file[0].into()));
        });
    }
}

/// Logs of ten million entries: of a loop over one cell, and of a loop over a plan
/// that nests at random; and a short one of records of 4,096 cells.
fn bench_log() {
    let mut rng = Rng::new(99);
    let turns = |cells| {
        let small = vec![write(0, 0, 0, cells), copy(1, 0, 0, cells), read(1, 0, 0, cells)];
        encode(&Draft::plain(&[cells], &[Step::Loop(small)]))
    };
    let mut draft = plain(&mut rng, &Shape::new(4, 64, 200, 15, 40));
    let records = &mut draft.bodies[0].records;
    records.insert(0, raw(7, 0, 0, records.len() as u16, 0));
    let stops = |file: &[u8]| summary(&walker::open(file).unwrap()).map(|stop| stop.record);
    mend(&mut rng, &mut draft, 10_000, &stops);
    for (name, file, length) in [
        ("log: one cell, 10^7 entries", turns(1), 10_000_000),
        ("log: nested at random, 10^7 entries", encode(&draft), 10_000_000),
        ("log: 4,096 cells, 10^4 entries", turns(4096), 10_000),
    ] {
        let plan = walker::open(&file).expect("a plan");
        // The first record is the loop: it always takes one more turn.
        let entries = log_by(&plan, length, |r| Some(r == 0 || rng.chance(50)));
        assert_eq!(entries.len(), length);
        compare(name, &[file], &log_bytes(&entries), library::LOG, |file, room| {
            black_box(walker::log(file, &room.choices));
        });
    }
}

fn main() {
    let words: Vec<String> = std::env::args().skip(1).collect();
    let wanted = |word: &str| words.is_empty() || words.iter().any(|given| given == word);
    let services: [(&str, fn()); 7] = [
        ("open", bench_open),
        ("sums", bench_sums),
        ("check", bench_check),
        ("judge", bench_judge),
        ("run", bench_run),
        ("sheet", bench_sheet),
        ("log", bench_log),
    ];
    if let Some(unknown) = words.iter().find(|word| services.iter().all(|(name, _)| name != word)) {
        eprintln!("bench: no service `{unknown}`; there are open, sums, check, judge, run, sheet, log");
        std::process::exit(2);
    }
    for (name, bench) in services {
        if wanted(name) {
            bench();
        }
    }
}
