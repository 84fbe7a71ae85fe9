//! The program `planlist` against a lister written again here, over the plan
//! that the walker opens.

use cuplihang_tests::generate::*;
use cuplihang_tests::programs::{output, text};
use cuplihang_tests::walker::plan::*;
use cuplihang_tests::walker::{open, Refusal};
use cuplihang_tests::words::refusal;
use std::collections::BTreeMap;
use std::ffi::OsStr;
use std::fmt::Write as _;
use std::ops::Range;

fn counted(n: usize, one: &str, several: &str) -> String {
    format!("{n} {}", if n == 1 { one } else { several })
}

/// The first and the last of some numbers, with `before` in front; nothing of none.
fn numbers(before: &str, range: Range<usize>) -> String {
    match range.len() {
        0 => String::new(),
        1 => format!("{before}{}", range.start),
        _ => format!("{before}{} to {}", range.start, range.end - 1),
    }
}

/// Of a number as in "2nd".
fn ending(n: usize) -> &'static str {
    match (n % 10, n % 100) {
        (_, 11..=13) => "th",
        (1, _) => "st",
        (2, _) => "nd",
        (3, _) => "rd",
        _ => "th",
    }
}

fn words(record: &Record) -> String {
    let on = format!("{} array {}", ["host", "card"][record.side], record.array);
    let cells = || {
        let range = match record.q - record.p {
            1 => format!("cell {}", record.p),
            _ => numbers("cells ", record.p..record.q),
        };
        match record.step {
            0 | 1 => range,
            step => format!("{range}, every {step}{} cell", ending(step)),
        }
    };
    match record.kind {
        READ => format!("read {on} {}", cells()),
        WRITE => format!("write {on} {}", cells()),
        COPY => format!("copy to {on} {}", cells()),
        NEED => format!("need {on}"),
        MARK => format!("mark {on}"),
        BRANCH => "branch".into(),
        LOOP => "loop".into(),
        FIXED => format!("fixed loop, {}", counted(record.q, "turn", "turns")),
        CALL => format!("call body {}", record.p),
        R => format!("R {on}"),
        W => format!("W {on}"),
        RW => format!("RW {on}"),
        kind => panic!("kind {kind} in a plan that opens"),
    }
}

/// The lines of the records of a body or of an arm.
fn block(plan: &Plan, part: Range<usize>, level: usize) -> Vec<String> {
    let line = |level: usize, text: &str| format!("{}{text}", "  ".repeat(level));
    let mut lines = Vec::new();
    let mut r = part.start;
    while r < part.end {
        let record = &plan.records[r];
        lines.push(line(level, &format!("{r} {}", words(record))));
        let (first, second) = plan.arms(r);
        r = second.end;
        if matches!(record.kind, BRANCH | LOOP | FIXED) && first.is_empty() {
            lines.push(line(level + 1, "nothing"));
        }
        lines.extend(block(plan, first, level + 1));
        if !second.is_empty() {
            lines.push(line(level, "else"));
            lines.extend(block(plan, second, level + 1));
        }
    }
    lines
}

fn of_plan(plan: &Plan) -> String {
    let kind = ["declared", "plain"][plan.kind.number() as usize - 1];
    let arrays = counted(plan.arrays(), "array", "arrays");
    let cells = counted(plan.cells(), "cell", "cells");
    let bodies = counted(plan.bodies.len(), "body", "bodies");
    let records = counted(plan.records.len(), "record", "records");
    let mut text = format!("{kind} plan, {arrays}, {cells}, {bodies}, {records}\n");
    for array in 0..plan.arrays() {
        let cells = plan.cells_of(array);
        let count = counted(cells.len(), "cell", "cells");
        let scratch = if plan.is_scratch(array) { ", scratch" } else { "" };
        writeln!(text, "array {array}: {count}{}{scratch}", numbers(", ", cells)).unwrap();
    }
    for number in 0..plan.bodies.len() {
        text += &of_body(plan, number);
    }
    text
}

fn of_body(plan: &Plan, number: usize) -> String {
    let body = &plan.bodies[number];
    let count = counted(body.count, "record", "records");
    let mut text = format!("body {number}: {count}{}\n", numbers(", ", body.first..body.end()));
    for line in block(plan, body.first..body.end(), 1) {
        writeln!(text, "{line}").unwrap();
    }
    text
}

fn of_refusal(refused: Refusal) -> String {
    let Refusal { number, place } = refused;
    format!("not a plan: {number} {}\n", refusal(number, place))
}

fn listing(file: &[u8]) -> String {
    open(file).map_or_else(of_refusal, |plan| of_plan(&plan))
}

/// How often each number occurred, 0 for a plan that opens.
type Counts = BTreeMap<u16, usize>;

fn match_listing(file: &[u8], counts: &mut Counts) {
    assert_eq!(text("planlist", file), listing(file), "{:02X?}", &file[..file.len().min(400)]);
    *counts.entry(open(file).map_or_else(|refusal| refusal.number, |_| 0)).or_default() += 1;
}

/// The twelve cases, as they are printed.
const CASES: [&str; 12] = [
    "\
plain plan, 1 array, 1 cell, 1 body, 0 records
array 0: 1 cell, 0
body 0: 0 records
",
    "\
plain plan, 1 array, 1 cell, 1 body, 1 record
array 0: 1 cell, 0
body 0: 1 record, 0
  0 read host array 0 cell 0
",
    "\
plain plan, 1 array, 1 cell, 1 body, 1 record
array 0: 1 cell, 0
body 0: 1 record, 0
  0 read card array 0 cell 0
",
    "\
plain plan, 1 array, 1 cell, 1 body, 2 records
array 0: 1 cell, 0
body 0: 2 records, 0 to 1
  0 copy to card array 0 cell 0
  1 read card array 0 cell 0
",
    "\
plain plan, 1 array, 1 cell, 1 body, 2 records
array 0: 1 cell, 0
body 0: 2 records, 0 to 1
  0 write card array 0 cell 0
  1 read host array 0 cell 0
",
    "\
plain plan, 1 array, 1 cell, 1 body, 1 record
array 0: 1 cell, 0
body 0: 1 record, 0
  0 copy to host array 0 cell 0
",
    "\
plain plan, 1 array, 1 cell, 1 body, 3 records
array 0: 1 cell, 0
body 0: 3 records, 0 to 2
  0 branch
    1 copy to card array 0 cell 0
  2 read card array 0 cell 0
",
    "\
plain plan, 1 array, 1 cell, 1 body, 3 records
array 0: 1 cell, 0
body 0: 3 records, 0 to 2
  0 loop
    1 read host array 0 cell 0
    2 write card array 0 cell 0
",
    "\
plain plan, 1 array, 2 cells, 1 body, 2 records
array 0: 2 cells, 0 to 1
body 0: 2 records, 0 to 1
  0 write card array 0 cell 0
  1 read host array 0 cells 0 to 1
",
    "\
plain plan, 1 array, 1 cell, 1 body, 4 records
array 0: 1 cell, 0
body 0: 4 records, 0 to 3
  0 loop
    1 read host array 0 cell 0
    2 read card array 0 cell 0
    3 write card array 0 cell 0
",
    "\
plain plan, 1 array, 1 cell, 1 body, 4 records
array 0: 1 cell, 0
body 0: 4 records, 0 to 3
  0 need card array 0
  1 write host array 0 cell 0
  2 need card array 0
  3 read card array 0 cell 0
",
    "\
plain plan, 1 array, 1 cell, 1 body, 2 records
array 0: 1 cell, 0
body 0: 2 records, 0 to 1
  0 mark card array 0
  1 need host array 0
",
];

#[test]
fn the_twelve_cases() {
    for ((draft, _), expected) in twelve_cases().iter().zip(CASES) {
        assert_eq!(text("planlist", &encode(draft)), expected);
    }
}

/// The lister prints the crate's example as the crate has it.
#[test]
fn the_example() {
    let file = include_bytes!("../../crates/planlist/stdin");
    assert_eq!(listing(file), include_str!("../../crates/planlist/stdout"));
    match_listing(file, &mut Counts::new());
}

/// Arms of every shape: a branch with one, the other or no arm, loops with and
/// without records, arms that end together.
#[test]
fn arms() {
    let act = || read(1, 0, 0, 1);
    let branch = |one: &[Step], two: &[Step]| Step::Branch(one.to_vec(), two.to_vec());
    let turning = |arm: &[Step]| Step::Loop(arm.to_vec());
    let shapes = [branch(&[], &[]), branch(&[act()], &[]), branch(&[], &[act()]), turning(&[])];
    let mut counts = Counts::new();
    for one in &shapes {
        for two in &shapes {
            let (one, two) = (one.clone(), two.clone());
            let inside = [turning(&[branch(&[one.clone(), act()], &[two.clone()])])];
            let steps = [one, branch(&inside, &[two.clone()]), branch(&[two], &inside), act()];
            match_listing(&encode(&Draft::plain(&[1], &steps)), &mut counts);
        }
    }
    assert_eq!(counts, Counts::from([(0, 16)]));
}

/// Plans at the limits: listings of many times the bytes that are printed at once.
#[test]
fn large_plans() {
    let mut counts = Counts::new();
    for draft in [all_told_apart(), whole_arrays(128), deep_loops(16, 1024), copying(1023, 4096)] {
        match_listing(&encode(&draft), &mut counts);
    }
    assert_eq!(counts, Counts::from([(0, 4)]));
}

#[test]
fn seeded_plans() {
    let mut rng = Rng::new(120);
    let mut counts = Counts::new();
    for _ in 0..400 {
        match_listing(&encode(&valid(&mut rng)), &mut counts);
    }
    assert_eq!(counts, Counts::from([(0, 400)]));
}

/// Damaged files: the number, its words and its place.
#[test]
fn seeded_files() {
    let mut rng = Rng::new(121);
    let mut counts = Counts::new();
    for number in (1..=10).cycle().take(400) {
        match_listing(&breach(&mut rng, number), &mut counts);
    }
    for _ in 0..400 {
        match_listing(&any_file(&mut rng), &mut counts);
    }
    println!("{counts:?}");
    for number in 0..=10 {
        assert!(counts.get(&number).is_some_and(|&n| n >= 10), "number {number} is too rare");
    }
}

/// A file on standard input, whatever its length.
#[test]
fn inputs_of_any_length() {
    let mut counts = Counts::new();
    match_listing(&[], &mut counts);
    for length in [1, 3, 4, 10, 4096, 8389, 8390, 8391, 8392, 65_536, 20_000_000] {
        let mut file = vec![0; length];
        match_listing(&file, &mut counts);
        for (byte, good) in file.iter_mut().zip([2, 1, 1, 0, 1, 0, 0, 0, 0, 0]) {
            *byte = good;
        }
        match_listing(&file, &mut counts);
    }
    assert!([1, 2, 6].iter().all(|number| counts.contains_key(number)));
}

/// Steps in words.
#[test]
fn seeded_steps() {
    let mut rng = Rng::new(116);
    let mut counts = Counts::new();
    for _ in 0..300 {
        match_listing(&any_stepped_file(&mut rng), &mut counts);
    }
    for step in [0, 1, 2, 3, 4, 10, 11, 12, 13, 20, 21, 22, 23, 24, 99, 100, 101, 111, 112, 113, 122, 255] {
        match_listing(&encode(&Draft::plain(&[9], &[every(step, read(0, 0, 3, 9))])), &mut counts);
    }
    assert!(counts.get(&0).is_some_and(|&n| n >= 50));
}

/// Scratch in words.
#[test]
fn seeded_scratch() {
    let mut rng = Rng::new(117);
    let mut counts = Counts::new();
    for _ in 0..300 {
        match_listing(&any_scratch_file(&mut rng), &mut counts);
    }
    for entry in [1, 2, 4096, SCRATCH + 1, SCRATCH + 2, SCRATCH + 4096, SCRATCH, SCRATCH + 4097] {
        match_listing(&encode(&Draft::plain(&[entry], &[])), &mut counts);
    }
    assert!([0, 4].iter().all(|number| counts.get(number).is_some_and(|&n| n >= 10)));
}

/// Fixed loops, and files that say 26.
#[test]
fn seeded_fixed_loops() {
    let mut rng = Rng::new(115);
    let mut counts = Counts::new();
    for _ in 0..400 {
        match_listing(&any_fixed_file(&mut rng), &mut counts);
    }
    println!("{counts:?}");
    assert!([0, 8, 26].iter().all(|number| counts.get(number).is_some_and(|&n| n >= 10)));
}

/// One body alone: the body view and its answer.
#[test]
fn one_body() {
    let mut rng = Rng::new(114);
    let mut counts = Counts::new();
    for round in 0..400 {
        let file = match round % 3 {
            0 => any_file(&mut rng),
            1 => encode(&accepted_small(&mut rng)),
            _ => encode(&deep_declared(&mut rng, 8)),
        };
        let body = rng.between(0, 6);
        let (printed, said) = output("planlist", &[OsStr::new(&body.to_string())], &file);
        assert_eq!(said, "");
        let (number, place) = match open(&file) {
            Err(refused) => (refused.number, refused.place),
            Ok(plan) if body >= plan.bodies.len() => (25, 0),
            Ok(_) => (0, 0),
        };
        let expected = match number {
            0 => of_body(&open(&file).unwrap(), body),
            _ => format!("no body of a plan: {number} {}\n", refusal(number, place)),
        };
        assert_eq!(String::from_utf8(printed).unwrap(), expected, "body {body}");
        *counts.entry(number).or_default() += 1;
    }
    println!("{counts:?}");
    for number in [0, 6, 25] {
        assert!(counts.get(&number).is_some_and(|&n| n >= 5), "number {number} is too rare");
    }
    for arguments in [&["a"][..], &[""], &["1", "2"], &["99999999"]] {
        let arguments: Vec<&OsStr> = arguments.iter().map(OsStr::new).collect();
        let (printed, said) = output("planlist", &arguments, &CASE_3);
        assert!(printed.is_empty());
        assert_eq!(said, "usage: planlist [BODY] < PLAN\n");
    }
}
