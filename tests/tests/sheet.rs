//! The library's exercise sheets and the program `plansheet` against the walker:
//! every short sequence run, and a count in Rust for the longer ones.

use cuplihang_tests::archive;
use cuplihang_tests::generate::*;
use cuplihang_tests::programs::output;
use cuplihang_tests::walker::plan::{Body, FileKind, Plan, Record};
use cuplihang_tests::walker::run::{run_plan, Memories, RunEnd, Tally};
use cuplihang_tests::walker::sheet::{sheet, LONGEST, OPERATIONS};
use cuplihang_tests::words::refusal;
use std::array::from_fn;
use std::ffi::OsStr;

/// Numbers that no sheet has, no two the same.
fn lent() -> [u64; 25] {
    from_fn(|i| 0xA5A5_0000_0000_0000 + i as u64)
}

/// What the library writes over lent figures; those past the sheet's stay.
fn library(n: u64) -> Result<Vec<u64>, u16> {
    let mut figures = lent();
    let answer = archive::sheet(n, &mut figures);
    let written = if answer.is_ok() { n as usize + 1 } else { 0 };
    assert_eq!(figures[written..], lent()[written..], "length {n}");
    answer.map(|()| figures[..written].to_vec())
}

/// The plan of the i-th sequence: one array of one cell, its digits in base 6 as
/// operations.
fn sequence(n: usize, i: usize) -> Plan {
    let operation = |place: u32| OPERATIONS[i / 6usize.pow(place) % 6];
    let record = |(kind, side)| Record { kind, side, array: 0, step: 0, p: 0, q: 1 };
    let records = (0..n as u32).map(|place| record(operation(place))).collect();
    Plan::new(FileKind::Plain, &[1], vec![Body { first: 0, count: n, declarations: 0 }], records)
}

/// The figures by running each of the 6^n sequences.
fn by_runs(n: usize) -> Vec<u64> {
    let mut figures = vec![0; n + 1];
    for i in 0..6usize.pow(n as u32) {
        let [mut host, mut card, mut latest] = [[5; 1]; 3];
        let mut memories = Memories { sides: [&mut host, &mut card], latest: &mut latest };
        match run_plan(&sequence(n, i), &mut memories, &[], &mut Tally::default()) {
            RunEnd::Stopped { record, cell: 0 } => figures[record] += 1,
            RunEnd::Done(_) => figures[n] += 1,
            other => panic!("sequence {i} of length {n}: {other:?}"),
        }
    }
    figures
}

/// "For n = 1: 2, 4. For n = 2: 12, 6, 18."
#[test]
fn the_sheets_of_the_request() {
    assert_eq!(library(0), Ok(vec![1]));
    assert_eq!(library(1), Ok(vec![2, 4]));
    assert_eq!(library(2), Ok(vec![12, 6, 18]));
}

#[test]
fn every_short_sequence() {
    for n in 0..=7 {
        let figures = by_runs(n);
        assert_eq!(library(n as u64), Ok(figures.clone()), "length {n}");
        assert_eq!(sheet(n as u64), Ok(figures), "length {n}");
    }
}

#[test]
fn every_length() {
    for n in 0..=LONGEST {
        let figures = sheet(n).expect("a sheet");
        assert_eq!(figures.iter().sum::<u64>(), 6u64.pow(n as u32));
        assert_eq!(library(n), Ok(figures), "length {n}");
    }
}

/// "38: n above 24": no figure is changed.
#[test]
fn above_24() {
    let mut rng = Rng::new(130);
    let near = (25..2000).chain((5..64).flat_map(|k| [1 << k, (1 << k) + 2, (1 << k) + 24]));
    let far = (0..1000).map(|_| rng.draw()).chain([u64::MAX - 1, u64::MAX]);
    for n in near.chain(far).filter(|&n| n > LONGEST) {
        assert_eq!(library(n), Err(38), "length {n}");
        assert_eq!(sheet(n), Err(38));
    }
}

fn program(arguments: &[&str]) -> (String, String) {
    let arguments: Vec<&OsStr> = arguments.iter().map(OsStr::new).collect();
    let (printed, said) = output("plansheet", &arguments, &[]);
    (String::from_utf8(printed).expect("text"), said)
}

#[test]
fn the_program() {
    for n in 0..=LONGEST {
        let figures = sheet(n).expect("a sheet");
        let line = figures.iter().map(u64::to_string).collect::<Vec<_>>().join(" ") + "\n";
        assert_eq!(program(&[&n.to_string()]), (line.clone(), String::new()));
        assert_eq!(program(&[&format!("0{n}")]), (line, String::new()));
    }
    for n in ["25", "26", "100", "1000", "65560", "9999999"] {
        assert_eq!(program(&[n]), (String::new(), format!("plansheet: 38 {}\n", refusal(38, 0))));
    }
    let usage = "usage: plansheet N (0 to 24)\n".to_string();
    for arguments in [&[][..], &["1", "2"], &[""], &["a"], &["2 "], &["-1"], &["+1"], &["2a"], &["99999999"]]
    {
        assert_eq!(program(arguments), (String::new(), usage.clone()), "{arguments:?}");
    }
}

#[test]
fn the_example() {
    let arguments = include_str!("../../crates/plansheet/args");
    let expected = include_str!("../../crates/plansheet/stdout");
    let arguments: Vec<&str> = arguments.lines().collect();
    assert_eq!(program(&arguments), (expected.to_string(), String::new()));
    assert_eq!(expected, "12 6 18\n");
}
