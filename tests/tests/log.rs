//! The library's answers to logs, request (i) of document 02, against the walker,
//! and the walker against the words of the request.

use cuplihang_tests::archive;
use cuplihang_tests::generate::*;
use cuplihang_tests::programs::output;
use cuplihang_tests::walker::log::{log_bytes, log_of, log_plan};
use cuplihang_tests::walker::{self, Logged, Memories, Plan, RunEnd, Tally};
use cuplihang_tests::words::refusal;
use std::collections::BTreeMap;
use std::path::{Path, PathBuf};

const HOST: u8 = 0;
const CARD: u8 = 1;

/// How often each number occurred, 0 for accepted.
type Counts = BTreeMap<u16, usize>;

fn assert_counted(counts: &Counts, numbers: impl IntoIterator<Item = u16>, least: usize) {
    println!("{counts:?}");
    for number in numbers {
        assert!(counts.get(&number).is_some_and(|&n| n >= least), "number {number} is too rare");
    }
}

/// The same log by both.
fn match_log(file: &[u8], log: &[u8], counts: &mut Counts) -> Logged {
    let expected = walker::log(file, log);
    let (answer, entry) = archive::log(file, log);
    let shown = || {
        let some = &log[..log.len().min(200)];
        format!("{} bytes of log {some:02X?}, {:02X?}", log.len(), &file[..file.len().min(400)])
    };
    let kind = walker::open(file).map_or(0, |plan| plan.kind.number());
    assert_eq!(
        (answer.number, answer.place as usize, entry),
        (expected.number, expected.place, expected.entry),
        "{}",
        shown()
    );
    assert_eq!((answer.cell, answer.kind), (0, kind), "{}", shown());
    // Of a plan that the check accepts, no entry is stuck.
    assert!(answer.number != 31 || archive::check(file).number == 18, "{}", shown());
    *counts.entry(answer.number).or_default() += 1;
    expected
}

fn one_cell(steps: &[Step]) -> Vec<u8> {
    encode(&Draft::plain(&[1], steps))
}

/// What the library says of a log, the walker agreeing: number and entry.
fn said(file: &[u8], entries: &[u16]) -> (u16, u64) {
    let answer = match_log(file, &log_bytes(entries), &mut Counts::new());
    (answer.number, answer.entry)
}

/// "each turn of a fixed loop at its start": an entry a turn, none at its end.
#[test]
fn fixed_loops_by_hand() {
    let twice = one_cell(&[Step::Fixed(2, vec![write(CARD, 0, 0, 1)]), copy(HOST, 0, 0, 1)]);
    assert_eq!(said(&twice, &[0, 1, 0, 1, 2]), (0, 0));
    assert_eq!(said(&twice, &[0, 1, 0, 1, 0]), (30, 4));
    assert_eq!(said(&twice, &[0, 1, 2]), (30, 2));
    let empty = one_cell(&[Step::Fixed(3, vec![]), read(HOST, 0, 0, 1)]);
    assert_eq!(said(&empty, &[0, 0, 0, 1]), (0, 0));
    assert_eq!(said(&empty, &[0, 0, 1]), (30, 2));
    assert_eq!(said(&empty, &[0, 0, 0, 0]), (30, 3));
    let nested = one_cell(&[Step::Fixed(2, vec![Step::Fixed(2, vec![])])]);
    assert_eq!(said(&nested, &[0, 1, 1, 0, 1, 1]), (0, 0));
    assert_eq!(said(&nested, &[0, 1, 1, 0, 1, 1, 0]), (30, 6));
}

/// "each test of a branch or loop": one entry a test, the last one too.
#[test]
fn tests_by_hand() {
    let turning = one_cell(&[Step::Loop(vec![read(HOST, 0, 0, 1)]), write(HOST, 0, 0, 1)]);
    assert_eq!(said(&turning, &[0, 2]), (0, 0));
    assert_eq!(said(&turning, &[0, 1, 0, 1, 0, 2]), (0, 0));
    assert_eq!(said(&turning, &[0, 1, 2]), (30, 2));
    assert_eq!(said(&turning, &[2]), (30, 0));
    assert_eq!(said(&turning, &[0, 2, 3]), (30, 2));
    let idle = one_cell(&[Step::Loop(vec![])]);
    assert_eq!(said(&idle, &[0, 0, 0, 0, 0]), (0, 0));
    let either = one_cell(&[
        Step::Branch(vec![], vec![]),
        Step::Branch(vec![], vec![read(HOST, 0, 0, 1)]),
        mark(CARD, 0),
    ]);
    assert_eq!(said(&either, &[0, 1, 3]), (0, 0));
    assert_eq!(said(&either, &[0, 1, 2, 3]), (0, 0));
    assert_eq!(said(&either, &[0, 3]), (30, 1));
}

/// "31: the record at this entry is stuck"; "the earlier one counts".
#[test]
fn stuck_by_hand() {
    let stale = one_cell(&[write(CARD, 0, 0, 1), read(HOST, 0, 0, 1), read(CARD, 0, 0, 1)]);
    assert_eq!(said(&stale, &[0]), (0, 0));
    assert_eq!(said(&stale, &[0, 1]), (31, 1));
    assert_eq!(said(&stale, &[0, 1, 2]), (31, 1));
    assert_eq!(said(&stale, &[0, 2]), (30, 1));
    // What does not go on is 30, though the record there is stuck as well.
    assert_eq!(said(&stale, &[1]), (30, 0));
    assert_eq!(said(&one_cell(&[]), &[]), (0, 0));
    assert_eq!(said(&one_cell(&[]), &[0]), (30, 0));
}

/// What is stuck is told cell by cell, and a flag array by array: steps, scratch,
/// and more than one array.
#[test]
fn stuck_cells_by_hand() {
    let file = |arrays: &[u16], steps: &[Step]| encode(&Draft::plain(arrays, steps));
    let second = |act| every(2, act);
    let layers = [
        second(write(CARD, 0, 0, 4)),
        second(read(HOST, 0, 1, 4)),
        second(read(CARD, 0, 0, 4)),
        every(3, read(HOST, 0, 0, 4)),
    ];
    assert_eq!(said(&file(&[4], &layers), &[0, 1, 2]), (0, 0));
    assert_eq!(said(&file(&[4], &layers), &[0, 1, 2, 3]), (31, 3));
    let fill = |q| {
        file(
            &[1, SCRATCH + 2],
            &[read(HOST, 0, 0, 1), write(HOST, 1, 0, q), read(HOST, 1, 0, 1), need(CARD, 1)],
        )
    };
    assert_eq!(said(&fill(2), &[0, 1, 2, 3]), (0, 0));
    assert_eq!(said(&fill(1), &[0, 1, 2, 3]), (31, 3));
    let unfilled = file(&[SCRATCH + 1], &[need(HOST, 0)]);
    assert_eq!(said(&unfilled, &[0]), (31, 0));
    let marked = file(&[1, 1], &[mark(CARD, 0), need(HOST, 1), need(HOST, 0)]);
    assert_eq!(said(&marked, &[0, 1]), (0, 0));
    assert_eq!(said(&marked, &[0, 1, 2]), (31, 2));
    // Each turn of a fixed loop reads what the turn before has written.
    let turns = file(&[2], &[Step::Fixed(3, vec![read(HOST, 0, 0, 2), write(CARD, 0, 1, 2)])]);
    assert_eq!(said(&turns, &[0, 1, 2, 0]), (0, 0));
    assert_eq!(said(&turns, &[0, 1, 2, 0, 1]), (31, 4));
}

/// "29: odd length", before everything of the log and after 11.
#[test]
fn odd_lengths() {
    let plain = one_cell(&[read(HOST, 0, 0, 1)]);
    let mut counts = Counts::new();
    for length in 0..40 {
        let answer = match_log(&plain, &vec![7; length], &mut counts);
        let expected = if length % 2 == 1 { 29 } else { u16::from(length > 0) * 30 };
        assert_eq!((answer.number, answer.entry), (expected, 0));
    }
    let mut rng = Rng::new(291);
    for _ in 0..3_000 {
        let file = any_file(&mut rng);
        let length = rng.below(6);
        let log: Vec<u8> = (0..length).map(|_| rng.below(3) as u8).collect();
        match_log(&file, &log, &mut counts);
    }
    assert_counted(&counts, [0, 11, 29, 30], 20);
}

/// A log and those near it: cut at every length, with one entry changed, dropped,
/// doubled or added.
fn near_logs(entries: &[u16], records: usize, mut each: impl FnMut(&[u16])) {
    for cut in 0..=entries.len() {
        each(&entries[..cut]);
    }
    for at in 0..entries.len() {
        let mut other = entries.to_vec();
        for number in 0..=records as u16 {
            other[at] = number;
            each(&other);
        }
        other[at] = entries[at] | 0x100;
        each(&other);
        other.remove(at);
        each(&other);
        let mut other = entries.to_vec();
        other.insert(at, entries[at]);
        each(&other);
    }
    for number in 0..=records as u16 {
        each(&[entries, &[number]].concat());
    }
}

fn every_log_of(drafts: Vec<Draft>, choices: usize) {
    let mut numbers = Counts::new();
    for draft in drafts {
        let file = encode(&draft);
        let plan = walker::open(&file).expect("a valid draft");
        for list in every_choices(choices) {
            let entries = log_of(&plan, &list, 12);
            near_logs(&entries, plan.records.len(), |log| {
                match_log(&file, &log_bytes(log), &mut numbers);
            });
        }
    }
    assert_counted(&numbers, [0, 30, 31], 1000);
}

/// All small plans, all short runs of them, and all logs near theirs.
#[test]
fn every_small_plan() {
    every_log_of(every_plan_fixed(&[1], &[1, 2, 3], 2), 3);
    every_log_of(every_scratch_plan(&[SCRATCH + 2], 2), 2);
    every_log_of(every_scratch_plan(&[1, SCRATCH + 1], 2), 2);
    every_log_of(every_stepped_plan(&[3], &[2], 2), 2);
}

#[test]
fn every_plan_of_arms() {
    // Records without arms are alike here: what counts is where the run stands.
    let acts = [raw(1, HOST, 0, 0, 1)];
    let mut numbers = Counts::new();
    for records in 0..=4 {
        for block in every_block_fixed(&acts, &[1, 2], records) {
            let body = DraftBody { declarations: 0, records: block };
            let file = encode(&Draft { kind: 2, arrays: vec![1], bodies: vec![body] });
            let plan = walker::open(&file).expect("a valid draft");
            for list in every_choices(3) {
                near_logs(&log_of(&plan, &list, 8), records, |log| {
                    match_log(&file, &log_bytes(log), &mut numbers);
                });
            }
        }
    }
    assert_counted(&numbers, [0, 30], 1000);
}

/// Every log of a few entries over a plan's numbers, and one that no record has.
#[test]
fn every_short_log() {
    let mut rng = Rng::new(302);
    let mut numbers = Counts::new();
    for _ in 0..1_500 {
        let shape = Shape::new(1, 1, rng.between(0, 4), 3, 60);
        let draft = varied(&mut rng, &shape);
        let file = encode(&draft);
        let symbols = draft.records() + 1;
        for length in 0..=4u32 {
            for i in 0..symbols.pow(length) {
                let log: Vec<u16> = (0..length).map(|at| (i / symbols.pow(at) % symbols) as u16).collect();
                match_log(&file, &log_bytes(&log), &mut numbers);
            }
        }
    }
    assert_counted(&numbers, [0, 30, 31], 1000);
}

/// A plain plan with fixed loops, steps and scratch in it.
fn varied(rng: &mut Rng, shape: &Shape) -> Draft {
    let mut draft = plain(rng, shape);
    fix_loops(rng, &mut draft, 50, &[1, 2, 3], 4096);
    give_steps(rng, &mut draft, 30, &STEPS);
    give_scratch(rng, &mut draft, 20);
    draft
}

/// Runs of plans of every shape, mended so that they get far.
#[test]
fn seeded_logs() {
    let mut rng = Rng::new(303);
    let mut numbers = Counts::new();
    let mut longest = 0;
    for _ in 0..6_000 {
        let shape = Shape::any(&mut rng);
        let mut draft = varied(&mut rng, &shape);
        let length = rng.between(0, 60);
        let list = choices(&mut rng, length, 40);
        let times = rng.pick(&[0, 20, 200]);
        mend(&mut rng, &mut draft, times, &|file| stop(file, &list));
        let file = encode(&draft);
        let Ok(plan) = walker::open(&file) else { continue };
        let most = rng.pick(&[40, 3_000]);
        let entries = log_of(&plan, &list, most);
        longest = longest.max(entries.len());
        match_log(&file, &log_bytes(&entries), &mut numbers);
        for _ in 0..4 {
            let mut other = entries.clone();
            let at = rng.below(entries.len() + 1);
            match rng.below(5) {
                0 => other.truncate(at),
                1 if at < other.len() => other[at] = rng.below(plan.records.len() + 2) as u16,
                2 if at < other.len() => drop(other.remove(at)),
                3 if at < other.len() => other.insert(at, entries[at]),
                _ => other.insert(at, rng.below(plan.records.len() + 2) as u16),
            }
            match_log(&file, &log_bytes(&other), &mut numbers);
        }
    }
    println!("the longest log has {longest} entries");
    assert!(longest >= 2_000);
    assert_counted(&numbers, [0, 30, 31], 1000);
}

/// The record at which the walker's run stops.
fn stop(file: &[u8], list: &[u8]) -> Option<usize> {
    let plan = walker::open(file).ok()?;
    match ran(&plan, list) {
        RunEnd::Stopped { record, .. } => Some(record),
        _ => None,
    }
}

fn ran(plan: &Plan, list: &[u8]) -> RunEnd {
    let [mut host, mut card, mut latest] = [(); 3].map(|()| vec![0; plan.cells()]);
    let mut memories = Memories { sides: [&mut host, &mut card], latest: &mut latest };
    walker::run::run_plan(plan, &mut memories, list, &mut Tally::default())
}

/// The walker's log of a run and its run say the same: a run that is done or out
/// of choices has an accepted log, one that stops a log that is stuck there.
#[test]
fn logs_of_runs() {
    let mut rng = Rng::new(304);
    for _ in 0..4_000 {
        let shape = Shape::small(&mut rng);
        let Ok(plan) = walker::open(&encode(&varied(&mut rng, &shape))) else { continue };
        let list = choices(&mut rng, 12, 40);
        let entries = log_of(&plan, &list, 10_000);
        let answer = log_plan(&plan, entries.iter().map(|&entry| usize::from(entry)));
        match ran(&plan, &list) {
            RunEnd::Stopped { record, .. } => {
                assert_eq!(answer.number, 31);
                assert_eq!(usize::from(entries[answer.entry as usize]), record);
            }
            RunEnd::Done(_) | RunEnd::Spent { .. } => assert_eq!(answer, Logged::ACCEPTED),
            refused => panic!("{refused:?}"),
        }
    }
}

/// Entries past 65,535: their numbers pass 16 bits.
#[test]
fn long_logs() {
    let file = one_cell(&[
        Step::Loop(vec![write(CARD, 0, 0, 1), copy(HOST, 0, 0, 1)]),
        read(HOST, 0, 0, 1),
        read(HOST, 0, 0, 1),
    ]);
    let mut entries = [0, 1, 2].repeat(50_000);
    assert_eq!(said(&file, &entries), (0, 0));
    entries.extend([0, 3, 4]);
    assert_eq!(said(&file, &entries), (0, 0));
    entries.push(4);
    assert_eq!(said(&file, &entries), (30, 150_003));
    entries[120_001] = 0;
    assert_eq!(said(&file, &entries), (30, 120_001));
    let stale = one_cell(&[Step::Loop(vec![read(HOST, 0, 0, 1)]), write(CARD, 0, 0, 1), read(HOST, 0, 0, 1)]);
    let mut entries = [0, 1].repeat(40_000);
    entries.extend([0, 2, 3]);
    assert_eq!(said(&stale, &entries), (31, 80_002));
}

/// What `planlog` prints, by the walker.
fn lines(file: &[u8], log: &[u8]) -> (String, u16) {
    let kind = walker::open(file).map_or(0, |plan| plan.kind.number());
    let Logged { number, place, entry } = walker::log(file, log);
    let i = entry as usize;
    let record = log[2 * i..].first_chunk().map_or(0, |&bytes| u16::from_le_bytes(bytes));
    let words = match number {
        0 => String::new(),
        30 => {
            let records = walker::open(file).unwrap().records.len() as u16;
            let goes_on = |&record: &u16| {
                let tried = [&log[..2 * i], &record.to_le_bytes()].concat();
                walker::log(file, &tried).number != 30
            };
            let expected: Vec<String> = (0..records).filter(goes_on).map(|r| format!("record {r}")).collect();
            let expected = if expected.is_empty() { "no more records".into() } else { expected.join(" or ") };
            format!("no run, stops aside, goes on with entry {i}, record {record}\nexpected {expected}\n")
        }
        31 => format!("the record at entry {i}, record {record}, is stuck\n"),
        _ => refusal(number, place) + "\n",
    };
    (format!("{kind} {number} {place} {entry}\n{words}"), number)
}

/// Two files, for one test alone.
fn files(test: &str, file: &[u8], log: &[u8]) -> [PathBuf; 2] {
    let path = |part| Path::new(env!("CARGO_TARGET_TMPDIR")).join(format!("log-{test}-{part}"));
    let paths = [path("plan"), path("log")];
    std::fs::write(&paths[0], file).expect("the plan");
    std::fs::write(&paths[1], log).expect("the log");
    paths
}

#[test]
fn the_program() {
    let mut rng = Rng::new(305);
    let mut counts = Counts::new();
    for round in 0..400 {
        let shape = Shape::small(&mut rng);
        let draft = varied(&mut rng, &shape);
        let file = if round % 8 == 0 { any_file(&mut rng) } else { encode(&draft) };
        let list = choices(&mut rng, 10, 40);
        let mut entries = walker::open(&file).map_or(vec![0], |plan| log_of(&plan, &list, 30));
        if rng.chance(60) && !entries.is_empty() {
            let at = rng.below(entries.len());
            entries[at] = rng.below(draft.records() + 1) as u16;
        }
        let mut log = log_bytes(&entries);
        if rng.chance(5) {
            log.push(0);
        }
        *counts.entry(match_program("the_program", &file, &log)).or_default() += 1;
    }
    assert_counted(&counts, [0, 29, 30, 31], 5);
}

#[test]
fn the_program_without_files() {
    let [plan, log] = files("without", &one_cell(&[]), &[]);
    let none = plan.with_file_name("no such file");
    let (printed, said) = output("planlog", &[plan.as_os_str()], &[]);
    assert_eq!((printed, said.as_str()), (vec![], "usage: planlog PLAN LOG\n"));
    let (printed, said) = output("planlog", &[none.as_os_str(), log.as_os_str()], &[]);
    assert!(printed.is_empty() && said.starts_with("planlog: plan file "), "{said}");
    let (printed, said) = output("planlog", &[plan.as_os_str(), none.as_os_str()], &[]);
    assert!(printed.is_empty() && said.starts_with("planlog: log file "), "{said}");
    let (printed, said) = output("planlog", &[plan.as_os_str(), plan.parent().unwrap().as_os_str()], &[]);
    assert!(printed.is_empty() && said.starts_with("planlog: log file "), "{said}");
}

/// The entries that the program reads at a time.
const PART: usize = 8_192;

/// What the program prints of a log is what the walker says.
fn match_program(test: &str, file: &[u8], log: &[u8]) -> u16 {
    let (expected, number) = lines(file, log);
    let paths = files(test, file, log);
    let (printed, said) = output("planlog", &[paths[0].as_os_str(), paths[1].as_os_str()], &[]);
    assert_eq!((String::from_utf8(printed).expect("text"), said), (expected, String::new()));
    number
}

/// A plan whose turns have four entries or five, and one that is stuck at its last.
fn turning() -> Vec<u8> {
    one_cell(&[
        Step::Loop(vec![
            Step::Branch(vec![write(CARD, 0, 0, 1)], vec![]),
            Step::Branch(vec![], vec![need(HOST, 0)]),
            read(HOST, 0, 0, 1),
        ]),
        read(HOST, 0, 0, 1),
    ])
}

const SHORT_TURN: [u16; 4] = [0, 1, 3, 5];
const LONG_TURN: [u16; 5] = [0, 1, 3, 4, 5];
const STUCK_TURN: [u16; 5] = [0, 1, 2, 3, 5];

/// So many entries of turns, from 12 on.
fn turns(entries: usize) -> Vec<u16> {
    let long = entries % 4;
    [LONG_TURN.repeat(long), SHORT_TURN.repeat((entries - 5 * long) / 4)].concat()
}

/// A log is read part by part, and what is printed does not depend on where a part
/// ends: it ends there, or an entry there is changed, or stuck.
#[test]
fn the_program_part_by_part() {
    let file = turning();
    let mut counts = Counts::new();
    let mut program = |log: &[u8]| {
        *counts.entry(match_program("part_by_part", &file, log)).or_default() += 1;
    };
    for at in [PART, 2 * PART].into_iter().flat_map(|end| end - 3..end + 4) {
        let whole = log_bytes(&[turns(at - 4), LONG_TURN.into(), turns(40)].concat());
        program(&whole[..2 * at]);
        program(&whole[..2 * at + 1]);
        let mut changed = whole.clone();
        changed[2 * at..][..2].copy_from_slice(&6u16.to_le_bytes());
        program(&changed);
        changed.push(0);
        program(&changed);
        program(&log_bytes(&[turns(at - 4), STUCK_TURN.into(), turns(PART)].concat()));
    }
    assert_counted(&counts, [0, 29, 30, 31], 10);
}

/// No log is too long for the program.
#[test]
fn the_program_takes_long_logs() {
    let file = turning();
    let mut entries = [turns(1_000_000), vec![0, 6]].concat();
    assert_eq!(match_program("long", &file, &log_bytes(&entries)), 0);
    entries.push(5);
    assert_eq!(match_program("long", &file, &log_bytes(&entries)), 30);
    let stuck = [turns(1_000_000), STUCK_TURN.into()].concat();
    assert_eq!(match_program("long", &file, &log_bytes(&stuck)), 31);
}
