//! The programs `planexpand` and `planrun` against the walker.

use cuplihang_tests::examples::ROUTER_CHOICES;
use cuplihang_tests::generate::*;
use cuplihang_tests::programs::output;
use cuplihang_tests::walker::expand::expansion;
use cuplihang_tests::walker::plan::{MAX_CELLS, MAX_CHOICES};
use cuplihang_tests::walker::views::memory_view;
use cuplihang_tests::walker::{self, Memories, RunEnd, Tally, Verdict};
use cuplihang_tests::words::refusal;
use std::collections::BTreeMap;
use std::ffi::OsStr;
use std::path::{Path, PathBuf};

/// How often each number occurred, 0 for expanded or done.
type Counts = BTreeMap<u16, usize>;

fn shown(file: &[u8]) -> String {
    format!("{} bytes {:02X?}", file.len(), &file[..file.len().min(400)])
}

fn assert_counted(counts: &Counts, numbers: impl IntoIterator<Item = u16>) {
    println!("{counts:?}");
    for number in numbers {
        assert!(counts.get(&number).is_some_and(|&n| n >= 5), "number {number} is too rare");
    }
}

/// The expansion's file, or the answer's line as `plancheck` prints it.
fn expanded(file: &[u8]) -> (Vec<u8>, String, u16) {
    let plan = walker::open(file);
    let verdict = walker::expand(file, &mut vec![0; 8266]);
    let (number, place, cell) = verdict.numbers();
    match verdict {
        Verdict::Accepted => (expansion(&plan.unwrap()).to_bytes(), String::new(), 0),
        _ => {
            let kind = plan.map_or(0, |plan| plan.kind.number());
            (vec![], format!("{kind} {number} {place} {cell}\n"), number)
        }
    }
}

/// The same of the program, whose output is given.
fn match_expanded(file: &[u8], counts: &mut Counts) -> Vec<u8> {
    let (expected, expected_line, number) = expanded(file);
    let (bytes, line) = output("planexpand", &[], file);
    assert_eq!(line, expected_line, "{}", shown(file));
    assert!(bytes == expected, "{line:?}: the outputs differ: {}", shown(file));
    *counts.entry(number).or_default() += 1;
    bytes
}

/// The lines of a run's report, and its number.
fn report(file: &[u8], choices: &[u8]) -> (String, u16) {
    viewed(file, choices, None)
}

/// The same with the view of some cells after the run.
fn viewed(file: &[u8], choices: &[u8], cells: Option<(u64, u64)>) -> (String, u16) {
    let [mut host, mut card, mut latest] = [(); 3].map(|()| vec![0; MAX_CELLS]);
    let mut memories = Memories { sides: [&mut host, &mut card], latest: &mut latest };
    let mut tally = Tally::default();
    let end = walker::run(file, &mut memories, choices, &mut tally);
    let counted = format!("reads {}\nwrites {}\nmoved {}\n", tally.reads, tally.writes, tally.moved);
    let (mut lines, number) = match end {
        RunEnd::Refused { number, place } => {
            let reason = refusal(number, place);
            return (format!("ending refused\nnumber {number}\nplace {place}\nreason {reason}\n"), number);
        }
        RunEnd::Stopped { record, cell } => {
            (format!("ending stopped\nnumber 21\nrecord {record}\ncell {cell}\n{counted}"), 21)
        }
        RunEnd::Spent { record } => {
            (format!("ending choices spent\nnumber 22\nrecord {record}\n{counted}"), 22)
        }
        RunEnd::Done(done) => {
            let (used, [host, card], [on_host, on_card]) =
                (done.choices_used, done.flags, done.arrays_current);
            let flags = format!("host flags {host}\ncard flags {card}\n");
            let current = format!("arrays current on host {on_host}\narrays current on card {on_card}\n");
            (format!("ending done\nnumber 0\nchoices used {used}\n{counted}{flags}{current}"), 0)
        }
    };
    if let Some((first, end)) = cells {
        let n = walker::open(file).expect("a plan").cells();
        match memory_view(&host[..n], &card[..n], &latest[..n], first, end) {
            Ok(side) => {
                for cell in first..end {
                    lines += &format!("cell {cell} stamp {}\n", [&host, &card][side][cell as usize]);
                }
            }
            Err(number) => lines += &format!("view refused: {number} {}\n", refusal(number, 0)),
        }
    }
    (lines, number)
}

/// Two files, for one test alone.
struct Files {
    plan: PathBuf,
    choices: PathBuf,
}

impl Files {
    fn new(test: &str) -> Files {
        let path = |part| Path::new(env!("CARGO_TARGET_TMPDIR")).join(format!("{test}-{part}"));
        Files { plan: path("plan"), choices: path("choices") }
    }

    fn run(&self, file: &[u8], choices: &[u8]) -> String {
        self.view(file, choices, None)
    }

    fn view(&self, file: &[u8], choices: &[u8], cells: Option<(u64, u64)>) -> String {
        std::fs::write(&self.plan, file).unwrap();
        std::fs::write(&self.choices, choices).unwrap();
        let mut arguments = vec![self.plan.clone().into_os_string(), self.choices.clone().into_os_string()];
        if let Some((first, end)) = cells {
            arguments.extend([first, end].map(|cell| cell.to_string().into()));
        }
        let arguments: Vec<&OsStr> = arguments.iter().map(|argument| argument.as_os_str()).collect();
        let (lines, said) = output("planrun", &arguments, &[]);
        assert_eq!(said, "");
        String::from_utf8(lines).expect("text")
    }

    fn match_run(&self, file: &[u8], choices: &[u8], counts: &mut Counts) -> u16 {
        let (expected, number) = report(file, choices);
        let some = &choices[..choices.len().min(100)];
        let lines = self.run(file, choices);
        assert_eq!(lines, expected, "{} choices {some:?}, {}", choices.len(), shown(file));
        *counts.entry(number).or_default() += 1;
        number
    }
}

/// What the gate runs the programs on: a declared plan, its expansion, a run of that.
#[test]
fn the_examples() {
    let crates = Path::new(env!("CARGO_MANIFEST_DIR")).join("../crates");
    let example = |name: &str| std::fs::read(crates.join(name)).unwrap();
    let declared = example("planexpand/stdin");
    let written = match_expanded(&declared, &mut Counts::new());
    assert_eq!(written, example("planexpand/stdout"));
    assert_eq!(written, example("planrun/data/plan"));
    let cells = Some((0, 2));
    let lines = Files::new("the_examples").view(&written, &example("planrun/data/choices"), cells);
    assert_eq!(lines.as_bytes(), example("planrun/stdout"));
    assert_eq!(lines, viewed(&written, &ROUTER_CHOICES, cells).0);
}

#[test]
fn seeded_expansions() {
    let mut rng = Rng::new(110);
    let mut counts = Counts::new();
    for round in 0..600 {
        let draft = match round % 6 {
            0..=1 => accepted_small(&mut rng),
            2 => sized(&mut rng, 1023 + round % 3),
            3 => {
                let fault = rng.pick(&FAULTS);
                faulty(&mut rng, fault)
            }
            4 => deep_declared(&mut rng, 8),
            _ => {
                for _ in 0..4 {
                    match_expanded(&any_file(&mut rng), &mut counts);
                }
                valid(&mut rng)
            }
        };
        match_expanded(&encode(&draft), &mut counts);
    }
    assert_counted(&counts, 0..=16);
    assert!(!counts.contains_key(&17));
}

/// The largest expansion's file has 8,266 bytes.
#[test]
fn the_largest_expansion() {
    for records in [1023, 1024] {
        let file = encode(&declared_draft(&[128; 32], &vec![Step::Loop(vec![]); records], &[]));
        let written = match_expanded(&file, &mut Counts::new());
        assert_eq!(written.len(), 8266 - 8 * (1024 - records));
    }
}

#[test]
fn inputs_of_any_length() {
    let mut counts = Counts::new();
    for length in [0, 1, 3, 4, 10, 4096, 8390, 8391, 65_536, 1_000_000] {
        let mut file = vec![0; length];
        match_expanded(&file, &mut counts);
        for (byte, good) in file.iter_mut().zip([1, 1, 1, 0, 1, 0, 0, 0, 0, 0]) {
            *byte = good;
        }
        match_expanded(&file, &mut counts);
        Files::new("inputs").match_run(&file, &[], &mut counts);
    }
}

/// Choices that are short by one, exact and long, and those of any length.
#[test]
fn seeded_runs() {
    let mut rng = Rng::new(111);
    let mut counts = Counts::new();
    let files = Files::new("seeded_runs");
    for round in 0..300 {
        let shape = if round % 2 == 0 { Shape::any(&mut rng) } else { Shape::small(&mut rng) };
        let (length, more) = (rng.between(0, 40), rng.between(10, 60));
        let list = choices(&mut rng, length, more);
        let mut draft = plain(&mut rng, &shape);
        let stops = |file: &[u8]| match report(file, &list) {
            (lines, 21) => lines.lines().nth(2)?.strip_prefix("record ")?.parse().ok(),
            _ => None,
        };
        let times = rng.pick(&[0, 3, 100]);
        mend(&mut rng, &mut draft, times, &stops);
        let file = encode(&draft);
        if files.match_run(&file, &list, &mut counts) == 0 {
            let (lines, _) = report(&file, &list);
            let used: usize = lines.lines().nth(2).unwrap()["choices used ".len()..].parse().unwrap();
            files.match_run(&file, &list[..used], &mut counts);
            files.match_run(&file, &[&list[..], &[1, 0, 255]].concat(), &mut counts);
            if used > 0 {
                assert_eq!(files.match_run(&file, &list[..used - 1], &mut counts), 22);
            }
        }
        files.match_run(&any_file(&mut rng), &list, &mut counts);
    }
    assert_counted(&counts, (0..=11).chain([21, 22]));
    assert!(!counts.contains_key(&19));
}

/// The memory view after a run: a part of whichever side is current, 23 and 24.
#[test]
fn views_after_runs() {
    let mut rng = Rng::new(113);
    let files = Files::new("views");
    let mut seen = BTreeMap::<&str, usize>::new();
    for round in 0..400 {
        let draft = if round % 2 == 0 {
            let shape = Shape::small(&mut rng);
            plain(&mut rng, &shape)
        } else {
            // Writes on both sides, after which often neither is wholly current.
            let written = |_| {
                let cell = rng.between(0, 5) as u16;
                write(rng.between(0, 1) as u8, 0, cell, cell + 1)
            };
            Draft::plain(&[6], &(0..4).map(written).collect::<Vec<_>>())
        };
        let file = encode(&draft);
        let list = choices(&mut rng, 12, 40);
        let cells = Some((rng.between(0, 6) as u64, rng.between(0, 8) as u64));
        let (expected, _) = viewed(&file, &list, cells);
        assert_eq!(files.view(&file, &list, cells), expected, "{cells:?} {}", shown(&file));
        let last = expected.lines().last().unwrap();
        let how =
            ["cell ", "view refused: 23", "view refused: 24"].into_iter().find(|how| last.starts_with(how));
        *seen.entry(how.unwrap_or("no view")).or_default() += 1;
    }
    println!("{seen:?}");
    for how in ["cell ", "view refused: 23", "view refused: 24"] {
        assert!(seen.get(how).is_some_and(|&n| n > 5), "{how} is too rare: {seen:?}");
    }
}

/// What planexpand writes, planrun runs, and never to a stop.
#[test]
fn expansions_run() {
    let mut rng = Rng::new(112);
    let mut counts = Counts::new();
    let files = Files::new("expansions_run");
    for _ in 0..150 {
        let written = match_expanded(&encode(&accepted_small(&mut rng)), &mut Counts::new());
        if written.is_empty() {
            continue;
        }
        let (length, more) = (rng.between(0, 60), rng.between(10, 60));
        let list = choices(&mut rng, length, more);
        files.match_run(&written, &list, &mut counts);
    }
    assert_counted(&counts, [0, 22]);
    assert_eq!(counts.keys().copied().collect::<Vec<_>>(), [0, 22]);
}

/// "20 over 65,536 choices", whatever the length of the file.
#[test]
fn choices_of_any_length() {
    let files = Files::new("choices");
    let turning = encode(&Draft::plain(&[2], &[Step::Loop(vec![write(1, 0, 0, 2)])]));
    for (length, number) in
        [(0, 22), (1, 22), (MAX_CHOICES - 1, 22), (MAX_CHOICES, 22), (MAX_CHOICES + 1, 20), (1_000_000, 20)]
    {
        let mut list = vec![1; length];
        assert_eq!(files.match_run(&turning, &list, &mut Counts::new()), number);
        if let Some(last) = list.last_mut() {
            *last = 0;
            let done = if number == 22 { 0 } else { number };
            assert_eq!(files.match_run(&turning, &list, &mut Counts::new()), done);
        }
        // An earlier number comes first.
        assert_eq!(files.match_run(&[2], &list, &mut Counts::new()), 1);
    }
}

/// A file that cannot be read is named on standard error, and nothing is printed.
#[test]
fn arguments() {
    let files = Files::new("arguments");
    files.run(&CASE_3, &[]);
    let (plan, choices) = (files.plan.as_os_str(), files.choices.as_os_str());
    let folder = OsStr::new(env!("CARGO_TARGET_TMPDIR"));
    let long = "a".repeat(5000);
    let [missing, empty, long] = ["no such file", "", &long].map(OsStr::new);
    let named = folder.to_str().unwrap();
    for (wrong, why) in [
        (missing, " no such file: No such file or directory"),
        (folder, &format!(" {named}: Is a directory")),
        (empty, ": No such file or directory"),
        (long, ": File name too long"),
    ] {
        for (arguments, name) in [([wrong, choices], "plan file"), ([plan, wrong], "choices file")] {
            let (lines, said) = output("planrun", &arguments, &[]);
            assert!(lines.is_empty(), "{why}");
            assert_eq!(said, format!("planrun: {name}{why}\n"));
        }
    }
    for arguments in [&[][..], &[plan], &[plan, choices, plan]] {
        let (lines, said) = output("planrun", arguments, &[]);
        assert!(lines.is_empty());
        assert_eq!(said, "usage: planrun PLAN CHOICES [FIRST END]\n");
    }
    for cells in [["", "1"], ["0", ""], ["a", "1"], ["0", "-1"], ["0", "1 "], ["0", "99999999"]] {
        let [first, end] = cells.map(OsStr::new);
        let (lines, said) = output("planrun", &[plan, choices, first, end], &[]);
        assert!(lines.is_empty(), "{cells:?}");
        assert_eq!(said, "usage: planrun PLAN CHOICES [FIRST END]\n");
    }
}
