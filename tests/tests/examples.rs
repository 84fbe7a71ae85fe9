//! The files of `examples/` and its page: each command that the page shows
//! prints what the page says.

use cuplihang_tests::examples::*;
use cuplihang_tests::generate::*;
use cuplihang_tests::walker::check::check;
use cuplihang_tests::walker::open::open;
use cuplihang_tests::walker::run::{run_plan, Memories, RunEnd, Tally};
use std::fs;
use std::path::Path;
use std::process::Command;

const ROOT: &str = concat!(env!("CARGO_MANIFEST_DIR"), "/..");

#[test]
fn the_files_are_those_that_are_generated() {
    for (name, bytes) in examples() {
        let file = fs::read(Path::new(ROOT).join("examples").join(&name)).expect(&name);
        assert_eq!(file, bytes, "{name}");
    }
}

/// A command of the page, and what it prints.
struct Shown {
    command: String,
    prints: String,
}

fn shown(page: &str) -> Vec<Shown> {
    let mut all: Vec<Shown> = vec![];
    let mut inside = false;
    for line in page.lines() {
        match (inside, line.strip_prefix("$ ")) {
            (false, _) => inside = line == "```console",
            (true, Some(command)) => all.push(Shown { command: command.into(), prints: String::new() }),
            (true, None) if line == "```" => inside = false,
            (true, None) => {
                let last = all.last_mut().expect("a command before its output");
                last.prints += line;
                last.prints.push('\n');
            }
        }
    }
    all
}

#[test]
fn the_page_shows_what_is_printed() {
    let page = fs::read_to_string(Path::new(ROOT).join("examples/README.md")).expect("the page");
    let all = shown(&page);
    assert!(all.len() >= 10, "{} commands", all.len());
    for Shown { command, prints } in all {
        let output = Command::new("sh").args(["-c", &command]).current_dir(ROOT).output().expect("a shell");
        let printed = [output.stdout, output.stderr].concat();
        assert_eq!(String::from_utf8_lossy(&printed), prints, "{command}");
    }
}

/// The choices of a run with each loop turned twice and each branch kept to the
/// arm that `arms` has for it.
fn old_choices(steps: &[Step], arms: &[bool], branch: &mut usize, choices: &mut Vec<u8>) {
    for step in steps {
        match step {
            Step::Act(_) => {}
            Step::Branch(first, second) => {
                let arm = arms[*branch];
                *branch += 1;
                choices.push(arm as u8);
                old_choices(if arm { first } else { second }, arms, branch, choices);
            }
            Step::Loop(arm) => {
                let outside = *branch;
                for _ in 0..2 {
                    *branch = outside;
                    choices.push(1);
                    old_choices(arm, arms, branch, choices);
                }
                choices.push(0);
            }
            Step::Fixed(turns, arm) => {
                let outside = *branch;
                for _ in 0..*turns {
                    *branch = outside;
                    old_choices(arm, arms, branch, choices);
                }
            }
        }
    }
}

fn end(steps: &[Step], choices: &[u8]) -> RunEnd {
    let plan = open(&encode(&Draft::plain(&[1], steps))).expect("a plan");
    let [mut host, mut card, mut latest] = [[0; 1]; 3];
    let mut memories = Memories { sides: [&mut host, &mut card], latest: &mut latest };
    run_plan(&plan, &mut memories, choices, &mut Tally::default())
}

#[test]
fn the_old_way_accepts_a_plan_that_stops() {
    let steps = old_way();
    for arm in [true, false] {
        let mut choices = vec![];
        old_choices(&steps, &[arm], &mut 0, &mut choices);
        assert!(matches!(end(&steps, &choices), RunEnd::Done(_)), "{choices:?}");
    }
    assert_eq!(end(&steps, &OLD_WAY_CHOICES), RunEnd::Stopped { record: 4, cell: 0 });
    let verdict = check(&encode(&Draft::plain(&[1], &steps)));
    assert_eq!(format!("{verdict:?}"), "Stopped { record: 4, cell: 0 }");
}
