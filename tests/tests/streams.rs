//! What the programs do where reading or writing fails, and where the input has
//! no end.

use cuplihang_tests::generate::*;
use cuplihang_tests::programs::{ended, path, text};
use cuplihang_tests::walker::plancheck::line;
use std::fs::{create_dir_all, read_to_string, remove_file, File};
use std::io::Write;
use std::path::{Path, PathBuf};
use std::process::{Command, Stdio};

/// The programs that read a plan from standard input.
const READERS: [&str; 3] = ["plancheck", "planlist", "planexpand"];

const ROOT: &str = concat!(env!("CARGO_MANIFEST_DIR"), "/..");

fn example(name: &str) -> PathBuf {
    Path::new(ROOT).join("examples").join(name)
}

fn from(name: &str, input: impl Into<Stdio>) -> Command {
    let mut command = Command::new(path(name));
    command.stdin(input).stdout(Stdio::piped()).stderr(Stdio::piped());
    command
}

/// A device that takes nothing.
fn full() -> File {
    File::options().write(true).open("/dev/full").unwrap()
}

#[test]
fn a_failed_write_is_said() {
    for name in READERS {
        let plan = File::open(example("router.plan")).unwrap();
        let (_, said) = ended(name, from(name, plan).stdout(full()).spawn().unwrap());
        assert_eq!(said, format!("{name}: standard output: No space left on device\n"));
    }
    let mut run = from("planrun", Stdio::null());
    run.args([example("router-expanded.plan"), example("router.choices")]).stdout(full());
    let (_, said) = ended("planrun", run.spawn().unwrap());
    assert_eq!(said, "planrun: standard output: No space left on device\n");
    let mut sheet = from("plansheet", Stdio::null());
    let (_, said) = ended("plansheet", sheet.arg("24").stdout(full()).spawn().unwrap());
    assert_eq!(said, "plansheet: standard output: No space left on device\n");
}

/// A listing of many pages says it once.
#[test]
fn a_long_listing_says_it_once() {
    let steps = vec![write(1, 0, 0, 128); 1000];
    let mut child = from("planlist", Stdio::piped()).stdout(full()).spawn().unwrap();
    child.stdin.take().unwrap().write_all(&encode(&Draft::plain(&[128; 32], &steps))).unwrap();
    assert_eq!(ended("planlist", child).1, "planlist: standard output: No space left on device\n");
}

/// A read error is no end of the input: no answer is printed.
#[test]
fn a_failed_read_is_said() {
    for name in READERS {
        let folder = File::open(ROOT).unwrap();
        let (stdout, said) = ended(name, from(name, folder).spawn().unwrap());
        assert_eq!(said, format!("{name}: standard input: Is a directory\n"));
        assert!(stdout.is_empty());

        let mut closed = Command::new("sh");
        closed.args(["-c", "exec \"$0\" <&-"]).arg(path(name)).stdout(Stdio::piped()).stderr(Stdio::piped());
        let (stdout, said) = ended(name, closed.spawn().unwrap());
        assert_eq!(said, format!("{name}: standard input: Bad file descriptor\n"));
        assert!(stdout.is_empty());
    }
}

/// An input without an end is answered, by the bytes after which it is longer
/// than every plan file.
#[test]
fn an_endless_input_is_answered() {
    for name in READERS {
        let (stdout, said) = ended(name, from(name, File::open("/dev/zero").unwrap()).spawn().unwrap());
        match name {
            "plancheck" => assert_eq!(stdout, b"0 2 0 0\n"),
            "planlist" => assert_eq!(stdout, b"not a plan: 2 a header byte against its rule\n"),
            _ => assert_eq!((&stdout[..], &said[..]), (&b""[..], "0 2 0 0\n")),
        }
    }
    let mut run = from("planrun", Stdio::null());
    run.args([Path::new("/dev/zero"), Path::new("/dev/zero")]);
    let (stdout, said) = ended("planrun", run.spawn().unwrap());
    assert_eq!(said, "");
    let lines = "ending refused\nnumber 2\nplace 0\nreason a header byte against its rule\n";
    assert_eq!(String::from_utf8(stdout).unwrap(), lines);
}

/// A pipe that stays open: the program ends once 8,391 bytes are there.
#[test]
fn an_open_pipe_is_answered() {
    let good = encode(&Draft::plain(&[1], &[]));
    for front in [&[][..], &[2, 1, 1, 0], &[1, 32, 32, 0, 0, 0], &[2, 1, 1, 0, 1, 0, 1, 4], &good] {
        let mut file = vec![0; 8391];
        file[..front.len()].copy_from_slice(front);
        let mut child = from("plancheck", Stdio::piped()).spawn().unwrap();
        let mut pipe = child.stdin.take().unwrap();
        pipe.write_all(&file).unwrap();
        let (stdout, _) = ended("plancheck", child);
        assert_eq!(String::from_utf8(stdout).unwrap(), line(&file));
        // However much more there would have been.
        for more in [1, 100_000] {
            assert_eq!(line(&file), line(&[&file[..], &vec![7; more]].concat()));
        }
        drop(pipe);
    }
}

/// The largest plan file has 8,390 bytes; with one more it is none.
#[test]
fn the_largest_plan_file() {
    let passes: Vec<Pass> = (0..31).map(|_| Pass { declarations: vec![], steps: vec![] }).collect();
    let mut file = encode(&declared_draft(&[128; 32], &vec![Step::Loop(vec![]); 1024], &passes));
    assert_eq!(file.len(), 8390);
    assert_eq!(text("plancheck", &file), "1 0 0 0\n");
    for byte in [0, 1, 255] {
        file.truncate(8390);
        file.push(byte);
        assert_eq!(text("plancheck", &file), "0 6 0 0\n");
        assert_eq!(text("plancheck", &file), line(&file));
    }
}

fn by_make(line: &str) -> bool {
    let mut child = Command::new("make");
    child.args(["-s", "-f", "-"]).stdin(Stdio::piped()).stdout(Stdio::null()).stderr(Stdio::null());
    let mut child = child.current_dir(ROOT).spawn().unwrap();
    write!(child.stdin.take().unwrap(), "all:\n\t{line}\n").unwrap();
    child.wait().unwrap().success()
}

fn by_sh(line: &str) -> bool {
    let mut child = Command::new("sh");
    child.args(["-c", line]).current_dir(ROOT).stderr(Stdio::null());
    child.status().unwrap().success()
}

/// A line that the README gives for scripts, in sh and in make, for other plans in
/// place of its own.
fn a_script_asks(command: &str, own: &str, plans: &[(&str, bool)]) {
    let page = read_to_string(Path::new(ROOT).join("README.md")).unwrap();
    assert!(page.contains(command), "the README has another line");
    for &(plan, accepted) in plans {
        let mut line = command.replace(own, plan);
        for name in ["planexpand", "plancheck"] {
            line = line.replace(&format!("target/bin/{name}"), path(name).to_str().unwrap());
        }
        assert_eq!(by_sh(&line), accepted, "sh: {line}");
        assert_eq!(by_make(&line), accepted, "make: {line}");
    }
}

#[test]
fn a_script_asks_for_the_verdict() {
    let command = "target/bin/plancheck < examples/router.plan | grep -q '^[12] 0 '";
    let plans = [
        ("examples/router.plan", true),
        ("examples/case-02.plan", true),
        ("examples/case-03.plan", false),
        ("examples/old-way.plan", false),
        ("README.md", false),
        ("/dev/null", false),
        ("examples", false),
    ];
    a_script_asks(command, "examples/router.plan", &plans);
}

#[test]
fn a_script_asks_for_the_verdict_of_an_expansion() {
    let command = "target/bin/planexpand < examples/labels.plan | target/bin/plancheck | grep -q '^2 0 '";
    let plans = [
        ("examples/labels.plan", true),
        ("examples/labels-early.plan", false),
        ("examples/router.plan", true),
        ("examples/case-02.plan", false),
        ("README.md", false),
        ("examples", false),
    ];
    a_script_asks(command, "examples/labels.plan", &plans);
}

/// A line that the README gives: a refused plan leaves no file behind, an accepted one its expansion.
#[test]
fn a_refused_expansion_leaves_no_file() {
    let command = "target/bin/planexpand < examples/labels.plan > expansion.part && test -s expansion.part && mv expansion.part expansion.plan || { rm -f expansion.part; false; }";
    let page = read_to_string(Path::new(ROOT).join("README.md")).unwrap();
    assert!(page.contains(command), "the README has another line");
    let folder = Path::new(env!("CARGO_TARGET_TMPDIR")).join("a_refused_expansion_leaves_no_file");
    create_dir_all(&folder).unwrap();
    let [part, whole] = ["expansion.part", "expansion.plan"].map(|name| folder.join(name));
    for (plan, accepted) in
        [("examples/labels.plan", true), ("examples/case-03.plan", false), ("/dev/null", false)]
    {
        let line = command
            .replace("target/bin/planexpand", path("planexpand").to_str().unwrap())
            .replace("examples/labels.plan", plan)
            .replace("expansion.", folder.join("expansion.").to_str().unwrap());
        for run in [by_sh, by_make] {
            let _ = remove_file(&whole);
            assert_eq!(run(&line), accepted, "{line}");
            assert_eq!(whole.exists(), accepted, "{line}");
            assert!(!part.exists(), "{line}");
        }
    }
}
