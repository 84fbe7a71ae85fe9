//! Running the programs that the gate has built.

use std::env;
use std::ffi::OsStr;
use std::io::{ErrorKind, Read, Write};
use std::path::{Path, PathBuf};
use std::process::{Child, Command, Stdio};
use std::thread;
use std::time::{Duration, Instant};

/// A program takes far less; one that is still there is stopped, and its test fails.
const PATIENCE: Duration = Duration::from_secs(60);

/// Where a program is. `CUPLIHANG_` and its name in capitals names another one in its place.
pub fn path(name: &str) -> PathBuf {
    let built = Path::new(env!("CARGO_MANIFEST_DIR")).join("../target/bin").join(name);
    env::var_os(format!("CUPLIHANG_{}", name.to_uppercase())).map_or(built, PathBuf::from)
}

/// Waits for the program's end, and gives what it writes to those of its
/// standard output and standard error that are pipes.
pub fn ended(name: &str, mut child: Child) -> (Vec<u8>, String) {
    let stdout = child.stdout.take().map(|pipe| thread::spawn(move || all_of(pipe)));
    let stderr = child.stderr.take().map(|pipe| thread::spawn(move || all_of(pipe)));
    let began = Instant::now();
    let status = loop {
        if let Some(status) = child.try_wait().expect("the program can be waited for") {
            break status;
        }
        if began.elapsed() > PATIENCE {
            child.kill().expect("the program can be stopped");
            panic!("{name}: it does not end");
        }
        thread::sleep(Duration::from_micros(200));
    };
    assert!(status.success(), "{name}: {status}");
    let [stdout, stderr] =
        [stdout, stderr].map(|pipe| pipe.map_or(vec![], |reader| reader.join().expect("what it writes")));
    (stdout, String::from_utf8(stderr).expect("text"))
}

fn all_of(mut pipe: impl Read) -> Vec<u8> {
    let mut bytes = vec![];
    pipe.read_to_end(&mut bytes).expect("what it writes");
    bytes
}

/// What a program writes to standard output and standard error. It need not read
/// all of its input.
pub fn output(name: &str, arguments: &[&OsStr], input: &[u8]) -> (Vec<u8>, String) {
    let mut command = Command::new(path(name));
    command.args(arguments).stdin(Stdio::piped()).stdout(Stdio::piped()).stderr(Stdio::piped());
    let mut child = command.spawn().expect("the program starts");
    match child.stdin.take().unwrap().write_all(input) {
        Err(error) if error.kind() == ErrorKind::BrokenPipe => {}
        other => other.expect("the program takes its input"),
    }
    ended(name, child)
}

/// The text that a program without arguments writes to standard output.
pub fn text(name: &str, input: &[u8]) -> String {
    let (stdout, stderr) = output(name, &[], input);
    assert_eq!(stderr, "", "{name}");
    String::from_utf8(stdout).expect("text")
}
