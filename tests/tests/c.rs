//! The header from C and from C++: `tests/c/exports.c` compiles without a
//! warning, links the library, and finds each function as the header says.

use std::env;
use std::path::Path;
use std::process::Command;

fn built_and_run(compiler: &str, language: &[&str]) {
    let here = Path::new(env!("CARGO_MANIFEST_DIR"));
    let folder = env::var_os("CUPLIHANG_LIB").map_or(here.join("../target/staticlib"), Into::into);
    let program = Path::new(env!("CARGO_TARGET_TMPDIR")).join(format!("exports-{compiler}"));
    let built = Command::new(compiler)
        .args(["-Wall", "-Wextra", "-Werror", "-pedantic"])
        .args(language)
        .arg("-I")
        .arg(here.join("../include"))
        .arg(here.join("c/exports.c"))
        // The library is none of the source's language.
        .args(["-x", "none"])
        .arg(folder.join("libexports.a"))
        .arg("-o")
        .arg(&program)
        .output()
        .expect("a compiler");
    assert!(built.status.success(), "{compiler}: {}", String::from_utf8_lossy(&built.stderr));
    let run = Command::new(&program).output().expect("the program starts");
    assert!(run.status.success(), "{compiler}: {}", String::from_utf8_lossy(&run.stderr));
}

#[test]
fn from_c() {
    built_and_run("gcc", &["-std=c99"]);
}

#[test]
fn from_cpp() {
    built_and_run("g++", &["-x", "c++", "-std=c++11"]);
}
