//! Writes the files of `examples/` anew.

use cuplihang_tests::examples::examples;
use std::path::Path;

fn main() -> std::io::Result<()> {
    let folder = Path::new(concat!(env!("CARGO_MANIFEST_DIR"), "/../examples"));
    std::fs::create_dir_all(folder)?;
    for (name, bytes) in examples() {
        std::fs::write(folder.join(name), bytes)?;
    }
    Ok(())
}
