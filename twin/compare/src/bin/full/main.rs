//! Writes the full-size books into a folder: full FOLDER. The program of stack.c takes books as files.

use compare::books;
use std::io;
use std::path::PathBuf;

fn main() -> io::Result<()> {
    let folder: PathBuf = match std::env::args_os().nth(1) {
        Some(folder) => folder.into(),
        None => return Err(io::Error::new(io::ErrorKind::InvalidInput, "want: FOLDER")),
    };
    for (name, bytes) in [
        ("over-at-once", books::over_at_once()),
        ("cut-by-fixed", books::cut_by_fixed()),
        ("cut-by-the-fastest", books::cut_by_the_fastest()),
    ] {
        std::fs::write(folder.join(name).with_extension("book"), bytes)?;
    }
    Ok(())
}
