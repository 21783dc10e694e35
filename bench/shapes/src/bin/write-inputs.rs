//! `write-inputs DIR` writes the stored inputs of the two programs, each with what the program prints.

use std::path::Path;
use std::{env, fs, io};

fn main() -> io::Result<()> {
    let Some(dir) = env::args().nth(1) else {
        eprintln!("usage: write-inputs DIR");
        std::process::exit(2);
    };
    for folder in ["replay", "outcomes"] {
        fs::create_dir_all(Path::new(&dir).join(folder))?;
    }
    for (path, bytes) in shapes::stored() {
        fs::write(Path::new(&dir).join(path), bytes)?;
    }
    Ok(())
}
