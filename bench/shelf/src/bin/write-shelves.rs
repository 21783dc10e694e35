//! `write-shelves DIR` writes the stored shelves, each with what the program prints of it.

use std::path::Path;
use std::{env, fs, io};

fn main() -> io::Result<()> {
    let Some(dir) = env::args().nth(1) else {
        eprintln!("usage: write-shelves DIR");
        std::process::exit(2);
    };
    fs::create_dir_all(Path::new(&dir).join("shelf"))?;
    for (path, bytes) in shelf::stored() {
        fs::write(Path::new(&dir).join(path), bytes)?;
    }
    Ok(())
}
