//! `write-results DIR` writes beside every `NAME.case` of a folder its results on every machine, by the models alone.

use std::path::Path;
use std::{env, fs, io};

fn main() -> io::Result<()> {
    let Some(dir) = env::args().nth(1) else {
        eprintln!("usage: write-results DIR");
        std::process::exit(2);
    };
    for path in shapes::folder(Path::new(&dir))? {
        let case = shapes::typed(&fs::read(&path)?).ok_or_else(|| wrong(&path))?;
        fs::write(path.with_extension("results"), shapes::results(&case))?;
    }
    Ok(())
}

fn wrong(path: &Path) -> io::Error {
    io::Error::new(io::ErrorKind::InvalidData, format!("{} is no case's text", path.display()))
}
