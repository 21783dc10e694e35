//! `desk-times` prints how long `./rjupholt list` takes for every shape, from the start of the process to its answer: the best of five, the slowest shapes
//! first. The tree must be built.

use std::path::Path;
use std::process::{Command, Stdio};
use std::time::{Duration, Instant};
use std::{fs, io};

fn main() -> io::Result<()> {
    let root = Path::new(env!("CARGO_MANIFEST_DIR")).join("../..").canonicalize()?;
    let names =
        fs::read_dir(root.join("shapes"))?.map(|entry| entry.map(|entry| entry.path())).collect::<io::Result<Vec<_>>>()?;
    let cases = names.into_iter().filter(|path| path.extension().is_some_and(|extension| extension == "case"));
    let list = |case: &Path| -> io::Result<Duration> {
        let start = Instant::now();
        Command::new("./rjupholt").arg("list").arg(case).current_dir(&root).stdout(Stdio::null()).status()?;
        Ok(start.elapsed())
    };
    let best = |case: &Path| (0..5).map(|_| list(case)).collect::<io::Result<Vec<_>>>().map(|times| times.into_iter().min());
    let mut times = vec![];
    for case in cases {
        times.push((best(&case)?.unwrap_or_default(), case));
    }
    times.sort_by(|a, b| b.cmp(a));
    println!("./rjupholt list, {} shapes, best of five, from start to answer; the slowest first", times.len());
    for (time, case) in times.iter().take(10) {
        println!("{:8.2} ms  {}", time.as_secs_f64() * 1000.0, case.file_stem().unwrap_or_default().to_string_lossy());
    }
    Ok(())
}
