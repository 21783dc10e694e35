//! The folder of shapes: each text is a case's, and its results are what the models say.

use std::collections::BTreeSet;
use std::fs;
use std::path::{Path, PathBuf};

use model::Case;

/// Schedules beyond which the search without a memory takes too long for a test.
const PLAIN: u128 = 300_000;

fn folder() -> PathBuf {
    Path::new(env!("CARGO_MANIFEST_DIR")).join("../../shapes")
}

/// Every shape: its name, its case and its results.
fn held() -> Vec<(String, Case, String)> {
    let shape = |path: PathBuf| {
        let name = path.file_stem().unwrap().to_str().unwrap().to_string();
        let case = shapes::typed(&fs::read(&path).unwrap()).unwrap_or_else(|| panic!("{name} is no case's text"));
        let results = fs::read_to_string(path.with_extension("results")).unwrap();
        (name, case, results)
    };
    shapes::folder(&folder()).unwrap().into_iter().map(shape).collect()
}

#[test]
fn results_are_those_of_the_models() {
    let held = held();
    assert!(held.len() >= 40, "{}", held.len());
    for (name, case, results) in &held {
        assert_eq!(results, &shapes::results(case), "{name}");
    }
    let blocks: BTreeSet<[u8; 512]> = held.iter().map(|(_, case, _)| case.block()).collect();
    assert_eq!(blocks.len(), held.len(), "a shape stands twice");
}

/// The second enumerator agrees on every shape that it can walk.
#[test]
fn plain_agrees() {
    let mut agreed = 0;
    for (name, case, _) in held() {
        let instructions: usize = case.processors().iter().map(|processor| processor.program.len()).sum();
        let bound = 2 * instructions as u8;
        let listing = states::list(&case, bound);
        if listing.schedules <= PLAIN {
            let plain = plain::list(&case, bound);
            assert_eq!((plain.outcomes, plain.cut), (listing.outcomes, listing.cut), "{name}");
            agreed += 1;
        }
    }
    assert!(agreed >= 30, "{agreed}");
}

/// The folder's page has a row for each shape, with its name and its numbers of results, and no other row.
#[test]
fn the_page_counts_right() {
    let page = fs::read_to_string(folder().join("README.md")).unwrap();
    let rows: BTreeSet<(&str, Vec<&str>)> = page.lines().filter_map(row).collect();
    let held = held();
    assert_eq!(rows.len(), held.len());
    for (name, _, results) in &held {
        let heads = results.lines().filter(|line| !line.starts_with('p') || line.starts_with("pso "));
        let counts = heads.map(|head| head.split(' ').collect::<Vec<_>>()).map(|words| (words[4], words[6]));
        let cells: Vec<String> =
            counts.map(|(count, cut)| format!("{count}{}", if cut == "yes" { " cut" } else { "" })).collect();
        assert!(rows.contains(&(name, cells.iter().map(String::as_str).collect())), "{name}: {cells:?}");
    }
}

/// Name and counts of a row of the page's table.
fn row(line: &str) -> Option<(&str, Vec<&str>)> {
    let name = line.strip_prefix("| `")?.split('`').next()?;
    let cells: Vec<&str> = line.trim_matches('|').split(" | ").map(str::trim).collect();
    Some((name, cells[cells.len() - 4..].to_vec()))
}
