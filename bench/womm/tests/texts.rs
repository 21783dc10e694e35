//! The library against a reader that completes texts: every shape, every single damage, random texts.

use std::fs;
use std::path::Path;

use model::block::LENGTH;
use model::Typist;
use random::Rng;
use texts::{damages, random_text, Texts};
use womm::{check_text, Case, Guarded, TEXT};

/// Reads a text by both, into a buffer of some size that held other bytes; the code and the line.
fn read(text: &[u8], size: usize) -> (u32, u32) {
    let [mut ours, mut theirs] = [vec![7; size], vec![9; size]];
    let answer = Guarded.read_text(text, &mut ours);
    assert_eq!((answer, &ours), (Texts.read_text(text, &mut theirs), &theirs), "{}", String::from_utf8_lossy(text));
    if answer.code == 0 && !answer.usual && !has_old_line(text) {
        assert_eq!(Case::from_block(&ours).map(|case| case.text().into_bytes()).as_deref(), Ok(text));
    }
    (answer.code, answer.line)
}

fn has_old_line(text: &[u8]) -> bool {
    text.split(|&byte| byte == b'\n').next().is_some_and(|line| line.split(|&byte| byte == b' ').count() > 3)
}

/// Writes a block's text by both, into a buffer of some size.
fn write(block: &[u8], size: usize) -> u32 {
    let [mut ours, mut theirs] = [vec![7; size], vec![9; size]];
    let answer = Guarded.write_text(block, &mut ours);
    assert_eq!((answer, &ours), (Texts.write_text(block, &mut theirs), &theirs));
    answer.code
}

fn texts_of_lists() -> Vec<Vec<u8>> {
    shapes::lists().into_iter().map(|shape| Case::from(shape.case).text().into_bytes()).collect()
}

fn texts_of_folder() -> Vec<Vec<u8>> {
    let held = shapes::folder(&Path::new(env!("CARGO_MANIFEST_DIR")).join("../../shapes")).expect("the folder of shapes");
    held.into_iter().map(|path| fs::read(path).expect("a text")).collect()
}

#[test]
fn every_shape_is_written_and_read_back() {
    for text in [texts_of_lists(), texts_of_folder()].concat() {
        let block = *Case::from_text(&text).expect("a case's text").block();
        assert_eq!(shapes::typed(&text).map(|case| case.block()), Some(block));
        for (size, code) in [(text.len(), 0), (text.len() - 1, 18), (text.len() + 9, 0), (TEXT + 1, 0), (0, 18)] {
            assert_eq!(write(&block, size), code);
        }
        for size in [0, 511, 513] {
            assert_eq!(read(&text, size), (1, 0));
        }
    }
}

#[test]
fn every_single_damage_of_every_shape() {
    let mut seen = [0; 20];
    for text in texts_of_lists() {
        for damaged in damages(&text) {
            seen[read(&damaged, LENGTH).0 as usize] += 1;
        }
    }
    println!("{seen:?}");
    assert!(seen[0] > 1_000 && seen[17] > 10_000 && seen[19] > 100, "{seen:?}");
}

#[test]
fn random_texts() {
    let mut rng = Rng::new(21);
    let mut seen = [0; 20];
    for n in 0..8_000 {
        let text = random_text(&mut rng);
        let size = if n % 50 == 0 { 511 } else { LENGTH };
        seen[read(&text, size).0 as usize] += 1;
    }
    println!("{seen:?}");
    assert!(seen[0] > 500 && seen[17] > 1_000 && seen[19] > 200, "{seen:?}");
}

#[test]
fn blocks_that_hold_no_case() {
    let mut rng = Rng::new(22);
    let sound = shapes::lists()[0].case.block();
    let mut seen = [0; 20];
    for _ in 0..4_000 {
        let mut block = sound;
        for _ in 0..1 + rng.below(2) {
            block[rng.below(510)] = rng.byte();
        }
        if !rng.once_in(20) {
            model::block::seal(&mut block);
        }
        seen[write(&block, TEXT) as usize] += 1;
    }
    assert!([2, 3, 4, 5, 6, 7].iter().all(|&code| seen[code] > 10) && seen[19] > 0, "{seen:?}");
    assert_eq!(write(&sound[1..], TEXT), 1);
}

#[test]
fn the_lines_that_document_02_names() {
    let at = |text: &str| read(text.as_bytes(), LENGTH);
    assert_eq!(at(""), (17, 1));
    assert_eq!(at("case 1 1"), (17, 1));
    assert_eq!(at("case 1 1\n"), (0, 0));
    assert_eq!(at("case 1 1 8\n"), (0, 0));
    assert_eq!(at("case 1 1 97\n"), (17, 1));
    assert_eq!(at("case 1 1 08\n"), (17, 1));
    assert_eq!(at("case 2 1\nop 0 goto 5\nop 1 goto 0\n"), (17, 3));
    assert_eq!(at("case 1 1\nop 0 goto 5\n"), (17, 3));
    assert_eq!(at("case 1 1\nop 0 goto 13\n"), (17, 2));
    assert_eq!(at("case 1 1 8\nop 0 goto 13\n"), (17, 2));
    assert_eq!(at("case 1 1\nmem 0 0\n"), (17, 2));
    assert_eq!(at("case 1 1\nreg 0 0 0\n"), (0, 0));
    assert_eq!(at("case 1 1\nreg 0 0 0\nop 0 goto 2\nop 0 read 1 7\n"), (19, 4));
    assert_eq!(at("case 1 1\nop 0 read 1 7\nop 0 goto 3\n"), (17, 4));
    assert_eq!(["case 1 1 8\n", "case 1 1 0\n"].map(check_text), [Ok(true), Ok(false)]);
    let words = "line 2: not one case's text";
    assert_eq!(Case::from_text("case 1 1\nop 0 jump 0\n").unwrap_err().to_string(), words);
}
