//! The command as it is typed: what it prints and the status it ends with.

use std::process::Command;

/// The status and the text for some plans.
fn run(plans: &[&str]) -> (i32, String) {
    let output = Command::new(env!("CARGO_BIN_EXE_handoff")).args(plans).output().expect("it runs");
    let text = String::from_utf8([output.stdout, output.stderr].concat()).expect("text");
    (output.status.code().expect("a status"), text)
}

#[test]
fn the_story_is_told() {
    let (status, text) = run(&[]);
    assert_eq!(status, 0, "{text}");
    assert!(text.contains("LENGTH EMPTY") && text.contains("The lost baseline cannot happen."), "{text}");
    assert!(text.contains("the sender's \"write the length\" and the receiver's \"read the length\" race"), "{text}");
}

#[test]
fn plans_end_with_their_status() {
    for (sending, receiving, status, word) in [
        ("0 3", "3 0", 1, "STALE"),
        ("write 0, write 3", "read 3, read 0", 1, "STALE"),
        ("take, write 0, write 3, free", "read 3, read 0", 1, "STALE"),
        ("4 0 3 5", "take, read 3, read 0, free", 0, "SAFE"),
        ("0 3", "3 1", 0, "SAFE"),
        ("", "3", 0, "SAFE"),
        ("free", "3", 3, "STUCK"),
        ("take", "take, read 3", 3, "STUCK"),
        ("0 3", "3 0 3", 2, "2 times"),
        ("0 3", "0", 2, "never reads word 3"),
        ("0 3", "3 0 1 2", 2, "reads 4 times"),
        ("0 0 0 0 3", "3", 2, "5 actions"),
        ("wait", "3", 2, "`wait` is no action"),
        ("0", "write 3", 2, "the receiver only reads"),
    ] {
        let (ended, text) = run(&[sending, receiving]);
        assert_eq!(ended, status, "{sending} | {receiving}: {text}");
        assert!(text.contains(word), "{sending} | {receiving}: {text}");
    }
    assert_eq!(run(&["0 3"]).0, 2);
}

#[test]
fn a_stale_run_is_shown_step_by_step() {
    let (_, text) = run(&["0 3", "3 0"]);
    assert!(text.contains("    8. receiver gets word 0: the empty word from the start\n"), "{text}");
}
