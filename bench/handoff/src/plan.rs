//! A plan as it is typed.

use model::{ACTS, READS, READY};
use womm::Act;

use crate::words::Side;

/// Words that may stand in a plan and say nothing.
const FILLERS: [&str; 3] = ["the", "lock", "word"];

/// Reads a plan: numbers (0 to 3 touch that word, 4 takes the lock, 5 frees it) or words (`write 0, write 3`;
/// `take, read 3, read 0, free`).
pub fn parse(side: Side, text: &str) -> Result<Vec<Act>, String> {
    let tokens = text.split([',', ' ', '\t']).filter(|token| !token.is_empty() && !FILLERS.contains(token));
    let mut tokens = tokens.peekable();
    let mut plan = vec![];
    while let Some(token) = tokens.next() {
        plan.push(match (token, side) {
            ("take", _) => Act::Take,
            ("free", _) => Act::Free,
            ("write", Side::Sender) | ("read", Side::Receiver) => touched(token, tokens.next())?,
            ("write", _) => return Err("the receiver only reads".to_string()),
            ("read", _) => return Err("the sender only writes".to_string()),
            _ => token.parse().ok().and_then(Act::from_byte).ok_or_else(|| unknown(token))?,
        });
    }
    Ok(plan)
}

/// The word that follows `read` or `write`.
fn touched(verb: &str, word: Option<&str>) -> Result<Act, String> {
    let word = word.ok_or_else(|| format!("`{verb}` of which word? 0 to 3"))?;
    match word.parse().ok().and_then(Act::from_byte) {
        Some(act @ Act::Touch(_)) => Ok(act),
        _ => Err(format!("`{verb} {word}`: the words are 0 to 3")),
    }
}

fn unknown(token: &str) -> String {
    format!("`{token}` is no action: write 0 to 3 (the sender), read 0 to 3 (the receiver), take or free")
}

/// What is wrong with plans that the library refuses.
pub fn complaint(sending: &[Act], receiving: &[Act]) -> String {
    let reads = receiving.iter().filter(|act| matches!(act, Act::Touch(_))).count();
    let flags = receiving.iter().filter(|&&act| act == Act::Touch(READY)).count();
    for (side, plan) in [("sender", sending), ("receiver", receiving)] {
        if plan.len() > ACTS {
            return format!("the {side} has {} actions; {ACTS} are the most", plan.len());
        }
    }
    match flags {
        1 => format!("the receiver reads {reads} times; {READS} are the most"),
        0 => "the receiver never reads word 3, the ready flag; it must, once".to_string(),
        _ => format!("the receiver reads word 3, the ready flag, {flags} times; once is what it may"),
    }
}

#[cfg(test)]
mod tests {
    use super::*;

    #[test]
    fn numbers_and_words_are_the_same() {
        let locked = vec![Act::Take, Act::Touch(3), Act::Touch(0), Act::Free];
        for text in ["4 3 0 5", "take, read 3, read 0, free", "take the lock, read word 3, 0, free the lock", "take 3 0 free"] {
            assert_eq!(parse(Side::Receiver, text), Ok(locked.clone()), "{text}");
        }
        assert_eq!(parse(Side::Sender, "write 0, write 3"), Ok(vec![Act::Touch(0), Act::Touch(3)]));
        assert_eq!(parse(Side::Sender, ""), Ok(vec![]));
    }

    #[test]
    fn what_is_no_plan() {
        for (side, text) in [
            (Side::Sender, "6"),
            (Side::Sender, "read 0"),
            (Side::Receiver, "write 0"),
            (Side::Receiver, "read"),
            (Side::Receiver, "read 4"),
            (Side::Receiver, "read three"),
            (Side::Sender, "wait"),
        ] {
            assert!(parse(side, text).is_err(), "{text}");
        }
        assert!(complaint(&[Act::Free; 5], &[]).contains("the sender has 5"));
        assert!(complaint(&[], &[Act::Take]).contains("never reads word 3"));
        assert!(complaint(&[], &[Act::Touch(3), Act::Touch(3)]).contains("2 times"));
        assert!(complaint(&[], &[Act::Touch(3), Act::Touch(0), Act::Touch(1), Act::Touch(2)]).contains("reads 4 times"));
    }
}
