//! Cases from files.

use std::fs::File;
use std::io::{self, Read};

use womm::{Case, Reason, Refusal};

use crate::said::{cause, Trouble};

/// The longest text has 1,369 bytes; with an old usual bound three more.
const MOST: u64 = 1_372;

/// The case of a file, a text or a block; `-` is standard input.
pub fn case(path: &str) -> Result<Case, Trouble> {
    let bytes = bytes(path)?;
    if bytes.len() as u64 > MOST {
        return Err(Trouble::refused(path, "too long for a case: a block has 512 bytes, the longest text 1,369"));
    }
    if bytes.is_empty() {
        return Err(Trouble::refused(path, "the file is empty, and so no case (code 17, line 1)"));
    }
    match is_text(&bytes) {
        true => Case::from_text(&bytes).map_err(|refusal| Trouble::refused(path, of_text(&bytes, refusal))),
        false => Case::from_block(&bytes).map_err(|refusal| Trouble::refused(path, of_block(bytes.len(), refusal))),
    }
}

/// The bytes of a file, and no more than a case could have and one.
fn bytes(path: &str) -> Result<Vec<u8>, Trouble> {
    let mut bytes = vec![];
    let read = open(path).and_then(|file| file.take(MOST + 1).read_to_end(&mut bytes));
    read.map_err(|wrong| Trouble::system(format!("{path}: {}", cause(&wrong))))?;
    Ok(bytes)
}

/// A file, or standard input.
pub fn open(path: &str) -> io::Result<Box<dyn Read>> {
    Ok(match path {
        "-" => Box::new(io::stdin()),
        _ => Box::new(File::open(path)?),
    })
}

/// A block begins with a number from 1 to 4; what can be typed is a text.
fn is_text(bytes: &[u8]) -> bool {
    bytes.iter().all(|&byte| byte == b'\n' || byte == b'\t' || byte == b'\r' || (b' '..=b'~').contains(&byte))
}

/// A refused text: the line, what stands there, and what is wrong with it.
fn of_text(bytes: &[u8], refusal: Refusal) -> String {
    let (code, line) = (refusal.code(), refusal.line.unwrap_or(0) as usize);
    let text = String::from_utf8_lossy(bytes);
    let lines: Vec<&str> = text.split_terminator('\n').collect();
    let Some(stands) = line.checked_sub(1).and_then(|line| lines.get(line)) else {
        return format!("line {line}: the text ends too early: a label of the last program goes past its end (code {code})");
    };
    let what = match refusal.reason {
        Reason::NobodySets => "reads a register that no preset gives and no instruction of its processor assigns",
        _ if line == lines.len() && !text.ends_with('\n') => "has no line feed at its end",
        _ => fault(stands),
    };
    format!("line {line}: `{stands}` {what} (code {code})")
}

/// What a line that no case's text goes on with looks like.
fn fault(line: &str) -> &'static str {
    match line.split(' ').next() {
        _ if line.contains('\r') => "ends with a carriage return; lines end with a line feed alone",
        _ if line.contains('\t') || line.contains("  ") || line.ends_with(' ') => "has more than single spaces",
        Some("case") => "is no first line: `case P M`, 1 to 4 processors and 1 to 8 locations",
        Some("mem") => "is no line here: `mem LOCATION VALUE`, ascending, before `reg` and `op`, no word of 0",
        Some("reg") => "is no line here: `reg PROCESSOR REGISTER VALUE`, ascending, after `mem` and before `op`",
        Some("op") => {
            "is no line here: `op PROCESSOR WORD FIELDS`, by processor, at most 12 each, and no label before it past its program's end"
        }
        _ => "is no line of a case: they begin with `case`, `mem`, `reg` or `op`",
    }
}

/// A refused block.
fn of_block(length: usize, refusal: Refusal) -> String {
    match refusal.reason {
        Reason::BlockLength => format!("{length} bytes that are no text, and a block has 512 (code 1)"),
        Reason::Check => "the block's check is wrong: bytes were changed or lost (code 2)".to_string(),
        _ => format!("{refusal} (code {})", refusal.code()),
    }
}
