//! What a command answers.

use std::io;

/// The statuses to end with.
pub const YES: u8 = 0;
pub const NO: u8 = 1;
pub const REFUSED: u8 = 2;
pub const CUT: u8 = 3;
pub const SYSTEM: u8 = 4;

/// All that a command prints, and the status to end with.
pub struct Said {
    pub bytes: Vec<u8>,
    pub status: u8,
}

impl Said {
    pub fn new(text: impl Into<Vec<u8>>, status: u8) -> Said {
        Said { bytes: text.into(), status }
    }
}

/// Why there is no answer, in one line, and the status to end with.
pub struct Trouble {
    pub words: String,
    pub status: u8,
}

impl Trouble {
    /// The command line is none.
    pub fn usage(words: impl Into<String>) -> Trouble {
        Trouble { words: words.into(), status: REFUSED }
    }

    /// An input is refused.
    pub fn refused(what: &str, why: impl std::fmt::Display) -> Trouble {
        Trouble { words: format!("{what}: {why}"), status: REFUSED }
    }

    /// A file or a pipe fails.
    pub fn system(words: impl Into<String>) -> Trouble {
        Trouble { words: words.into(), status: SYSTEM }
    }
}

/// A failure of the system in plain words.
pub fn cause(wrong: &io::Error) -> String {
    match wrong.kind() {
        io::ErrorKind::NotFound => "there is no such file".to_string(),
        io::ErrorKind::PermissionDenied => "no permission".to_string(),
        io::ErrorKind::IsADirectory => "it is a directory".to_string(),
        io::ErrorKind::NotADirectory => "it is not in a directory".to_string(),
        io::ErrorKind::BrokenPipe => "the reader of the pipe has gone".to_string(),
        _ => wrong.to_string(),
    }
}
