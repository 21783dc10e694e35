use std::fs::File;
use std::io::{self, Write};
use std::os::fd::OwnedFd;
use std::os::unix::net::UnixDatagram;
use std::process::{Child, Command, Stdio};

/// The proved program: the command that runs it, word by word.
pub struct Program {
    command: Vec<String>,
}

impl Program {
    /// `command` has a first word.
    pub fn new(command: Vec<String>) -> Program {
        Program { command }
    }

    fn start(&self, input: Stdio) -> io::Result<Child> {
        Command::new(&self.command[0]).args(&self.command[1..]).stdin(input).stdout(Stdio::piped()).spawn()
    }

    /// What it prints of a file.
    pub fn of_file(&self, file: File) -> io::Result<String> {
        printed(self.start(file.into())?)
    }

    /// What it prints of a shelf that is written into a pipe, so many bytes at a time. It may stop reading early.
    pub fn of_pipe(&self, shelf: &[u8], bytes: usize) -> io::Result<String> {
        let mut child = self.start(Stdio::piped())?;
        let mut pipe = child.stdin.take().expect("a pipe");
        for piece in shelf.chunks(bytes) {
            if pipe.write_all(piece).is_err() {
                break;
            }
        }
        drop(pipe);
        printed(child)
    }

    /// What it prints of a shelf that comes in exactly these pieces: each read gets one, and an empty one is the end.
    pub fn of_pieces(&self, shelf: &[u8], mut bytes: impl FnMut() -> usize) -> io::Result<String> {
        let (end, other) = UnixDatagram::pair()?;
        let child = self.start(OwnedFd::from(other).into())?;
        let mut rest = shelf;
        while !rest.is_empty() {
            let (piece, behind) = rest.split_at(bytes().min(rest.len()));
            end.send(piece)?;
            rest = behind;
        }
        end.send(&[])?;
        printed(child)
    }
}

fn printed(child: Child) -> io::Result<String> {
    let output = child.wait_with_output()?;
    Ok(String::from_utf8_lossy(&output.stdout).into_owned())
}
