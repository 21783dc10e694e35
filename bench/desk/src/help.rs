//! What each command is for, with an example that works.

use crate::said::{Said, Trouble, YES};

/// A command: its name, what follows it, one line, what else is to be said, and an example.
struct Command {
    name: &'static str,
    takes: &'static str,
    is: &'static str,
    more: &'static str,
    example: &'static str,
}

const COMMANDS: [Command; 11] = [
    Command {
        name: "list",
        takes: "FILE [--bound N] [--board sc|tso|pso|womm]",
        is: "every result that a case can have, and no other",
        more: "The bound counts steps on womm, 0 to 96, and instructions on a board, 0 to 48; without one it is the largest, and half of it\n\
               for a case that jumps back.\n\
               Ends with 0; with 3 if longer runs remain, which may have further results.",
        example: "./rjupholt list shapes/H.case",
    },
    Command {
        name: "ask",
        takes: "FILE RESULT [--bound N]",
        is: "whether one result is possible, and by which steps",
        more: "RESULT is up to 8 registers, as `p1:r2=1 p1:r3=0`; `=-` asks for undefined, and '' for any result.\n\
               Ends with 0 for yes, 1 for no in any run, 3 for no within the bound.",
        example: "./rjupholt ask shapes/H.case 'p1:r2=1 p1:r3=0'",
    },
    Command {
        name: "replay",
        takes: "FILE SCHEDULE",
        is: "how one schedule goes, step by step",
        more: "SCHEDULE is steps: `i0` issues processor 0's next instruction, `c1:2` commits action 2 of processor 1, `c1:2<9` commits a\n\
               read that takes item 9 (items 0 to 7 are the first words of the locations, item 8 + k is what action k wrote). Or `@FILE`,\n\
               four bytes a step; or a result, for the lowest schedule to it.\n\
               Ends with 0 if all steps are taken, 1 if one is refused.",
        example: "./rjupholt replay shapes/H.case 'i0 i0 i1 i1 c0:1 c1:2<9 c1:3 c0:0'",
    },
    Command {
        name: "race",
        takes: "FILE SCHEDULE",
        is: "the first two accesses of one location that nothing orders",
        more: "SCHEDULE as for `replay`; a result stands for the lowest schedule to it. Every queue must be empty at its end.\n\
               Ends with 0 if there is none, 1 if there is one.",
        example: "./rjupholt race shapes/H.case 'p1:r2=1 p1:r3=0'",
    },
    Command {
        name: "why",
        takes: "FILE SCHEDULE",
        is: "what each processor waits for after a schedule",
        more: "SCHEDULE as for `replay`. Ends with 0 if every oldest queued action may commit, 1 if one may not.",
        example: "./rjupholt why shapes/H-locked.case 'i0 c0:0 i1'",
    },
    Command {
        name: "boards",
        takes: "FILE",
        is: "one table: which results each of four machines has",
        more: "SC: a store reaches memory at once. TSO: one first-in first-out buffer a processor. PSO: one a processor and location.\n\
               WOMM: the weak machine. Ends with 0; with 3 if longer runs remain on one of them.",
        example: "./rjupholt boards shapes/H.case",
    },
    Command {
        name: "shelf",
        takes: "FILE",
        is: "the numbers over a file of blocks",
        more: "Whole blocks, accepted ones, refused ones by code, bytes left over, instructions by op. Over 65,535 blocks: `refused 16`, status 2.",
        example: "./rjupholt shelf bench/inputs/shelf/one-block.in",
    },
    Command {
        name: "block",
        takes: "FILE",
        is: "the 512 bytes of a case, on standard output",
        more: "FILE is a text or a block.",
        example: "./rjupholt block shapes/H.case",
    },
    Command {
        name: "text",
        takes: "FILE",
        is: "the text of a case",
        more: "FILE is a text or a block. An old text or block with a usual bound comes back without it.",
        example: "./rjupholt text shapes/H.case",
    },
    Command {
        name: "draw",
        takes: "FILE SCHEDULE|RESULT [--bound N] [--svg]",
        is: "a run as a picture",
        more: "A column a processor: issue and commit of each action, what each read took, what stood ordered; a read that took an old\n\
               word is marked. With --svg the picture is SVG, on standard output.",
        example: "./rjupholt draw shapes/H.case 'p1:r2=1 p1:r3=0'",
    },
    Command {
        name: "check",
        takes: "FOLDER",
        is: "every NAME.case of a folder against its NAME.results",
        more: "Ends with 0 if all agree, 1 if one differs, which is then named with the line.",
        example: "./rjupholt check shapes/",
    },
];

/// The help of a command, or of all.
pub fn of(command: Option<&String>) -> Result<Said, Trouble> {
    let Some(name) = command.filter(|name| !name.starts_with('-')) else {
        return Ok(Said::new(all(), YES));
    };
    let found = COMMANDS.iter().find(|command| command.name == name);
    let Command { name, takes, is, more, example } = found.ok_or_else(|| Trouble::usage(format!("`{name}` is no command")))?;
    let text = format!("./rjupholt {name} {takes}\n\nPrints {is}.\n{more}\n\nFor example\n\n    {example}\n");
    Ok(Said::new(text, YES))
}

fn all() -> String {
    let line = |command: &Command| format!("    {:8}{}\n", command.name, command.is);
    let commands: String = COMMANDS.iter().map(line).collect();
    format!(
        "./rjupholt COMMAND ...: what a small hand-off between cores can come to on hardware that reorders\n\n{commands}\n\
         `./rjupholt COMMAND --help` says more and has an example. A case is a file: a text as in shapes/, or a block of 512 bytes; `-` is\n\
         standard input. Ends with 0 for yes or all well, 1 for no, 2 for a refused command or input, 3 where the bound cut off longer\n\
         runs, 4 where a file could not be read or the answer not be written.\n"
    )
}
