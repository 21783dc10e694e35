//! Actions in words.

use womm::Instr;

use crate::trace::{Action, Source, Trace};

/// An instruction as its issue names it.
pub fn issue(action: &Action) -> String {
    let location = action.location.map_or("?".to_string(), |location| location.to_string());
    match action.instr {
        Instr::Read { d, .. } => format!("r{d} = [{location}]"),
        Instr::Write { b, .. } => format!("[{location}] = r{b}"),
        Instr::Set { d, constant } => format!("r{d} = {constant}"),
        Instr::Add { d, a, b } => format!("r{d} = r{a} + r{b}"),
        Instr::Sub { d, a, b } => format!("r{d} = r{a} - r{b}"),
        Instr::Equal { d, a, b } => format!("r{d} = r{a} is r{b}"),
        Instr::Branch { a, label } => format!("if r{a} goto {label}"),
        Instr::Goto { label } => format!("goto {label}"),
        Instr::Acquire { a } => format!("acquire [r{a}]"),
        Instr::Release { a } => format!("release [r{a}]"),
    }
}

/// What an action's commit does.
pub fn commit(action: &Action) -> String {
    let location = action.location.map_or("?".to_string(), |location| location.to_string());
    let value = action.value.unwrap_or(0);
    match action.instr {
        Instr::Read { d, .. } => format!("r{d} = {value}, {}", taken(action.source)),
        Instr::Write { .. } => format!("[{location}] = {value} stands"),
        Instr::Branch { label, .. } if value != 0 => format!("goes to {label}"),
        Instr::Branch { .. } => "goes on".to_string(),
        Instr::Goto { .. } => "done".to_string(),
        Instr::Acquire { .. } => format!("holds [{location}]"),
        Instr::Release { .. } => format!("has freed [{location}]"),
        _ => format!("{} = {value}", issue(action).split(' ').next().unwrap_or_default()),
    }
}

fn taken(source: Option<Source>) -> String {
    match source {
        Some(Source::Write(action)) => format!("from action {action}"),
        _ => "from the start".to_string(),
    }
}

/// What was wrong with a read: the write that stood in memory when it took an older one.
pub fn old(trace: &Trace, action: &Action) -> Option<String> {
    let missed = action.missed?;
    let word = trace.actions[missed].value.unwrap_or(0);
    Some(format!("OLD: action {missed} had put {word} there"))
}

/// What stood ordered at the end: each processor's actions as issued, and each release before the acquires behind it.
pub fn ordered(trace: &Trace) -> Vec<String> {
    let own = |p: usize| {
        let numbers = (0..trace.actions.len()).filter(|&k| trace.actions[k].processor == p).map(|k| k.to_string());
        (p, numbers.collect::<Vec<_>>())
    };
    let mut lines: Vec<String> = (0..trace.processors)
        .map(own)
        .filter(|(_, numbers)| numbers.len() > 1)
        .map(|(p, numbers)| format!("p{p}, as issued: {}", numbers.join(" before ")))
        .collect();
    let across = handed(trace).into_iter().map(|(release, acquire)| {
        let location = trace.actions[acquire].location.unwrap_or(0);
        format!("by the lock [{location}]: {release} before {acquire}")
    });
    let across: Vec<String> = across.collect();
    match across.is_empty() {
        true => lines.push("between processors: nothing".to_string()),
        false => lines.extend(across),
    }
    lines
}

/// Each release with the acquires of other processors that stand behind it.
pub fn handed(trace: &Trace) -> Vec<(usize, usize)> {
    let behind = |acquire: usize| trace.actions[acquire].behind.iter().map(move |&release| (release, acquire));
    let pairs = (0..trace.actions.len()).flat_map(behind);
    pairs.filter(|&(a, b)| trace.actions[a].processor != trace.actions[b].processor).collect()
}
