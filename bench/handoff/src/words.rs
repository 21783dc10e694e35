//! Plans and steps in a firmware lead's words.

use std::fmt;

use womm::{Access, Act, Race, Step};

use model::{LOCATIONS, READY};

/// Who acts: the sender is core 0, the receiver core 1.
#[derive(Clone, Copy, Debug, PartialEq, Eq)]
pub enum Side {
    Sender,
    Receiver,
}

impl fmt::Display for Side {
    fn fmt(&self, f: &mut fmt::Formatter<'_>) -> fmt::Result {
        f.pad(if *self == Side::Sender { "sender" } else { "receiver" })
    }
}

/// The words of a hand-off by name; the last is the flag.
pub type Names = [&'static str; 4];

pub const NUMBERED: Names = ["word 0", "word 1", "word 2", "the flag"];

/// An action of a side.
pub fn act(side: Side, act: Act, names: &Names) -> String {
    match (side, act) {
        (_, Act::Take) => "take the lock".to_string(),
        (_, Act::Free) => "free the lock".to_string(),
        (Side::Sender, Act::Touch(READY)) => format!("raise {}", names[3]),
        (Side::Sender, Act::Touch(word)) => format!("write {}", names[usize::from(word)]),
        (Side::Receiver, Act::Touch(word)) => format!("read {}", names[usize::from(word)]),
    }
}

/// Both plans side by side, a line for each row.
pub fn table(sending: &[Act], receiving: &[Act], names: &Names) -> Vec<String> {
    let cell = |side, plan: &[Act], i: usize| {
        plan.get(i).map_or(String::new(), |&action| format!("{}. {}", i + 1, act(side, action, names)))
    };
    let row = |i| format!("{:23}{}", cell(Side::Sender, sending, i), cell(Side::Receiver, receiving, i)).trim_end().to_string();
    let head = "sender (core 0)        receiver (core 1)".to_string();
    [head].into_iter().chain((0..sending.len().max(receiving.len())).map(row)).collect()
}

/// The two accesses of a race of two plans.
pub fn race(plans: [&[Act]; 2], race: Race, names: &Names) -> String {
    let whose = |access: Access| {
        let core = usize::from(access.at.processor);
        let side = [Side::Sender, Side::Receiver][core];
        format!("the {side}'s \"{}\"", act(side, plans[core][usize::from(access.at.place)], names))
    };
    format!("{} and {} race: nothing orders them.", whose(race.first), whose(race.second))
}

/// The steps of a schedule of two plans, a line each.
pub fn steps(plans: [&[Act]; 2], schedule: &[Step], names: &Names) -> Vec<String> {
    let mut issued: Vec<(Side, Act)> = vec![];
    let mut counts = [0; 2];
    let mut lines = vec![];
    for step in schedule {
        lines.push(match *step {
            Step::Issue { processor } => {
                let core = usize::from(processor);
                let side = [Side::Sender, Side::Receiver][core];
                let started = plans[core][counts[core]];
                counts[core] += 1;
                issued.push((side, started));
                format!("{side:8} starts to {}", act(side, started, names))
            }
            Step::Commit { action, source, .. } => {
                let (side, started) = issued[usize::from(action)];
                done(side, started, source, names)
            }
        });
    }
    lines
}

/// What an action does when it takes effect.
fn done(side: Side, act: Act, source: u8, names: &Names) -> String {
    match (side, act) {
        (_, Act::Take) => format!("{side:8} holds the lock"),
        (_, Act::Free) => format!("{side:8} has freed the lock"),
        (Side::Sender, Act::Touch(word)) => format!("{side:8} is done: {} reaches memory", names[usize::from(word)]),
        (Side::Receiver, Act::Touch(word)) => format!("{side:8} gets {}: {}", names[usize::from(word)], taken(source)),
    }
}

/// What a read takes from an item.
fn taken(source: u8) -> &'static str {
    if usize::from(source) < LOCATIONS {
        "the empty word from the start"
    } else {
        "what the sender wrote"
    }
}

#[cfg(test)]
mod tests {
    use super::*;

    #[test]
    fn steps_name_what_they_are_of() {
        let issue = |processor| Step::Issue { processor };
        let take = |action, source| Step::Commit { processor: 1, action, source };
        let send = |action| Step::Commit { processor: 0, action, source: 0 };
        let plans: [&[Act]; 2] = [&[Act::Touch(0), Act::Touch(3)], &[Act::Take, Act::Touch(3), Act::Free]];
        let schedule = [issue(0), issue(1), issue(0), send(2), issue(1), take(1, 0), take(3, 10), send(0), issue(1), take(4, 0)];
        let expected = [
            "sender   starts to write word 0",
            "receiver starts to take the lock",
            "sender   starts to raise the flag",
            "sender   is done: the flag reaches memory",
            "receiver starts to read the flag",
            "receiver holds the lock",
            "receiver gets the flag: what the sender wrote",
            "sender   is done: word 0 reaches memory",
            "receiver starts to free the lock",
            "receiver has freed the lock",
        ];
        assert_eq!(steps(plans, &schedule, &NUMBERED), expected);
        let rows = ["sender (core 0)        receiver (core 1)", "1. write word 0        1. take the lock"];
        assert_eq!(table(plans[0], plans[1], &NUMBERED)[..2], rows);
    }
}
