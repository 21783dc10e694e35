//! The order of one location, made anew from a state whenever it is asked for.

use model::{Case, Instr};

use crate::state::{Action, Item, State};

/// The items of a location and, for each pair, whether the first stands before the second.
pub struct Order {
    location: u8,
    items: Vec<Item>,
    before: Vec<Vec<bool>>,
}

impl Order {
    pub fn new(state: &State, location: u8) -> Order {
        let joins = |action: &Action| action.instr.is_sync() || action.location == Some(location);
        let mut items = vec![Item::Initial(location)];
        for p in 0..state.processors() {
            let joined = (0..).zip(state.actions(p)).filter(|(_, action)| joins(action));
            items.extend(joined.map(|(i, _)| Item::Of((p, i))));
        }
        let pairs = |a: &Item| items.iter().map(|b| put_before(state, *a, *b)).collect();
        let mut before: Vec<Vec<bool>> = items.iter().map(pairs).collect();
        close(&mut before);
        Order { location, items, before }
    }

    /// The write items that a read may take, with their values.
    pub fn visible(&self, state: &State, case: &Case, read: Item) -> Vec<(Item, u16)> {
        let stands = |a: usize, b: usize| self.before[a][b];
        let at = self.items.iter().position(|&item| item == read).expect("a read's item joined its location's order");
        let writes: Vec<usize> = (0..self.items.len()).filter(|&w| self.is_write(state, w)).collect();
        let hidden = |e: usize| writes.iter().any(|&w| stands(e, w) && stands(w, at));
        let seen = writes.iter().filter(|&&e| !hidden(e) && !stands(at, e));
        seen.filter_map(|&e| self.value(state, case, e).map(|value| (self.items[e], value))).collect()
    }

    fn is_write(&self, state: &State, at: usize) -> bool {
        match self.items[at] {
            Item::Initial(_) => true,
            Item::Of((p, i)) => matches!(state.actions(p)[usize::from(i)].instr, Instr::Write { .. }),
        }
    }

    fn value(&self, state: &State, case: &Case, at: usize) -> Option<u16> {
        match self.items[at] {
            Item::Initial(_) => Some(case.memory(self.location)),
            Item::Of((p, i)) => state.actions(p)[usize::from(i)].result,
        }
    }
}

/// The pairs that issue and an acquire's commit put in, before closing.
fn put_before(state: &State, a: Item, b: Item) -> bool {
    match (a, b) {
        (_, Item::Initial(_)) => false,
        (Item::Initial(_), _) => true,
        (Item::Of(a), Item::Of(b)) => {
            let after = &state.actions(b.0)[usize::from(b.1)].after;
            a.0 == b.0 && a.1 < b.1 || after.contains(&a)
        }
    }
}

/// Warshall's transitive closure.
fn close(before: &mut [Vec<bool>]) {
    let n = before.len();
    for via in 0..n {
        for a in 0..n {
            for b in 0..n {
                before[a][b] |= before[a][via] && before[via][b];
            }
        }
    }
}

#[cfg(test)]
mod tests {
    use super::*;

    #[test]
    fn a_chain_is_closed() {
        let mut before = vec![vec![false; 4]; 4];
        for a in 0..3 {
            before[a][a + 1] = true;
        }
        close(&mut before);
        for (a, row) in before.iter().enumerate() {
            for (b, &stands) in row.iter().enumerate() {
                assert_eq!(stands, a < b);
            }
        }
    }
}
