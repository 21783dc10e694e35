//! The fields of a block by name.

use crate::layout::{CHECK, COUNTS, MASKS, MEMORY, PRESETS, PROGRAMS, TAIL};

/// The field that a byte of a block belongs to.
pub fn named(position: usize) -> String {
    let half = |at: usize| if at.is_multiple_of(2) { "low" } else { "high" };
    match position {
        0 => "the number of processors".to_string(),
        1 => "the number of locations".to_string(),
        2 => "the usual bound".to_string(),
        3 => "which must be zero".to_string(),
        COUNTS..MASKS => format!("processor {}, count", position - COUNTS),
        MASKS..PRESETS => format!("processor {}, preset mask", position - MASKS),
        PRESETS..MEMORY => {
            let at = position - PRESETS;
            format!("processor {}, preset of register {}, {} byte", at / 16, at % 16 / 2, half(at))
        }
        MEMORY..PROGRAMS => {
            let at = position - MEMORY;
            format!("memory word of location {}, {} byte", at / 2, half(at))
        }
        PROGRAMS..TAIL => {
            let at = position - PROGRAMS;
            format!("processor {}, instruction {}, {}", at / 72, at % 72 / 6, part(at % 6))
        }
        TAIL..CHECK => "which must be zero".to_string(),
        _ => "the check".to_string(),
    }
}

/// The bytes of an instruction.
fn part(at: usize) -> &'static str {
    ["op", "d", "a", "b", "the constant's low byte", "the constant's high byte"][at]
}

#[cfg(test)]
mod tests {
    use super::*;

    #[test]
    fn every_kind_of_field() {
        for (position, name) in [
            (0, "the number of processors"),
            (2, "the usual bound"),
            (3, "which must be zero"),
            (6, "processor 2, count"),
            (11, "processor 3, preset mask"),
            (12, "processor 0, preset of register 0, low byte"),
            (43, "processor 1, preset of register 7, high byte"),
            (75, "processor 3, preset of register 7, high byte"),
            (76, "memory word of location 0, low byte"),
            (91, "memory word of location 7, high byte"),
            (92, "processor 0, instruction 0, op"),
            (170, "processor 1, instruction 1, op"),
            (174, "processor 1, instruction 1, the constant's low byte"),
            (379, "processor 3, instruction 11, the constant's high byte"),
            (380, "which must be zero"),
            (511, "the check"),
        ] {
            assert_eq!(named(position), name, "{position}");
        }
    }
}
