use crate::{PROCESSORS, REGISTERS};

/// The bytes of one outcome.
pub const RECORD: usize = 96;
/// The bytes of a replay's result.
pub const ENDING: usize = 104;

/// The registers of every processor, `None` undefined; the derived order is the byte order.
#[derive(Clone, Debug, Default, PartialEq, Eq, PartialOrd, Ord, Hash)]
pub struct Outcome {
    pub registers: [[Option<u16>; REGISTERS]; PROCESSORS],
}

impl Outcome {
    /// Register k of processor p at 24p + 3k: 0,0,0 if undefined, else 1, high byte, low byte.
    pub fn bytes(&self) -> [u8; RECORD] {
        let mut bytes = [0; RECORD];
        for (place, register) in bytes.chunks_exact_mut(3).zip(self.registers.iter().flatten()) {
            if let Some(value) = register {
                let [high, low] = value.to_be_bytes();
                place.copy_from_slice(&[1, high, low]);
            }
        }
        bytes
    }

    /// The outcome of a record; any first byte but 1 is read as undefined.
    pub fn read(bytes: &[u8; RECORD]) -> Outcome {
        let register = |at: usize| (bytes[at] == 1).then(|| u16::from_be_bytes([bytes[at + 1], bytes[at + 2]]));
        Outcome { registers: std::array::from_fn(|p| std::array::from_fn(|k| register(24 * p + 3 * k))) }
    }

    /// The line that the program `outcomes` prints for it.
    pub fn line(&self, processors: usize) -> String {
        let word = |register: &Option<u16>| register.map_or("-".to_string(), |value| value.to_string());
        let of = |p: usize| format!("p{p} {}", self.registers[p].each_ref().map(word).join(" "));
        (0..processors).map(of).collect::<Vec<_>>().join(" ")
    }
}

/// What a replay leaves: registers, place counters (`None` undefined) and queue lengths.
#[derive(Clone, Debug, PartialEq, Eq)]
pub struct Ending {
    pub outcome: Outcome,
    pub places: [Option<u8>; PROCESSORS],
    pub queues: [u8; PROCESSORS],
}

impl Ending {
    /// 96 bytes of registers, 4 place counters (255 undefined), 4 queue lengths.
    pub fn bytes(&self) -> [u8; ENDING] {
        let mut bytes = [0; ENDING];
        bytes[..RECORD].copy_from_slice(&self.outcome.bytes());
        bytes[96..100].copy_from_slice(&self.places.map(|place| place.unwrap_or(255)));
        bytes[100..].copy_from_slice(&self.queues);
        bytes
    }

    pub fn read(bytes: &[u8; ENDING]) -> Ending {
        Ending {
            outcome: Outcome::read(&std::array::from_fn(|i| bytes[i])),
            places: std::array::from_fn(|p| Some(bytes[96 + p]).filter(|&place| place != 255)),
            queues: std::array::from_fn(|p| bytes[100 + p]),
        }
    }
}

#[cfg(test)]
mod tests {
    use super::*;

    fn sample() -> Outcome {
        let mut outcome = Outcome::default();
        outcome.registers[0][0] = Some(0);
        outcome.registers[1][2] = Some(0x0102);
        outcome
    }

    #[test]
    fn bytes_and_line() {
        let bytes = sample().bytes();
        assert_eq!((bytes[..3].to_vec(), bytes[30..33].to_vec()), (vec![1, 0, 0], vec![1, 1, 2]));
        assert_eq!(bytes.iter().filter(|&&byte| byte != 0).count(), 4);
        assert_eq!(Outcome::read(&bytes), sample());
        assert_eq!(sample().line(2), "p0 0 - - - - - - - p1 - - 258 - - - - -");
        assert!(Outcome::default() < sample());
    }

    #[test]
    fn an_ending_is_read_back() {
        let ending = Ending { outcome: sample(), places: [None, Some(3), Some(0), Some(0)], queues: [1, 2, 0, 0] };
        assert_eq!(ending.bytes()[96..], [255, 3, 0, 0, 1, 2, 0, 0]);
        assert_eq!(Ending::read(&ending.bytes()), ending);
    }
}
