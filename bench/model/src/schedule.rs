/// One step of a schedule. A commit that is not a read's names source 0.
#[derive(Clone, Copy, Debug, PartialEq, Eq, Hash)]
pub enum Step {
    Issue { processor: u8 },
    Commit { processor: u8, action: u8, source: u8 },
}

impl Step {
    /// Kind, processor, action number, source item.
    pub fn bytes(self) -> [u8; 4] {
        match self {
            Step::Issue { processor } => [0, processor, 0, 0],
            Step::Commit { processor, action, source } => [1, processor, action, source],
        }
    }
}

/// The bytes of the longest schedule.
pub const SCHEDULE: usize = 384;

/// The steps of a schedule's bytes.
pub fn steps(schedule: &[u8]) -> Vec<Step> {
    let step = |bytes: &[u8]| match *bytes {
        [0, processor, ..] => Step::Issue { processor },
        [_, processor, action, source] => Step::Commit { processor, action, source },
        _ => unreachable!("a step has four bytes"),
    };
    schedule.chunks_exact(4).map(step).collect()
}

/// Puts a schedule at the start of a buffer; its bytes.
pub fn put_schedule(buffer: &mut [u8], steps: &[Step]) -> usize {
    let bytes = schedule(steps);
    buffer[..bytes.len()].copy_from_slice(&bytes);
    bytes.len()
}

/// The bytes of a schedule.
pub fn schedule(steps: &[Step]) -> Vec<u8> {
    steps.iter().flat_map(|step| step.bytes()).collect()
}
