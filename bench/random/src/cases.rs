//! Random sound cases.

use model::ops::*;
use model::{Case, CaseBuilder, Instr};

use crate::Rng;

/// The registers that hold addresses and values from the start, and those that instructions assign.
const GIVEN: [u8; 5] = [0, 0, 1, 1, 4];
const ASSIGNED: [u8; 4] = [2, 3, 5, 6];
pub const VALUES: [u16; 8] = [0, 1, 2, 3, 7, 255, 256, 65_535];

/// A case for listing: few instructions, mostly races.
pub fn to_list(rng: &mut Rng) -> Case {
    match rng.below(24) {
        0 | 1 => return two_sections(rng),
        2 | 3 => return spinning(rng),
        4 | 5 => return repeated(rng),
        6 => return any_ops(rng, 2, 3),
        _ => (),
    }
    let processors = rng.pick(&[1, 2, 2, 2, 2, 2, 3, 3, 4]);
    let locations = rng.pick(&[1, 2, 2, 3]);
    let mut case = started(rng, processors, locations);
    for p in 0..processors {
        let count = if processors == 4 { 1 } else { rng.pick(&[1, 2, 2, 3]) };
        let mut program = program(rng, count, 12);
        for instr in &mut program {
            if rng.once_in(2) {
                *instr = racing(rng);
            }
        }
        case = programmed(rng, case, p, &program).preset(p, 7, p as u16 + 5);
    }
    case.build().expect("a sound case")
}

/// A processor's program, with presets for registers that it reads and nothing sets: otherwise the case gets 19.
fn programmed(rng: &mut Rng, mut case: CaseBuilder, p: usize, program: &[Instr]) -> CaseBuilder {
    let set: Vec<u8> = program.iter().filter_map(|instr| instr.output()).chain(GIVEN).collect();
    for k in program.iter().flat_map(|instr| instr.inputs()).filter(|k| !set.contains(k)) {
        case = case.preset(p, k.into(), rng.pick(&VALUES));
    }
    case.program(p, program)
}

/// A case that tells machines apart: reads and writes of two locations alone, two or three a processor.
pub fn to_race(rng: &mut Rng) -> Case {
    let processors = rng.pick(&[2, 2, 3]);
    let mut case = started(rng, processors, 2);
    for p in 0..processors {
        let count = if processors == 3 { 2 } else { 2 + rng.below(2) };
        let first = rng.below(2) as u8;
        let program: Vec<Instr> = (0..count).map(|i| raced(rng, (first + i as u8) % 2)).collect();
        case = case.preset(p, 7, p as u16 + 5).program(p, &program);
    }
    case.build().expect("a sound case")
}

/// A read or write of a location, or now and then of the other one.
fn raced(rng: &mut Rng, location: u8) -> Instr {
    let location = if rng.once_in(4) { 1 - location } else { location };
    if rng.once_in(2) {
        read(rng.pick(&ASSIGNED), location)
    } else {
        write(location, 7)
    }
}

/// A critical section on each of two processors.
fn two_sections(rng: &mut Rng) -> Case {
    let mut case = started(rng, 2, 2);
    for p in 0..2 {
        case = case.preset(p, 7, p as u16 + 5).program(p, &section(rng, 0));
    }
    case.build().expect("a sound case")
}

/// A case of critical sections of one lock, with now and then another lock or an access outside: most of its runs have
/// no race.
pub fn to_order(rng: &mut Rng) -> Case {
    let processors = rng.pick(&[2, 2, 3]);
    let mut case = started(rng, processors, 2);
    for p in 0..processors {
        let mut program = vec![];
        for _ in 0..1 + rng.below(2) {
            let lock = if rng.once_in(16) { 1 } else { 0 };
            program.push(acquire(lock));
            program.extend((0..1 + rng.below(2)).map(|_| racing(rng)));
            program.push(release(lock));
            program.extend(rng.once_in(16).then(|| racing(rng)));
        }
        case = case.preset(p, 7, p as u16 + 5).program(p, &program);
    }
    case.build().expect("a sound case")
}

/// A processor or two that wait until a location is no longer 0, beside one that writes: runs may be long,
/// yet a branch keeps what can be issued early small.
fn spinning(rng: &mut Rng) -> Case {
    let waiting = 1 + rng.below(2);
    let mut case = Case::builder(waiting as u8 + 1, 2);
    for p in 0..=waiting {
        case = case.preset(p, 0, 0).preset(p, 1, 1).preset(p, 7, p as u16 + 5);
    }
    let wait = [read(2, 0), equal(3, 2, 0), branch(3, 0), racing(rng)];
    for p in 1..=waiting {
        case = case.program(p, &wait[..3 + rng.below(2)]);
    }
    let writes: Vec<Instr> = (0..rng.below(2)).map(|_| racing(rng)).chain([write(0, 1)]).collect();
    case.program(0, &writes).build().expect("a sound case")
}

/// Writes of one or two values beside reads into one or two registers: many sources of one value, and reads that
/// nothing looks at, some through an instruction that nothing looks at either.
fn repeated(rng: &mut Rng) -> Case {
    let writes: Vec<Instr> = (0..2 + rng.below(2)).map(|_| write(0, rng.pick(&[1, 1, 7]))).collect();
    let mut reads: Vec<Instr> = (0..2 + rng.below(2)).map(|_| read(rng.pick(&[2, 2, 3]), rng.pick(&[0, 0, 0, 1]))).collect();
    if rng.once_in(2) {
        let at = rng.below(reads.len() + 1);
        reads.insert(at, rng.pick(&[set(2, 9), add(3, 2, 2), write(0, 2), sub(2, 2, 1), branch(2, at as u16 + 1)]));
    }
    let case = (0..2).fold(Case::builder(2, 2), |case, p| case.preset(p, 0, 0).preset(p, 1, 1).preset(p, 7, p as u16 + 5));
    case.preset(1, 2, 3).program(0, &writes).program(1, &reads).build().expect("a sound case")
}

/// Every op alike over eight locations, with every register preset: full size with four processors of twelve.
pub fn any_ops(rng: &mut Rng, processors: usize, count: usize) -> Case {
    const LOCATIONS: usize = 8;
    let mut case = Case::builder(processors as u8, LOCATIONS as u8);
    for location in 0..LOCATIONS {
        case = case.memory(location, rng.below(LOCATIONS) as u16);
    }
    for p in 0..processors {
        for k in 0..8 {
            case = case.preset(p, k, rng.below(LOCATIONS) as u16);
        }
        let program: Vec<Instr> = (0..count).map(|_| any_op(rng, count)).collect();
        case = case.program(p, &program);
    }
    case.build().expect("a sound case")
}

fn any_op(rng: &mut Rng, count: usize) -> Instr {
    let [d, a, b] = [(); 3].map(|()| rng.below(8) as u8);
    let (label, value) = (rng.below(count + 1) as u16, rng.below(8) as u16);
    let any = [
        read(d, a),
        write(a, b),
        set(d, value),
        add(d, a, b),
        sub(d, a, b),
        equal(d, a, b),
        branch(a, label),
        goto(label),
        acquire(a),
        release(a),
    ];
    rng.pick(&any)
}

/// A read or write of one of two locations; register 7 holds a value of the processor's own.
fn racing(rng: &mut Rng) -> Instr {
    let address = rng.pick(&[0, 0, 1]);
    if rng.once_in(2) {
        read(rng.pick(&ASSIGNED), address)
    } else {
        write(address, 7)
    }
}

/// Whether some label does not lie past its own instruction.
pub fn loops(case: &Case) -> bool {
    let back = |(place, instr): (usize, &Instr)| match instr {
        Instr::Branch { label, .. } | Instr::Goto { label } => usize::from(*label) <= place,
        _ => false,
    };
    case.processors().iter().any(|processor| processor.program.iter().enumerate().any(back))
}

/// A case for replaying: long programs, loops and locks.
pub fn to_replay(rng: &mut Rng) -> Case {
    if rng.once_in(3) {
        return locked(rng);
    }
    let processors = 1 + rng.below(4);
    let locations = rng.pick(&[1, 2, 2, 3, 8]);
    let mut case = started(rng, processors, locations);
    for p in 0..processors {
        let count = 4 + rng.below(9);
        let back = rng.pick(&[2, 6, 100]);
        let mut program = program(rng, count, back);
        if rng.once_in(2) {
            program[count - 1] = goto(rng.below(count) as u16);
        }
        case = programmed(rng, case, p, &program);
    }
    case.build().expect("a sound case")
}

/// A case of critical sections around races, over and over: here the orders grow across processors.
fn locked(rng: &mut Rng) -> Case {
    let processors = 2 + rng.below(2);
    let locations = rng.pick(&[1, 2, 2]);
    let mut case = started(rng, processors, locations);
    for p in 0..processors {
        let mut program = vec![];
        while program.len() < 6 {
            program.extend(section(rng, program.len() as u16));
        }
        program.push(goto(0));
        case = case.preset(p, 7, p as u16 + 5).program(p, &program);
    }
    case.build().expect("a sound case")
}

/// An acquire, one to three instructions and a release, with now and then a second acquire.
fn section(rng: &mut Rng, from: u16) -> Vec<Instr> {
    let lock = rng.pick(&[0, 0, 0, 1]);
    let mut section = vec![acquire(lock)];
    for _ in 0..1 + rng.below(3) {
        let next = from + section.len() as u16 + 1;
        section.push(match rng.below(10) {
            0 | 1 => goto(next),
            2 => branch(rng.pick(&GIVEN), next),
            3 => acquire(lock),
            4 => set(rng.pick(&ASSIGNED), next),
            _ => racing(rng),
        });
    }
    section.push(release(lock));
    section
}

/// Presets and memory. Register 4 is now and then no location's number.
fn started(rng: &mut Rng, processors: usize, locations: u8) -> CaseBuilder {
    let mut case = Case::builder(processors as u8, locations);
    for p in 0..processors {
        case = case.preset(p, 0, 0).preset(p, 1, 1.min(u16::from(locations) - 1));
        let last = u16::from(locations) + u16::from(rng.once_in(5));
        case = case.preset(p, 4, rng.below(last.into()) as u16);
        for k in [2, 3, 5, 6, 7] {
            if rng.once_in(3) {
                case = case.preset(p, k, rng.pick(&VALUES));
            }
        }
    }
    for location in 0..locations {
        if rng.once_in(3) {
            case = case.memory(location.into(), rng.pick(&VALUES));
        }
    }
    case
}

/// `count` instructions; a jump goes back once in `back` times.
fn program(rng: &mut Rng, count: usize, back: usize) -> Vec<Instr> {
    let mut defined = GIVEN.to_vec();
    let mut program = vec![];
    for place in 0..count {
        let to = if rng.once_in(back) { rng.below(count) } else { place + 1 + rng.below(count - place) };
        let instr = instr(rng, &defined, to as u16);
        defined.extend(instr.output());
        program.push(instr);
    }
    if count >= 3 && rng.once_in(4) {
        let lock = rng.pick(&GIVEN);
        program[0] = acquire(lock);
        program[count - 1] = release(lock);
    }
    program
}

/// An instruction that mostly reads registers already defined, as otherwise runs soon get stuck.
fn instr(rng: &mut Rng, defined: &[u8], to: u16) -> Instr {
    let any = rng.below(8) as u8;
    let address = if rng.once_in(8) { rng.pick(defined) } else { rng.pick(&GIVEN) };
    let value = if rng.once_in(16) { any } else { rng.pick(defined) };
    let (d, other) = (rng.pick(&ASSIGNED), rng.pick(defined));
    match rng.below(40) {
        0..=13 => read(d, address),
        14..=26 => write(rng.pick(&[address, address, address, any]), value),
        27..=28 => set(d, rng.pick(&VALUES)),
        29..=30 => add(d, value, other),
        31..=32 => sub(d, value, other),
        33..=34 => equal(d, value, other),
        35..=36 => branch(rng.pick(&[value, other]), to),
        37 => goto(to),
        38 => acquire(rng.pick(&[address, any])),
        _ => release(address),
    }
}
