use std::collections::BTreeMap;
use std::fmt::Write;

use model::block::{seal, LENGTH};

const WORDS: [&str; 10] = ["read", "write", "set", "add", "sub", "eq", "branch", "goto", "acquire", "release"];

/// Which of d, a, b and the constant each op uses, ops 1 to 10.
const USED: [[bool; 4]; 10] = [
    [true, true, false, false],
    [false, true, true, false],
    [true, false, false, true],
    [true, true, true, false],
    [true, true, true, false],
    [true, true, true, false],
    [false, true, false, true],
    [false, false, false, true],
    [false, true, false, false],
    [false, true, false, false],
];

/// An op and its fields d, a, b and constant.
type Op = (usize, [u32; 4]);

/// What lines say, each field where its line puts it.
#[derive(Clone, Default)]
pub struct Draft {
    sizes: Vec<u32>,
    memory: BTreeMap<u32, u32>,
    presets: BTreeMap<(u32, u32), u32>,
    programs: BTreeMap<u32, Vec<Op>>,
}

impl Draft {
    pub fn of_lines(lines: &[&[u8]]) -> Option<Draft> {
        let mut draft = Draft::default();
        for line in lines {
            draft.take(std::str::from_utf8(line).ok()?.trim_end_matches('\n'))?;
        }
        Some(draft)
    }

    fn take(&mut self, line: &str) -> Option<()> {
        let words: Vec<&str> = line.split(' ').collect();
        let numbers = |from: usize| words.get(from..)?.iter().map(|word| word.parse().ok()).collect::<Option<Vec<u32>>>();
        match (words[0], words.len()) {
            ("case", 3 | 4) => self.sizes = numbers(1)?,
            ("mem", 3) => {
                self.memory.insert(numbers(1)?[0], numbers(1)?[1]);
            }
            ("reg", 4) => {
                self.presets.insert((numbers(1)?[0], numbers(1)?[1]), numbers(1)?[2]);
            }
            ("op", 3..) => {
                let op = WORDS.iter().position(|&word| word == words[2])?;
                let mut given = numbers(3)?.into_iter();
                let fields = USED[op].map(|used| if used { given.next() } else { Some(0) });
                let [Some(d), Some(a), Some(b), Some(constant)] = fields else { return None };
                given.next().is_none().then_some(())?;
                self.programs.entry(words[1].parse().ok()?).or_default().push((op, [d, a, b, constant]));
            }
            _ => return None,
        }
        Some(())
    }

    /// Draws each program out with `goto 0` until its labels are reached.
    pub fn draw_out(&mut self) {
        for program in self.programs.values_mut() {
            let labels = program.iter().filter(|(op, _)| WORDS[*op] == "branch" || WORDS[*op] == "goto");
            let highest = labels.map(|(_, fields)| fields[3]).max().unwrap_or(0);
            while program.len() < highest.min(12) as usize {
                program.push((7, [0; 4]));
            }
        }
    }

    pub fn had_bound(&self) -> bool {
        self.sizes.get(2).is_some_and(|&bound| bound != 0)
    }

    /// The bytes, if every number fits its field; byte 2 holds the usual bound of an old text while it is judged.
    fn bytes(&self) -> Option<[u8; LENGTH]> {
        let mut block = [0; LENGTH];
        for (at, &size) in self.sizes.iter().enumerate() {
            block[at] = size.try_into().ok()?;
        }
        for (&location, &value) in &self.memory {
            put(&mut block, 76, 8, location, value)?;
        }
        for (&(p, k), &value) in &self.presets {
            (p < 4 && k < 8).then_some(())?;
            block[8 + p as usize] |= 1 << k;
            put(&mut block, 12, 32, 8 * p + k, value)?;
        }
        for (&p, program) in &self.programs {
            (p < 4 && program.len() <= 12).then_some(())?;
            block[4 + p as usize] = program.len() as u8;
            for (i, (op, fields)) in program.iter().enumerate() {
                let at = 92 + 72 * p as usize + 6 * i;
                block[at] = *op as u8 + 1;
                for (j, &field) in fields[..3].iter().enumerate() {
                    block[at + 1 + j] = field.try_into().ok()?;
                }
                block[at + 4..at + 6].copy_from_slice(&u16::try_from(fields[3]).ok()?.to_le_bytes());
            }
        }
        Some(block)
    }

    /// The block, sealed; `None` where a number fits no field or an old bound is over 96.
    pub fn block(&self) -> Option<[u8; LENGTH]> {
        let mut block = self.bytes()?;
        (block[2] <= 96).then_some(())?;
        block[2] = 0;
        seal(&mut block);
        Some(block)
    }

    pub fn of_block(block: &[u8]) -> Draft {
        let word = |at: usize| u32::from(u16::from_le_bytes([block[at], block[at + 1]]));
        let mut draft = Draft { sizes: vec![block[0].into(), block[1].into()], ..Draft::default() };
        draft.memory = (0..8).map(|l| (l, word(76 + 2 * l as usize))).filter(|&(_, value)| value != 0).collect();
        for p in 0..4 {
            for k in (0..8).filter(|k| block[8 + p] >> k & 1 == 1) {
                draft.presets.insert((p as u32, k as u32), word(12 + 16 * p + 2 * k));
            }
            for i in 0..usize::from(block[4 + p]) {
                let at = 92 + 72 * p + 6 * i;
                let fields = [block[at + 1].into(), block[at + 2].into(), block[at + 3].into(), word(at + 4)];
                draft.programs.entry(p as u32).or_default().push((usize::from(block[at]) - 1, fields));
            }
        }
        draft
    }

    /// The lines: sizes, words that are not zero, presets, instructions, each group in ascending order.
    pub fn text(&self) -> String {
        let mut text = line("case", &self.sizes);
        for (&location, &value) in self.memory.iter().filter(|(_, &value)| value != 0) {
            text += &line("mem", &[location, value]);
        }
        for (&(p, k), &value) in &self.presets {
            text += &line("reg", &[p, k, value]);
        }
        for (p, op, fields) in self.ops() {
            let used: Vec<u32> = USED[op].iter().zip(fields).filter(|(&used, _)| used).map(|(_, field)| field).collect();
            text += &line(&format!("op {p} {}", WORDS[op]), &used);
        }
        text
    }

    fn ops(&self) -> impl Iterator<Item = (u32, usize, [u32; 4])> + '_ {
        self.programs.iter().flat_map(|(&p, program)| program.iter().map(move |&(op, fields)| (p, op, fields)))
    }

    /// The first line naming a register that no preset gives and no instruction of its processor assigns.
    pub fn unset_line(&self) -> Option<u32> {
        let others = 1 + self.memory.len() + self.presets.len();
        let assigns = |p: u32, r: u32| self.ops().any(|(q, op, fields)| q == p && USED[op][0] && fields[0] == r);
        let set = |p: u32, r: u32| self.presets.contains_key(&(p, r)) || assigns(p, r);
        let names = |&(p, op, fields): &(u32, usize, [u32; 4])| (1..3).any(|j| USED[op][j] && !set(p, fields[j]));
        self.ops().position(|op| names(&op)).map(|at| (others + at + 1) as u32)
    }
}

fn put(block: &mut [u8; LENGTH], at: usize, room: u32, n: u32, value: u32) -> Option<()> {
    (n < room).then_some(())?;
    block[at + 2 * n as usize..][..2].copy_from_slice(&u16::try_from(value).ok()?.to_le_bytes());
    Some(())
}

/// A word and numbers, single spaces between them, and a line feed.
fn line(word: &str, numbers: &[u32]) -> String {
    let mut line = word.to_string();
    for number in numbers {
        write!(line, " {number}").expect("a string grows");
    }
    line + "\n"
}
