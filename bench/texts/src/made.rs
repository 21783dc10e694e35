use random::Rng;

const WORDS: [&str; 10] = ["read", "write", "set", "add", "sub", "eq", "branch", "goto", "acquire", "release"];
const FIELDS: [usize; 10] = [2, 2, 2, 3, 3, 3, 2, 1, 1, 1];

/// A text whose lines are mostly right and mostly in their order: labels run ahead of their program, groups and processors
/// now and then stand in the wrong place, a register is read that nobody sets, a number is too large or spelt badly.
pub fn random_text(rng: &mut Rng) -> Vec<u8> {
    let (p, m) = (1 + rng.below(4), 1 + rng.below(8));
    let mut lines = vec![match rng.below(8) {
        0 => format!("case {p} {m} {}", rng.pick(&[0, 1, 8, 96, 97])),
        1 => format!("case {} {}", rng.below(6), rng.below(10)),
        _ => format!("case {p} {m}"),
    }];
    for location in 0..m {
        if rng.once_in(4) {
            lines.push(format!("mem {location} {}", number(rng, 65_537)));
        }
    }
    for processor in 0..p {
        for register in 0..8 {
            if rng.once_in(3) || register < 2 {
                lines.push(format!("reg {processor} {register} {}", number(rng, 65_536)));
            }
        }
    }
    for processor in 0..p {
        let count = rng.pick(&[0, 1, 2, 3, 5, 12, 12, 13]);
        let known = rng.pick(&[2, 2, 2, 2, 3, 8, 9]);
        for _ in 0..count {
            lines.push(instruction(rng, processor, count, known));
        }
    }
    shuffled(rng, &mut lines);
    let mut text = lines.join("\n").into_bytes();
    if !rng.once_in(12) {
        text.push(b'\n');
    }
    text
}

fn number(rng: &mut Rng, most: usize) -> usize {
    let one = rng.below(most);
    rng.pick(&[0, 1, 7, 10, one, most - 1])
}

fn instruction(rng: &mut Rng, processor: usize, count: usize, known: usize) -> String {
    let op = rng.below(10);
    let label = rng.pick(&[0, count.min(12), count.min(12), 12, 1]);
    let mut fields: Vec<usize> = (0..FIELDS[op]).map(|_| rng.below(known)).collect();
    match WORDS[op] {
        "branch" | "goto" => *fields.last_mut().expect("a label") = if rng.once_in(20) { 13 } else { label },
        "set" => fields[1] = number(rng, 65_537),
        _ => {}
    }
    let fields: Vec<String> =
        fields.iter().map(|field| if rng.once_in(150) { format!("0{field}") } else { field.to_string() }).collect();
    format!("op {processor} {} {}", WORDS[op], fields.join(" "))
}

/// Now and then a line is moved, repeated, left out or emptied.
fn shuffled(rng: &mut Rng, lines: &mut Vec<String>) {
    let [one, other] = [rng.below(lines.len()), rng.below(lines.len())];
    match rng.below(10) {
        0 => lines.swap(one, other),
        1 => lines.insert(other, lines[one].clone()),
        2 => drop(lines.remove(one)),
        3 => lines[one].clear(),
        _ => {}
    }
}
