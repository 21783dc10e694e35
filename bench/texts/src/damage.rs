/// A text with one byte taken out, changed or put in: the bytes that stand next to a right one, and those that shape lines.
pub fn damages(text: &[u8]) -> impl Iterator<Item = Vec<u8>> + '_ {
    (0..=text.len()).flat_map(move |at| {
        let with = move |rest: usize, new: &[u8]| [&text[..at], new, &text[rest..]].concat();
        let put_in = [b'0', b'1', b' ', b'\n'].map(|byte| with(at, &[byte]));
        let changed = text.get(at).map(|&byte| {
            let others = [byte ^ 1, byte.wrapping_add(1), b'0', b'9', b' ', b'\n', 0];
            others.map(|other| with(at + 1, &[other])).into_iter().chain([with(at + 1, &[])])
        });
        put_in.into_iter().chain(changed.into_iter().flatten())
    })
}
