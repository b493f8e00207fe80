//! Binary files with about as many words as their length allows. Line blocks have the most: of the bytes after the header the first one
//! leaves 1 over twice its words, the source's word among them; every other record leaves at least 3.
use super::short::HEADER;
use crate::prng::Prng;

/// The header and a line block of the addresses below `k`, nothing else: 18 + 2k bytes. The block has 4 + k words and makes the source
/// exist, which is one more: (n - 7) / 2 is met.
pub fn alone(k: u16) -> Vec<u8> {
    [&HEADER[..], &line_record(0, &(0..k).collect::<Vec<_>>())].concat()
}

/// How many addresses to try alone: the first few hundred counts and the last two.
pub fn counts() -> impl Iterator<Item = u16> {
    (0..=400).chain([0xFFFE, 0xFFFF])
}

fn line_record(first: u64, addrs: &[u16]) -> Vec<u8> {
    let mut out = vec![2];
    out.extend(first.to_le_bytes());
    out.extend((addrs.len() as u16).to_le_bytes());
    addrs.iter().for_each(|a| out.extend(a.to_le_bytes()));
    out
}

/// Strictly rising.
fn addresses(r: &mut Prng) -> Vec<u16> {
    let mut out: Vec<u16> = (0..r.pick(&[0, 1, 2, 3, 5, 8, 40])).map(|_| r.next() as u16).collect();
    out.sort();
    out.dedup();
    out
}

/// Line records, mostly one. Each begins where the one before ends or a little later; sometimes a line too early.
fn line_records(r: &mut Prng) -> Vec<Vec<u8>> {
    let mut first = match r.below(4) {
        0 => r.next(),
        1 => u64::MAX - r.below(12) as u64,
        _ => r.below(6) as u64,
    };
    let mut out = vec![];
    for _ in 0..r.pick(&[0, 1, 1, 1, 1, 1, 2, 2, 3, 4]) {
        let addrs = addresses(r);
        out.push(line_record(first, &addrs));
        let gap = r.below(3) as u64;
        first = first.wrapping_add(addrs.len() as u64 + gap).wrapping_sub(r.once_in(8).into());
    }
    out
}

/// A short record of another kind: a block without words, a label, a chunk of the source, a relocation. Bytes of one more than a
/// multiple of three have the most words; one of the texts isn't UTF-8.
fn other_record(r: &mut Prng) -> Vec<u8> {
    let addr = (r.next() as u16).to_le_bytes();
    let text = r.pick(&[&b""[..], b"", b"A", b"A", b"abcd", b"\xC3\xA9", b"\xC3"]);
    let length = (text.len() as u64).to_le_bytes();
    match r.below(4) {
        0 => [&[0], &addr[..], &[0, 0]].concat(),
        1 => [&[1], &addr[..], &[0; 9], &length, text].concat(),
        2 => [&[3], &length[..], text].concat(),
        _ => [&[4], &addr[..], &length, text].concat(),
    }
}

/// Cut short, within the header too; one byte changed or one more; or, mostly, as it is.
fn damage(r: &mut Prng, file: &mut Vec<u8>) {
    let at = r.below(file.len());
    match r.below(16) {
        0 => file.truncate(at),
        1 => file.truncate(at.min(6)),
        2 | 3 => file[at] = r.next() as u8,
        4 => file.push(r.next() as u8),
        _ => {}
    }
}

/// One file: line blocks, sometimes short records of other kinds, one record twice, in any order, or damaged.
pub fn case(r: &mut Prng) -> Vec<u8> {
    let mut list = line_records(r);
    if r.once_in(4) {
        list.extend((0..=r.below(2)).map(|_| other_record(r)));
    }
    if !list.is_empty() && r.once_in(6) {
        list.push(list[r.below(list.len())].clone());
    }
    if r.once_in(3) {
        r.shuffle(&mut list);
    }
    let mut file = [&HEADER[..], &list.concat()].concat();
    damage(r, &mut file);
    file
}
