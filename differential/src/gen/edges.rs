//! Large cases, at the ends of document 01's ranges. Each has a name.
use super::short::HEADER;
use crate::parts::{Label, Parts};
use crate::prng::Prng;

/// Parts of objects; not all are well formed.
pub fn objects() -> Vec<(&'static str, Parts)> {
    let block = |n: usize| Parts { blocks: vec![(0, vec![Some(7); n])], ..Parts::default() };
    let lines = |first: u64, addrs: Vec<u16>| Parts { lines: vec![(first, addrs)], source: Some(b"a\n".to_vec()), ..Parts::default() };
    let label = |name: String| Parts {
        labels: vec![Label { name: name.into_bytes(), addr: 1, external: true, start: 2 }],
        source: Some(vec![]),
        ..Parts::default()
    };
    let reloc = |name: String| Parts { relocs: vec![(1, name.into_bytes())], source: Some(vec![]), ..Parts::default() };
    let mut two = lines(0, vec![5]);
    two.lines.push((u64::MAX, vec![1, 2, 3]));
    vec![
        ("a block of 65,535 words", block(0xFFFF)),
        ("a block of 65,536 words", block(0x1_0000)),
        ("65,535 rising line addresses", lines(0, (0..0xFFFF).collect())),
        ("65,536 rising line addresses", lines(0, (0..=0xFFFF).collect())),
        ("65,537 equal line addresses", lines(3, vec![9; 0x1_0001])),
        ("lines past the largest, alone", lines(u64::MAX, vec![1, 2, 3])),
        ("lines past the largest, over a first block's", two),
        ("an empty line block at the largest line", lines(u64::MAX, vec![])),
        ("a label of 65,535 bytes", label("A".repeat(0xFFFF))),
        ("a label of 65,536 bytes", label("A".repeat(0x1_0000))),
        ("a label of 65,536 bytes, 32,768 characters", label("é".repeat(0x8000))),
        ("a relocation of 65,536 bytes", reloc("A".repeat(0x1_0000))),
        ("a source of 100,000 empty lines", Parts { source: Some(vec![b'\n'; 100_000]), ..Parts::default() }),
        ("a source of 400,000 bytes in one line", Parts { source: Some("é\\".repeat(133_334).into_bytes()), ..Parts::default() }),
        ("an empty source", Parts { source: Some(vec![]), ..Parts::default() }),
    ]
}

/// Binary files whose counts and lengths are at their ends.
pub fn binary() -> Vec<Vec<u8>> {
    let mut out = vec![];
    for v in [0u64, 1, 2, 0xFFFF, 0x1_0000, u32::MAX.into(), 1 << 32, (1 << 63) - 1, 1 << 63, u64::MAX - 20, u64::MAX - 1, u64::MAX] {
        for head in [&[1u8, 0, 0, 0, 0, 0, 0, 0, 0, 0, 0, 0][..], &[3], &[4, 0, 0]] {
            for more in 0..3 {
                out.push([&HEADER[..], head, &v.to_le_bytes(), &vec![b'A'; more]].concat());
            }
        }
        for count in [0u16, 1, 2] {
            for w in [v, v.wrapping_sub(1), v.wrapping_add(1)] {
                // Two line blocks, at v and w.
                let mut f = HEADER.to_vec();
                for first in [v, w] {
                    f.push(2);
                    f.extend(first.to_le_bytes());
                    f.extend(count.to_le_bytes());
                    (0..count).for_each(|a| f.extend(a.to_le_bytes()));
                }
                out.push(f);
            }
        }
    }
    for (count, bytes) in [(0xFFFFu16, 3 * 0xFFFF), (0xFFFF, 3 * 0xFFFF - 1), (0xFFFF, 3 * 0xFFFF + 1), (0x5556, 3 * 0x5556)] {
        let mut f = [&HEADER[..], &[0, 0, 0], &count.to_le_bytes()].concat();
        f.resize(12 + bytes, 0);
        out.push(f);
    }
    out
}

/// Text files, likewise.
pub fn text() -> Vec<String> {
    let mut out = vec![];
    for count in [65534, 65535, 65536] {
        for rows in [65534, 65535, 65536] {
            out.push(format!("LC-3 OBJ FILE\n.TEXT\n0000\n{count}\n{}", "????\n".repeat(rows)));
        }
    }
    for rows in [65535, 65536, 65537] {
        let table: String = (0..rows).map(|i| format!("{i} | 0001 | \n")).collect();
        out.push(format!("LC-3 OBJ FILE\n.DEBUG\n=\nLINE | ADDR | SOURCE\n{table}{rows} | ???? | \n=\n"));
        out.push(format!("LC-3 OBJ FILE\n.DEBUG\n=\nLINE | ADDR | SOURCE\n{table}=\n"));
    }
    for n in [
        "18446744073709551615", "18446744073709551616", "000000000000000000000000018446744073709551615", "+18446744073709551615",
        "99999999999999999999",
    ] {
        out.push(format!("LC-3 OBJ FILE\n.DEBUG\nLABEL | INDEX\nA | {n}\n=\n=\n"));
    }
    out.push(format!("LC-3 OBJ FILE\n.SYMBOL\nADDR | EXT | LABEL\n0000 | 0 | {}\n", "A".repeat(100_000)));
    out
}

/// A random object with one line block of over 65,535 addresses, which a binary file can't hold.
pub fn long_line_block(r: &mut Prng) -> Parts {
    let mut p = super::object::parts(r, false);
    p.source.get_or_insert_with(Vec::new);
    let mut addrs: Vec<u16> = (0..=0xFFFF).collect();
    addrs.extend((0..r.below(3)).map(|_| r.next() as u16));
    addrs.sort();
    // After any other line block, or alone.
    let first =
        p.lines.last().and_then(|l| u64::try_from(crate::object::line_end(l)).ok()).filter(|end| p.lines.iter().all(|l| l.0 < *end));
    if first.is_none() {
        p.lines.clear();
    }
    p.lines.push((first.unwrap_or(r.below(3) as u64), addrs));
    p
}
