//! Short inputs, all of them up to a length.
use super::Depth;

/// The first seven bytes.
pub const HEADER: [u8; 7] = [0x6F, 0x62, 0x6A, 0x21, 0x10, 0x00, 0x01];

/// Each list of `n` of `0..k`.
fn lists(k: usize, n: usize, f: &mut dyn FnMut(&[usize])) {
    let mut at = vec![0; n];
    loop {
        f(&at);
        let Some(i) = (0..n).rev().find(|i| at[*i] + 1 < k) else { return };
        at[i] += 1;
        at[i + 1..].fill(0);
    }
}

/// Every binary file of up to two bytes; the header with up to two bytes after it; with one byte
/// of it changed; with up to six of few bytes after it; and lists of up to four small records.
pub fn binary(depth: Depth, f: &mut dyn FnMut(&[u8])) {
    let (len, records) = match depth {
        Depth::None => return,
        Depth::Quick => (4, 3),
        Depth::Full => (6, 4),
    };
    for n in 0..=2 {
        lists(256, n, &mut |b| {
            let b: Vec<u8> = b.iter().map(|x| *x as u8).collect();
            f(&b);
            f(&[&HEADER[..], &b].concat());
        });
    }
    for at in 0..7 {
        for b in 0..=255 {
            let mut h = HEADER;
            h[at] = b;
            f(&h);
        }
        f(&HEADER[..at]);
    }
    let few = [0u8, 1, 2, 3, 4, 5, 0xFF];
    for n in 3..=len {
        lists(few.len(), n, &mut |b| f(&[&HEADER[..], &b.iter().map(|x| few[*x]).collect::<Vec<_>>()].concat()));
    }
    let small = small_records();
    for n in 0..=records {
        lists(small.len(), n, &mut |b| f(&[&HEADER[..], &b.iter().flat_map(|x| small[*x].clone()).collect::<Vec<_>>()].concat()));
    }
}

fn small_records() -> Vec<Vec<u8>> {
    let line = |first: u64, addrs: &[u16]| {
        let mut out = vec![2];
        out.extend(first.to_le_bytes());
        out.extend((addrs.len() as u16).to_le_bytes());
        addrs.iter().for_each(|a| out.extend(a.to_le_bytes()));
        out
    };
    let label = |addr: u8, ext: u8, name: &[u8]| {
        let mut out = vec![1, addr, 0x30, ext, 5, 0, 0, 0, 0, 0, 0, 0, name.len() as u8, 0, 0, 0, 0, 0, 0, 0];
        out.extend(name);
        out
    };
    let source = |s: &[u8]| [&[3, s.len() as u8, 0, 0, 0, 0, 0, 0, 0], s].concat();
    let reloc = |addr: u8, name: &[u8]| [&[4, addr, 0x30, name.len() as u8, 0, 0, 0, 0, 0, 0, 0], name].concat();
    vec![
        vec![0, 0, 0x30, 0, 0],
        vec![0, 0, 0x30, 1, 0, 0xFF, 0x34, 0x12],
        vec![0, 1, 0x30, 1, 0, 1, 0x34, 0x12],
        label(1, 0, b"A"),
        label(2, 2, b"A"),
        label(2, 1, "é".as_bytes()),
        line(1, &[0x3000, 0x3001]),
        line(1, &[]),
        line(2, &[0x3000]),
        line(3, &[0x3002]),
        line(u64::MAX, &[1, 2]),
        line(u64::MAX - 1, &[1]),
        line(4, &[5, 5]),
        source(b"a\n"),
        source(b""),
        source(&[0xC3]),
        reloc(1, b"A"),
        reloc(1, b""),
        vec![0xFF],
    ]
}

/// Every text file of up to four of these lines after the first; line tables, cells and escapes in full.
pub fn text(depth: Depth, f: &mut dyn FnMut(&[u8])) {
    let (lines, cell_len, escape_len) = match depth {
        Depth::None => return,
        Depth::Quick => (3, 3, 4),
        Depth::Full => (4, 5, 6),
    };
    let rows = [
        ".TEXT", ".SYMBOL", ".LINKER_INFO", ".DEBUG", "=", "0000", "1", "????", "ADDR | EXT | LABEL", "ADDR | LABEL", "LABEL | INDEX",
        "LINE | ADDR | SOURCE", "0001 | 1 | A", "0001 | A", "A | 5", "0 | ???? | a\\n", "0 | 3000 | ", "0 | ????", "1 | 2FFF | \\",
        "1 | ???? | \\n",
    ];
    for n in 0..=lines {
        lists(rows.len(), n, &mut |b| {
            let body: Vec<&str> = b.iter().map(|x| rows[*x]).collect();
            f(format!("LC-3 OBJ FILE\n{}", body.join("\n")).as_bytes());
        });
    }
    // Line tables in full: up to five rows of four addresses.
    let addrs = ["????", "0000", "0001", "+00f"];
    for n in 0..=5 {
        lists(addrs.len(), n, &mut |b| {
            let rows: Vec<String> = b.iter().enumerate().map(|(i, a)| format!("{i} | {} | \\n\n", addrs[*a])).collect();
            f(format!("LC-3 OBJ FILE\n.DEBUG\n=\nLINE | ADDR | SOURCE\n{}=", rows.concat()).as_bytes());
        });
    }
    // Cells in full: each hexadecimal and decimal place over a small alphabet.
    let few = ["0", "1", "+", "-", "F", "f", "g", "?", " ", "9", "x"];
    for n in 0..=cell_len {
        lists(few.len(), n, &mut |b| {
            let cell: String = b.iter().map(|x| few[*x]).collect();
            f(format!("LC-3 OBJ FILE\n.TEXT\n{cell}\n0").as_bytes());
            f(format!("LC-3 OBJ FILE\n.TEXT\n0000\n1\n{cell}\n.SYMBOL").as_bytes());
            f(format!("LC-3 OBJ FILE\n.SYMBOL\nADDR | EXT | LABEL\n{cell} | 0 | A").as_bytes());
            if n <= 4 {
                f(format!("LC-3 OBJ FILE\n.TEXT\n0000\n{cell}\n????").as_bytes());
                f(format!("LC-3 OBJ FILE\n.SYMBOL\nADDR | EXT | LABEL\n0000 | {cell} | A").as_bytes());
                f(format!("LC-3 OBJ FILE\n.DEBUG\nLABEL | INDEX\nA | {cell}\n=\n=").as_bytes());
                f(format!("LC-3 OBJ FILE\n.DEBUG\n=\nLINE | ADDR | SOURCE\n{cell} | ???? | A\n=").as_bytes());
            }
        });
    }
    // Escapes in full.
    let few = ["\\", "u", "{", "}", "4", "d", "8", "0", "n", "+"];
    for n in 0..=escape_len {
        lists(few.len(), n, &mut |b| {
            let cell: String = b.iter().map(|x| few[*x]).collect();
            f(format!("LC-3 OBJ FILE\n.DEBUG\n=\nLINE | ADDR | SOURCE\n0 | ???? | \\u{cell}\n=").as_bytes());
        });
    }
}

/// Every word whose bits below the kind are at most two; and every list of up to four of these pieces.
pub fn objects(depth: Depth, f: &mut dyn FnMut(&[u32])) {
    let len = match depth {
        Depth::None => return,
        Depth::Quick => 3,
        Depth::Full => 4,
    };
    for kind in 0..8 {
        for a in 0..29 {
            for b in a..29 {
                f(&[kind << 29 | 1 << a | 1 << b]);
            }
        }
    }
    let (zero, one) = ([0xC000_0000; 3], [0xC000_0001, 0xC000_0000, 0xC000_0000]);
    let largest = [0xC0FF_FFFF, 0xC0FF_FFFF, 0xC000_FFFF];
    let after = |head: u32, number: [u32; 3]| [&[head][..], &number].concat();
    let pieces: Vec<Vec<u32>> = vec![
        vec![0x0000_0000],
        vec![0x0000_0001],
        vec![0x2000_0000],
        vec![0x2001_0000],
        vec![0x2001_0001],
        vec![0x2000_0001],
        after(0x4000_0000, zero),
        after(0x4001_0001, largest),
        vec![0x4000_0000],
        after(0x6000_0000, zero),
        after(0x6000_0000, one),
        after(0x6000_0000, largest),
        vec![0x6000_0000, 0xC000_0002, 0xC000_0000, 0xC000_0000],
        after(0x6000_0001, zero),
        vec![0x6000_0000, 0xC000_0000, 0xC000_0000, 0xC001_0000],
        vec![0x8000_0000],
        vec![0xA000_0000],
        vec![0xA000_0001],
        vec![0xE100_0041],
        vec![0xE200_000A],
        vec![0xE300_0A0A],
        vec![0xE363_6261],
        vec![0xE100_00C3],
        vec![0xE200_A9C3],
        vec![0xE100_4141],
        vec![0xE000_0000],
        vec![0xE300_0020],
        vec![0xE100_00A9],
        vec![0xC000_0000],
    ];
    for n in 0..=len {
        lists(pieces.len(), n, &mut |b| f(&b.iter().flat_map(|x| pieces[*x].clone()).collect::<Vec<_>>()));
    }
}
