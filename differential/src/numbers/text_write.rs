//! Document 01, "Text form", writing.
use super::utf8::first;
use crate::parts::Parts;

fn line(out: &mut Vec<u8>, s: &str) {
    out.extend(s.as_bytes());
    out.push(b'\n');
}

fn hex4(v: u16) -> String {
    (0..4).rev().map(|i| b"0123456789ABCDEF"[usize::from(v >> (4 * i) & 15)] as char).collect()
}

/// A decimal number, filled with spaces before it.
fn right(v: u64, width: usize) -> String {
    let s = v.to_string();
    " ".repeat(width.saturating_sub(s.len())) + &s
}

/// A name, filled with spaces after it, by characters.
fn left(name: &[u8], width: usize) -> Vec<u8> {
    let characters = name.iter().filter(|b| **b & 0xC0 != 0x80).count();
    [name, &b" ".repeat(width.saturating_sub(characters))[..]].concat()
}

/// `escape_default`.
fn escape(out: &mut Vec<u8>, mut s: &[u8]) {
    while !s.is_empty() {
        let (c, n) = first(s);
        s = &s[n..];
        match c {
            0x09 => out.extend(b"\\t"),
            0x0D => out.extend(b"\\r"),
            0x0A => out.extend(b"\\n"),
            0x27 | 0x22 | 0x5C => out.extend([b'\\', c as u8]),
            0x20..=0x7E => out.push(c as u8),
            _ => out.extend(format!("\\u{{{c:x}}}").bytes()),
        }
    }
}

/// The line table: each line's address or none, by rising line.
fn line_table(p: &Parts, count: u64) -> Vec<(u64, Option<u16>)> {
    let mut out: Vec<(u64, Option<u16>)> = (0..count).map(|l| (l, None)).collect();
    for (first, addrs) in &p.lines {
        for (i, a) in addrs.iter().enumerate() {
            Parts::put(&mut out, first.wrapping_add(i as u64), Some(*a));
        }
    }
    out
}

/// Text write of a well formed object.
pub fn write(p: &Parts) -> Vec<u8> {
    let mut out = vec![];
    let divider = "=".repeat(20);
    line(&mut out, "LC-3 OBJ FILE\n\n.TEXT");
    for (addr, data) in &p.blocks {
        line(&mut out, &hex4(*addr));
        line(&mut out, &data.len().to_string());
        for w in data {
            line(&mut out, &w.map_or("????".into(), hex4));
        }
    }
    line(&mut out, "");
    if !p.has_symbols() {
        return out;
    }

    line(&mut out, ".SYMBOL");
    let mut labels: Vec<_> = p.labels.iter().collect();
    labels.sort_by_key(|l| l.addr); // stable: names rise already
    if !labels.is_empty() {
        line(&mut out, "ADDR | EXT | LABEL");
    }
    for l in &labels {
        out.extend(format!("{} |   {} | ", hex4(l.addr), u8::from(l.external)).bytes());
        out.extend(&l.name);
        out.push(b'\n');
    }
    line(&mut out, "\n.LINKER_INFO");
    if !p.relocs.is_empty() {
        line(&mut out, "ADDR | LABEL");
    }
    for (addr, name) in &p.relocs {
        out.extend(format!("{} | ", hex4(*addr)).bytes());
        out.extend(name);
        out.push(b'\n');
    }
    line(&mut out, "\n.DEBUG\n# DEBUG SYMBOLS FOR LC3TOOLS\n");

    labels.sort_by(|a, b| (a.start, &a.name).cmp(&(b.start, &b.name)));
    if !labels.is_empty() {
        let name_width = labels.iter().map(|l| l.name.len()).max().unwrap().max(5);
        let index_width = labels.iter().map(|l| l.start.to_string().len()).max().unwrap().max(5);
        out.extend(left(b"LABEL", name_width));
        out.extend(b" | ");
        out.extend(left(b"INDEX", index_width));
        out.push(b'\n');
        for l in &labels {
            out.extend(left(&l.name, name_width));
            line(&mut out, &format!(" | {}", right(l.start, index_width)));
        }
    }
    line(&mut out, &divider);

    let Some(src) = &p.source else { return out };
    let lines: Vec<&[u8]> = src.split_inclusive(|b| *b == b'\n').collect();
    let count = src.iter().filter(|b| **b == b'\n').count() as u64 + 1;
    let table = line_table(p, count);
    let width = table.last().unwrap().0.to_string().len().max(4);
    out.extend(left(b"LINE", width));
    line(&mut out, " | ADDR | SOURCE");
    for (n, addr) in table {
        out.extend(format!("{} | {} | ", right(n, width), addr.map_or("????".into(), hex4)).bytes());
        let text = usize::try_from(n).ok().and_then(|n| lines.get(n)).copied().unwrap_or(b"");
        escape(&mut out, text);
        out.push(b'\n');
    }
    line(&mut out, &divider);
    out
}

#[cfg(test)]
mod tests {
    #[test]
    fn escape_as_the_standard_library() {
        for c in (0..=0x10FFFF).filter_map(char::from_u32) {
            let (mut out, s) = (vec![], c.to_string());
            super::escape(&mut out, s.as_bytes());
            assert_eq!(out, s.escape_default().to_string().into_bytes());
        }
    }
}
