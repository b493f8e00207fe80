//! Document 01, "Text form", reading: 20 to 31; and request P8, which takes the `+` out of numbers.
use super::utf8::{is_utf8, trim};
use super::{Excluded, Outcome};
use crate::parts::Parts;

type Line<'a> = &'a [u8];

/// Lines as `str::lines` splits: a newline ends a line, with a carriage return right before it.
fn split_lines(s: &[u8]) -> Vec<Line<'_>> {
    let mut out = vec![];
    let mut rest = s;
    while !rest.is_empty() {
        match rest.iter().position(|b| *b == b'\n') {
            Some(at) => {
                let line = &rest[..at];
                out.push(line.strip_suffix(b"\r").unwrap_or(line));
                rest = &rest[at + 1..];
            }
            None => {
                out.push(rest);
                rest = &[];
            }
        }
    }
    out
}

/// Whether one `+` may come first in a number.
#[derive(Clone, Copy)]
enum Signs {
    /// Document 01, and so the crate.
    Taken,
    /// Request P8.
    Refused,
}

/// A run of digits, at most `max`, with any zeros before it.
fn digits(s: Line, radix: u128, max: u128, signs: Signs) -> Option<u64> {
    let s = match signs {
        Signs::Taken => s.strip_prefix(b"+").unwrap_or(s),
        Signs::Refused => s, // a `+` is no digit
    };
    if s.is_empty() {
        return None;
    }
    let mut v = 0u128;
    for b in s {
        let d = match b {
            b'0'..=b'9' => b - b'0',
            b'a'..=b'f' => b - b'a' + 10,
            b'A'..=b'F' => b - b'A' + 10,
            _ => return None,
        };
        if u128::from(d) >= radix {
            return None;
        }
        v = v * radix + u128::from(d);
        if v > max {
            return None;
        }
    }
    Some(v as u64)
}

/// Four bytes of hex.
fn hex(s: Line, signs: Signs) -> Option<u16> {
    if s.len() != 4 {
        return None;
    }
    digits(s, 16, 0xFFFF, signs).map(|v| v as u16)
}

/// Four bytes of hex, or `????`.
fn maybe_hex(s: Line, signs: Signs) -> Option<Option<u16>> {
    if s == b"????" {
        return Some(None);
    }
    hex(s, signs).map(Some)
}

/// At most `n` cells: the first ` | ` from the left ends a cell, the last cell has the rest.
fn split_cells(s: Line<'_>, n: usize) -> Vec<Line<'_>> {
    let mut out = vec![];
    let mut rest = s;
    while out.len() + 1 < n {
        let Some(at) = rest.windows(3).position(|w| w == b" | ") else { break };
        out.push(&rest[..at]);
        rest = &rest[at + 3..];
    }
    out.push(rest);
    out
}

/// The rows of a table with these columns, cells as they stand; None if its header isn't these.
fn rows<'a>(lines: &[Line<'a>], columns: &[&str]) -> Option<Vec<Vec<Line<'a>>>> {
    let Some((header, body)) = lines.split_first() else { return Some(vec![]) };
    let names: Vec<_> = split_cells(header, columns.len()).into_iter().map(trim).collect();
    if names != columns.iter().map(|c| c.as_bytes()).collect::<Vec<_>>() {
        return None;
    }
    Some(
        body.iter()
            .map(|l| {
                let mut cells = split_cells(l, columns.len());
                cells.resize(columns.len(), b"");
                cells
            })
            .collect(),
    )
}

fn text_group(lines: &[Line], p: &mut Parts, signs: Signs) -> Result<(), u8> {
    let mut at = 0;
    while at < lines.len() {
        let addr = hex(lines[at], signs).ok_or(24)?;
        let count = lines.get(at + 1).and_then(|l| digits(l, 10, 0xFFFF, signs)).ok_or(24)? as usize;
        at += 2;
        let entries = lines.get(at..at + count).ok_or(24)?;
        let data = entries.iter().map(|l| maybe_hex(l, signs)).collect::<Option<Vec<_>>>().ok_or(24)?;
        at += count;
        if p.blocks.iter().any(|(a, _)| *a == addr) {
            return Err(25);
        }
        Parts::put(&mut p.blocks, addr, data);
    }
    Ok(())
}

fn symbol_group(lines: &[Line], p: &mut Parts, signs: Signs) -> Option<()> {
    let mut read = vec![];
    for cells in rows(lines, &["ADDR", "EXT", "LABEL"])? {
        let addr = hex(trim(cells[0]), signs)?;
        let external = digits(trim(cells[1]), 10, 0xFF, signs)? != 0;
        read.push((addr, external, trim(cells[2])));
    }
    for (addr, external, name) in read {
        let l = p.label_mut(name);
        l.addr = addr;
        l.external = external;
    }
    Some(())
}

fn linker_group(lines: &[Line], p: &mut Parts, signs: Signs) -> Option<()> {
    for cells in rows(lines, &["ADDR", "LABEL"])? {
        Parts::put(&mut p.relocs, hex(trim(cells[0]), signs)?, trim(cells[1]).to_vec());
    }
    Some(())
}

fn debug_labels(lines: &[Line], p: &mut Parts, signs: Signs) -> Option<()> {
    for cells in rows(lines, &["LABEL", "INDEX"])? {
        let index = digits(trim(cells[1]), 10, u128::from(u64::MAX), signs)?;
        p.label_mut(trim(cells[0])).start = index;
    }
    Some(())
}

/// A line table's addresses and its joined SOURCE cells.
fn line_table(lines: &[Line], signs: Signs) -> Option<(Vec<Option<u16>>, Vec<u8>)> {
    let (mut addrs, mut source) = (vec![], vec![]);
    for (i, cells) in rows(lines, &["LINE", "ADDR", "SOURCE"])?.into_iter().enumerate() {
        if digits(trim(cells[0]), 10, u128::from(u64::MAX), signs)? != i as u64 {
            return None;
        }
        addrs.push(maybe_hex(trim(cells[1]), signs)?);
        source.extend(cells[2]);
    }
    Some((addrs, source))
}

/// The six escapes, and `\u{1 to 6 hex digits}` of a scalar value, which never took a `+`.
fn unescape(s: &[u8]) -> Option<Vec<u8>> {
    let mut out = vec![];
    let mut at = 0;
    while at < s.len() {
        if s[at] != b'\\' {
            out.push(s[at]);
            at += 1;
            continue;
        }
        let plain = match s.get(at + 1)? {
            b't' => b'\t',
            b'r' => b'\r',
            b'n' => b'\n',
            b'\'' => b'\'',
            b'"' => b'"',
            b'\\' => b'\\',
            b'u' => {
                if *s.get(at + 2)? != b'{' {
                    return None;
                }
                let len = s[at + 3..].iter().position(|b| *b == b'}')?;
                let inner = &s[at + 3..at + 3 + len];
                if !(1..=6).contains(&len) {
                    return None;
                }
                let v = digits(inner, 16, 0x10FFFF, Signs::Refused)? as u32;
                let c = char::from_u32(v)?;
                out.extend(c.to_string().as_bytes());
                at += len + 4;
                continue;
            }
            _ => return None,
        };
        out.push(plain);
        at += 2;
    }
    Some(out)
}

/// What the groups fill: the parts, and the line table with rows, if there was one.
#[derive(Default)]
struct State {
    parts: Parts,
    addrs: Option<Vec<Option<u16>>>,
}

/// 27, 26, 28, 29, 30.
fn debug_group(lines: &[Line], st: &mut State, signs: Signs) -> Result<(), (u8, Option<Excluded>)> {
    let Some(last) = lines.last() else { return Ok(()) };
    let Some(divider) = lines.iter().position(|l| l.starts_with(b"=")) else { return Err((27, None)) };
    if !last.starts_with(b"=") {
        return Err((27, None));
    }
    if divider + 1 == lines.len() {
        return Err((27, Some(Excluded::OneDivider)));
    }
    debug_labels(&lines[..divider], &mut st.parts, signs).ok_or((26, None))?;
    let (addrs, source) = line_table(&lines[divider + 1..lines.len() - 1], signs).ok_or((28, None))?;
    if addrs.is_empty() {
        return Ok(());
    }
    if st.addrs.is_some() {
        return Err((29, Some(Excluded::SecondTable)));
    }
    st.parts.source = Some(unescape(&source).ok_or((30, None))?);
    st.addrs = Some(addrs);
    Ok(())
}

/// Maximal stretches with an address, less one that reaches the last row.
fn runs(addrs: &[Option<u16>]) -> Vec<(u64, Vec<u16>)> {
    let mut out: Vec<(u64, Vec<u16>)> = vec![];
    let mut run = vec![];
    for (i, a) in addrs.iter().enumerate() {
        match a {
            Some(a) => run.push(*a),
            None if !run.is_empty() => out.push(((i - run.len()) as u64, std::mem::take(&mut run))),
            None => {}
        }
    }
    out
}

fn read_groups(file: &[u8], signs: Signs) -> Result<Parts, (u8, Option<Excluded>)> {
    if !is_utf8(file) {
        return Err((20, Some(Excluded::NotUtf8)));
    }
    let kept = split_lines(trim(file)).into_iter().filter(|l| !l.starts_with(b"#") && !trim(l).is_empty());
    let kept: Vec<Line> = kept.collect();
    if kept.first().copied() != Some(b"LC-3 OBJ FILE") {
        return Err((21, None));
    }
    let mut groups: Vec<Vec<Line>> = vec![];
    for line in &kept[1..] {
        match groups.last_mut() {
            _ if line.starts_with(b".") => groups.push(vec![line]),
            Some(group) => group.push(line),
            None => return Err((22, None)),
        }
    }
    let mut st = State::default();
    for group in groups {
        let body = &group[1..];
        match group[0] {
            b".TEXT" => text_group(body, &mut st.parts, signs).map_err(|n| (n, None))?,
            b".SYMBOL" => symbol_group(body, &mut st.parts, signs).ok_or((26, None))?,
            b".LINKER_INFO" => linker_group(body, &mut st.parts, signs).ok_or((26, None))?,
            b".DEBUG" => debug_group(body, &mut st, signs)?,
            _ => return Err((23, None)),
        }
    }
    let mut p = st.parts;
    p.lines = runs(&st.addrs.unwrap_or_default());
    if p.lines.iter().any(|(_, a)| a.windows(2).any(|w| w[0] > w[1])) {
        return Err((31, None));
    }
    if p.labels.is_empty() && p.source.is_none() {
        p.relocs.clear();
    }
    Ok(p)
}

fn read_by(file: &[u8], signs: Signs) -> Outcome<Parts> {
    match read_groups(file, signs) {
        Ok(p) => Outcome::Given(p),
        Err((n, excluded)) => Outcome::Refused(n, excluded),
    }
}

/// Text read by document 01's own rule, which the crate still has: one `+` may come first in a number.
pub fn read_with_signs(file: &[u8]) -> Outcome<Parts> {
    read_by(file, Signs::Taken)
}

/// Text read, by request P8: no `+` in a number. Where that decides, so that document 01's own rule says otherwise, the text isn't in the
/// runs.
pub fn read(file: &[u8]) -> Outcome<Parts> {
    let read = read_by(file, Signs::Refused);
    let decides = read.number() != 0 && file.contains(&b'+') && read_with_signs(file) != read;
    match decides {
        true => Outcome::Refused(read.number(), Some(Excluded::PlusSign)),
        false => read,
    }
}
