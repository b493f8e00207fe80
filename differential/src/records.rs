//! Binary files as document 01 and request P10 compare them: label records by name, relocation records by address, low byte first.

/// The records of a binary file that the writer made, without its header; None if it doesn't split.
pub fn records(file: &[u8]) -> Option<Vec<&[u8]>> {
    let mut rest = file.get(7..)?;
    let mut out = vec![];
    while let Some(kind) = rest.first() {
        let count = |at: usize| rest.get(at..at + 2).map(|b| usize::from(u16::from_le_bytes([b[0], b[1]])));
        let length = |at: usize| rest.get(at..at + 8).map(|b| u64::from_le_bytes(b.try_into().unwrap()) as usize);
        let size = match kind {
            0 => 5 + 3 * count(3)?,
            1 => length(12)?.checked_add(20)?,
            2 => 11 + 2 * count(9)?,
            3 => length(1)?.checked_add(9)?,
            4 => length(3)?.checked_add(11)?,
            _ => return None,
        };
        if size > rest.len() {
            return None;
        }
        let (record, next) = rest.split_at(size);
        out.push(record);
        rest = next;
    }
    Some(out)
}

/// A file of the crate's, which writes relocation addresses high byte first, with the two bytes of each swapped; None if it doesn't split.
/// Every comparison with a file that the crate wrote goes through this, and no other file does.
pub fn swap_relocations(file: &[u8]) -> Option<Vec<u8>> {
    let mut out = file.to_vec();
    let mut at = 7;
    for record in records(file)? {
        if record[0] == 4 {
            out.swap(at + 1, at + 2);
        }
        at += record.len();
    }
    Some(out)
}

/// The file with its label records by name bytes and its relocation records by address; None if the kinds don't come as 0* 1* 2* 3? 4*.
pub fn canonical(file: &[u8]) -> Option<Vec<u8>> {
    let mut list = records(file)?;
    if !list.windows(2).all(|w| w[0][0] < w[1][0] || (w[0][0] == w[1][0] && w[0][0] != 3)) {
        return None;
    }
    list.sort_by(|a, b| {
        let key = |r: &[u8]| match r[0] {
            1 => r[20..].to_vec(),
            4 => vec![r[2], r[1]], // the high byte decides first
            _ => vec![],
        };
        (a[0], key(a)).cmp(&(b[0], key(b)))
    });
    Some([&file[..7], &list.concat()].concat())
}
