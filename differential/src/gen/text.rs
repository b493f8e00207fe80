//! Text files: those of objects, changed by line, cell or byte; and files put together from rows.
use super::{damage_bytes, object};
use crate::numbers::text_write::write;
use crate::prng::Prng;

/// Lines to drop in anywhere.
const STRAY: &[&str] = &[
    "", " ", "\t", "# a comment", "#", " # not a comment", ".TEXT", ".TEXT ", " .TEXT", ".SYMBOL", ".LINKER_INFO", ".DEBUG", ".debug", ".",
    ".ORIG", "=", "====================", " =", "3000", "+0FF", "0", "1", "2", "????", "???? ", "ffff", "FFFF", "-001", "+000", "00001",
    "65535", "65536", "x300", "ADDR | EXT | LABEL", "ADDR |EXT| LABEL", " ADDR |  EXT |   LABEL  ", "ADDR | LABEL", "LABEL | INDEX",
    "LINE | ADDR | SOURCE", "LINE | ADDR | SOURCE | X", "3000 |   0 | A", "3000 | 255 | A", "3000 | 256 | A", "3000 | +1 | A | B",
    "3000 | 1", "3000", "3000 | A", "3001 | ", "A | 5", "A | +5", "A | 18446744073709551615", "A | 18446744073709551616", "é | 7",
    "e\u{301} | 8", "| 5", " | 5", "A |  5 ", "   0 | ???? | a\\n", "   0 | 3000 | a\\n", "   1 | 3001 | b", "   1 | 3000 | ",
    "   2 | ???? | ", "   2 | ????", "+1 | +0FF | c", "0001 | ???? | \\u{41}", "0 | ???? | \\u{d800}", "0 | ???? | \\x41", "0 | ???? | \\",
    "1 | ???? | n", "0 | ???? | \\u", "1 | ???? | {41}", "\u{A0}", "\u{3000}3000", "LC-3 OBJ FILE", "LC-3 OBJ FILE ",
];

/// A whole group to splice in.
fn group(r: &mut Prng) -> String {
    let mut out = String::new();
    match r.below(5) {
        0 => {
            out += ".TEXT\n";
            for _ in 0..r.below(3) {
                let n = r.below(3);
                out += &format!("{:04X}\n{n}\n", r.below(4));
                for _ in 0..n {
                    out += r.pick(&["0000\n", "????\n", "abcd\n", "+0FF\n"]);
                }
            }
        }
        1 => {
            out += ".SYMBOL\n";
            if !r.once_in(4) {
                out += "ADDR | EXT | LABEL\n";
                for _ in 0..r.below(3) {
                    out += &format!("{:04x} | {} | {}\n", r.below(9), r.below(3), r.pick(&["A", "B", "é", "", "A | B", "  C "]));
                }
            }
        }
        2 => {
            out += ".LINKER_INFO\n";
            if !r.once_in(4) {
                out += "ADDR | LABEL\n";
                for _ in 0..r.below(3) {
                    out += &format!("{:04X} | {}\n", r.below(9), r.pick(&["A", "B", "é", "", "A | B"]));
                }
            }
        }
        _ => {
            out += ".DEBUG\n";
            if r.once_in(2) {
                out += "LABEL | INDEX\n";
                for _ in 0..r.below(3) {
                    out += &format!("{} | {}\n", r.pick(&["A", "B", "é", "e\u{301}", " Z"]), object::wide(r));
                }
            }
            out += "=\n";
            if !r.once_in(4) {
                out += "LINE | ADDR | SOURCE\n";
                let mut a = r.below(8);
                for i in 0..r.below(6) {
                    let addr = if r.once_in(3) { "????".into() } else { format!("{a:04X}") };
                    out +=
                        &format!("{i} | {addr} | {}\n", r.pick(&["", "a\\n", "\\n", " x | y \\n", "\\u{e9}", "é", "\\", "\\\\", "n\\n"]));
                    a += r.below(3);
                    if r.once_in(20) {
                        a = 0;
                    }
                }
            }
            if !r.once_in(8) {
                out += "===\n";
            }
        }
    }
    out
}

/// The group that line `at` is in: from its `.` line to the next.
fn group_of(lines: &[String], at: usize) -> std::ops::Range<usize> {
    let opens = |l: &String| l.starts_with('.');
    let start = lines[..=at].iter().rposition(opens).unwrap_or(0);
    let end = lines[at + 1..].iter().position(opens).map_or(lines.len(), |e| at + 1 + e);
    start..end
}

fn damage_lines(r: &mut Prng, lines: &mut Vec<String>) {
    let n = lines.len();
    let at = r.below(n);
    match r.below(15) {
        12 => {
            // A group twice, or elsewhere.
            let range = group_of(lines, at);
            let copy: Vec<String> = lines[range.clone()].to_vec();
            if r.once_in(2) {
                lines.drain(range);
            }
            let starts: Vec<usize> = (0..=lines.len()).filter(|i| *i == lines.len() || lines[*i].starts_with('.')).collect();
            let to = r.pick(&starts);
            lines.splice(to..to, copy);
        }
        13 | 14 => {
            // A row of a line table: its address, its source, or none of that.
            let rows: Vec<usize> = (0..n).filter(|i| lines[*i].splitn(3, " | ").count() == 3).collect();
            if rows.is_empty() {
                return;
            }
            let row = r.pick(&rows);
            let mut cells: Vec<String> = lines[row].splitn(3, " | ").map(String::from).collect();
            match r.below(5) {
                0 => cells.truncate(2),
                1 | 2 => cells[1] = r.pick(&["????", "0000", "3000", "FFFF", "+00F"]).to_string(),
                _ => {
                    cells[2] += r.pick(&[
                        "\\", "\\q", "\\x41", "\\u{}", "\\u{d800}", "\\u{1F980}", "\\u{0000041}", "\\u{E9}", "é", " | ", "\\0", "\\'",
                    ])
                }
            }
            lines[row] = cells.join(" | ");
        }
        0 => lines.insert(at, r.pick(STRAY).to_string()),
        1 => lines[at] = r.pick(STRAY).to_string(),
        2 => {
            lines.remove(at);
            if lines.is_empty() {
                lines.push(String::new());
            }
        }
        3 => lines.insert(at, lines[at].clone()),
        4 => {
            let other = r.below(n);
            lines.swap(at, other);
        }
        5 => lines[at] += r.pick(&[" ", "\t", "\r", "\u{B}", "\u{C}", "\u{1C}", "\u{A0}", "\u{2029}", " | ", "|", "x"]),
        6 => lines[at] = format!("{}{}", r.pick(&[" ", "+", "#", ".", "=", "0", "\u{3000}", "\u{C}", "\u{1F}"]), lines[at]),
        7 => lines[at] = lines[at].replacen(" | ", r.pick(&["|", " |", "| ", " |  ", "  | ", " | | ", "\t|\t"]), 1),
        8 => lines[at] = lines[at].replacen('0', r.pick(&["+", "+0", "00", "g", "١", "-"]), 1 + r.below(2)),
        9 => lines[at] = lines[at].to_lowercase(),
        10 => {
            let to = r.below(n + 1);
            lines.insert(to, group(r).trim_end().to_string());
        }
        _ => {
            let mut cells: Vec<String> = lines[at].split(" | ").map(String::from).collect();
            let c = r.below(cells.len());
            cells[c] = r
                .pick(&[
                    "", " ", "????", "+0FF", "0000", "FFFF", "1", "+1", "001", "A", "é", "\\u{1F980}", "\\q", "18446744073709551615",
                    "99999999999999999999",
                ])
                .to_string();
            lines[at] = cells.join(" | ");
        }
    }
}

/// One file.
pub fn case(r: &mut Prng) -> Vec<u8> {
    let text = match r.below(5) {
        0 => (0..r.below(4)).fold("LC-3 OBJ FILE\n".to_string(), |s, _| s + &group(r)),
        _ => {
            let fair = r.below(3) > 0;
            String::from_utf8(write(&object::parts(r, fair))).unwrap()
        }
    };
    let mut lines: Vec<String> = text.split('\n').map(String::from).collect();
    let faults = if r.once_in(3) { 0 } else { r.below(4) };
    for _ in 0..faults {
        damage_lines(r, &mut lines);
    }
    let end = if r.once_in(6) { "\r\n" } else { "\n" };
    let mut out = lines.join(end).into_bytes();
    match r.below(12) {
        0 => damage_bytes(r, &mut out, 0),
        1 => damage_bytes(r, &mut out, 13),
        2 => out = [b" \n# first\n\r\n", &out[..], b"\n\t \n"].concat(),
        _ => {}
    }
    out
}
