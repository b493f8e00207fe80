//! Texts with a `+` (request P8). Their answers are known without a reading, from how they are made. These hold the numbers too: where a
//! `+` decides, the crate goes by another rule, and elsewhere it doesn't say a refusal's number.
use crate::object::encode;
use crate::parts::Parts;
use crate::prng::Prng;

/// The kinds of number cells.
#[derive(Debug, Clone, Copy, PartialEq, Eq, PartialOrd, Ord)]
pub enum Cell {
    BlockAddress,
    Count,
    Entry,
    SymbolAddress,
    Ext,
    LinkerAddress,
    Index,
    Line,
    LineAddress,
}
use Cell::{BlockAddress, Count, Entry, Ext, Index, LineAddress, LinkerAddress, SymbolAddress};

impl Cell {
    pub const ALL: [Cell; 9] = [BlockAddress, Count, Entry, SymbolAddress, Ext, LinkerAddress, Index, Cell::Line, LineAddress];

    /// The number of its table or block.
    pub fn number(self) -> u8 {
        match self {
            BlockAddress | Count | Entry => 24,
            SymbolAddress | Ext | LinkerAddress | Index => 26,
            Cell::Line | LineAddress => 28,
        }
    }

    /// Four bytes of hex; the others are decimals.
    pub fn is_hex(self) -> bool {
        matches!(self, BlockAddress | Entry | SymbolAddress | LinkerAddress | LineAddress)
    }
}

/// How a `+` stands in a number cell.
#[derive(Debug, Clone, Copy, PartialEq, Eq)]
pub enum Stands {
    /// Before all digits. Hex has five bytes then, which no rule takes.
    Before,
    /// In place of the first digit, so that hex stays four bytes. A decimal's is a 0, so that the value stays.
    First,
    /// By itself.
    Alone,
    /// Once more, `++5`.
    Twice,
    /// After a digit, `0+FF`.
    After,
}

impl Stands {
    const ALL: [Stands; 5] = [Stands::Before, Stands::First, Stands::Alone, Stands::Twice, Stands::After];

    /// Whether document 01's own rule takes the cell, so that the `+` decides.
    fn decides(self, cell: Cell) -> bool {
        match self {
            Stands::Before => !cell.is_hex(),
            Stands::First => true,
            Stands::Alone | Stands::Twice | Stands::After => false,
        }
    }

    fn put(self, cell: Cell, digits: &str) -> String {
        match (self, cell.is_hex()) {
            (Stands::Before, _) => format!("+{digits}"),
            (Stands::First, true) => format!("+{}", &digits[1..]),
            (Stands::First, false) => format!("+{}", digits.strip_prefix('0').filter(|rest| !rest.is_empty()).unwrap_or(digits)),
            (Stands::Alone, _) => "+".into(),
            (Stands::Twice, true) => format!("++{}", &digits[2..]),
            (Stands::Twice, false) => format!("++{digits}"),
            (Stands::After, true) => format!("{}+{}", &digits[..1], &digits[2..]),
            (Stands::After, false) => format!("0+{digits}"),
        }
    }
}

/// Where the `+` is. But for a number it does nothing: first in a name or in a SOURCE cell, in a comment, or in no place at all.
#[derive(Debug, Clone, Copy, PartialEq, Eq)]
pub enum Place {
    Number(Cell, Stands),
    SymbolName,
    LinkerName,
    DebugName,
    Source,
    Comment,
    Nowhere,
}

const HARMLESS: [Place; 6] = [Place::SymbolName, Place::LinkerName, Place::DebugName, Place::Source, Place::Comment, Place::Nowhere];

/// A text whose answer is known.
pub struct Known {
    pub place: Place,
    pub file: Vec<u8>,
    /// Its words, or the number.
    pub answer: Result<Vec<u32>, u8>,
    /// The kind of cell in which the `+` decides: document 01's own rule takes the cell.
    pub decides: Option<Cell>,
}

/// What the tables of a text say, row by row. In each a label may be named that the other doesn't have.
struct Rows {
    blocks: Vec<(u16, Vec<Option<u16>>)>,
    symbols: Vec<(u16, bool, String)>,
    relocs: Vec<(u16, String)>,
    indices: Vec<(String, u64)>,
    /// Address and text of each line; those with an address are one stretch, and not the last.
    lines: Vec<(Option<u16>, String)>,
}

impl Rows {
    /// At least one of each, a block with a word that is initialised among them.
    fn new(r: &mut Prng) -> Self {
        let mut names = ["A", "LOOP", "é", "5", "0FF"].map(String::from);
        r.shuffle(&mut names);
        let labels = &names[..1 + r.below(3)];
        let words = |r: &mut Prng| (0..r.below(3)).map(|_| r.once_in(2).then(|| r.next() as u16)).collect::<Vec<_>>();
        let mut first = words(r);
        first.push(Some(r.next() as u16));
        let block = r.next() as u16;
        let mut blocks = vec![(block, first)];
        if r.once_in(2) {
            blocks.push((block.wrapping_add(1 + r.below(0x1000) as u16), words(r)));
        }
        let reloc = r.next() as u16;
        let relocs = (0..=r.below(2) as u16).map(|i| (reloc.wrapping_add(0x123 * i), r.pick(&["A", "B", "日", "1"]).to_string())).collect();
        Rows {
            blocks,
            symbols: labels.iter().map(|name| (r.next() as u16, r.once_in(2), name.clone())).collect(),
            relocs,
            indices: labels.iter().map(|name| (name.clone(), super::object::wide(r))).collect(),
            lines: lines(r),
        }
    }

    /// Puts the `+` into a name or a SOURCE cell.
    fn put(&mut self, r: &mut Prng, place: Place) {
        let text = match place {
            Place::SymbolName => &mut any(r, &mut self.symbols).2,
            Place::LinkerName => &mut any(r, &mut self.relocs).1,
            Place::DebugName => &mut any(r, &mut self.indices).0,
            Place::Source => &mut any(r, &mut self.lines).1,
            Place::Number(..) | Place::Comment | Place::Nowhere => return,
        };
        text.insert(0, '+');
    }

    /// What they say together.
    fn words(&self) -> Vec<u32> {
        let mut p = Parts::default();
        self.blocks.iter().for_each(|(addr, data)| Parts::put(&mut p.blocks, *addr, data.clone()));
        for (addr, external, name) in &self.symbols {
            let label = p.label_mut(name.as_bytes());
            (label.addr, label.external) = (*addr, *external);
        }
        self.indices.iter().for_each(|(name, index)| p.label_mut(name.as_bytes()).start = *index);
        self.relocs.iter().for_each(|(addr, name)| Parts::put(&mut p.relocs, *addr, name.clone().into_bytes()));
        let first = self.lines.iter().take_while(|(addr, _)| addr.is_none()).count() as u64;
        p.lines = vec![(first, self.lines.iter().filter_map(|(addr, _)| *addr).collect())];
        p.source = Some(self.lines.iter().map(|(_, text)| format!("{text}\n")).collect::<String>().into_bytes());
        encode(&p)
    }
}

fn any<'a, T>(r: &mut Prng, list: &'a mut [T]) -> &'a mut T {
    let at = r.below(list.len());
    &mut list[at]
}

fn lines(r: &mut Prng) -> Vec<(Option<u16>, String)> {
    let mut addrs: Vec<u16> = (0..=r.below(3)).map(|_| r.next() as u16).collect();
    addrs.sort();
    let mut out = vec![None; r.below(3)];
    out.extend(addrs.into_iter().map(Some));
    out.extend(vec![None; 1 + r.below(9)]); // over ten rows at times
    out.into_iter().map(|addr| (addr, r.pick(&["", "a", "1", " ADD R0, R0, #1", "é | x "]).to_string())).collect()
}

/// A line of a text in pieces; one that is a number has its kind.
type Line = Vec<(Option<Cell>, String)>;

fn other(text: impl Into<String>) -> (Option<Cell>, String) {
    (None, text.into())
}

/// Digits of either case.
fn hex(r: &mut Prng, cell: Cell, v: u16) -> (Option<Cell>, String) {
    let digits = format!("{v:04X}").chars().map(|c| if r.once_in(2) { c.to_ascii_lowercase() } else { c }).collect();
    (Some(cell), digits)
}

/// `????` has no digits for a `+` to stand at.
fn maybe_hex(r: &mut Prng, cell: Cell, v: Option<u16>) -> (Option<Cell>, String) {
    v.map_or(other("????"), |v| hex(r, cell, v))
}

/// With zeros before it at times.
fn decimal(r: &mut Prng, cell: Cell, v: u64) -> (Option<Cell>, String) {
    (Some(cell), "0".repeat(r.pick(&[0, 0, 1, 3, 30])) + &v.to_string())
}

/// Cells of a table with blanks around them, which are trimmed.
fn row(r: &mut Prng, cells: impl IntoIterator<Item = (Option<Cell>, String)>) -> Line {
    let mut out = vec![];
    for cell in cells {
        if !out.is_empty() {
            out.push(other(" | "));
        }
        let mut blanks = || other(r.pick(&["", "", "", " ", "   ", "\t", "\u{3000}"]));
        out.extend([blanks(), cell, blanks()]);
    }
    out
}

fn text_group(r: &mut Prng, rows: &Rows) -> Vec<Line> {
    let mut out = vec![vec![other(".TEXT")]];
    for (addr, data) in &rows.blocks {
        out.extend([vec![hex(r, BlockAddress, *addr)], vec![decimal(r, Count, data.len() as u64)]]);
        out.extend(data.iter().map(|v| vec![maybe_hex(r, Entry, *v)]));
    }
    out
}

fn symbol_group(r: &mut Prng, rows: &Rows) -> Vec<Line> {
    let mut out = vec![vec![other(".SYMBOL")], row(r, ["ADDR", "EXT", "LABEL"].map(other))];
    for (addr, external, name) in &rows.symbols {
        let ext = if *external { 1 + r.below(255) as u64 } else { 0 };
        let cells = [hex(r, SymbolAddress, *addr), decimal(r, Ext, ext), other(name)];
        out.push(row(r, cells));
    }
    out
}

fn linker_group(r: &mut Prng, rows: &Rows) -> Vec<Line> {
    let mut out = vec![vec![other(".LINKER_INFO")], row(r, ["ADDR", "LABEL"].map(other))];
    for (addr, name) in &rows.relocs {
        let cells = [hex(r, LinkerAddress, *addr), other(name)];
        out.push(row(r, cells));
    }
    out
}

/// SOURCE cells aren't trimmed, and have blanks of their own.
fn debug_group(r: &mut Prng, rows: &Rows) -> Vec<Line> {
    let mut out = vec![vec![other(".DEBUG")], row(r, ["LABEL", "INDEX"].map(other))];
    for (name, index) in &rows.indices {
        let cells = [other(name), decimal(r, Index, *index)];
        out.push(row(r, cells));
    }
    out.push(vec![other("=")]);
    out.push(row(r, ["LINE", "ADDR", "SOURCE"].map(other)));
    for (i, (addr, text)) in rows.lines.iter().enumerate() {
        let cells = [decimal(r, Cell::Line, i as u64), maybe_hex(r, LineAddress, *addr)];
        let mut line = row(r, cells);
        line.push(other(format!(" | {text}\\n")));
        out.push(line);
    }
    out.push(vec![other("====================")]);
    out
}

/// The four groups, in any order, with a comment and a blank line somewhere.
fn whole(r: &mut Prng, rows: &Rows, comment: &str) -> Vec<Line> {
    let mut groups = [text_group(r, rows), symbol_group(r, rows), linker_group(r, rows), debug_group(r, rows)];
    if r.once_in(3) {
        r.shuffle(&mut groups);
    }
    let mut out = vec![vec![other("LC-3 OBJ FILE")]];
    out.extend(groups.into_iter().flatten());
    for line in [comment, ""] {
        let at = r.below(out.len() + 1);
        out.insert(at, vec![other(line)]);
    }
    out
}

/// A text with a `+` there.
fn with(r: &mut Prng, place: Place) -> Known {
    let mut rows = Rows::new(r);
    rows.put(r, place);
    let comment = if place == Place::Comment { r.pick(&["#+", "#+0FF", "# +1", "# 3000 | +1 | A"]) } else { "# a comment" };
    let mut lines = whole(r, &rows, comment);
    let (mut answer, mut decides) = (Ok(rows.words()), None);
    if let Place::Number(cell, stands) = place {
        let mut cells: Vec<&mut String> = lines.iter_mut().flatten().filter(|(kind, _)| *kind == Some(cell)).map(|(_, s)| s).collect();
        let digits = any(r, &mut cells);
        **digits = stands.put(cell, digits.as_str());
        answer = Err(cell.number());
        decides = stands.decides(cell).then_some(cell);
    }
    let end = if r.once_in(4) { "\r\n" } else { "\n" };
    let lines = lines.into_iter().map(|line| line.into_iter().map(|(_, text)| text).collect::<String>() + end);
    Known { place, file: lines.collect::<String>().into_bytes(), answer, decides }
}

/// Each cell with a `+` in each way, and each place where it does nothing; of each a few.
pub fn known() -> Vec<Known> {
    let mut r = Prng::new(8);
    let numbers = Cell::ALL.into_iter().flat_map(|cell| Stands::ALL.map(|stands| Place::Number(cell, stands)));
    let places: Vec<Place> = numbers.chain(HARMLESS).collect();
    places.iter().flat_map(|place| [*place; 4]).map(|place| with(&mut r, place)).collect()
}

/// One text. About half read; most of the others would, but for the `+`.
pub fn case(r: &mut Prng) -> Known {
    let place = match r.below(8) {
        0..=2 => Place::Number(r.pick(&Cell::ALL), r.pick(&[Stands::Before, Stands::First])),
        3 => Place::Number(r.pick(&Cell::ALL), r.pick(&Stands::ALL)),
        _ => r.pick(&HARMLESS),
    };
    with(r, place)
}
