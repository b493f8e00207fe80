//! What a run saw: calls by number, excluded cases by reason, what the objects had, and the differences.
use std::collections::BTreeMap;

use crate::gen::plus::Cell;
use crate::gen::trips::{Format, List};
use crate::numbers::query::Query;
use crate::numbers::Excluded;
use crate::object::{fair, line_end, swap_changes, swap_reorders};
use crate::parts::Parts;

/// The calls that are compared.
#[derive(Debug, Clone, Copy, PartialEq, Eq, PartialOrd, Ord)]
pub enum Call {
    Check,
    CountLines,
    RawLineSpan,
    LineSpan,
    GetPosPair,
    Get,
    Find,
    IsFair,
    BinaryLength,
    BinaryRead,
    /// The same with as much room as request P13 says is enough.
    BinaryRoom,
    BinaryWrite,
    /// Binary reads and both lengths of files that the crate wrote, relocation addresses high byte first, and request P10's own cases.
    Relocations,
    TextLength,
    TextRead,
    /// Text reads and both lengths, of texts with a `+` whose answer is known: request P8.
    PlusSign,
    TextWrite,
    /// The writes and reads of lists of trips: request P10.
    Trips,
    IsWhiteSpace,
    /// Request P14.
    LendingFee,
    /// The host's.
    HostBinary,
    HostText,
    HostPosition,
}

impl Call {
    pub fn of(q: Query) -> Self {
        match q {
            Query::CountLines => Call::CountLines,
            Query::RawLineSpan(_) => Call::RawLineSpan,
            Query::LineSpan(_) => Call::LineSpan,
            Query::GetPosPair(_) => Call::GetPosPair,
            Query::Get(_) => Call::Get,
            Query::Find(_) => Call::Find,
        }
    }

    /// The numbers that document 01 gives the call, all of which a run has to reach.
    pub fn numbers(self) -> &'static [u8] {
        match self {
            Call::Check | Call::IsFair => &[0, 1],
            Call::CountLines | Call::GetPosPair => &[0, 1, 4],
            Call::RawLineSpan | Call::LineSpan => &[0, 1, 4, 5],
            Call::Get | Call::Find => &[0, 1, 4, 6],
            Call::BinaryLength | Call::BinaryRoom | Call::HostBinary => &[0, 10, 11, 12, 13, 14, 15],
            Call::BinaryRead => &[0, 3, 10, 11, 12, 13, 14, 15],
            Call::BinaryWrite => &[0, 1, 2, 3],
            Call::Relocations => &[0, 3, 14],
            Call::Trips => &[0, 3],
            Call::TextLength | Call::HostText => &[0, 20, 21, 22, 23, 24, 25, 26, 27, 28, 29, 30, 31],
            Call::TextRead => &[0, 3, 20, 21, 22, 23, 24, 25, 26, 27, 28, 29, 30, 31],
            Call::PlusSign => &[0, 24, 26, 28],
            Call::TextWrite => &[0, 1, 3],
            Call::LendingFee => &[0, 1, 38],
            Call::IsWhiteSpace | Call::HostPosition => &[0],
        }
    }
}

/// Of one call.
#[derive(Default)]
struct Row {
    /// Inputs, each with its argument: a filling call is made with several buffers for one input.
    cases: u64,
    /// Calls made, by the number that is right.
    numbers: BTreeMap<u8, u64>,
    /// Cases that aren't in the runs, by reason and what the crate did. They are compared with document 01 alone.
    excluded: BTreeMap<(Excluded, &'static str), u64>,
    differences: u64,
}

/// Accepted binary files of even or of odd length, and those of them with just as many words as request P13 allows.
#[derive(Default, Clone, Copy)]
struct Rooms {
    files: u64,
    met: u64,
}

/// Fees that members were given, and those of them whose 70 percent ends on exactly half a cent.
#[derive(Default)]
struct Fees {
    members: u64,
    halves: u64,
}

/// Lists of trips made at random. A trip that is made is one that isn't refused.
#[derive(Default)]
struct Trips {
    lists: u64,
    /// From objects with a relocation whose address bytes differ: lists with an odd number of binary trips made, and with an even one above 0.
    odd: u64,
    even: u64,
    /// Lists with trips made in both forms.
    mixed: u64,
    /// Trips whose byte buffer is too short, and those whose word buffer is.
    short_bytes: u64,
    short_words: u64,
}

/// What objects have to have, so that the order of a relocation's address bytes shows.
const CHANGED: &str = "a relocation whose address bytes differ";
const REORDERED: &str = "relocations that a swap puts in another order";

/// How many differences are told, and how many characters of an input or an answer.
const TOLD: usize = 20;
const CUT: usize = 1500;

const LENGTHS: [&str; 2] = ["even", "odd"];

#[derive(Default)]
pub struct Table {
    /// Short inputs in full and the large cases; and the random ones, which have to be accepted often enough.
    fixed: BTreeMap<Call, Row>,
    random: BTreeMap<Call, Row>,
    /// Which of the two is counted.
    pub at_random: bool,
    objects: BTreeMap<&'static str, u64>,
    /// How many of all the numbers below x110000 are White_Space by the call under test, where each was asked.
    pub white_spaces: Option<u64>,
    /// Of even length, and of odd.
    rooms: [Rooms; 2],
    fees: Fees,
    /// Texts in which a `+` decides, by the kind of its cell.
    plus: BTreeMap<Cell, u64>,
    /// Files as the crate writes them with a relocation whose address bytes differ, and those of them that read.
    earlier_files: [u64; 2],
    trips: Trips,
    pub differences: u64,
    told: Vec<String>,
}

impl Table {
    fn row(&mut self, call: Call) -> &mut Row {
        let rows = if self.at_random { &mut self.random } else { &mut self.fixed };
        rows.entry(call).or_default()
    }

    pub fn case(&mut self, call: Call, excluded: Option<(Excluded, &'static str)>) {
        self.cases(call, 1, excluded);
    }

    /// So many cases at once, all in the runs or all excluded for one reason.
    pub fn cases(&mut self, call: Call, many: u64, excluded: Option<(Excluded, &'static str)>) {
        let row = self.row(call);
        row.cases += many;
        if let Some(why) = excluded {
            *row.excluded.entry(why).or_default() += many;
        }
    }

    pub fn call(&mut self, call: Call, number: u8) {
        self.calls(call, 1, number);
    }

    /// So many calls at once.
    pub fn calls(&mut self, call: Call, many: u64, number: u8) {
        *self.row(call).numbers.entry(number).or_default() += many;
    }

    /// The words are asked for only where they are told: a wrong call may differ 2^32 times.
    pub fn differs(&mut self, call: Call, input: &dyn Fn() -> String, what: &dyn Fn() -> String) {
        self.differences += 1;
        self.row(call).differences += 1;
        if self.told.len() < TOLD {
            let cut = |s: String| match s.char_indices().nth(CUT) {
                Some((at, _)) => format!("{} (cut)", &s[..at]),
                None => s,
            };
            self.told.push(format!("{call:?} of {}: {}", cut(input()), cut(what())));
        }
    }

    /// The differences of one call.
    pub fn differences_of(&self, call: Call) -> u64 {
        [&self.fixed, &self.random].iter().filter_map(|rows| rows.get(&call)).map(|row| row.differences).sum()
    }

    /// Counts an accepted binary file, by its length in bytes and whether it has just as many words as request P13 allows.
    pub fn room(&mut self, bytes: usize, met: bool) {
        let rooms = &mut self.rooms[bytes % 2];
        rooms.files += 1;
        rooms.met += u64::from(met);
    }

    /// Counts a fee that a member has to be given, by the sum before the reduction.
    pub fn member(&mut self, sum: u64) {
        self.fees.members += 1;
        self.fees.halves += u64::from(7 * sum % 10 == 5);
    }

    /// How many members' fees of which the call was asked end on half a cent before they are rounded.
    pub fn halves(&self) -> u64 {
        self.fees.halves
    }

    /// Counts a text in which a `+` decides, by its cell.
    pub fn plus(&mut self, cell: Cell) {
        *self.plus.entry(cell).or_default() += 1;
    }

    /// Counts a file as the crate writes it, with a relocation whose address bytes differ, by whether it reads.
    pub fn earlier_file(&mut self, reads: bool) {
        let [files, read] = &mut self.earlier_files;
        *files += 1;
        *read += u64::from(reads);
    }

    /// Counts a list of trips, where lists are made at random.
    pub fn trips(&mut self, list: &List) {
        if !self.at_random {
            return;
        }
        let seen = &mut self.trips;
        seen.lists += 1;
        let (mut binary, mut text) = (0, 0);
        for trip in &list.trips {
            match (list.fits(trip), trip.format) {
                ((false, _), _) => seen.short_bytes += 1,
                ((true, false), _) => seen.short_words += 1,
                ((true, true), Format::Binary) => binary += 1,
                ((true, true), Format::Text) => text += 1,
            }
        }
        seen.mixed += u64::from(binary > 0 && text > 0);
        if swap_changes(&list.parts) {
            seen.odd += binary % 2;
            seen.even += u64::from(binary > 0 && binary % 2 == 0);
        }
    }

    /// Counts what an object has that a run should meet.
    pub fn object(&mut self, p: &Parts) {
        let lines = p.source.as_ref().map_or(0, |s| s.iter().filter(|b| **b == b'\n').count() as u128 + 1);
        let has = [
            ("well formed", true),
            ("fair", fair(p)),
            (
                "fair, with labels, line blocks and relocations",
                fair(p) && !p.labels.is_empty() && !p.lines.is_empty() && !p.relocs.is_empty(),
            ),
            ("not fair", !fair(p)),
            (CHANGED, swap_changes(p)),
            (REORDERED, swap_reorders(p)),
            ("an external label", p.labels.iter().any(|l| l.external)),
            ("a label that isn't ASCII", p.labels.iter().any(|l| !l.name.is_ascii())),
            ("labels or relocations, no source", p.has_symbols() && p.source.is_none()),
            ("an empty line block", p.lines.iter().any(|l| l.1.is_empty())),
            ("touching line blocks", p.lines.windows(2).any(|w| line_end(&w[0]) == w[1].0.into())),
            ("equal line addresses", p.lines.iter().any(|l| l.1.windows(2).any(|w| w[0] == w[1]))),
            ("lines past the largest", p.lines.last().is_some_and(|l| line_end(l) > 1 << 64)),
            ("lines past the source", p.lines.last().is_some_and(|l| line_end(l) > lines)),
            ("a source with no newline at its end", p.source.as_ref().is_some_and(|s| !s.is_empty() && !s.ends_with(b"\n"))),
        ];
        for (name, yes) in has {
            *self.objects.entry(name).or_default() += u64::from(yes);
        }
    }

    /// What keeps this run from showing much: a number not reached, under a quarter of a call's random cases accepted, request P13's
    /// bound not met, no half a cent of request P14 asked, a kind of number cell in which no `+` decides, no object on which the order of a
    /// relocation's address bytes shows, or a kind of list of trips that is missing. At odd lengths only the header alone meets the bound.
    pub fn gaps(&self) -> Vec<String> {
        let mut out = vec![];
        for (call, row) in self.random.iter().filter(|(_, row)| !row.numbers.is_empty()) {
            let reached = |n: &u8| row.numbers.contains_key(n) || self.fixed.get(call).is_some_and(|r| r.numbers.contains_key(n));
            for n in call.numbers().iter().filter(|n| !reached(n)) {
                out.push(format!("{call:?}: number {n} not reached"));
            }
            let (accepted, made) = row.accepted();
            if 4 * accepted < made {
                out.push(format!("{call:?}: {accepted} of {made} random calls accepted, under a quarter"));
            }
        }
        for (name, _) in LENGTHS.iter().zip(&self.rooms).filter(|(_, rooms)| rooms.met == 0) {
            out.push(format!("BinaryRoom: no file of {name} length has as many words as it may"));
        }
        let asked = self.random.get(&Call::LendingFee).is_some_and(|row| !row.numbers.is_empty());
        if asked && self.fees.halves == 0 {
            out.push("LendingFee: no member's 70 percent ends on half a cent".into());
        }
        for cell in Cell::ALL.iter().filter(|cell| !self.plus.contains_key(cell)) {
            out.push(format!("PlusSign: no text in which a `+` decides in {cell:?}"));
        }
        for name in [CHANGED, REORDERED].iter().filter(|name| self.objects.get(*name).is_none_or(|k| *k == 0)) {
            out.push(format!("BinaryWrite: no object with {name}"));
        }
        out.extend(self.trips.gaps());
        out
    }

    pub fn print(&self) {
        for (name, rows) in [("short and large inputs", &self.fixed), ("random inputs", &self.random)] {
            println!("{name}\n{:<15} {:>10} {:>10} {:>9}  calls by number", "call", "cases", "calls", "accepted");
            for (call, row) in rows {
                let (accepted, made) = row.accepted();
                if made == 0 {
                    println!("{:<15} {:>10}  not linked: the crate and the numbers alone", format!("{call:?}"), row.cases);
                    continue;
                }
                let share = 100.0 * accepted as f64 / made as f64;
                let numbers: Vec<String> = row.numbers.iter().map(|(n, k)| format!("{n}: {k}")).collect();
                println!("{:<15} {:>10} {made:>10} {share:>8.1}%  {}", format!("{call:?}"), row.cases, numbers.join(", "));
            }
            println!();
        }
        self.print_excluded();
        println!("\nobjects by what they have");
        for (name, k) in &self.objects {
            println!("  {name}: {k}");
        }
        if let Some(yes) = self.white_spaces {
            println!("\nWhite_Space among all numbers below x110000, by the call under test: {yes}");
        }
        self.print_rooms();
        self.print_fees();
        self.print_plus();
        self.print_relocations();
        println!("\ndifferences: {}", self.differences);
        for line in &self.told {
            println!("  {line}");
        }
    }

    fn print_excluded(&self) {
        println!("cases that document 01 or request P8 keeps out of the runs, compared with the numbers alone");
        let mut excluded: BTreeMap<(Call, Excluded, &str), u64> = BTreeMap::new();
        for (call, row) in self.fixed.iter().chain(&self.random) {
            for ((why, did), k) in &row.excluded {
                *excluded.entry((*call, *why, did)).or_default() += k;
            }
        }
        for ((call, why, did), k) in excluded {
            println!("  {call:?}, {why:?}, the crate {did}: {k}");
        }
    }

    /// Nothing where the call isn't linked.
    fn print_fees(&self) {
        let Fees { members, halves } = self.fees;
        if members > 0 {
            println!("\nlending fees of members, and those whose 70 percent ends on half a cent: {members}, {halves}");
        }
    }

    fn print_plus(&self) {
        let kinds: Vec<String> = Cell::ALL.iter().map(|cell| format!("{cell:?}: {}", self.plus.get(cell).unwrap_or(&0))).collect();
        println!("\ntexts in which a `+` decides, by its cell: {}", kinds.join(", "));
    }

    fn print_relocations(&self) {
        let [files, read] = self.earlier_files;
        println!("\nfiles as the crate writes them, high byte first, with {CHANGED}, and those that read: {files}, {read}");
        if self.trips.lists > 0 {
            println!("lists of trips at random: {}", self.trips.lists);
            self.trips.kinds().iter().for_each(|(name, k)| println!("  {name}: {k}"));
        }
    }

    fn print_rooms(&self) {
        let [even, odd] = self.rooms;
        let (files, met) = (even.files + odd.files, even.met + odd.met);
        println!("\naccepted binary files, and those with just (n - 7) / 2 words, rounded down: {files}, {met}");
        for (name, rooms) in LENGTHS.iter().zip(&self.rooms) {
            println!("  of {name} length: {}, {}", rooms.files, rooms.met);
        }
    }
}

impl Trips {
    fn kinds(&self) -> [(&'static str, u64); 5] {
        [
            ("list with an odd number of binary trips made, the bytes of a relocation's address differing", self.odd),
            ("list with an even number of them above 0, likewise", self.even),
            ("list with trips made in both forms", self.mixed),
            ("trip whose byte buffer is too short", self.short_bytes),
            ("trip whose word buffer alone is too short", self.short_words),
        ]
    }

    /// The kinds that are missing; none where no list was made.
    fn gaps(&self) -> Vec<String> {
        let missing = self.kinds().into_iter().filter(|(_, k)| self.lists > 0 && *k == 0);
        missing.map(|(name, _)| format!("Trips: no {name}")).collect()
    }
}

impl Row {
    /// Calls with number 0, and all calls.
    fn accepted(&self) -> (u64, u64) {
        (self.numbers.get(&0).copied().unwrap_or(0), self.numbers.values().sum())
    }
}
