//! Document 01's example and the cases that it marks M, and those of requests P8 and P10, each through the crate and through the numbers.
use crate::hex;
use crate::reference::{read_binary, read_text, Answer, Object};

const WORDS: &str = "00003000 20011234 20000000 40003001 C0000005 C0000000 C0000000 E1000041 60000000 C0000001 C0000000 \
    C0000000 20013000 80000000 E3620A61 E100000A A0000130 E1000041";

/// Document 01's 77 bytes, written earlier than request P10: the relocation's address is high byte first.
const EARLIER: &str = "6F 62 6A 21 10 00 01  00 00 30 02 00 FF 34 12 00 00 00  \
    01 01 30 00 05 00 00 00 00 00 00 00 01 00 00 00 00 00 00 00 41  02 01 00 00 00 00 00 00 00 01 00 00 30  \
    03 04 00 00 00 00 00 00 00 61 0A 62 0A  04 01 30 01 00 00 00 00 00 00 00 41";

/// As document 01 prints it, from its first line to its last; the row of line 2 ends in a space.
const PRINTED: &str = "LC-3 OBJ FILE\n\n.TEXT\n3000\n2\n1234\n????\n\n.SYMBOL\nADDR | EXT | LABEL\n3001 |   0 | A\n\n.LINKER_INFO\n\
    ADDR | LABEL\n3001 | A\n\n.DEBUG\n# DEBUG SYMBOLS FOR LC3TOOLS\n\nLABEL | INDEX\nA     |     5\n====================\n\
    LINE | ADDR | SOURCE\n   0 | ???? | a\\n\n   1 | 3000 | b\\n\n   2 | ???? | \n====================\n";

/// Document 01's object, its binary file, written earlier than request P10, and the text file of what that reads as.
pub fn example() -> (Vec<u32>, Vec<u8>, Vec<u8>) {
    (hex::parse_words(WORDS).unwrap(), hex::parse_bytes(EARLIER).unwrap(), PRINTED.into())
}

/// The 77 bytes that document 01's object gives by request P10.
fn written() -> String {
    EARLIER.replace("04 01 30", "04 30 01")
}

/// Header and records, in digits.
fn whole(records: &str) -> String {
    format!("6F626A21100001{records}")
}

fn file(records: &str) -> Vec<u8> {
    hex::parse_bytes(&whole(records)).unwrap()
}

fn line_record(first: u8, addrs: &str) -> String {
    format!("02 {first:02X} 00000000000000 {:02X} 00 {addrs}", addrs.split_whitespace().collect::<String>().len() / 4)
}

fn debug(rows: &str) -> String {
    format!("LC-3 OBJ FILE\n.DEBUG\n=\nLINE | ADDR | SOURCE\n{rows}=\n")
}

/// What a case puts in, and to which call.
pub enum Input {
    ReadBinary(Vec<u8>),
    ReadText(Vec<u8>),
    WriteBinary(Vec<u32>),
    WriteText(Vec<u32>),
}
use Input::{ReadBinary, ReadText, WriteBinary, WriteText};

/// What comes: the number, what the crate does, and the output in hex.
type Outcome = (u8, &'static str, Option<String>);

fn outcome<T>(a: Answer<Vec<T>>, show: fn(&[T]) -> String) -> Outcome {
    (a.number, a.crate_did, a.value.map(|v| show(&v)))
}

fn gives(hex: &str) -> Outcome {
    (0, "gave", Some(hex.split_whitespace().collect()))
}

/// Request P10: relocation addresses are written low byte first, and read so as before, also where they were written high byte first.
/// x1212 has the same bytes either way. Document 01's object is among [`cases`].
pub fn relocations() -> Vec<(&'static str, Input, Outcome)> {
    let zeros = "00".repeat(7);
    let relocation = |addr: &str, name: &str| format!("04 {addr} 01 {zeros} {name}");
    let source = format!("03 00 {zeros}");
    let two = "80000000 A0000102 E1000041 A0000201 E1000042";
    let two_written = whole(&(source.clone() + &relocation("0201", "41") + &relocation("0102", "42")));
    let two_earlier = whole(&(source.clone() + &relocation("0102", "41") + &relocation("0201", "42")));
    let two_names_changed = "80000000 A0000102 E1000042 A0000201 E1000041";
    let same = "80000000 A0001212 E1000041";
    let same_written = whole(&(source + &relocation("1212", "41")));
    let alone = whole(&relocation("3001", "41"));
    let write = |words: &str| WriteBinary(hex::parse_words(words).unwrap());
    let read = |file: &str| ReadBinary(hex::parse_bytes(file).unwrap());
    vec![
        ("the 77 bytes read back as the 18 words", read(&written()), gives(WORDS)),
        ("two relocations", write(two), gives(&two_written)),
        ("two relocations read back", read(&two_written), gives(two)),
        ("two relocations written earlier: each has the other's name", read(&two_earlier), gives(two_names_changed)),
        ("a relocation alone is dropped", read(&alone), gives("-")),
        ("a relocation at x1212", write(same), gives(&same_written)),
        ("a relocation at x1212 reads back", read(&same_written), gives(same)),
    ]
}

/// Request P8: the case of document 01 that becomes a no, and in which order a `+` is asked for. The crate goes by document 01 alone.
fn plus_signs() -> [(&'static str, Input, Outcome); 4] {
    let text = |s: &str| ReadText(format!("LC-3 OBJ FILE\n{s}").into_bytes());
    let table = |line: &str| format!(".DEBUG\n=\nLINE | ADDR | SOURCE\n{line} | ???? | \n=\n");
    [
        ("+0FF", text(".TEXT\n+0FF\n1\n+0FF\n"), (24, "gave", None)),
        ("+ in the count of a block that stands already: not 25", text(".TEXT\n3000\n0\n3000\n+0\n"), (24, "refused", None)),
        ("+ in a debug label row, no bars: not 26", text(".DEBUG\nLABEL | INDEX\nA | +5\n"), (27, "refused", None)),
        ("+ as LINE in a second table with rows: not 29", text(&(table("0") + &table("+0"))), (28, "gave", None)),
    ]
}

/// Each case with its name and what document 01, or a request, says of it.
pub fn cases() -> Vec<(&'static str, Input, Outcome)> {
    let words = |s: &str| hex::parse_words(s).unwrap();
    let refused = |n: u8| (n, "refused", None);
    let text = |s: &str| ReadText(s.as_bytes().to_vec());
    let binary = |records: &str| ReadBinary(file(records));
    // Of the earlier 77 bytes the relocation, written as 01 30, reads as x3001.
    let read_back = WORDS.replace("A0000130", "A0003001");
    let (line_1, line_2, line_3) = (line_record(1, "0030 0130"), line_record(2, "0230"), line_record(3, "0230"));
    let two_blocks = "60000000 C0000001 C0000000 C0000000 20013000 20013001 60000000 C0000003 C0000000 C0000000 20013002 80000000";
    let equal_rows = debug("0 | 3000 | \\n\n1 | 3000 | \\n\n2 | ???? | \n");
    let equal_words = "60000000 C0000000 C0000000 C0000000 20013000 20013000 80000000 E2000A0A";
    let mut out = vec![
        ("18 words write 77 bytes", WriteBinary(words(WORDS)), gives(&written())),
        ("77 bytes written earlier, the relocation swapped", ReadBinary(hex::parse_bytes(EARLIER).unwrap()), gives(&read_back)),
        ("the text of what the earlier 77 bytes read as", WriteText(words(&read_back)), gives(&hex::bytes(PRINTED.as_bytes()))),
        ("the printing reads back", text(PRINTED), gives(&read_back)),
        ("header alone", binary(""), gives("-")),
        ("six header bytes", ReadBinary(file("")[..6].to_vec()), refused(10)),
        ("equal line addresses, binary", binary(&line_record(1, "0030 0030")), refused(14)),
        ("equal line addresses, text", text(&equal_rows), gives(equal_words)),
        ("a block twice, binary: last wins", binary("00 0030 0100 FF1111  00 0030 0100 FF2222"), gives("00003000 20012222")),
        ("a block twice, text", text("LC-3 OBJ FILE\n.TEXT\n3000\n1\n1111\n3000\n1\n2222\n"), refused(25)),
        ("flag 01 means uninitialised", binary("00 0030 0100 013412"), gives("00003000 20000000")),
        ("one = line", text("LC-3 OBJ FILE\n.DEBUG\n=\n"), (27, "panicked", None)),
        ("first line 1 count 2 before first line 3", binary(&(line_1.clone() + &line_3)), gives(two_blocks)),
        ("first line 1 count 2 before first line 2", binary(&(line_1 + &line_2)), refused(15)),
    ];
    out.extend(plus_signs());
    out
}

/// Prints each case and whether all came as the documents say.
pub fn print() -> bool {
    let mut all = true;
    for (name, input, said) in cases().into_iter().chain(relocations()) {
        let came = match input {
            ReadBinary(f) => outcome(read_binary(&f), hex::words),
            ReadText(f) => outcome(read_text(&f), hex::words),
            WriteBinary(w) => outcome(Object::new(w).write_binary(), hex::bytes),
            WriteText(w) => outcome(Object::new(w).write_text(), hex::bytes),
        };
        all &= came == said;
        println!("{} {name}: {came:?}", if came == said { "as said" } else { "DIFFERS" });
        if came != said {
            println!("        the documents: {said:?}");
        }
    }
    all
}
