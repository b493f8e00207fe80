//! What the calls are made on.
use crate::gen::many;
use crate::growth;
use crate::marked;
use crate::numbers::{binary, text_write, Outcome};
use crate::object::encode;
use crate::parts::Parts;
use crate::prng::Prng;
use crate::records;
use crate::reference::Object;
use crate::speed;

/// An object, and a file of each form.
pub struct Input {
    pub object: Object,
    pub binary: Vec<u8>,
    pub text: Vec<u8>,
}

/// Document 01's example.
pub fn document_01() -> Input {
    let (words, binary, text) = marked::example();
    Input { object: Object::new(words), binary, text }
}

/// 5,000 labels, with blocks, lines, a source and relocations. Every record of the binary file lies in random order, and so do the rows
/// of each table of the text file; the object has its labels by name, as it must, their addresses and source starts in random order.
pub fn labels() -> Input {
    let mut r = Prng::new(11);
    let labels = speed::labels(5_000).labels;
    let p = Parts {
        blocks: (0..200).map(|i| (300 * i, vec![Some(i), None])).collect(),
        relocs: (0..200).map(|i| (300 * i, labels[r.below(labels.len())].name.clone())).collect(),
        labels,
        ..growth::source(60_000)
    };
    let Outcome::Given(file) = binary::write(&p) else { unreachable!("the line blocks are short") };
    let mut list = records::records(&file).expect("it was written");
    r.shuffle(&mut list);
    let text = many::change_tables(&text_write::write(&p), |rows| r.shuffle(rows));
    Input { object: Object::new(encode(&p)), binary: [&file[..7], &list.concat()].concat(), text }
}

#[cfg(test)]
mod tests {
    use super::*;

    /// 5,000 names in random order: some half of them come before the name that stands before them.
    fn mixed(names: &[&[u8]]) -> bool {
        names.len() == 5_000 && (2_300..2_700).contains(&names.windows(2).filter(|w| w[1] < w[0]).count())
    }

    #[test]
    fn labels_lie_in_random_order() {
        let input = labels();
        let list = records::records(&input.binary).unwrap();
        assert!(mixed(&list.iter().filter(|record| record[0] == 1).map(|record| &record[20..]).collect::<Vec<_>>()));
        let mut tables = vec![];
        many::change_tables(&input.text, |rows| {
            let named = |row: &&str| row.split(" | ").find(|cell| cell.starts_with('L')).unwrap_or_default().trim().as_bytes().to_vec();
            tables.push(rows.iter().map(named).collect::<Vec<_>>());
        });
        for at in [0, 2] {
            assert!(mixed(&tables[at].iter().map(Vec::as_slice).collect::<Vec<_>>()), "labels by address, and by source start");
        }
    }
}
