//! The Rust side with one mistake, to see that the comparison catches it.

use images::bytes::Damage;
use images::told::Told;
use images::{catalogue, row, statement};

use crate::sides::{Asked, Kind, rust};

pub struct Mistake {
    pub name: &'static str,
    kind: Kind,
    /// What the decoder says where the test refuses that is missing.
    words: &'static str,
    lack: Lack,
}

enum Lack {
    /// Reads as a decoder without the test would: what the test found is mended, and the rest is read.
    Mended(fn(&mut [u8], &Damage)),
    /// Takes all that the test is the first to refuse.
    Taken,
}

use Kind::{Catalogue, Row, RowOf, Statement};
use Lack::{Mended, Taken};

const fn mistake(name: &'static str, kind: Kind, words: &'static str, lack: Lack) -> Mistake {
    Mistake { name, kind, words, lack }
}

pub const MISTAKES: &[Mistake] = &[
    mistake("any-mark", Statement, "a mark is 0 or 1", Mended(|bytes, damage| bytes[damage.at] = 1)),
    mistake("any-raw-text", Statement, "raw text: the text is not UTF-8", Mended(as_ascii)),
    mistake("any-name", Statement, "name: the text is not UTF-8", Mended(as_ascii)),
    mistake("any-digits", Statement, "digits: the text is not UTF-8", Mended(as_ascii)),
    mistake("any-kind-of-node", Statement, "is no kind of node", Mended(|bytes, damage| bytes[damage.at] = 29)),
    mistake("any-span", Statement, "must stand", Mended(right_span)),
    mistake("nodes-left-over", Statement, "nodes are left over", Taken),
    mistake("too-few-operands", Statement, "finds too few operands", Taken),
    mistake("content-of-an-operator", Statement, "has no content", Taken),
    mistake("bytes-behind-a-field", Statement, "stand behind its last field", Taken),
    mistake("bytes-behind-the-contents", Statement, "contents of an expression", Taken),
    mistake("any-number-of-parts", Statement, "a record of", Taken),
    mistake("any-sum-of-lengths", Statement, "the lengths add up to", Taken),
    mistake("names-up-to-129", Statement, "name: 129 bytes", Taken),
    mistake("lists-up-to-65", Statement, "65 entries", Taken),
    mistake("rows-up-to-1025", Statement, "1025 rows", Taken),
    mistake("depth-up-to-65", Statement, "65 levels", Taken),
    mistake("bytes-up-to-65537", Statement, "65537 bytes", Taken),
    mistake("letters-beyond-ascii", Statement, "unquoted name", Taken),
    mistake("any-table-name", Catalogue, "table name: the text is not UTF-8", Mended(as_ascii)),
    mistake("any-column-name", Catalogue, "column name: the text is not UTF-8", Mended(as_ascii)),
    mistake("any-nullable", Catalogue, "nullable: a mark", Mended(|bytes, damage| bytes[damage.at] = 1)),
    mistake("any-type", Catalogue, "is no code here", Mended(|bytes, damage| bytes[damage.at] = 2)),
    mistake("table-id-twice", Catalogue, "an earlier table has the id", Taken),
    mistake("table-name-twice", Catalogue, "an earlier table has the name", Taken),
    mistake("column-id-0", Catalogue, "has the id 0", Taken),
    mistake("column-id-twice", Catalogue, "an earlier column has the id", Taken),
    mistake("column-name-twice", Catalogue, "an earlier column has the name", Taken),
    mistake("key-empty", Catalogue, "the key is empty", Taken),
    mistake("key-id-twice", Catalogue, "twice", Taken),
    mistake("key-id-of-no-column", Catalogue, "no column has it", Taken),
    mistake("key-nullable", Catalogue, "is nullable", Taken),
    mistake("catalogue-names-up-to-129", Catalogue, "name: 129 bytes", Taken),
    mistake("columns-up-to-65", Catalogue, "65 columns", Taken),
    mistake("tables-up-to-257", Catalogue, "257 tables", Taken),
    mistake("catalogue-bytes-up-to-65537", Catalogue, "65537 bytes", Taken),
    mistake("any-truth-value", Row, "is no code here, the last is 1", Mended(|bytes, damage| bytes[damage.at] = 1)),
    mistake("any-text-in-a-row", Row, "value: the text is not UTF-8", Mended(as_ascii)),
    mistake("bytes-behind-a-value", Row, "stand behind its last field", Taken),
    mistake("sum-of-a-row's-lengths", Row, "the lengths add up to", Taken),
    mistake("value-of-any-type", RowOf, "takes", Taken),
    mistake("any-number-of-values", RowOf, "values and the table", Taken),
    mistake("row-of-no-table", RowOf, "there are only", Taken),
];

pub fn named(name: &str) -> Option<&'static Mistake> {
    MISTAKES.iter().find(|mistake| mistake.name == name)
}

impl Mistake {
    /// Whether it is about rows, which a binding is not given.
    pub fn of_rows(&self) -> bool {
        matches!(self.kind, Row | RowOf)
    }

    pub fn told(&self, asked: &Asked, bytes: &[u8]) -> Told {
        if asked.kind() != self.kind {
            return rust(asked, bytes);
        }
        match self.lack {
            Taken => self.taking(asked, bytes),
            Mended(mend) => self.mending(asked, bytes.to_vec(), mend),
        }
    }

    fn taking(&self, asked: &Asked, bytes: &[u8]) -> Told {
        let told = rust(asked, bytes);
        if told.reason.contains(self.words) { Told { number: 0, ..told } } else { told }
    }

    fn mending(&self, asked: &Asked, mut bytes: Vec<u8>, mend: fn(&mut [u8], &Damage)) -> Told {
        while let Some(damage) = found(self.kind, &bytes)
            && damage.message.contains(self.words)
        {
            mend(&mut bytes, &damage);
        }
        rust(asked, &bytes)
    }
}

fn found(kind: Kind, bytes: &[u8]) -> Option<Damage> {
    match kind {
        Statement => statement::decode(bytes).err(),
        Catalogue => catalogue::decode(bytes).err(),
        Row | RowOf => row::decode(bytes).err(),
    }
}

fn as_ascii(bytes: &mut [u8], damage: &Damage) {
    bytes[damage.at] = b'?';
}

/// The span that must stand there is a number in the refusal's words.
fn right_span(bytes: &mut [u8], damage: &Damage) {
    let wanted = damage.message.split(' ').rev().nth(2).and_then(|word| word.parse::<u16>().ok());
    bytes[damage.at..damage.at + 2].copy_from_slice(&wanted.unwrap_or_default().to_le_bytes());
}
