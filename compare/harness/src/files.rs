//! Circuit files that are measured: of just so many wires, made of every sort of record in the same shares, one of them in
//! version 1 too, one with guards of eight wires, and the largest that there is.

use crate::subject::{Goal, Row, Subject};
use compare::circuit::Settings;
use compare::law::*;
use compare::write::{Fused, Record, Wire};

const WIRES: [usize; 5] = [40, 80, 160, 320, 640];
const KINDS: [Kind; 6] = [
    Kind::Bit,
    Kind::Bit,
    Kind::Word,
    Kind::Word,
    Kind::Word,
    Kind::Word,
];
/// Pairs of a pick in the files that grow, as of a group of two.
const PAIRS: usize = 2;

/// One file of each count of wires.
pub fn growing() -> Vec<Row> {
    let row = |wires| small(wires).row(format!("{wires} wires"));
    WIRES.into_iter().map(row).collect()
}

/// The last of them as it was written before C-17, and with guards of as many wires as there can be.
pub fn others() -> Vec<Row> {
    let before = Maker {
        version: VERSION_1,
        ..small(WIRES_MAX)
    };
    let mut wide = Maker {
        guard_wires: VERSION_2.guard_wires_max,
        ..Maker::new()
    };
    while wide.circuit.records.len() < WIRES_MAX {
        wide.add(PAIRS);
    }
    vec![
        before.row("640 wires, version 1".into()),
        wide.row("640 wires, guards of 8".into()),
    ]
}

fn small(wires: usize) -> Maker {
    let mut maker = Maker::new();
    while maker.circuit.records.len() < wires {
        maker.add(PAIRS);
    }
    maker
}

/// 640 wires and 16,384 bytes: the same records, the picks with as many pairs as fill the file.
pub fn largest() -> Row {
    let smaller = small(WIRES_MAX).row(String::new());
    let smaller = &smaller.subjects[0];
    let left = CIRCUIT_BYTES_MAX - smaller.file.len();
    // A word that is made a bit saves three bytes; so many that whole pairs of four fill the rest.
    let bits_for_words = left % 4;
    let mut pairs = smaller.pairs() + (left + 3 * bits_for_words) / 4;
    let mut picks = smaller.pairs() / PAIRS;
    let mut maker = Maker {
        bits_for_words,
        ..Maker::new()
    };
    while maker.circuit.records.len() < WIRES_MAX {
        let share = pairs / picks.max(1);
        if maker.add(share) {
            pairs -= share;
            picks -= 1;
        }
    }
    maker.row("640 wires, 16,384 bytes".into())
}

/// Records of one turn, after which the same sorts come again.
const TURN: usize = 10;

/// Makes record after record, each from the last wires of the kinds that it takes.
struct Maker {
    circuit: Fused,
    words: Vec<Wire>,
    bits: Vec<Wire>,
    /// So many of the next constants of words are to be bits.
    bits_for_words: usize,
    guard_wires: usize,
    version: Version,
}

impl Maker {
    fn new() -> Maker {
        let mut maker = Maker {
            circuit: Fused {
                records: Vec::new(),
                outputs: Vec::new(),
            },
            words: Vec::new(),
            bits: Vec::new(),
            bits_for_words: 0,
            guard_wires: 2,
            version: VERSION_2,
        };
        for (variable, kind) in KINDS.into_iter().enumerate() {
            maker.put(Record::Input(variable, kind), kind);
        }
        maker
    }

    fn put(&mut self, record: Record, kind: Kind) {
        let wire = Wire(self.circuit.records.len());
        match kind {
            Kind::Word => self.words.push(wire),
            Kind::Bit => self.bits.push(wire),
        }
        self.circuit.records.push(record);
    }

    /// The last word but so many, around from the first again.
    fn word(&self, back: usize) -> Wire {
        self.words[self.words.len() - 1 - back % self.words.len()]
    }

    fn bit(&self, back: usize) -> Wire {
        self.bits[self.bits.len() - 1 - back % self.bits.len()]
    }

    /// A guard that is 1 where of its first two wires an odd number is 1, or an even one.
    fn guard(&self, odd: usize) -> Record {
        let mut table = Settings::none();
        for j in (0..1 << self.guard_wires).filter(|j| (j ^ j >> 1) & 1 == odd) {
            table.add(j);
        }
        let wires = (0..self.guard_wires).map(|back| self.bit(back)).collect();
        Record::Guard(wires, table)
    }

    /// The next record: a comparison, two guards, two picks by them, a product, a constant, a sum, a choice, an and.
    /// Says whether it is a pick.
    fn add(&mut self, pairs: usize) -> bool {
        let [last, before] = [self.word(0), self.word(1)];
        let bits = vec![self.bit(0), self.bit(1)];
        let operation = |code| Record::Operation(code, vec![last, before]);
        let place = (self.circuit.records.len() - KINDS.len()) % TURN;
        let (record, kind) = match place {
            0 => (operation(LESS), Kind::Bit),
            1 => (self.guard(1), Kind::Bit),
            2 => (self.guard(0), Kind::Bit),
            3 | 4 => {
                let pair = |turn| (self.bit(turn), self.word(turn + place));
                (Record::Pick((0..pairs).map(pair).collect()), Kind::Word)
            }
            5 => (operation(PRODUCT), Kind::Word),
            6 if self.bits_for_words > 0 => {
                self.bits_for_words -= 1;
                (Record::Bit(true), Kind::Bit)
            }
            6 => (Record::Word(7), Kind::Word),
            7 => (operation(SUM), Kind::Word),
            8 => (Record::Choice(self.bit(0), last, before), Kind::Word),
            _ => (Record::Operation(AND, bits), Kind::Bit),
        };
        self.put(record, kind);
        matches!(place, 3 | 4)
    }

    /// The file, whose outputs are the last wires of their kinds.
    fn row(mut self, name: String) -> Row {
        for (back, kind) in KINDS.into_iter().enumerate() {
            let output = match kind {
                Kind::Word => self.word(back),
                Kind::Bit => self.bit(back),
            };
            self.circuit.outputs.push(Some(output));
        }
        let subject = Subject {
            rule: Vec::new(),
            plan: Vec::new(),
            inputs: vec![1, 0, 5, 6, 7, 8],
            file: self.circuit.file_of(self.version),
        };
        Row::one(name, subject, Goal::None)
    }
}
