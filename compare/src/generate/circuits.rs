//! Circuit files (C-11): our own, well-formed ones as another house may write them, and ones refused by a
//! wanted number.

use super::conditions::Conditions;
use super::kinds::Kinds;
use super::words::Words;
use super::{damage_by, plans, rules, Random};
use crate::circuit::{accept, preconditions, Settings};
use crate::law::*;
use crate::plan::check;
use crate::write::{fuse_with, Fused, Record, Wire};

/// Codes, counts and wires of a circuit file, and what stands beside them.
const TELLING: [u8; 22] = [
    0x00, 0x01, 0x02, 0x03, 0x06, 0x07, 0x08, 0x10, 0x11, 0x12, 0x13, 0x1F, 0x20, 0x23, 0x25, 0x27,
    0x28, 0x30, 0x31, 0x32, 0x33, 0xFF,
];

/// Mark and version.
const HEAD: usize = 5;

/// A circuit, and the version that its file is to have.
#[derive(Clone)]
pub struct Made {
    pub circuit: Fused,
    pub version: Version,
}

impl Made {
    pub fn file(&self) -> Vec<u8> {
        self.circuit.file_of(self.version)
    }
}

/// A circuit whose file reading accepts.
pub fn accepted(random: &mut Random, words: Words) -> Made {
    match random.below(100) {
        0..=34 => own(random, words),
        _ => foreign(random, words),
    }
}

/// What our writer makes of a random rule and plan, or made of it before C-17 or C-18.
pub fn own(random: &mut Random, words: Words) -> Made {
    let conditions = words.conditions.or_six(random, 30);
    let picks = match conditions {
        Conditions::Six => PICKS_BEFORE,
        Conditions::Eight => words.picks.or_before(random, 25),
    };
    let words = Words {
        conditions,
        ..words
    };
    let accepted = accept(&rules::accepted(random, words)).expect("made so");
    let needs = preconditions(&accepted.circuit);
    let ground = plans::Ground::new(&accepted.circuit, &needs).with(words.picks);
    let plan = plans::valid(random, &ground);
    let plan = check(&accepted.circuit, needs, &plan).expect("a valid plan");
    Made {
        circuit: fuse_with(&accepted.circuit, &plan, picks),
        version: words.conditions.written(),
    }
}

/// A circuit of records that no rule need have: several guards at 1, wires that nothing reads, any tables.
pub fn foreign(random: &mut Random, words: Words) -> Made {
    let version = words.conditions.version(random);
    let mut maker = maker(random, version);
    let shape = maker.random.below(50);
    let wires = match shape {
        0 => WIRES_MAX,
        1 => maker.random.among(VARIABLES_MAX, WIRES_MAX),
        2 => maker.circuit.records.len(),
        _ => maker.circuit.records.len() + maker.random.below(24),
    };
    while maker.circuit.records.len() < wires {
        maker.any_record();
    }
    if shape == 3 {
        maker.fill(CIRCUIT_BYTES_MAX);
    }
    let circuit = maker.finish(words.kinds);
    Made { circuit, version }
}

/// The file filled up with picks to just so many bytes; there is room for them.
pub fn at_bytes(random: &mut Random, version: Version, bytes: usize) -> Vec<u8> {
    let mut maker = maker(random, version);
    for _ in 0..10 {
        maker.any_record();
    }
    maker.fill(bytes);
    maker.finish(Kinds::Results).file_of(version)
}

/// What a random circuit is made by.
struct Maker<'a> {
    random: &'a mut Random,
    version: Version,
    circuit: Fused,
    /// The wires so far of words and of bits.
    of_kind: [Vec<Wire>; 2],
}

fn maker(random: &mut Random, version: Version) -> Maker<'_> {
    let kinds = rules::kinds(random);
    let circuit = Fused {
        records: Vec::new(),
        outputs: Vec::new(),
    };
    let mut maker = Maker {
        random,
        version,
        circuit,
        of_kind: [Vec::new(), Vec::new()],
    };
    for (variable, kind) in kinds.into_iter().enumerate() {
        maker.add(Record::Input(variable, kind), kind);
    }
    maker
}

impl Maker<'_> {
    fn add(&mut self, record: Record, kind: Kind) {
        self.of_kind[kind as usize].push(Wire(self.circuit.records.len()));
        self.circuit.records.push(record);
    }

    fn has(&self, kind: Kind) -> bool {
        !self.of_kind[kind as usize].is_empty()
    }

    /// An earlier wire of the kind, which there is: often a late one.
    fn wire(&mut self, kind: Kind) -> Wire {
        let all = &self.of_kind[kind as usize];
        let late = all.len().saturating_sub(4);
        let from = if self.random.chance(40) { late } else { 0 };
        self.random.pick(&all[from..])
    }

    fn wires(&mut self, kind: Kind, count: usize) -> Vec<Wire> {
        (0..count).map(|_| self.wire(kind)).collect()
    }

    /// A kind that some wire has.
    fn kind(&mut self) -> Kind {
        let kind = self.random.pick(&[Kind::Word, Kind::Bit]);
        match (kind, self.has(kind)) {
            (_, true) => kind,
            (Kind::Word, _) => Kind::Bit,
            (Kind::Bit, _) => Kind::Word,
        }
    }

    /// One record more: a constant where there is no bit to choose by.
    fn any_record(&mut self) {
        match self.random.below(20) {
            0 => self.constant(Kind::Word),
            1..=8 => self.operation(),
            9..=11 if self.has(Kind::Bit) => self.choice(),
            12..=16 if self.has(Kind::Bit) => {
                let pairs = self.random.pick(&[1, 2, 2, 3, 3, 4, 8, 40]);
                self.pick(pairs);
            }
            17.. if self.has(Kind::Bit) => self.guard(),
            _ => self.constant(Kind::Bit),
        }
    }

    fn constant(&mut self, kind: Kind) {
        let record = match kind {
            Kind::Word => Record::Word(self.random.word()),
            Kind::Bit => Record::Bit(self.random.chance(50)),
        };
        self.add(record, kind);
    }

    fn operation(&mut self) {
        let takes = self.kind();
        let rows = OPERATIONS.iter().copied();
        let rows: Vec<Operation> = rows.filter(|row| row.takes == takes).collect();
        let row = self.random.pick(&rows);
        let wires = self.wires(row.takes, row.arguments);
        self.add(Record::Operation(row.code, wires), row.gives);
    }

    fn choice(&mut self) {
        let kind = self.kind();
        let condition = self.wire(Kind::Bit);
        let record = Record::Choice(condition, self.wire(kind), self.wire(kind));
        self.add(record, kind);
    }

    fn pick(&mut self, count: usize) {
        let kind = self.kind();
        let pair = |_| (self.wire(Kind::Bit), self.wire(kind));
        let pairs = (0..count).map(pair).collect();
        self.add(Record::Pick(pairs), kind);
    }

    fn guard(&mut self) {
        let count = self.random.below(self.version.guard_wires_max + 1);
        let wires = self.wires(Kind::Bit, count);
        let ones = self.random.pick(&[0, 20, 50, 80, 100]);
        let mut table = Settings::none();
        for j in 0..1 << count {
            if self.random.chance(ones) {
                table.add(j);
            }
        }
        self.add(Record::Guard(wires, table), Kind::Bit);
    }

    /// Picks, and at last a constant or a "not", until the file has just so many bytes.
    fn fill(&mut self, bytes: usize) {
        if !self.has(Kind::Bit) {
            self.constant(Kind::Bit);
        }
        assert!(self.left(bytes) >= Some(2), "no room to fill");
        while let Some(left) = self.left(bytes).filter(|&left| left > 0) {
            match left {
                2 | 4 => self.constant(Kind::Bit),
                3 => {
                    let bit = self.wire(Kind::Bit);
                    self.add(Record::Operation(NOT, vec![bit]), Kind::Bit);
                }
                5 | 7 => self.constant(Kind::Word),
                // So many pairs that a single byte is never left.
                _ => self.pick(((left - 2) / 4 - usize::from(left % 4 == 3)).clamp(1, 255)),
            }
        }
    }

    /// Bytes left for records in a file of so many.
    fn left(&self, bytes: usize) -> Option<usize> {
        let inputs = |record: &&Record| matches!(record, Record::Input(..));
        let variables = self.circuit.records.iter().filter(inputs).count();
        bytes.checked_sub(self.circuit.file_of(self.version).len() + 2 * variables)
    }

    /// With an output for every variable, of its kind; working ones have none.
    fn finish(mut self, kinds: Kinds) -> Fused {
        for place in 0..self.circuit.records.len() {
            if let Record::Input(_, kind) = self.circuit.records[place] {
                let output = self.wire(kind);
                self.circuit.outputs.push(Some(output));
            }
        }
        let working = kinds.working(self.random, self.circuit.outputs.len());
        for (output, working) in self.circuit.outputs.iter_mut().zip(working) {
            output.take_if(|_| working);
        }
        self.circuit
    }
}

/// A file that reading refuses by the wanted number, 60 to 62, found by trying.
pub fn refused(random: &mut Random, words: Words, wanted: u8) -> Vec<u8> {
    loop {
        let mut made = accepted(random, words);
        let mut file = match wanted {
            60 => bad_header(random, words.conditions, made),
            61 => bad_layout(random, words.conditions, made),
            _ => {
                if !odd_output(random, words.kinds, &mut made.circuit) {
                    bad_wires(random, &mut made);
                }
                made.file()
            }
        };
        // Often a second fault somewhere, so that it is seen which one decides.
        if random.chance(25) {
            damage_by(random, &mut file, 0, &TELLING);
        }
        let refusal = words.accept_file(&file).err();
        if refusal.is_some_and(|refusal| refusal.number == wanted) {
            return file;
        }
    }
}

/// A good file with some bytes changed, cut or added, whatever it comes to.
pub fn damaged(random: &mut Random, words: Words) -> Vec<u8> {
    let mut made = accepted(random, words);
    odd_output(random, words.kinds, &mut made.circuit);
    let mut file = made.file();
    for _ in 0..random.among(1, 2) {
        damage_by(random, &mut file, 0, &TELLING);
    }
    file
}

/// With working variables sometimes an output near FF FF, near the number of wires, or FF FF itself, which alone of
/// those that are no wire is admitted. Says whether there is one.
fn odd_output(random: &mut Random, kinds: Kinds, circuit: &mut Fused) -> bool {
    if kinds == Kinds::Results || random.chance(70) {
        return false;
    }
    let place = random.below(circuit.outputs.len());
    let wires = circuit.records.len();
    let odd = random.pick(&[0xFFFE, 0xFF00, 0x00FF, WIRES_MAX, wires, NO_WIRE]);
    circuit.outputs[place] = Some(Wire(odd));
    true
}

/// Versions that there are none of, beside those that there are.
const NO_VERSIONS: [[u8; 2]; 8] = [
    [0, 0],
    [0, 3],
    [0, 0xFF],
    [1, 0],
    [1, 1],
    [1, 2],
    [2, 0],
    [0x80, 2],
];

fn bad_header(random: &mut Random, conditions: Conditions, made: Made) -> Vec<u8> {
    let mut file = made.file();
    if conditions.more(random, 25) {
        file[3..HEAD].copy_from_slice(&random.pick(&NO_VERSIONS));
        return file;
    }
    match random.below(5) {
        0 => file.truncate(random.below(CIRCUIT_BYTES_MIN)),
        1 if random.chance(10) => {
            let over = random.pick(&[1, 1, 2, 100]);
            file = at_bytes(random, made.version, CIRCUIT_BYTES_MAX + over);
        }
        1 | 2 => file[random.below(HEAD)] ^= 1 << random.below(8),
        3 => file[5] = random.pick(&[0, 33, 34, 128, 255]),
        _ => {
            let wires = random.pick(&[641, 641, 642, 1024, 65_535]);
            file[6..8].copy_from_slice(&u16::to_be_bytes(wires));
        }
    }
    file
}

/// Where the record of a wire begins in the circuit's file.
fn start(made: &Made, wire: usize) -> usize {
    let records = made.circuit.records[..wire].to_vec();
    let outputs = Vec::new();
    Fused { records, outputs }.file_of(made.version).len()
}

fn bad_layout(random: &mut Random, conditions: Conditions, mut made: Made) -> Vec<u8> {
    if conditions.more(random, 15) {
        return in_the_other(random, made);
    }
    let circuit = &mut made.circuit;
    let place = random.below(circuit.records.len());
    let fault = random.below(9);
    // Row 61 comes before 62, so what else the record put there breaks does not matter.
    match fault {
        0 => circuit.records[place] = Record::Bit(false),
        1 => {
            let over = made.version.guard_wires_max + 1;
            let count = random.pick(&[over, over, over + 1, 64, 255]);
            circuit.records[place] = Record::Guard(vec![Wire(0); count], Settings::none());
        }
        2 => circuit.records[place] = Record::Pick(Vec::new()),
        _ => {}
    }
    let mut file = made.file();
    let start = start(&made, place);
    match fault {
        0 => file[start + 1] = random.pick(&[2, 3, 0x12, 255]),
        3 => file[start] = random.pick(&[0x02, 0x10, 0x13, 0x1F, 0x28, 0x2F, 0x33, 0xFF]),
        4 => file.truncate(random.among(CIRCUIT_BYTES_MIN, file.len() - 1)),
        5 => file.extend((0..random.among(1, 3)).map(|_| random.any() as u8)),
        6 => file[7] = file[7].wrapping_add(random.pick(&[1, 255])),
        7 => file[5] = random.among(VARIABLES_MIN, VARIABLES_MAX) as u8,
        8 => damage_by(random, &mut file, CIRCUIT_BYTES_MIN, &TELLING),
        _ => {}
    }
    file
}

/// A file whose version is made the other, while its guards keep their size.
fn in_the_other(random: &mut Random, mut made: Made) -> Vec<u8> {
    let wires = made.circuit.records.len();
    let bit = |&wire: &usize| matches!(made.circuit.records[wire], Record::Input(_, Kind::Bit));
    let bits: Vec<usize> = (0..made.circuit.outputs.len()).filter(bit).collect();
    // A guard, where there is a bit to guard by; else whatever is there.
    if !bits.is_empty() && wires < WIRES_MAX {
        let count = random.below(made.version.guard_wires_max + 1);
        let wires = (0..count).map(|_| Wire(random.pick(&bits))).collect();
        let guard = Record::Guard(wires, Settings::none());
        made.circuit.records.push(guard);
    }
    let mut file = made.file();
    let other = VERSIONS.into_iter().find(|other| *other != made.version);
    file[3..HEAD].copy_from_slice(&other.expect("two versions").bytes);
    file
}

/// Another wire than before: the record's own, a later one, none at all, or any earlier, of whatever kind.
fn another(random: &mut Random, own: usize, wires: usize) -> Wire {
    let any = random.below(wires);
    Wire(random.pick(&[own, own + 1, wires, 65_535, any, any, any, any, any]))
}

/// One fault of row 62, or what may be one.
fn bad_wires(random: &mut Random, made: &mut Made) {
    let version = made.version;
    let circuit = &mut made.circuit;
    let wires = circuit.records.len();
    let place = random.below(wires);
    match random.below(12) {
        0..=4 => move_wire(random, circuit, place),
        5 => {
            let output = random.below(circuit.outputs.len());
            circuit.outputs[output] = Some(another(random, wires, wires));
        }
        6 => set_table_bit(random, version, circuit),
        7 => bad_input(random, circuit),
        8 => {
            let record = circuit.records[place].clone();
            circuit.records.insert(random.among(place, wires), record);
        }
        9 => {
            circuit.records.remove(place);
        }
        10 => {
            if let Record::Operation(code, _) = &mut circuit.records[place] {
                *code = random.among(usize::from(SUM), usize::from(OR)) as u8;
            }
        }
        _ => circuit
            .records
            .truncate(random.below(circuit.outputs.len())),
    }
}

/// A wire of the record, or of the first after it that reads any.
fn move_wire(random: &mut Random, circuit: &mut Fused, place: usize) {
    let wires = circuit.records.len();
    for (own, record) in circuit.records.iter_mut().enumerate().skip(place) {
        let mut named: Vec<&mut Wire> = match record {
            Record::Input(..) | Record::Word(_) | Record::Bit(_) => continue,
            Record::Operation(_, wires) | Record::Guard(wires, _) => wires.iter_mut().collect(),
            Record::Choice(condition, first, second) => vec![condition, first, second],
            Record::Pick(pairs) => pairs.iter_mut().flat_map(|(g, v)| [g, v]).collect(),
        };
        if !named.is_empty() {
            let which = random.below(named.len());
            *named[which] = another(random, own, wires);
            return;
        }
    }
}

/// A bit from 2^d up of some guard of less wires than there can be, which is added where there is none.
fn set_table_bit(random: &mut Random, version: Version, circuit: &mut Fused) {
    let most = version.guard_wires_max;
    let small = |record: &Record| matches!(record, Record::Guard(wires, _) if wires.len() < most);
    let mut guards: Vec<usize> = (0..circuit.records.len())
        .filter(|&wire| small(&circuit.records[wire]))
        .collect();
    if guards.is_empty() {
        guards.push(circuit.records.len());
        let guard = Record::Guard(Vec::new(), Settings::none());
        circuit.records.push(guard);
    }
    if let Record::Guard(wires, table) = &mut circuit.records[random.pick(&guards)] {
        let first = 1 << wires.len();
        let last = version.table_bits() - 1;
        let bit = random.among(first, last);
        table.add(random.pick(&[first, bit, bit, last]));
    }
}

/// Inputs that are not the first V records in order, or one of the other kind.
fn bad_input(random: &mut Random, circuit: &mut Fused) {
    let variables = circuit.outputs.len();
    let which = random.below(variables);
    let kind = random.pick(&[Kind::Word, Kind::Bit]);
    match random.below(4) {
        0 => circuit.records.swap(which, 0),
        1 => {
            let other = random.below(variables);
            let variable = random.pick(&[0, variables, 255, other]);
            circuit.records[which] = Record::Input(variable, kind);
        }
        2 => circuit.records[which] = Record::Input(which, kind),
        _ => circuit.records.push(Record::Input(which, kind)),
    }
}
