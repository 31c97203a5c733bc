//! The numbers, codes and costs of document 01 and of C-11 to C-13 and C-16 to C-18, in one place: later requests move them here.

pub const RULE_MARK: [u8; 5] = [0x52, 0x55, 0x4C, 0x00, 0x01];
pub const PLAN_MARK: [u8; 5] = [0x50, 0x4C, 0x4E, 0x00, 0x01];
/// The mark and version of a batch (C-16).
pub const BATCH_MARK: [u8; 5] = [0x42, 0x41, 0x54, 0x00, 0x01];

pub const RULE_BYTES_MIN: usize = 6;
pub const RULE_BYTES_MAX: usize = 4096;
pub const VARIABLES_MIN: usize = 1;
pub const VARIABLES_MAX: usize = 32;
pub const EXPRESSION_DEPTH_MAX: usize = 8;

pub const GATES_MAX: usize = 256;
/// One setting for each way of giving every condition 0 or 1.
pub const SETTINGS: usize = 1 << LIMITS.conditions;

/// What rows 8 and 11 look at, which C-17 moved.
#[derive(Clone, Copy, Debug, PartialEq, Eq)]
pub struct Limits {
    pub conditions: usize,
    /// How deep ifs nest.
    pub ifs: usize,
}

/// C-17's.
pub const LIMITS: Limits = Limits {
    conditions: 8,
    ifs: 8,
};
/// Those of before C-17. No operation looks at them: what was stored before is made by them still.
pub const LIMITS_BEFORE: Limits = Limits {
    conditions: 6,
    ifs: 6,
};

pub const PLAN_BYTES_MIN: usize = 9;
pub const PLAN_BYTES_MAX: usize = 1024;
pub const GROUP_SIZE_MIN: usize = 2;

pub const WIRES_MAX: usize = 640;
/// What a file names as the output of a variable that has none (C-13).
pub const NO_WIRE: usize = 0xFFFF;
/// Mark, version, V and wire count.
pub const CIRCUIT_BYTES_MIN: usize = 8;
pub const CIRCUIT_BYTES_MAX: usize = 16_384;
pub const CIRCUIT_MARK: [u8; 3] = [0x43, 0x49, 0x52];

/// A version of circuit files, with its guards' size (C-17).
#[derive(Clone, Copy, Debug, PartialEq, Eq)]
pub struct Version {
    pub bytes: [u8; 2],
    pub guard_wires_max: usize,
}

impl Version {
    /// A guard's table has one bit for each setting of as many wires as it can have.
    pub const fn table_bits(self) -> usize {
        1 << self.guard_wires_max
    }

    pub const fn table_bytes(self) -> usize {
        self.table_bits() / 8
    }

    pub fn of_bytes(bytes: &[u8]) -> Option<Version> {
        VERSIONS.into_iter().find(|version| version.bytes == bytes)
    }
}

/// Document 01's, which is read still.
pub const VERSION_1: Version = Version {
    bytes: [0x00, 0x01],
    guard_wires_max: 6,
};
/// C-17's, which is written.
pub const VERSION_2: Version = Version {
    bytes: [0x00, 0x02],
    guard_wires_max: 8,
};
pub const VERSIONS: [Version; 2] = [VERSION_1, VERSION_2];

/// At which argument places a joined group has a pick, which C-18 moved.
#[derive(Clone, Copy, Debug, PartialEq, Eq)]
pub enum Picks {
    /// At every place, with a guard for each member.
    Everywhere,
    /// Where the members' wires are not all the same; without any pick there are no guards.
    Unequal,
}

/// C-18's.
pub const PICKS: Picks = Picks::Unequal;
/// Those of before C-18. No operation looks at them: what was stored before is made by them still.
pub const PICKS_BEFORE: Picks = Picks::Everywhere;

// Codes of statements.
pub const CLOSE: u8 = 0x00;
pub const ASSIGN: u8 = 0x01;
pub const SKIP: u8 = 0x02;
pub const IF: u8 = 0x03;

// Codes of expressions that are no operation.
pub const VARIABLE: u8 = 0x10;
pub const WORD: u8 = 0x11;
pub const BIT: u8 = 0x12;

// Codes of operations.
pub const SUM: u8 = 0x20;
pub const DIFFERENCE: u8 = 0x21;
pub const PRODUCT: u8 = 0x22;
pub const LESS: u8 = 0x23;
pub const EQUAL: u8 = 0x24;
pub const AND: u8 = 0x25;
pub const OR: u8 = 0x26;
pub const NOT: u8 = 0x27;

// Codes of circuit records that no expression has.
pub const WORD_INPUT: u8 = 0x00;
pub const BIT_INPUT: u8 = 0x01;
pub const CHOICE: u8 = 0x30;
pub const PICK: u8 = 0x31;
pub const GUARD: u8 = 0x32;

pub const CHOICE_COST: usize = 3;
pub const PICK_COST_A_PAIR: usize = 2;
pub const GUARD_COST: usize = 1;

/// What a figure is: a word of 32 bits or a bit.
#[derive(Clone, Copy, Debug, PartialEq, Eq)]
pub enum Kind {
    Word = 0,
    Bit = 1,
}

/// What a kind byte says of a variable: the kind of its figures, and whether it is a result or a working one.
#[derive(Clone, Copy, Debug, PartialEq, Eq)]
pub struct Variable {
    pub kind: Kind,
    pub working: bool,
}

/// The kind bytes, from 00 on; row 3 refuses every other. The last two are C-13's.
const KIND_BYTES: [Variable; 4] = [
    Variable::result(Kind::Word),
    Variable::result(Kind::Bit),
    Variable::working(Kind::Word),
    Variable::working(Kind::Bit),
];

impl Variable {
    pub const fn result(kind: Kind) -> Variable {
        let working = false;
        Variable { kind, working }
    }

    pub const fn working(kind: Kind) -> Variable {
        let working = true;
        Variable { kind, working }
    }

    pub fn of_byte(byte: u8) -> Option<Variable> {
        KIND_BYTES.get(usize::from(byte)).copied()
    }

    pub fn byte(self) -> u8 {
        let place = KIND_BYTES.iter().position(|&one| one == self);
        place.expect("every variable has a kind byte") as u8
    }

    /// Only a result variable has an output, and a figure that runs write.
    pub fn if_result<T>(self, had: T) -> Option<T> {
        (!self.working).then_some(had)
    }
}

/// One row of document 01's table of operations. All arguments of an operation are of one kind.
#[derive(Clone, Copy, Debug, PartialEq, Eq)]
pub struct Operation {
    pub code: u8,
    pub arguments: usize,
    pub takes: Kind,
    pub gives: Kind,
    pub cost: usize,
    /// Whether its gate takes the lower-numbered argument first, however it was written (C-12).
    pub lower_first: bool,
}

#[rustfmt::skip]
pub const OPERATIONS: [Operation; 8] = [
    Operation { code: SUM,        arguments: 2, takes: Kind::Word, gives: Kind::Word, cost: 0,  lower_first: true },
    Operation { code: DIFFERENCE, arguments: 2, takes: Kind::Word, gives: Kind::Word, cost: 0,  lower_first: false },
    Operation { code: PRODUCT,    arguments: 2, takes: Kind::Word, gives: Kind::Word, cost: 15, lower_first: true },
    Operation { code: LESS,       arguments: 2, takes: Kind::Word, gives: Kind::Bit,  cost: 40, lower_first: false },
    Operation { code: EQUAL,      arguments: 2, takes: Kind::Word, gives: Kind::Bit,  cost: 20, lower_first: true },
    Operation { code: AND,        arguments: 2, takes: Kind::Bit,  gives: Kind::Bit,  cost: 1,  lower_first: true },
    Operation { code: OR,         arguments: 2, takes: Kind::Bit,  gives: Kind::Bit,  cost: 1,  lower_first: true },
    Operation { code: NOT,        arguments: 1, takes: Kind::Bit,  gives: Kind::Bit,  cost: 0,  lower_first: false },
];

/// The row of an operation's code, if it is one.
pub fn operation(code: u8) -> Option<Operation> {
    OPERATIONS.iter().copied().find(|row| row.code == code)
}

/// What an operation gives on its arguments' figures; a bit is 0 or 1.
/// `second` is not looked at by "not".
pub fn work_out(code: u8, first: u32, second: u32) -> u32 {
    match code {
        SUM => first.wrapping_add(second),
        DIFFERENCE => first.wrapping_sub(second),
        PRODUCT => first.wrapping_mul(second),
        LESS => u32::from(first < second),
        EQUAL => u32::from(first == second),
        AND => u32::from(first == 1 && second == 1),
        OR => u32::from(first == 1 || second == 1),
        NOT => u32::from(first != 1),
        _ => unreachable!("not an operation's code"),
    }
}
