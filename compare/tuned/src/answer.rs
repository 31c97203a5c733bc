//! What the operations give.

/// The seven numbers. A count that an operation does not work out is 0; a refusal has number and place alone.
#[derive(Clone, Copy, Debug, Default, PartialEq, Eq)]
pub struct Answer {
    pub number: u8,
    pub place: usize,
    pub gates: usize,
    pub wires: usize,
    pub bytes: usize,
    pub before: usize,
    pub after: usize,
}

impl Answer {
    pub(crate) fn of_file(wires: usize, bytes: usize) -> Answer {
        Answer {
            wires,
            bytes,
            ..Answer::default()
        }
    }

    pub(crate) fn refused(number: u8, place: usize) -> Answer {
        Answer {
            number,
            place,
            ..Answer::default()
        }
    }
}

/// A plain circuit: the answer of reading its rule, four numbers a gate, and each gate's precondition, four words a gate, the
/// lowest first; zeros after them.
#[derive(Clone, Copy, Debug, PartialEq, Eq)]
pub struct Shown {
    pub answer: Answer,
    pub rows: [u32; 1024],
    pub needs: [u64; 1024],
}
