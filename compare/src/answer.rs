//! What every operation returns: a number, a place and five counts.

/// A refusal: its number and the place that document 01 gives it.
#[derive(Clone, Copy, Debug, PartialEq, Eq)]
pub struct Refusal {
    pub number: u8,
    pub place: usize,
}

impl Refusal {
    pub fn at(number: u8, place: usize) -> Refusal {
        Refusal { number, place }
    }

    /// For the rows whose place is always 0: 1, 20 to 30, 32, 40 to 42, 50 and 60 to 62.
    pub fn nowhere(number: u8) -> Refusal {
        Refusal { number, place: 0 }
    }
}

/// The seven numbers. A count that an operation does not work out is 0.
#[derive(Clone, Copy, Debug, Default, PartialEq, Eq)]
pub struct Answer {
    pub number: u8,
    pub place: usize,
    pub gates: usize,
    pub wires: usize,
    pub bytes: usize,
    pub before: usize,
    pub after: usize,
}

impl Answer {
    /// Reading a rule, the direct run and the plan check work out gates and cost before.
    pub fn of_plain(gates: usize, before: usize) -> Answer {
        Answer {
            gates,
            before,
            ..Answer::default()
        }
    }

    /// Writing and the fused run work out all five counts.
    pub fn of_fused(
        gates: usize,
        wires: usize,
        bytes: usize,
        before: usize,
        after: usize,
    ) -> Answer {
        Answer {
            gates,
            wires,
            bytes,
            before,
            after,
            ..Answer::default()
        }
    }

    /// Reading and running a circuit file work out its wires and bytes.
    pub fn of_file(wires: usize, bytes: usize) -> Answer {
        Answer {
            wires,
            bytes,
            ..Answer::default()
        }
    }

    /// The seven numbers as the conformance stream prints them.
    pub fn line(&self) -> String {
        format!(
            "{} {} {} {} {} {} {}",
            self.number, self.place, self.gates, self.wires, self.bytes, self.before, self.after
        )
    }
}

impl From<Refusal> for Answer {
    /// A refusal has number and place alone; every count is 0.
    fn from(refusal: Refusal) -> Answer {
        Answer {
            number: refusal.number,
            place: refusal.place,
            ..Answer::default()
        }
    }
}
