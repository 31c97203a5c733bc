//! A generator of rules, plans, circuit files, batches, inputs and whole cases: valid, damaged, and at every limit.
//! The same seed always makes the same cases.

pub mod batches;
pub mod cases;
pub mod circuits;
pub mod conditions;
pub mod group_order;
pub mod kinds;
pub mod picks;
pub mod plans;
pub mod rules;
pub mod words;

/// A small xorshift; its state is never 0.
pub struct Random(u64);

impl Random {
    /// Seeds that differ a little are first stirred apart.
    pub fn new(seed: u64) -> Random {
        let mut state = seed.wrapping_add(0x9E37_79B9_7F4A_7C15);
        state = (state ^ (state >> 30)).wrapping_mul(0xBF58_476D_1CE4_E5B9);
        state = (state ^ (state >> 27)).wrapping_mul(0x94D0_49BB_1331_11EB);
        Random((state ^ (state >> 31)).max(1))
    }

    pub fn any(&mut self) -> u64 {
        self.0 ^= self.0 >> 12;
        self.0 ^= self.0 << 25;
        self.0 ^= self.0 >> 27;
        self.0.wrapping_mul(0x2545_F491_4F6C_DD1D)
    }

    /// A number below `limit`, which is not 0.
    pub fn below(&mut self, limit: usize) -> usize {
        (((self.any() >> 32) * limit as u64) >> 32) as usize
    }

    /// A number from `least` to `most`, both possible.
    pub fn among(&mut self, least: usize, most: usize) -> usize {
        least + self.below(most - least + 1)
    }

    pub fn chance(&mut self, percent: usize) -> bool {
        self.below(100) < percent
    }

    pub fn pick<T: Copy>(&mut self, from: &[T]) -> T {
        from[self.below(from.len())]
    }

    /// A word: often small or at an edge, so that comparisons go both ways.
    pub fn word(&mut self) -> u32 {
        match self.below(4) {
            0 => self.below(4) as u32,
            1 => self.pick(&[
                0,
                1,
                2,
                255,
                65_535,
                65_536,
                1 << 31,
                (1 << 31) - 1,
                u32::MAX,
            ]),
            2 => self.below(100) as u32,
            _ => self.any() as u32,
        }
    }
}

/// Damages a rule or a plan: see `damage_by`.
pub fn damage(random: &mut Random, bytes: &mut Vec<u8>, from: usize) {
    const TELLING: [u8; 20] = [
        0x00, 0x01, 0x02, 0x03, 0x04, 0x10, 0x11, 0x12, 0x13, 0x1F, 0x20, 0x21, 0x22, 0x23, 0x24,
        0x25, 0x26, 0x27, 0x28, 0xFF,
    ];
    damage_by(random, bytes, from, &TELLING);
}

/// Changes, cuts, inserts, doubles or drops a byte, at `from` or after it; a new byte is often a telling one.
pub fn damage_by(random: &mut Random, bytes: &mut Vec<u8>, from: usize, telling: &[u8]) {
    if bytes.len() <= from {
        bytes.push(random.pick(telling));
        return;
    }
    let place = random.among(from, bytes.len() - 1);
    let byte = if random.chance(70) {
        random.pick(telling)
    } else {
        random.any() as u8
    };
    match random.below(8) {
        0 => bytes.truncate(place),
        1 => bytes.insert(place, byte),
        2 => bytes.insert(place, bytes[place]),
        3 => {
            bytes.remove(place);
        }
        4 => bytes.push(byte),
        _ => bytes[place] = byte,
    }
}

/// Inputs that rows 40 and 41 pass.
pub fn inputs(random: &mut Random, kinds: &[crate::law::Kind]) -> Vec<u32> {
    kinds
        .iter()
        .map(|kind| match kind {
            crate::law::Kind::Word => random.word(),
            crate::law::Kind::Bit => random.below(2) as u32,
        })
        .collect()
}
