//! Numbers by chance, the same for the same seed everywhere.

pub struct Chance(u64);

impl Chance {
    /// The numbers of one batch of a run.
    pub fn new(seed: u64, batch: u64) -> Chance {
        let mut chance = Chance(seed ^ batch.wrapping_mul(0xD6E8_FEB8_6659_FD93));
        chance.next();
        chance
    }

    pub fn next(&mut self) -> u64 {
        self.0 = self.0.wrapping_add(0x9E37_79B9_7F4A_7C15);
        let mut mixed = self.0;
        mixed = (mixed ^ (mixed >> 30)).wrapping_mul(0xBF58_476D_1CE4_E5B9);
        mixed = (mixed ^ (mixed >> 27)).wrapping_mul(0x94D0_49BB_1331_11EB);
        mixed ^ (mixed >> 31)
    }

    /// A number from 0 up to, but without, the bound, which is not 0.
    pub fn below(&mut self, bound: usize) -> usize {
        (self.next() % bound as u64) as usize
    }

    pub fn from_to(&mut self, least: u32, most: u32) -> u32 {
        least + (self.next() % (u64::from(most - least) + 1)) as u32
    }

    pub fn one_in(&mut self, times: usize) -> bool {
        self.below(times) == 0
    }

    pub fn of<T: Copy>(&mut self, choices: &[T]) -> T {
        choices[self.below(choices.len())]
    }

    pub fn word(&mut self) -> u32 {
        self.next() as u32
    }

    /// A number with any count of bits.
    pub fn any_size(&mut self) -> u32 {
        self.word() >> self.below(32)
    }

    pub fn bytes(&mut self, count: usize) -> Vec<u8> {
        (0..count).map(|_| self.next() as u8).collect()
    }
}

/// One batch of a run, and the numbers by chance that its cases come from.
pub struct Batch<Case> {
    pub chance: Chance,
    pub cases: Vec<Case>,
}

impl<Case> Batch<Case> {
    /// No case yet.
    pub fn new(seed: u64, number: u64) -> Batch<Case> {
        Batch { chance: Chance::new(seed, number), cases: Vec::new() }
    }
}
