//! Contents of literals and values, and choices between them, drawn from a fixed seed: every run has the same.

/// Lengths of a lot code and of a start shorter than the width of the benchmark's strings.
const LOT_CODE: usize = 12;
const SHORT_START: usize = 3;
/// 60 years in days and in microseconds.
const DAYS: u64 = 60 * 365;
const MICROS: u64 = DAYS * 86_400_000_000;

/// By a multiplier and an increment modulo 2⁶⁴.
pub struct Draw(u64);

impl Draw {
    #[expect(clippy::new_without_default, reason = "a seed is not nothing")]
    pub fn new() -> Draw {
        Draw(1970)
    }

    pub fn below(&mut self, limit: u64) -> u64 {
        self.0 = self.0.wrapping_mul(6_364_136_223_846_793_005).wrapping_add(1_442_695_040_888_963_407);
        // by the upper bits; the lower ones of such a sequence repeat soon
        ((u128::from(self.0) * u128::from(limit)) >> u64::BITS) as u64
    }

    pub fn one_of<T: Copy>(&mut self, choices: &[T]) -> T {
        choices[self.below(choices.len() as u64) as usize]
    }

    pub fn int(&mut self) -> Vec<u8> {
        (self.below(1 << 31) as i32 - (1 << 30)).to_le_bytes().to_vec()
    }

    pub fn long(&mut self) -> Vec<u8> {
        (self.below(1 << 63) as i64 - (1 << 62)).to_le_bytes().to_vec()
    }

    pub fn date(&mut self) -> Vec<u8> {
        (self.below(DAYS) as i32).to_le_bytes().to_vec()
    }

    pub fn moment(&mut self) -> Vec<u8> {
        self.below(MICROS).to_le_bytes().to_vec()
    }

    /// A date from before 1970: all have negative partition values.
    pub fn early_date(&mut self) -> Vec<u8> {
        (-1 - self.below(DAYS) as i32).to_le_bytes().to_vec()
    }

    /// A moment from before 1970.
    pub fn early_moment(&mut self) -> Vec<u8> {
        (-1 - self.below(MICROS) as i64).to_le_bytes().to_vec()
    }

    pub fn lot_code(&mut self) -> Vec<u8> {
        self.letters(LOT_CODE)
    }

    pub fn short_start(&mut self) -> Vec<u8> {
        self.letters(SHORT_START)
    }

    fn letters(&mut self, length: usize) -> Vec<u8> {
        (0..length).map(|_| b'A' + self.below(26) as u8).collect()
    }
}
