//! Random images and starts that reach every outcome.

use crate::plain::{Clock, Machine, Request, WORDS};

pub const IMAGES: u32 = 4_000;
pub const RUNS: u32 = 25;

const GENERICS: [u16; 32] = [
    0o000000, 0o100000, 0o101000, 0o100001, 0o101001, 0o101020, 0o101010, 0o101004, 0o101002, 0o101036, 0o100036,
    0o100040, 0o101040, 0o100400, 0o101400, 0o100100, 0o101100, 0o140040, 0o140401, 0o140407, 0o140024, 0o140100,
    0o140500, 0o140320, 0o141044, 0o141050, 0o141140, 0o141206, 0o141216, 0o141240, 0o141340,
    0o000201,
];
const SHIFTS: [u16; 6] = [0o040400, 0o040500, 0o040600, 0o041400, 0o041500, 0o041600];
/// LRS and LLS by 15.
const LONG_SHIFTS: [u16; 2] = [0o040161, 0o041161];
const CODES: [u16; 12] = [0o1, 0o2, 0o3, 0o4, 0o5, 0o6, 0o7, 0o10, 0o11, 0o12, 0o16, 0o17];

/// Xorshift with a fixed seed: each run of the bench sees the same numbers.
pub struct Random(u64);

impl Random {
    pub fn new() -> Random {
        Random(0x9e37_79b9_7f4a_7c15)
    }

    fn next(&mut self) -> u64 {
        self.0 ^= self.0 << 13;
        self.0 ^= self.0 >> 7;
        self.0 ^= self.0 << 17;
        self.0
    }

    fn below(&mut self, n: u64) -> u64 {
        (self.next() >> 11) % n
    }

    fn one_in(&mut self, n: u64) -> bool {
        self.below(n) == 0
    }

    fn word(&mut self) -> u16 {
        self.below(65_536) as u16
    }

    fn pick(&mut self, words: &[u16]) -> u16 {
        words[self.below(words.len() as u64) as usize]
    }

    fn memory(&mut self) -> u16 {
        let rest = self.word() & !0o36000;
        match self.below(13) {
            0 => rest | 0o72000,
            _ => rest | self.pick(&CODES) << 10,
        }
    }

    fn instruction(&mut self) -> u16 {
        match self.below(9) {
            0 | 1 => self.pick(&GENERICS),
            2 => self.pick(&SHIFTS) + 49 + self.below(15) as u16,
            3 => self.pick(&LONG_SHIFTS),
            _ => self.memory(),
        }
    }

    /// Instructions, any words, and indirect instructions, in shares that vary from image to image:
    /// many of the last make long chains.
    pub fn image(&mut self) -> Vec<u16> {
        let any = 1 + self.below(20);
        let indirect = self.below(400);
        (0..WORDS + 1)
            .map(|_| match self.below(100 + any + indirect) {
                n if n < 100 => self.instruction(),
                n if n < 100 + any => self.word(),
                _ => self.memory() | 0o100000,
            })
            .collect()
    }

    /// Any number of 32 bits, or one that will soon wrap.
    fn count(&mut self) -> u32 {
        if self.one_in(2) { self.next() as u32 } else { 0u32.wrapping_sub(self.below(20) as u32) }
    }

    /// The image's length, the machine, the clock record and the request: most are allowed.
    pub fn run(&mut self) -> (usize, Machine, Clock, Request) {
        let length = if self.one_in(40) { self.below(WORDS as u64 + 2) as usize } else { WORDS };
        let p = if self.one_in(40) { self.word() } else { self.word() % WORDS as u16 };
        let m = Machine {
            a: self.word(),
            b: self.word(),
            c: self.one_in(2),
            p,
            switches: [self.one_in(2), self.one_in(2), self.one_in(2), self.one_in(2)],
            halted: self.one_in(40),
        };
        let clock = Clock { common: self.count(), counts: std::array::from_fn(|_| self.count()) };
        let budget = if self.one_in(40) { self.next() as u32 } else { self.below(30) as u32 };
        let cooperative = match self.below(80) {
            0 => 16,
            1 => self.next() as u32,
            n => n as u32 % 16,
        };
        (length, m, clock, Request { budget, cooperative })
    }
}
