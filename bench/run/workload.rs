//! Lists of accesses, and plans.
use crate::host::{Access, MOST, Mark};

pub const BASE: u32 = 0x2000_0000;
pub const WORDS: u32 = 4_096;
const MARKS: usize = 120_000;

/// A small generator of numbers (xorshift64*), so that each run does the same.
#[derive(Clone, Copy)]
pub struct Random(u64);

impl Random {
    pub fn new() -> Self {
        Random(0x1234_5678_9abc_def1)
    }

    pub fn word(&mut self) -> u32 {
        self.0 ^= self.0 >> 12;
        self.0 ^= self.0 << 25;
        self.0 ^= self.0 >> 27;
        (self.0.wrapping_mul(0x2545_f491_4f6c_dd1d) >> 32) as u32
    }

    fn below(&mut self, bound: u32) -> u32 {
        self.word() % bound
    }
}

/// Reads, and bursts of writes. A few of the addresses are behind the memory.
pub fn accesses(mut random: Random) -> Vec<Access> {
    let mut addr = BASE;
    let mut burst = 0;
    (0..MOST)
        .map(|_| {
            if burst > 0 {
                burst -= 1;
                addr = addr.wrapping_add(4);
                return Access::Write(addr, random.word());
            }
            addr = BASE + 4 * random.below(WORDS + 8);
            if random.below(2) == 0 {
                return Access::Read(addr);
            }
            burst = random.below(16);
            Access::Write(addr, random.word())
        })
        .collect()
}

pub fn plan(random: &mut Random) -> Vec<Mark> {
    (0..MARKS)
        .map(|_| match random.below(128) {
            0 | 1 => Mark::Wait,
            2 => Mark::Flip(random.below(33) as u8),
            _ => Mark::Clean,
        })
        .collect()
}
