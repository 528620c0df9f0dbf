//! A write's data phase inside which the line failed.

/// The clocks of a data phase: a word, and its parity bit.
pub(crate) const DATA_CLOCKS: u32 = 33;

/// How far a target is in a data phase inside which the line failed. A clock that failed was made or wasn't. The host
/// drove one level in all of these, so that the parity of what the target saw follows from how many clocks it saw.
#[derive(Clone, Copy, Debug, PartialEq, Eq)]
pub(crate) struct Cut {
    /// How many clocks were certainly made.
    made: u32,
    /// The parity of the bits in them.
    parity: u64,
    /// The level in the clocks that failed.
    level: u64,
    /// How many clocks failed.
    failed: u32,
}

/// The parity of the first bits.
fn parity(bits: u64, count: u32) -> u64 {
    u64::from((bits & ((1 << count) - 1)).count_ones() & 1)
}

impl Cut {
    /// The line failed once, after so many clocks of the data phase with these bits. If it says that all were made, the
    /// last one was or wasn't, which is less than what it says.
    pub fn new(bits: u64, made: u32) -> Cut {
        let made = made.min(DATA_CLOCKS - 1);
        Cut { made, parity: parity(bits, made), level: bits >> made & 1, failed: 1 }
    }

    /// The bits after which the target drops the data phase, and their number. However many of the clocks that failed
    /// were made, the parity of the whole is wrong. One of these bits decides that. It is the last one that the target
    /// takes into the data phase in any case, and the others have the level of the clocks that failed.
    pub fn rest(&self) -> (u64, u32) {
        let count = DATA_CLOCKS - self.made;
        let place = count.saturating_sub(self.failed + 1);
        let deciding = 1 ^ self.parity ^ (self.level & u64::from(count - 1));
        let levels = self.level * ((1 << count) - 1);
        (levels & !(1 << place) | deciding << place, count)
    }

    /// The line failed once more, after so many clocks of the rest; if it says after all, as in `new`.
    pub fn again(&self, made: u32) -> Cut {
        let (bits, count) = self.rest();
        let made = made.min(count - 1);
        let parity = self.parity ^ parity(bits, made);
        Cut { made: self.made + made, parity, level: self.level, failed: self.failed + 1 }
    }
}

#[cfg(test)]
mod tests {
    use super::*;
    use std::vec::Vec;

    /// The parity of each data phase that a target may have seen: the bits of each drive up to one that failed, which
    /// was made or wasn't. Those that were complete before are left out.
    fn seen(drives: &[(u64, u32)], rest: (u64, u32)) -> Vec<u64> {
        let ways = 0..1_u32 << drives.len();
        let phases = ways.filter_map(|way| {
            let (mut parity, mut count) = (0, 0);
            for (index, (bits, made)) in drives.iter().enumerate() {
                let clocks = made + (way >> index & 1);
                parity ^= (0..clocks).fold(0, |sum, place| sum ^ bits >> place & 1);
                count += clocks;
            }
            let left = 33_u32.checked_sub(count).filter(|left| *left > 0)?;
            Some((0..left).fold(parity, |sum, place| sum ^ rest.0 >> place & 1))
        });
        phases.collect()
    }

    // A line that makes all clocks of a command, or says so, may fail behind them.
    #[test]
    fn the_last_clock_is_in_doubt_if_all_were_made() {
        for (word, made) in
            [0, 0xdead_beef, 0x7fff_ffff].iter().flat_map(|word| [33, 34, 64, u32::MAX].map(|made| (word, made)))
        {
            let bits = data_bits(*word);
            assert_eq!(Cut::new(bits, made), Cut::new(bits, 32), "{word:x} {made}");
            for first in 0..33 {
                let cut = Cut::new(bits, first);
                assert_eq!(cut.again(made), cut.again(32 - first), "{word:x} {first} {made}");
                assert_eq!(cut.again(33 - first), cut.again(32 - first), "{word:x} {first}");
            }
        }
    }

    fn data_bits(word: u32) -> u64 {
        u64::from(word) | u64::from(word.count_ones() & 1) << 32
    }

    // The clock of the deciding bit is left out: whether it was made decides then.
    #[test]
    fn the_target_drops_what_is_left_however_often_the_line_fails() {
        for word in [0, 1, 0xdead_beef, 0x7fff_ffff, 0xffff_ffff, 0x8000_0000] {
            let bits = data_bits(word);
            for first in 0..33 {
                let cut = Cut::new(bits, first);
                let rest = cut.rest();
                assert!(seen(&[(bits, first)], rest).iter().all(|parity| *parity == 1), "{word:x} {first}");
                for second in (0..rest.1).filter(|second| first + second != 31) {
                    let again = cut.again(second);
                    let drives = [(bits, first), (rest.0, second)];
                    let phases = seen(&drives, again.rest());
                    assert!(phases.iter().all(|parity| *parity == 1), "{word:x} {first} {second}");
                }
            }
        }
    }
}
