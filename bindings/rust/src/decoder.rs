//! The decoder of traces.

use crate::ffi;
use core::fmt;

/// An acknowledgement, as it was seen.
#[derive(Clone, Copy, Debug, PartialEq, Eq)]
pub enum Ack {
    /// OK: a word moved, and this is whether its parity was right.
    Ok {
        /// The word.
        word: u32,
        /// Whether the parity bit was right.
        parity_ok: bool,
    },
    /// WAIT.
    Wait,
    /// FAULT.
    Fault,
    /// Three bits that are no acknowledgement, as a number: 0, 3, 5, 6 or 7.
    None(u8),
}

/// A request and what came of it.
#[derive(Clone, Copy, Debug, PartialEq, Eq)]
pub struct Transaction {
    /// Whether the request goes to the access port, else to the debug port.
    pub ap: bool,
    /// Whether it reads.
    pub read: bool,
    /// The register's address: 0, 4, 8 or 12.
    pub addr: u8,
    /// What came of it.
    pub ack: Ack,
}

/// An item of a trace. Its display is its line in the listing of `swd decode`.
#[derive(Clone, Copy, Debug, PartialEq, Eq)]
pub enum Item {
    /// A line reset: so many ones, at least 50.
    Reset(u64),
    /// The sixteen bits that switch from JTAG to serial wire, directly after a line reset.
    Switch,
    /// So many zeros.
    Idle(u64),
    /// A transaction.
    Transaction(Transaction),
    /// A bit that belongs to nothing.
    Junk(bool),
    /// The end of the trace inside a line reset or a transaction.
    Cut {
        /// The bits, the first in time least significant.
        bits: u64,
        /// How many: 1 to 49.
        count: u8,
    },
}

impl Item {
    fn of(item: ffi::Item) -> Item {
        match item.kind {
            1 => Item::Reset(item.count),
            2 => Item::Switch,
            3 => Item::Idle(item.count),
            4 => Item::Transaction(Transaction::of(item)),
            5 => Item::Junk(item.bits == 1),
            6 => Item::Cut { bits: item.bits, count: item.count as u8 },
            kind => unreachable!("item {kind}"),
        }
    }
}

impl Transaction {
    fn of(item: ffi::Item) -> Transaction {
        Transaction {
            ap: item.request >> 1 & 1 == 1,
            read: item.request >> 2 & 1 == 1,
            addr: (item.request >> 3 & 3) << 2,
            ack: match item.ack {
                1 => Ack::Ok { word: item.word, parity_ok: item.parity_ok == 1 },
                2 => Ack::Wait,
                4 => Ack::Fault,
                seen => Ack::None(seen),
            },
        }
    }
}

impl fmt::Display for Transaction {
    fn fmt(&self, f: &mut fmt::Formatter<'_>) -> fmt::Result {
        let port = if self.ap { "ap" } else { "dp" };
        let direction = if self.read { "read" } else { "write" };
        write!(f, "{port} {:x} {direction} ", self.addr)?;
        match self.ack {
            Ack::Ok { word, parity_ok } => write!(f, "{} {word:08x}", if parity_ok { "ok" } else { "bad" }),
            Ack::Wait => f.write_str("wait"),
            Ack::Fault => f.write_str("fault"),
            Ack::None(seen) => write!(f, "none {seen}"),
        }
    }
}

impl fmt::Display for Item {
    fn fmt(&self, f: &mut fmt::Formatter<'_>) -> fmt::Result {
        match self {
            Item::Reset(count) => write!(f, "reset {count}"),
            Item::Switch => f.write_str("switch"),
            Item::Idle(count) => write!(f, "idle {count}"),
            Item::Transaction(transaction) => transaction.fmt(f),
            Item::Junk(bit) => write!(f, "junk {}", u8::from(*bit)),
            Item::Cut { bits, count } => {
                f.write_str("cut ")?;
                (0..*count).try_for_each(|place| write!(f, "{}", bits >> place & 1))
            }
        }
    }
}

/// Up to 64 bits that weren't taken yet, the first in time least significant.
#[derive(Clone, Copy, Debug, Default)]
struct Piece {
    bits: u64,
    count: u8,
}

impl Piece {
    fn gather(bits: &mut impl Iterator<Item = bool>) -> Piece {
        let mut piece = Piece::default();
        for bit in bits.take(64) {
            piece.bits |= u64::from(bit) << piece.count;
            piece.count += 1;
        }
        piece
    }

    /// Gives some of the bits to a decoder that has no item due.
    fn give(&mut self, decoder: &mut ffi::Decoder) {
        let taken = decoder.take(self.bits, self.count);
        assert!(taken > 0, "a decoder takes a bit, up to 2^64 - 1 of them");
        self.bits = self.bits.checked_shr(u32::from(taken)).unwrap_or(0);
        self.count -= taken;
    }
}

/// Decodes a trace that arrives in pieces. How it is cut into pieces makes no difference to the items.
///
/// ```
/// let mut decoder = swd::Decoder::new();
/// let mut items = Vec::new();
/// decoder.feed([false; 3], |item| items.push(item));
/// assert_eq!(items, []); // more zeros may follow
/// decoder.finish(|item| items.push(item));
/// assert_eq!(items, [swd::Item::Idle(3)]);
/// ```
#[derive(Clone, Debug)]
pub struct Decoder(ffi::Decoder);

impl Decoder {
    /// Makes a decoder that was fed no bit.
    #[must_use]
    pub fn new() -> Decoder {
        Decoder(ffi::Decoder::new())
    }

    /// How many bits it was fed.
    #[must_use]
    pub fn fed(&self) -> u64 {
        self.0.fed
    }

    /// Takes these bits, and hands on the items that they decide: an item is decided when no later bit can change it.
    ///
    /// # Panics
    ///
    /// Panics once it was fed 2^64 - 1 bits.
    pub fn feed(&mut self, bits: impl IntoIterator<Item = bool>, mut each: impl FnMut(Item)) {
        let mut bits = bits.into_iter();
        loop {
            let mut piece = Piece::gather(&mut bits);
            if piece.count == 0 {
                return;
            }
            while piece.count > 0 {
                piece.give(&mut self.0);
                while let Some(item) = self.0.due() {
                    each(Item::of(item));
                }
            }
        }
    }

    /// Ends the trace, and hands on the items that are left.
    pub fn finish(mut self, mut each: impl FnMut(Item)) {
        while let Some(item) = self.0.last() {
            each(Item::of(item));
        }
    }
}

impl Default for Decoder {
    fn default() -> Decoder {
        Decoder::new()
    }
}

/// The items of a trace, as [`decode`] returns them.
#[derive(Clone, Debug)]
#[must_use = "iterators are lazy and do nothing unless consumed"]
pub struct Items<I> {
    bits: I,
    decoder: ffi::Decoder,
    piece: Piece,
    ended: bool,
}

/// Decodes a whole trace, one bit for each clock. Takes bits only as they are needed for the next item, 64 at a time.
pub fn decode<I: IntoIterator<Item = bool>>(bits: I) -> Items<I::IntoIter> {
    Items { bits: bits.into_iter(), decoder: ffi::Decoder::new(), piece: Piece::default(), ended: false }
}

impl<I: Iterator<Item = bool>> Iterator for Items<I> {
    type Item = Item;

    fn next(&mut self) -> Option<Item> {
        while !self.ended {
            if let Some(item) = self.decoder.due() {
                return Some(Item::of(item));
            }
            if self.piece.count == 0 {
                self.piece = Piece::gather(&mut self.bits);
            }
            if self.piece.count == 0 {
                self.ended = true;
            } else {
                self.piece.give(&mut self.decoder);
            }
        }
        self.decoder.last().map(Item::of)
    }
}
