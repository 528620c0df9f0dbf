//! The checker of traces.

use crate::{ffi, Ack, Item, Transaction};
use core::fmt;

/// The names of the rules, as `swd.h` has them.
const RULES: [&str; 12] = [
    "none",
    "after a line reset only a read of DPIDR is answered",
    "each request is acknowledged",
    "reads of DPIDR and CTRL/STAT and writes of ABORT get neither WAIT nor FAULT",
    "FAULT is answered while a sticky flag is set, and not else",
    "an access port without debug power answers FAULT",
    "FAULT takes precedence over WAIT",
    "a posted read returns the result of the read before it",
    "RESEND returns the last returned value again",
    "CTRL/STAT shows the flags and the powers",
    "DPIDR reads the same word each time, and its bit 0 is 1",
    "the parity of a word is even",
];

/// What is known of the target before the first item.
#[derive(Clone, Copy, Debug, PartialEq, Eq)]
pub enum Start {
    /// It is in its reset state: no line reset yet, each register 0.
    Made,
    /// SELECT is 0, no transfer is in progress, and no data phase is due, as after a reset of its power.
    AtRest,
    /// No data phase is due.
    Any,
}

/// A rule of the port model. Its display is the rule in the standard's words.
#[derive(Clone, Copy, Debug, PartialEq, Eq)]
pub struct Rule(u8);

impl Rule {
    /// The number of the rule in `swd.h`, from 1 on.
    #[must_use]
    pub const fn number(self) -> u8 {
        self.0
    }
}

impl fmt::Display for Rule {
    fn fmt(&self, f: &mut fmt::Formatter<'_>) -> fmt::Result {
        f.write_str(RULES.get(usize::from(self.0)).unwrap_or(&"unknown"))
    }
}

/// What the items so far show. A place is a number of bits.
#[derive(Clone, Copy, Debug, PartialEq, Eq)]
pub enum Shown {
    /// Some run of the port model explains them.
    Fits,
    /// None explains those up to one.
    Breaks {
        /// The place of that item.
        place: u64,
        /// The rule that it breaks.
        rule: Rule,
    },
    /// It isn't decided from a place on: more states of the target are possible than a checker holds.
    Crowded {
        /// The place.
        place: u64,
    },
}

/// What a checker says. Its display begins as the line of `swd check`.
#[derive(Clone, Copy, Debug, PartialEq, Eq)]
pub struct Verdict {
    /// What the items so far show.
    pub shown: Shown,
    /// The place of the first item that was checked, or `None` if none was: [`Shown::Fits`] says nothing then.
    pub began: Option<u64>,
    /// How many requests were damaged or lost at least.
    pub faults: u64,
    /// How many times stray bits hid what came before a line reset.
    pub gaps: u64,
}

impl fmt::Display for Verdict {
    fn fmt(&self, f: &mut fmt::Formatter<'_>) -> fmt::Result {
        match self.shown {
            Shown::Fits => f.write_str("fits"),
            Shown::Breaks { place, rule } => write!(f, "breaks @{place}: {rule}"),
            Shown::Crowded { place } => write!(f, "crowded @{place}"),
        }
    }
}

/// An item that no trace has: an address of a request that isn't 0, 4, 8 or 12, an [`Ack::None`] that is 1, 2, 4 or
/// above 7, or an [`Item::Cut`] of no bits, of more than 49, or of more than its count.
#[derive(Clone, Copy, Debug, PartialEq, Eq)]
pub struct NotAnItem(pub Item);

impl fmt::Display for NotAnItem {
    fn fmt(&self, f: &mut fmt::Formatter<'_>) -> fmt::Result {
        write!(f, "{:?} is no item of a trace", self.0)
    }
}

impl core::error::Error for NotAnItem {}

/// Checks the items of a trace, one after the other: may a target that conforms to the port model show them?
/// `docs/CONFORMANCE.md` of the repository says what a verdict says, and what it doesn't.
///
/// ```
/// use swd::{Checker, Shown, Start};
///
/// let trace = "1".repeat(50) + "00";
/// let mut checker = Checker::new(Start::Made, true);
/// for item in swd::decode(trace.chars().map(|bit| bit == '1')) {
///     checker.watch(&item)?;
/// }
/// assert_eq!(checker.verdict().shown, Shown::Fits);
/// # Ok::<(), swd::NotAnItem>(())
/// ```
///
/// It has 4 kB. A call needs far more on the stack: some 115 kB on x86-64, 75 kB on a Cortex-M.
#[derive(Clone, Debug)]
pub struct Checker {
    check: ffi::Check,
    place: u64,
}

impl Checker {
    /// Makes a checker that has watched no item. `clean` says that nothing is damaged or lost on the line, as in a
    /// simulation.
    #[must_use]
    pub fn new(start: Start, clean: bool) -> Checker {
        let number = match start {
            Start::Made => 1,
            Start::AtRest => 2,
            Start::Any => 3,
        };
        let check = ffi::Check::new(number, clean).expect("there are these three starts");
        Checker { check, place: 0 }
    }

    /// The number of bits before the next item.
    #[must_use]
    pub fn place(&self) -> u64 {
        self.place
    }

    /// Takes the next item of a trace. Once an item breaks a rule those after it change nothing.
    ///
    /// # Errors
    ///
    /// [`NotAnItem`], which leaves the checker as it was.
    pub fn watch(&mut self, item: &Item) -> Result<(), NotAnItem> {
        let is_named = match item {
            Item::Transaction(Transaction { ack: Ack::None(seen), .. }) => !matches!(seen, 1 | 2 | 4),
            _ => true,
        };
        if !is_named || !self.check.watch(&fields_of(item), self.place) {
            return Err(NotAnItem(*item));
        }
        self.place = self.place.saturating_add(bits_in(item));
        Ok(())
    }

    /// What the items so far show.
    #[must_use]
    pub fn verdict(&self) -> Verdict {
        let found = self.check.verdict().expect("the struct is a checker");
        let shown = match found.kind {
            2 => Shown::Breaks { place: found.place, rule: Rule(found.rule) },
            3 => Shown::Crowded { place: found.place },
            _ => Shown::Fits,
        };
        let began = (found.has_began != 0).then_some(found.began);
        Verdict { shown, began, faults: found.faults, gaps: found.gaps }
    }
}

/// The item as the library takes it.
fn fields_of(item: &Item) -> ffi::Item {
    let none = ffi::Item::default();
    match *item {
        Item::Reset(count) => ffi::Item { kind: 1, count, ..none },
        Item::Switch => ffi::Item { kind: 2, ..none },
        Item::Idle(count) => ffi::Item { kind: 3, count, ..none },
        Item::Transaction(it) => {
            let (ack, word, parity_ok) = match it.ack {
                Ack::Ok { word, parity_ok } => (1, word, u8::from(parity_ok)),
                Ack::Wait => (2, 0, 0),
                Ack::Fault => (4, 0, 0),
                Ack::None(seen) => (seen, 0, 0),
            };
            ffi::Item { kind: 4, request: request_of(it), ack, word, parity_ok, ..none }
        }
        Item::Junk(bit) => ffi::Item { kind: 5, bits: u64::from(bit), ..none },
        Item::Cut { bits, count } => ffi::Item { kind: 6, bits, count: u64::from(count), ..none },
    }
}

/// The eight bits of a request, or 0 where the address is none of a register.
fn request_of(it: Transaction) -> u8 {
    if it.addr & !12 != 0 {
        return 0;
    }
    let asked = u8::from(it.ap) | u8::from(it.read) << 1 | it.addr;
    let parity = (asked.count_ones() & 1) as u8;
    0x81 | asked << 1 | parity << 5
}

/// How many bits an item has (IHI 0031, B4).
fn bits_in(item: &Item) -> u64 {
    match item {
        Item::Reset(count) | Item::Idle(count) => *count,
        Item::Switch => 16,
        Item::Transaction(it) => match it.ack {
            Ack::Ok { .. } => 46,
            Ack::Wait | Ack::Fault => 13,
            Ack::None(_) => 12,
        },
        Item::Junk(_) => 1,
        Item::Cut { count, .. } => u64::from(*count),
    }
}
