//! Serial Wire Debug (SWD): a host that reads and writes words of a target, a simulated target, a decoder of recorded
//! traces, and a checker of these.
//!
//! The crate is a safe layer over the C library `libswd_c`, which does the protocol and the loop over a list of
//! accesses, and is proved. Every word that a run reports as written was written exactly once, also where the target
//! answers WAIT or bits are corrupted on the wire, as long as the target conforms to the model and was at rest.
//! `docs/C.md` of its repository says which promise holds at which function. This crate performs what the library's
//! cues say. It is tested, not proved.
//!
//! It is `no_std`, allocates nothing and has no dependency.
//!
//! # Reading and writing words
//!
//! A [`Line`] is your wire, one clock of SWCLK per call. A [`Session`] opens a target over it, once for any number of
//! accesses. Here the line is a simulated [`Target`] with one word behind it:
//!
//! ```
//! use swd::{Bus, BusError, Error, Session, Target};
//!
//! struct OneWord(u32);
//!
//! impl Bus for OneWord {
//!     fn read(&mut self, addr: u32) -> Result<u32, BusError> {
//!         if addr == 0x2000_0000 { Ok(self.0) } else { Err(BusError) }
//!     }
//!
//!     fn write(&mut self, addr: u32, word: u32) -> Result<(), BusError> {
//!         self.read(addr)?;
//!         self.0 = word;
//!         Ok(())
//!     }
//! }
//!
//! # fn main() -> Result<(), Box<dyn std::error::Error>> {
//! let mut line = Target::new(OneWord(0));
//! let mut session = Session::new(&mut line, 8);
//! session.write(0x2000_0000, 0xdead_beef)?;
//! assert_eq!(session.until(0x2000_0000, 0xff, 0xef, 100)?, 0xdead_beef);
//! assert!(matches!(session.read(0x3000_0000), Err(Error::BusFault { .. })));
//! # Ok(())
//! # }
//! ```
//!
//! A list of accesses is performed by [`Session::run`], or by a [`Host`], which opens the target for each list. What
//! ends early is an error, with a [`Report`]: how many accesses were done, and how many more were in flight. A [`Slot`]
//! is empty until its access is answered:
//!
//! ```
//! use swd::{Access, Answer, End, Error, Host, Line, Slot};
//!
//! /// A line to nobody.
//! struct Unplugged;
//!
//! impl Line for Unplugged {
//!     type Error = std::convert::Infallible;
//!     fn drive(&mut self, _bit: bool) -> Result<(), Self::Error> { Ok(()) }
//!     fn release(&mut self) -> Result<(), Self::Error> { Ok(()) }
//!     fn sample(&mut self) -> Result<bool, Self::Error> { Ok(true) }
//! }
//!
//! let accesses = [Access::write(0x2000_0000, 7), Access::read(0x2000_0000)];
//! let mut slots = [Slot::EMPTY; 2];
//! match Host::new(Unplugged, 8).run(&accesses, &mut slots) {
//!     Ok(_) => assert_eq!(slots[1].answer(), Some(Answer::Value(7))),
//!     Err(Error::Stopped(report)) => {
//!         assert_eq!((report.answered, report.begun, report.ended), (0, 0, End::Lost));
//!         assert_eq!(slots[0].answer(), None);
//!     }
//!     Err(error) => panic!("{error}"),
//! }
//! ```
//!
//! # Decoding a trace
//!
//! ```
//! let text = "000".to_string() + &"1".repeat(56) + "00";
//! let lines = swd::decode(text.chars().map(|bit| bit == '1')).map(|item| item.to_string());
//! assert_eq!(lines.collect::<Vec<_>>(), ["idle 3", "reset 56", "idle 2"]);
//! ```
//!
//! # Linking
//!
//! The build script links `libswd_c.a` from the folder that the environment variable `SWD_LIB_DIR` names. Without it
//! the archive is searched where a release and where the repository have it. The archive is for x86-64 and aarch64
//! Linux; it needs `memcpy`, `memmove` and `memset`.
//!
//! The archive has to be the one of this version: what first makes a run, a target or a decoder compares its version
//! and each field of its structs with the crate's. It panics if they differ, before a struct is passed.
//!
//! # Threads
//!
//! No type has state outside itself, so values may be moved between threads, and used in several threads one each.
#![no_std]
#![deny(unsafe_code, missing_docs)]

#[cfg(test)]
extern crate std;

mod access;
mod checker;
mod cut;
mod decoder;
mod error;
#[allow(unsafe_code)]
mod ffi;
mod host;
mod identity;
mod image;
mod line;
mod run;
mod target;
mod wire;

pub use access::{block, Access, Answer, End, Report, Slot};
pub use checker::{Checker, NotAnItem, Rule, Shown, Start, Verdict};
pub use decoder::{decode, Ack, Decoder, Item, Items, Transaction};
pub use error::{Error, Refused};
pub use host::{Host, Session};
pub use identity::{Identification, Opening};
pub use image::ImageError;
pub use line::{Broken, Line};
pub use run::{Planned, Run, Step, MOST_PLANNED};
pub use target::{Bus, BusError, Target};

/// What does nothing unless it is used is a warning where it isn't.
///
/// ```compile_fail
/// #![deny(unused_must_use)]
/// swd::decode([true]);
/// ```
///
/// ```compile_fail
/// #![deny(unused_must_use)]
/// swd::Access::write(0x2000_0000, 7);
/// ```
///
/// ```
/// #![deny(unused_must_use)]
/// let _items = swd::decode([true]);
/// let _access = swd::Access::write(0x2000_0000, 7);
/// ```
#[cfg(doctest)]
struct Unused;

/// The most accesses of one run.
pub const MOST_ACCESSES: usize = 65_536;
