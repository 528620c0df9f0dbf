//! Hosts, which drive a line through runs.

use crate::cut::Cut;
use crate::ffi::{listed, stored};
use crate::wire::{silence, Wire, REST};
use crate::{ffi, Access, Answer, End, Error, Identification, Line, Opening, Refused, Report, Slot, MOST_ACCESSES};

/// The clocks from a turnaround to the end of an acknowledgement. A run that continues releases the line for the clocks
/// of a data phase; one that was broken off may be that far before it.
pub(crate) const REQUEST_REST: u32 = 4;

/// How a target stands behind the last run over its line.
#[derive(Clone, Copy, Debug, PartialEq, Eq)]
enum Standing {
    /// There was no run.
    Fresh,
    /// The last run ended with [`End::All`].
    Open,
    /// The last run ended otherwise, or was broken off. The target may be inside a transaction.
    Astray,
    /// The line is being driven. A call finds this if the line panicked in an earlier one.
    Driven,
}

/// What hosts share.
#[derive(Clone, Debug)]
struct Driver {
    tries: u32,
    bus_errors: bool,
    /// Whether writes go in bursts, in place of reads.
    bursts: bool,
    standing: Standing,
    /// Whether a run begins with an opening of its own, although the target is open.
    opens_each: bool,
    /// Whether the line isn't known to be between two cues.
    inside: bool,
    /// The write's data phase inside which the line failed.
    cut: Option<Cut>,
    /// What was read while the target was opened the last time.
    opening: Opening,
}

impl Driver {
    fn new(tries: u32, opens_each: bool) -> Driver {
        let standing = Standing::Fresh;
        let opening = Opening::default();
        Driver { tries, bus_errors: false, bursts: false, standing, opens_each, inside: true, cut: None, opening }
    }

    fn run<L: Line>(
        &mut self,
        line: &mut L,
        accesses: &[Access],
        slots: &mut [Slot],
        blocks: bool,
    ) -> Result<Report, Error<L::Error>> {
        slots.fill(Slot::EMPTY);
        check(accesses, slots)?;
        self.check_line()?;
        if self.standing == Standing::Astray {
            self.settle(line).map_err(Error::before_run)?;
        }
        let blocks = blocks || !self.bursts;
        let mut run = if self.opens_each || self.standing == Standing::Fresh {
            ffi::Run::beginning(blocks, self.tries)
        } else {
            ffi::Run::opened(listed(accesses), blocks, self.tries).0
        };
        let report = self.conduct(line, &mut run, accesses, slots)?;
        self.checked(accesses, slots, report)
    }

    fn resume<L: Line>(
        &mut self,
        line: &mut L,
        accesses: &[Access],
        slots: &mut [Slot],
        earlier: &Report,
    ) -> Result<Report, Error<L::Error>> {
        check(accesses, slots)?;
        self.check_line()?;
        if !matches!(earlier.ended, End::Lost | End::TriesOut) {
            return Err(Refused::NotResumable(earlier.ended).into());
        }
        let (count, answered) = (accesses.len(), earlier.answered);
        if answered > count {
            return Err(Refused::OtherReport { accesses: count, answered }.into());
        }
        slots[answered..].fill(Slot::EMPTY);
        let mut run = again(answered, !self.bursts, self.tries);
        let report = self
            .leave(line, &run)
            .and_then(|()| self.conduct(line, &mut run, accesses, slots))
            .map_err(|error| error.since(earlier))?;
        self.checked(accesses, slots, report)
    }

    /// Refuses to drive a line that panicked: how far the target is in a data phase isn't known.
    fn check_line(&self) -> Result<(), Refused> {
        match self.standing {
            Standing::Driven => Err(Refused::Panicked),
            Standing::Fresh | Standing::Open | Standing::Astray => Ok(()),
        }
    }

    /// Brings a target to rest, and opens it: continues the last run over no access.
    fn settle<L: Line>(&mut self, line: &mut L) -> Result<(), Error<L::Error>> {
        let mut run = again(0, !self.bursts, self.tries);
        self.leave(line, &run)?;
        self.conduct(line, &mut run, &[], &mut []).map(|_| ())
    }

    fn identify<L: Line>(&mut self, line: &mut L) -> Result<Identification, Error<L::Error>> {
        self.check_line()?;
        self.opening = Opening::default();
        if self.standing == Standing::Astray {
            self.settle(line)?;
        } else {
            self.conduct(line, &mut ffi::Run::beginning(!self.bursts, self.tries), &[], &mut [])?;
        }
        Ok(self.opening.dpidr.expect("an opening that succeeds has read DPIDR"))
    }

    /// Leaves the cue in which a run may have been broken off, before a run that continues it.
    fn leave<L: Line>(&mut self, line: &mut L, run: &ffi::Run) -> Result<(), Error<L::Error>> {
        self.standing = Standing::Driven;
        let left = self.leave_cue(line);
        self.standing = Standing::Astray;
        let report = Report { answered: run.answered as usize, begun: 0, requests: 0, ended: End::Lost };
        left.map_err(|error| Error::Line { error, report })
    }

    /// Has the target drop the data phase that was cut, and releases the line up to the end of an acknowledgement.
    fn leave_cue<L: Line>(&mut self, line: &mut L) -> Result<(), L::Error> {
        if let Some(cut) = self.cut {
            let (bits, count) = cut.rest();
            line.drive_bits(bits, count).map_err(|broken| {
                self.cut = Some(cut.again(broken.made));
                broken.error
            })?;
            self.cut = None;
        }
        if self.inside {
            line.release_for(REQUEST_REST)?;
        }
        Ok(())
    }

    /// Performs a run over the line. Nothing else does.
    fn conduct<L: Line>(
        &mut self,
        line: &mut L,
        run: &mut ffi::Run,
        accesses: &[Access],
        slots: &mut [Slot],
    ) -> Result<Report, Error<L::Error>> {
        self.standing = Standing::Driven;
        self.inside = true;
        let mut wire = Wire::new(line);
        let mut cue = run.cue();
        while cue.kind != REST {
            let reply = wire.reply(&cue);
            cue = run.next(listed(accesses), stored(slots), reply);
        }
        wire.flush();
        self.standing = Standing::Astray;
        self.cut = wire.cut;
        self.opening = wire.opening.unwrap_or(self.opening);
        let mut report = Report::of(run);
        if let Some(error) = wire.failure {
            if report.ended != End::All {
                // With few tries the silence of a data phase ends a run before that of an acknowledgement.
                report.ended = End::Lost;
            }
            return Err(Error::Line { error, report });
        }
        self.inside = false;
        if report.ended != End::All {
            return Err(Error::Stopped(report));
        }
        self.standing = Standing::Open;
        Ok(report)
    }

    fn checked<E>(&self, accesses: &[Access], slots: &[Slot], report: Report) -> Result<Report, Error<E>> {
        let faulted = slots[..accesses.len()].iter().position(|slot| slot.answer() == Some(Answer::BusFault));
        match faulted {
            Some(index) if !self.bus_errors => Err(Error::BusFault { index, access: accesses[index], report }),
            _ => Ok(report),
        }
    }
}

/// The run that continues after so many answers. The library continues a struct that ended early, with this number of
/// answers: here one that saw no acknowledgement, for which nothing is sent.
fn again(answered: usize, blocks: bool, tries: u32) -> ffi::Run {
    let mut run = ffi::Run::beginning(blocks, tries);
    let mut cue = run.cue();
    while cue.kind != REST {
        cue = run.next(&[], &mut [], silence(&cue));
    }
    run.answered = answered as u32;
    assert!(run.again(tries), "a run that is lost is continued");
    run
}

pub(crate) fn check(accesses: &[Access], slots: &[Slot]) -> Result<(), Refused> {
    if accesses.len() > MOST_ACCESSES {
        return Err(Refused::TooMany { accesses: accesses.len() });
    }
    if let Some(index) = accesses.iter().position(|access| access.addr() % 4 != 0) {
        return Err(Refused::Unaligned { index });
    }
    if slots.len() < accesses.len() {
        return Err(Refused::TooFewSlots { accesses: accesses.len(), slots: slots.len() });
    }
    Ok(())
}

/// A host over a line. It reads and writes words of a target, each access of a list once. Each run opens the target; a
/// [`Session`] opens it once.
#[derive(Clone, Debug)]
pub struct Host<L> {
    line: L,
    driver: Driver,
}

impl<L: Line> Host<L> {
    /// Makes a host. The opening, and each access, may meet as many events as `tries`: a WAIT, a word with wrong
    /// parity, or write data that arrived changed.
    #[must_use = "a host does nothing until it runs a list"]
    pub fn new(line: L, tries: u32) -> Host<L> {
        Host { line, driver: Driver::new(tries, true) }
    }

    /// Whether a run may meet bus errors, which are answers then. Without that it is an [`Error::BusFault`].
    #[must_use]
    pub fn bus_errors(mut self, allowed: bool) -> Host<L> {
        self.driver.bus_errors = allowed;
        self
    }

    /// Whether writes at consecutive addresses go in bursts, in which the request of the next write confirms the one
    /// before: a word takes one request in place of two. A debug port with a write buffer may discard a write that was
    /// confirmed so, and the report may be wrong. Without that each write is confirmed by a read of RDBUFF, and reads
    /// at consecutive addresses go in bursts.
    #[must_use]
    pub fn bursts(mut self, allowed: bool) -> Host<L> {
        self.driver.bursts = allowed;
        self
    }

    /// The line.
    pub fn line(&self) -> &L {
        &self.line
    }

    /// The line, for clocks between two runs.
    pub fn line_mut(&mut self) -> &mut L {
        &mut self.line
    }

    /// Gives the line back.
    pub fn into_line(self) -> L {
        self.line
    }

    /// Opens the target and performs the accesses in order, each once. The opening is a line reset with the switch from
    /// JTAG, power, and a MEM-AP set up for words. The answers are in the first slots afterwards, one for each access.
    ///
    /// Eight idle cycles follow, and the target is left with power on.
    ///
    /// # Errors
    ///
    /// [`Error::Refused`] for a list that can't be performed, or where there are too few slots. [`Error::Stopped`]
    /// where the run ended early, [`Error::BusFault`] where an access was a bus error, and [`Error::Line`] where the
    /// line failed: the first slots have the answers of the accesses before, and all others are empty.
    pub fn run(&mut self, accesses: &[Access], slots: &mut [Slot]) -> Result<Report, Error<L::Error>> {
        self.driver.run(&mut self.line, accesses, slots, false)
    }

    /// Opens the target, also one that is open, and returns its DPIDR. No memory is read or written.
    ///
    /// # Errors
    ///
    /// As [`Host::run`].
    pub fn identify(&mut self) -> Result<Identification, Error<L::Error>> {
        self.driver.identify(&mut self.line)
    }

    /// What was read of the target while it was opened the last time, also where that failed.
    pub fn opening(&self) -> Opening {
        self.driver.opening
    }

    /// Performs reads at consecutive addresses, as [`block`](crate::block) gives them, at one request per further word,
    /// also with [`bursts`](Host::bursts).
    ///
    /// # Errors
    ///
    /// As [`Host::run`].
    pub fn run_block(&mut self, accesses: &[Access], slots: &mut [Slot]) -> Result<Report, Error<L::Error>> {
        self.driver.run(&mut self.line, accesses, slots, true)
    }

    /// Continues a run of these accesses that ended with [`End::Lost`] or [`End::TriesOut`], over the same target: from
    /// the first access that isn't answered. The first slots have the answers of that run. The report is that of the
    /// whole list, but `requests` are those of this call.
    ///
    /// An access that was in flight may then be done again.
    ///
    /// # Errors
    ///
    /// As [`Host::run`], and [`Refused::NotResumable`] or [`Refused::OtherReport`] for a report of another run. A call
    /// that is refused leaves the slots as they are.
    pub fn resume(
        &mut self,
        accesses: &[Access],
        slots: &mut [Slot],
        report: &Report,
    ) -> Result<Report, Error<L::Error>> {
        self.driver.resume(&mut self.line, accesses, slots, report)
    }
}

/// A host over a target that is opened once, for any number of lists. A list of one read costs three requests, so each
/// access may be chosen after the last answer.
///
/// **Between two calls nothing else may drive the line, nor may the target be reset**: the reports may be wrong then.
/// The session borrows the line for that. [`close`](Session::close) it after a reset, and the next call opens the
/// target again. So does the next call after one that ended early; it begins by bringing the target to rest.
#[derive(Debug)]
pub struct Session<'l, L> {
    line: &'l mut L,
    driver: Driver,
}

impl<'l, L: Line> Session<'l, L> {
    /// Makes a session over a line. The first call opens the target. `tries` are as of [`Host::new`].
    #[must_use = "a session does nothing until its first call"]
    pub fn new(line: &'l mut L, tries: u32) -> Session<'l, L> {
        Session { line, driver: Driver::new(tries, false) }
    }

    /// As [`Host::bus_errors`].
    #[must_use]
    pub fn bus_errors(mut self, allowed: bool) -> Session<'l, L> {
        self.driver.bus_errors = allowed;
        self
    }

    /// As [`Host::bursts`].
    #[must_use]
    pub fn bursts(mut self, allowed: bool) -> Session<'l, L> {
        self.driver.bursts = allowed;
        self
    }

    /// Whether the last call left the target open.
    #[must_use]
    pub fn is_open(&self) -> bool {
        self.driver.standing == Standing::Open
    }

    /// Forgets that the target is open. Nothing is sent: its power stays on.
    pub fn close(&mut self) {
        if self.is_open() {
            self.driver.standing = Standing::Fresh;
        }
    }

    /// Opens the target, if it isn't open.
    ///
    /// # Errors
    ///
    /// As [`Host::run`].
    pub fn open(&mut self) -> Result<(), Error<L::Error>> {
        if !self.is_open() {
            self.run(&[], &mut [])?;
        }
        Ok(())
    }

    /// Opens the target, also one that is open, and returns its DPIDR. No memory is read or written.
    ///
    /// # Errors
    ///
    /// As [`Host::run`].
    pub fn identify(&mut self) -> Result<Identification, Error<L::Error>> {
        self.driver.identify(self.line)
    }

    /// What was read of the target while it was opened the last time, also where that failed.
    #[must_use]
    pub fn opening(&self) -> Opening {
        self.driver.opening
    }

    /// Performs the accesses in order, each once, as [`Host::run`] does, over the open target.
    ///
    /// # Errors
    ///
    /// As [`Host::run`].
    pub fn run(&mut self, accesses: &[Access], slots: &mut [Slot]) -> Result<Report, Error<L::Error>> {
        self.driver.run(self.line, accesses, slots, false)
    }

    /// Performs reads at consecutive addresses, as [`Host::run_block`] does, over the open target.
    ///
    /// # Errors
    ///
    /// As [`Host::run`].
    pub fn run_block(&mut self, accesses: &[Access], slots: &mut [Slot]) -> Result<Report, Error<L::Error>> {
        self.driver.run(self.line, accesses, slots, true)
    }

    /// Continues a run, as [`Host::resume`] does. The target is open again where it succeeds.
    ///
    /// # Errors
    ///
    /// As [`Host::resume`].
    pub fn resume(
        &mut self,
        accesses: &[Access],
        slots: &mut [Slot],
        report: &Report,
    ) -> Result<Report, Error<L::Error>> {
        self.driver.resume(self.line, accesses, slots, report)
    }

    /// Reads the word at an address.
    ///
    /// # Errors
    ///
    /// As [`Host::run`]; a bus error is an [`Error::BusFault`] in any case.
    pub fn read(&mut self, addr: u32) -> Result<u32, Error<L::Error>> {
        self.read_word(addr).map(|(word, _)| word)
    }

    /// Reads the word at an address, and returns it with the report of that run.
    fn read_word(&mut self, addr: u32) -> Result<(u32, Report), Error<L::Error>> {
        let (access, mut slots) = (Access::read(addr), [Slot::EMPTY]);
        let report = self.run(&[access], &mut slots)?;
        let word = slots[0].word().ok_or(Error::BusFault { index: 0, access, report })?;
        Ok((word, report))
    }

    /// Writes a word at an address, once.
    ///
    /// # Errors
    ///
    /// As [`Session::read`].
    pub fn write(&mut self, addr: u32, word: u32) -> Result<(), Error<L::Error>> {
        let (access, mut slots) = (Access::write(addr, word), [Slot::EMPTY]);
        let report = self.run(&[access], &mut slots)?;
        match slots[0].answer() {
            Some(Answer::Written) => Ok(()),
            _ => Err(Error::BusFault { index: 0, access, report }),
        }
    }

    /// Reads the word at an address until its bits under `mask` are `value`, at least once, and at most `reads` times.
    /// Returns the word.
    ///
    /// # Errors
    ///
    /// As [`Session::read`]; [`Refused::OutsideMask`] where the value has bits outside the mask; and
    /// [`Error::NeverCame`] after the last read.
    pub fn until(&mut self, addr: u32, mask: u32, value: u32, reads: u32) -> Result<u32, Error<L::Error>> {
        if value & !mask != 0 {
            return Err(Refused::OutsideMask.into());
        }
        let (mut word, mut report) = self.read_word(addr)?;
        for _ in 1..reads {
            if word & mask == value {
                break;
            }
            (word, report) = self.read_word(addr)?;
        }
        if word & mask == value {
            Ok(word)
        } else {
            Err(Error::NeverCame { word, report })
        }
    }
}
