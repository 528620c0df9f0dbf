//! Sessions, and what fails.

mod common;

use common::{answers, is_sure, plan_of, report_of, Call, Damaged, Mark, PlainMemory, Transfer, Unplugged, BASE, WORD};
use std::convert::Infallible;
use std::error::Error as _;
use std::panic::{catch_unwind, resume_unwind, AssertUnwindSafe};
use swd::{
    block, Access, Answer, Broken, End, Error, Host, Identification, Line, Opening, Refused, Report, Session, Slot,
    Target,
};

const POLL_REQUESTS: u64 = 3;
const POLL_CLOCKS: usize = 160;
/// A run ends with as many idle cycles.
const IDLE_CLOCKS: usize = 8;

fn line_with(marks: &[(usize, Mark)]) -> Damaged {
    Damaged::new(PlainMemory::new(BASE, 16, 65_536), plan_of(marks))
}

fn list() -> [Access; 4] {
    [Access::write(BASE, WORD), Access::write(BASE + 4, 2), Access::read(BASE), Access::read(BASE + 4)]
}

#[test]
fn a_poll_takes_three_requests() {
    let mut line = line_with(&[]);
    Session::new(&mut line, 8).open().unwrap();
    let opening = line.calls.len();
    let mut session = Session::new(&mut line, 8);
    session.open().unwrap();
    for _ in 0..20 {
        let report = session.run(&[Access::read(BASE)], &mut [Slot::EMPTY]).unwrap();
        assert_eq!(report.requests, POLL_REQUESTS);
    }
    assert!(line.calls.len() <= 2 * opening + 20 * POLL_CLOCKS);
    assert_eq!(line.memory().log.len(), 20);
}

#[test]
fn words_and_lists_over_one_opening() {
    let mut line = line_with(&[]);
    let mut session = Session::new(&mut line, 8);
    assert!(!session.is_open());
    session.write(BASE, WORD).unwrap();
    assert!(session.is_open());
    assert_eq!(session.read(BASE), Ok(WORD));
    let mut slots = [Slot::EMPTY; 4];
    assert_eq!(session.run(&list(), &mut slots).map(|report| report.requests), Ok(9));
    assert_eq!(answers(&slots), [Answer::Written, Answer::Written, Answer::Value(WORD), Answer::Value(2)]);
    let accesses = block(BASE, 4).collect::<Vec<_>>();
    assert_eq!(session.run_block(&accesses, &mut slots).map(|report| report.requests), Ok(6));
    assert_eq!(slots.map(|slot| slot.word()), [Some(WORD), Some(2), Some(0), Some(0)]);
    assert_eq!(session.until(BASE, 0xff, 0xef, 1), Ok(WORD));
    let report = Report { answered: 1, begun: 0, requests: POLL_REQUESTS, ended: End::All };
    let never = session.until(BASE, 0xff, 0xee, 5).unwrap_err();
    assert_eq!(never, Error::NeverCame { word: WORD, report });
    assert_eq!(never.report(), Some(&report));
    assert_eq!(session.until(BASE, 1, 2, 5), Err(Error::Refused(Refused::OutsideMask)));
    session.close();
    assert!(!session.is_open());
    assert_eq!(session.read(BASE), Ok(WORD));
    assert_eq!(line.memory().log.len(), 17);
}

// IHI 0031's DPIDR of an Arm debug port of version 1: revision 2, part ba, designer 23b. The session is open
// afterwards.
#[test]
fn an_identification() {
    let mut line = line_with(&[]);
    assert_eq!(Host::new(&mut line, 8).identify(), Ok(Identification { word: 0x2ba0_1477 }));
    let mut session = Session::new(&mut line, 8);
    for _ in 0..2 {
        let found = session.identify().unwrap();
        assert_eq!((found.designer(), found.part(), found.version(), found.revision()), (0x23b, 0xba, 1, 2));
        assert_eq!(found.to_string(), "dpidr 2ba01477: designer 23b, part ba, version 1, revision 2");
        assert!(!found.is_minimal());
    }
    assert!(Identification { word: 0x0bc1_2477 }.to_string().ends_with(", version 2, revision 0, minimal"));
    assert_eq!(session.run(&[Access::read(BASE)], &mut [Slot::EMPTY]).map(|report| report.requests), Ok(POLL_REQUESTS));
    assert_eq!(line.memory().log.len(), 1);
}

// A target that was lost before is brought to rest by an opening, which reads DPIDR. One whose DPIDR has wrong parity,
// or is never read, isn't identified.
#[test]
fn an_identification_after_a_loss() {
    let mut line = line_with(&[(12, Mark::Deaf)]);
    let mut session = Session::new(&mut line, 8);
    assert!(session.write(BASE, WORD).is_err());
    assert_eq!(session.identify(), Ok(Identification { word: 0x2ba0_1477 }));
    assert_eq!(session.read(BASE), Ok(WORD));
    for mark in [Mark::Flip(0), Mark::Deaf] {
        let ended = Host::new(line_with(&[(1, mark)]), 0).identify();
        assert!(matches!(ended, Err(Error::Stopped(report)) if report.answered == 0), "{mark}");
    }
}

// Requests 1, 3 and 6 of an opening read DPIDR and CTRL/STAT, before and after power is requested. An opening whose
// power isn't acknowledged reads CTRL/STAT as requested: 50000000.
#[test]
fn how_far_an_opening_came() {
    let identified = Some(Identification { word: 0x2ba0_1477 });
    let rows = [
        (1, Mark::Deaf, None, None, "DPIDR was never read with right parity"),
        (1, Mark::Flip(0), None, None, "DPIDR was never read with right parity"),
        (4, Mark::Mute(0), identified, Some(0), "DPIDR was 2ba01477"),
        (
            6,
            Mark::Wait,
            identified,
            Some(0x5000_0000),
            "DPIDR was 2ba01477, and CTRL/STAT acknowledged no debug and no system power",
        ),
    ];
    for (number, mark, dpidr, ctrl_stat, told) in rows {
        let mut line = line_with(&[(number, mark)]);
        let mut host = Host::new(&mut line, 0);
        assert!(host.identify().is_err(), "{told}");
        let opening = host.opening();
        assert_eq!((opening.dpidr, opening.ctrl_stat), (dpidr, ctrl_stat), "{told}");
        assert_eq!(opening.to_string(), told);
        assert!(!opening.has_debug_power() && !opening.has_system_power(), "{told}");
    }
    let mut line = line_with(&[]);
    let mut session = Session::new(&mut line, 8);
    assert_eq!(session.opening(), Opening::default());
    session.open().unwrap();
    let opening = session.opening();
    assert_eq!(opening.dpidr, identified);
    assert!(opening.has_debug_power() && opening.has_system_power());
    // A run over the open target reads neither register.
    session.write(BASE, WORD).unwrap();
    assert_eq!(session.opening(), opening);
}

// Nine requests of the opening, TAR, DRW and RDBUFF. The next list is performed over a target that was opened again.
#[test]
fn a_session_after_a_loss() {
    for (mark, number) in
        [Mark::Deaf, Mark::Mute(0), Mark::Mute(1)].iter().flat_map(|mark| (1..13).map(|at| (*mark, at)))
    {
        let mut line = line_with(&[(number, mark)]);
        let mut session = Session::new(&mut line, 8);
        let written = session.write(BASE, 1);
        assert_eq!(written.is_ok(), session.is_open(), "{mark} {number}");
        assert_eq!(session.read(BASE + 4), Ok(0), "{mark} {number}");
        session.write(BASE, 7).unwrap();
        assert_eq!(session.read(BASE), Ok(7), "{mark} {number}");
    }
}

#[test]
fn a_session_is_resumed() {
    let mut line = line_with(&[(12, Mark::Deaf)]);
    let mut session = Session::new(&mut line, 8);
    session.open().unwrap();
    let (accesses, mut slots) = ([Access::write(BASE, WORD)], [Slot::EMPTY]);
    let Err(Error::Stopped(lost)) = session.run(&accesses, &mut slots) else {
        panic!("the run isn't lost");
    };
    assert_eq!((lost.answered, lost.begun, lost.requests, lost.ended), (0, 1, 3, End::Lost));
    session.resume(&accesses, &mut slots, &lost).unwrap();
    assert_eq!(slots[0].answer(), Some(Answer::Written));
    assert_eq!(session.run(&[Access::read(BASE)], &mut slots).map(|report| report.requests), Ok(POLL_REQUESTS));
    assert_eq!(
        line.memory().log,
        [Transfer::Write(BASE, WORD), Transfer::Write(BASE, WORD), Transfer::Read(BASE, WORD)]
    );
}

// At each clock in turn. The session opens the target again, and what the report says was written is there.
#[test]
fn a_line_that_fails_under_a_session() {
    let mut whole = line_with(&[]);
    Session::new(&mut whole, 8).run(&list(), &mut [Slot::EMPTY; 4]).unwrap();
    for at in 0..whole.calls.len() {
        let mut line = Plug { line: line_with(&[]), fails_at: Some(at) };
        let mut session = Session::new(&mut line, 8);
        let mut slots = [Slot::EMPTY; 4];
        let Err(Error::Line { error: Unplugged, report }) = session.run(&list(), &mut slots) else {
            panic!("clock {at} failed unnoticed");
        };
        assert!(!session.is_open());
        let read = [session.read(BASE).unwrap(), session.read(BASE + 4).unwrap()];
        let written = report.answered.min(2);
        assert_eq!(read[..written], [WORD, 2][..written], "clock {at}");
    }
}

/// A line that fails once.
struct Plug {
    line: Damaged,
    fails_at: Option<usize>,
}

impl Plug {
    fn check(&mut self) -> Result<(), Unplugged> {
        if self.fails_at == Some(self.line.calls.len()) {
            self.fails_at = None;
            self.line.calls.push(Call::Release);
            return Err(Unplugged);
        }
        Ok(())
    }
}

impl Line for Plug {
    type Error = Unplugged;

    fn drive(&mut self, bit: bool) -> Result<(), Unplugged> {
        self.check()?;
        self.line.drive(bit)
    }

    fn release(&mut self) -> Result<(), Unplugged> {
        self.check()?;
        self.line.release()
    }

    fn sample(&mut self) -> Result<bool, Unplugged> {
        self.check()?;
        self.line.sample()
    }
}

/// A line that fails after so many clocks, as often as there are numbers. A clock that fails is made or isn't.
struct Breaking {
    target: Target<PlainMemory>,
    made: bool,
    /// The clocks to each failure, the next one last.
    left: Vec<usize>,
}

impl Breaking {
    fn new(made: bool, left: &[usize]) -> Breaking {
        let target = Target::new(PlainMemory::new(BASE, 4, 100));
        Breaking { target, made, left: left.iter().rev().copied().collect() }
    }

    fn cycle(&mut self, drive: Option<bool>) -> Result<bool, Unplugged> {
        let fails = self.left.last() == Some(&0);
        if fails {
            self.left.pop();
        } else if let Some(left) = self.left.last_mut() {
            *left -= 1;
        }
        if fails && !self.made {
            return Err(Unplugged);
        }
        let level = self.target.cycle(drive);
        if fails {
            return Err(Unplugged);
        }
        Ok(level)
    }
}

impl Line for Breaking {
    type Error = Unplugged;

    fn drive(&mut self, bit: bool) -> Result<(), Unplugged> {
        self.cycle(Some(bit)).map(|_| ())
    }

    fn release(&mut self) -> Result<(), Unplugged> {
        self.cycle(None).map(|_| ())
    }

    fn sample(&mut self) -> Result<bool, Unplugged> {
        self.cycle(None)
    }
}

/// Words of both parities, whose last bits are zeros or ones.
const WRITTEN_WORDS: [u32; 3] = [0, WORD, 0x7fff_ffff];

// Each clock of a run of one write, from its opening on.
#[test]
fn no_other_word_is_written_wherever_the_line_fails() {
    let mut whole = line_with(&[]);
    Session::new(&mut whole, 8).write(BASE, WORD).unwrap();
    for (word, made) in WRITTEN_WORDS.iter().flat_map(|word| [(*word, false), (*word, true)]) {
        for at in 0..whole.calls.len() {
            let mut line = Breaking::new(made, &[at]);
            let mut session = Session::new(&mut line, 8);
            let error = session.write(BASE, word).unwrap_err();
            assert!(matches!(error, Error::Line { .. }));
            session.open().unwrap();
            let once = [Transfer::Write(BASE, word)];
            let log = &line.target.bus().log;
            assert!(log.is_empty() || *log == once, "{word:08x} at {at}, made: {made}: {log:x?}");
        }
    }
}

// The line fails inside a data phase, and again while the rest of it is driven, but for the bit that decides there. If
// all bits were made at first, the word was written.
#[test]
fn no_other_word_is_written_where_the_line_fails_twice() {
    let opening = opening_clocks();
    for (word, made) in WRITTEN_WORDS.iter().flat_map(|word| [(*word, false), (*word, true)]) {
        for first in 0..33 {
            for second in (0..33 - first).filter(|second| first + second != 31) {
                // The opening, TAR, and the request for the word and a turnaround come before.
                let mut line = Breaking::new(made, &[opening + 46 + 13 + first, second]);
                let mut session = Session::new(&mut line, 8);
                assert!(matches!(session.write(BASE, word), Err(Error::Line { .. })));
                assert!(matches!(session.open(), Err(Error::Line { .. })));
                session.open().unwrap();
                assert!(line.left.is_empty());
                let once = [Transfer::Write(BASE, word)];
                let wanted = if made && first == 32 { &once[..] } else { &[] };
                assert_eq!(line.target.bus().log, wanted, "{word:08x} at {first} and {second}, made: {made}");
            }
        }
    }
}

/// A line that panics once, after so many clocks. The clock is made or isn't.
struct Panicking {
    target: Target<PlainMemory>,
    made: bool,
    left: Option<usize>,
    clocks: usize,
}

impl Panicking {
    fn cycle(&mut self, drive: Option<bool>) -> bool {
        let panics = self.left == Some(self.clocks);
        if panics && !self.made {
            self.left = None;
            resume_unwind(Box::new(()));
        }
        self.clocks += 1;
        let level = self.target.cycle(drive);
        if panics {
            self.left = None;
            resume_unwind(Box::new(()));
        }
        level
    }
}

impl Line for Panicking {
    type Error = Infallible;

    fn drive(&mut self, bit: bool) -> Result<(), Infallible> {
        self.cycle(Some(bit));
        Ok(())
    }

    fn release(&mut self) -> Result<(), Infallible> {
        self.cycle(None);
        Ok(())
    }

    fn sample(&mut self) -> Result<bool, Infallible> {
        Ok(self.cycle(None))
    }
}

// Each clock of a run of one write. Where in a data phase the target is then isn't known: nothing more is sent.
#[test]
fn nothing_is_sent_after_a_line_that_panicked() {
    let mut whole = line_with(&[]);
    Session::new(&mut whole, 8).write(BASE, WORD).unwrap();
    let (lost, refused) =
        (Report { answered: 0, begun: 0, requests: 0, ended: End::Lost }, Err(Error::Refused(Refused::Panicked)));
    for (word, made) in WRITTEN_WORDS.iter().flat_map(|word| [(*word, false), (*word, true)]) {
        for at in 0..whole.calls.len() {
            let target = Target::new(PlainMemory::new(BASE, 4, 100));
            let mut line = Panicking { target, made, left: Some(at), clocks: 0 };
            let mut session = Session::new(&mut line, 8);
            assert!(catch_unwind(AssertUnwindSafe(|| session.write(BASE, word))).is_err());
            assert!(!session.is_open());
            session.close();
            let (list, mut slots) = ([Access::write(BASE, word)], [Slot::EMPTY]);
            assert_eq!(session.open(), refused);
            assert_eq!(session.identify().map(|_| ()), refused);
            assert_eq!(session.read(BASE).map(|_| ()), refused);
            assert_eq!(session.run_block(&[Access::read(BASE)], &mut slots).map(|_| ()), refused);
            assert_eq!(session.resume(&list, &mut slots, &lost).map(|_| ()), refused);
            assert_eq!(line.clocks, at + usize::from(made));
            let log = &line.target.bus().log;
            assert!(
                log.is_empty() || *log == [Transfer::Write(BASE, word)],
                "{word:08x} at {at}, made: {made}: {log:x?}"
            );
        }
    }
}

// The line fails inside a data phase, and panics while the rest of it is driven.
#[test]
fn nothing_is_sent_after_a_panic_in_what_is_left() {
    struct Both(Breaking, bool);
    impl Line for Both {
        type Error = Unplugged;
        fn drive(&mut self, bit: bool) -> Result<(), Unplugged> {
            let driven = self.0.drive(bit);
            if driven.is_err() && std::mem::replace(&mut self.1, true) {
                resume_unwind(Box::new(()));
            }
            driven
        }
        fn release(&mut self) -> Result<(), Unplugged> {
            self.0.release()
        }
        fn sample(&mut self) -> Result<bool, Unplugged> {
            self.0.sample()
        }
    }
    let data = opening_clocks() + 46 + 13;
    for (first, second) in [(0, 0), (0, 32), (16, 8), (31, 1)] {
        let mut line = Both(Breaking::new(true, &[data + first, second]), false);
        let mut session = Session::new(&mut line, 8);
        assert!(session.write(BASE, WORD).is_err());
        assert!(catch_unwind(AssertUnwindSafe(|| session.open())).is_err());
        assert_eq!(session.open(), Err(Error::Refused(Refused::Panicked)), "{first} {second}");
        assert_eq!(line.0.target.bus().log, []);
    }
}

/// The clocks of an opening, in front of the first access.
fn opening_clocks() -> usize {
    let mut line = line_with(&[]);
    Session::new(&mut line, 8).open().unwrap();
    line.calls.len() - IDLE_CLOCKS
}

#[test]
fn a_line_to_nobody() {
    let mut line = line_with(&[(1, Mark::Deaf)]);
    let error = Session::new(&mut line, 8).write(BASE, 1).unwrap_err();
    assert_eq!(error.to_string(), "the run ended early: 0 answered, 0 in flight, end lost");
    assert_eq!(error.report().map(|report| report.requests), Some(1));
    assert!(error.source().is_none());
    let mut slots = [Slot::EMPTY];
    assert!(Host::new(line_with(&[(1, Mark::Deaf)]), 8).run(&[Access::read(BASE)], &mut slots).is_err());
    assert_eq!(slots[0].answer(), None);
    line = line_with(&[]);
    line.fails_at = Some(3);
    let error = Session::new(&mut line, 8).read(BASE).unwrap_err();
    assert_eq!(error.source().map(ToString::to_string), Some("unplugged".to_string()));
}

// Slots that have answers of another list are emptied.
#[test]
fn old_answers_are_no_answers() {
    let mut host = Host::new(line_with(&[(16, Mark::Deaf)]), 8);
    let mut slots = [Slot::EMPTY; 2];
    host.run(&[Access::write(BASE, 1), Access::write(BASE + 4, 2)], &mut slots).unwrap();
    let lost = report_of(host.run(&[Access::read(BASE), Access::read(BASE + 4)], &mut slots));
    assert_eq!((lost.answered, slots[0].answer(), slots[1].answer()), (0, None, None));
}

// Of the first list both slots have answers. None of them is left by a shorter list, one that is refused, or a run that
// is resumed behind one answer.
#[test]
fn no_slot_keeps_an_answer_of_another_list() {
    let long = [Access::write(BASE, 1), Access::write(BASE + 4, 2)];
    let unaligned = [Access::read(BASE + 1)];
    let mut line = line_with(&[]);
    let mut session = Session::new(&mut line, 8);
    let lost = Report { answered: 1, begun: 0, requests: 0, ended: End::Lost };
    let mut left = |list: &[Access], earlier: Option<&Report>| {
        let mut slots = [Slot::EMPTY; 2];
        session.run(&long, &mut slots).unwrap();
        let _ = match earlier {
            None => session.run(list, &mut slots),
            Some(report) => session.resume(list, &mut slots, report),
        };
        slots.map(|slot| slot.answer())
    };
    assert_eq!(left(&[Access::read(BASE)], None), [Some(Answer::Value(1)), None]);
    assert_eq!(left(&[], None), [None, None]);
    assert_eq!(left(&unaligned, None), [None, None]);
    assert_eq!(left(&[Access::read(BASE); 3], None), [None, None]);
    assert_eq!(left(&long[..1], Some(&lost)), [Some(Answer::Written), None]);
}

// Behind the answers that a resumed run begins with, no slot keeps one where the line fails at once.
#[test]
fn no_slot_keeps_an_answer_where_a_resumed_run_is_lost() {
    let (list, mut slots) = ([Access::write(BASE, 1), Access::write(BASE + 4, 2)], [Slot::EMPTY; 2]);
    let mut host = Host::new(line_with(&[]), 8);
    host.run(&list, &mut slots).unwrap();
    let lost = Report { answered: 1, begun: 0, requests: 0, ended: End::Lost };
    host.line_mut().fails_at = Some(0);
    assert!(host.resume(&list, &mut slots, &lost).is_err());
    assert_eq!(slots.map(|slot| slot.answer()), [Some(Answer::Written), None]);
}

#[test]
fn bus_errors() {
    let far = [Access::read(BASE), Access::read(0x3000_0000)];
    let mut slots = [Slot::EMPTY; 2];
    let mut line = line_with(&[]);
    let mut session = Session::new(&mut line, 8);
    let error = session.run(&far, &mut slots).unwrap_err();
    assert_eq!(error.to_string(), "access 1 (r 30000000) was a bus error");
    assert!(session.is_open());
    assert_eq!(slots.map(|slot| slot.answer()), [Some(Answer::Value(0)), Some(Answer::BusFault)]);
    assert!(matches!(session.read(0x3000_0000), Err(Error::BusFault { .. })));
    assert!(matches!(session.write(0x3000_0000, 1), Err(Error::BusFault { .. })));
    let mut session = session.bus_errors(true);
    assert!(session.run(&far, &mut slots).is_ok());
    assert!(matches!(session.read(0x3000_0000), Err(Error::BusFault { .. })));
    assert!(matches!(session.write(0x3000_0000, 1), Err(Error::BusFault { .. })));
    assert!(Host::new(line_with(&[]), 8).bus_errors(true).run(&far, &mut slots).is_ok());
}

/// A probe: what is driven or released waits for the next sample.
struct Probe {
    line: Damaged,
    queue: Vec<(Option<u64>, u32)>,
    exchanges: usize,
}

impl Line for Probe {
    type Error = Unplugged;

    fn drive(&mut self, _bit: bool) -> Result<(), Unplugged> {
        panic!("a host has nothing to do with single clocks");
    }

    fn release(&mut self) -> Result<(), Unplugged> {
        panic!("a host has nothing to do with single clocks");
    }

    fn sample(&mut self) -> Result<bool, Unplugged> {
        panic!("a host has nothing to do with single clocks");
    }

    fn drive_bits(&mut self, bits: u64, count: u32) -> Result<(), Broken<Unplugged>> {
        self.queue.push((Some(bits), count));
        Ok(())
    }

    fn release_for(&mut self, count: u32) -> Result<(), Unplugged> {
        self.queue.push((None, count));
        Ok(())
    }

    fn sample_bits(&mut self, count: u32) -> Result<u64, Unplugged> {
        self.exchanges += 1;
        self.flush()?;
        self.line.sample_bits(count)
    }

    fn flush(&mut self) -> Result<(), Unplugged> {
        for (bits, count) in std::mem::take(&mut self.queue) {
            match bits {
                Some(bits) => self.line.drive_bits(bits, count).map_err(|broken| broken.error)?,
                None => self.line.release_for(count)?,
            }
        }
        Ok(())
    }
}

/// A line whose flush fails once, after so many others.
struct Unflushed {
    line: Damaged,
    left: Option<u32>,
}

impl Line for Unflushed {
    type Error = Unplugged;

    fn drive(&mut self, bit: bool) -> Result<(), Unplugged> {
        self.line.drive(bit)
    }

    fn release(&mut self) -> Result<(), Unplugged> {
        self.line.release()
    }

    fn sample(&mut self) -> Result<bool, Unplugged> {
        self.line.sample()
    }

    fn flush(&mut self) -> Result<(), Unplugged> {
        let left = self.left;
        self.left = left.and_then(|left| left.checked_sub(1));
        if left == Some(0) {
            return Err(Unplugged);
        }
        Ok(())
    }
}

/// Loses a run, and then performs a list or a block of which nothing is done, as its report says: what brings the
/// target to rest before ends early. Each access is done once by what resumes it.
fn is_resumed_from_its_beginning<L>(mut line: L, memory: impl Fn(&L) -> &PlainMemory, blocks: bool, told: &str)
where
    L: Line<Error = Unplugged>,
{
    let (reads, writes, mut slots) = (block(BASE, 4).collect::<Vec<_>>(), list(), [Slot::EMPTY; 4]);
    let accesses = if blocks { &reads[..] } else { &writes[..] };
    let mut session = Session::new(&mut line, 8);
    assert!(session.write(BASE, 1).is_err(), "{told}");
    let ended = if blocks { session.run_block(accesses, &mut slots) } else { session.run(accesses, &mut slots) };
    let report = ended.unwrap_err().report().copied();
    assert_eq!(report, Some(Report { answered: 0, begun: 0, requests: 0, ended: End::Lost }), "{told}");
    assert!(slots.iter().all(|slot| *slot == Slot::EMPTY), "{told}");
    let resumed = session.resume(accesses, &mut slots, &report.unwrap()).expect(told);
    let mut made = PlainMemory::new(BASE, 16, 65_536);
    made.answer(Access::write(BASE, 1));
    is_sure(accesses, &slots, &resumed, memory(&line), made);
}

// At each clock, the last eight of which are idle cycles behind the answers of the opening, and at the flush behind.
#[test]
fn a_line_that_fails_while_the_target_is_brought_to_rest() {
    let lossy = || line_with(&[(12, Mark::Deaf)]);
    let mut host = Host::new(lossy(), 8);
    assert!(host.run(&[Access::write(BASE, 1)], &mut [Slot::EMPTY]).is_err());
    let first = host.line().calls.len();
    host.identify().unwrap();
    let end = host.line().calls.len();
    for blocks in [false, true] {
        for at in first..end {
            let (line, told) = (Plug { line: lossy(), fails_at: Some(at) }, format!("clock {at} of {first} to {end}"));
            is_resumed_from_its_beginning(line, |line| line.line.memory(), blocks, &told);
        }
        let line = Unflushed { line: lossy(), left: Some(1) };
        is_resumed_from_its_beginning(line, |line| line.line.memory(), blocks, "flush");
    }
}

#[test]
fn a_target_that_is_lost_while_it_is_brought_to_rest() {
    for (number, blocks) in (13..22).flat_map(|number| [(number, false), (number, true)]) {
        let line = line_with(&[(12, Mark::Deaf), (number, Mark::Deaf)]);
        is_resumed_from_its_beginning(line, Damaged::memory, blocks, &format!("request {number}"));
    }
}

/// A probe that returns ones above the bits that it was asked for.
struct Wide(Target<PlainMemory>);

impl Line for Wide {
    type Error = Infallible;

    fn drive(&mut self, bit: bool) -> Result<(), Infallible> {
        self.0.drive(bit)
    }

    fn release(&mut self) -> Result<(), Infallible> {
        self.0.release()
    }

    fn sample(&mut self) -> Result<bool, Infallible> {
        self.0.sample()
    }

    fn sample_bits(&mut self, count: u32) -> Result<u64, Infallible> {
        self.0.sample_bits(count).map(|bits| bits | u64::MAX << count)
    }
}

#[test]
fn bits_above_those_that_were_sampled() {
    let mut line = Wide(Target::new(PlainMemory::new(BASE, 4, 100)));
    let mut session = Session::new(&mut line, 8);
    assert_eq!(session.identify(), Ok(Identification { word: 0x2ba0_1477 }));
    session.write(BASE, WORD).unwrap();
    assert_eq!(session.read(BASE), Ok(WORD));
}

/// A probe that makes the bits of a data phase and then says that it failed after so many, as often as there are
/// numbers.
struct Unconfirmed {
    target: Target<PlainMemory>,
    /// The data phases that are made before the first failure.
    before: u32,
    /// Whether it has failed.
    is_broken: bool,
    /// What it says at each failure, the next one last.
    made: Vec<u32>,
}

impl Line for Unconfirmed {
    type Error = Unplugged;

    fn drive(&mut self, bit: bool) -> Result<(), Unplugged> {
        self.target.cycle(Some(bit));
        Ok(())
    }

    fn release(&mut self) -> Result<(), Unplugged> {
        self.target.cycle(None);
        Ok(())
    }

    fn sample(&mut self) -> Result<bool, Unplugged> {
        Ok(self.target.cycle(None))
    }

    fn drive_bits(&mut self, bits: u64, count: u32) -> Result<(), Broken<Unplugged>> {
        for place in 0..count {
            self.target.cycle(Some(bits >> place & 1 == 1));
        }
        if count == 33 && self.before > 0 {
            self.before -= 1;
            return Ok(());
        }
        // (the rest of a data phase is the next command)
        self.is_broken |= count == 33;
        if !self.is_broken {
            return Ok(());
        }
        self.made.pop().map_or(Ok(()), |made| Err(Broken { made, error: Unplugged }))
    }
}

// A probe's reply to the command is lost: it says that all 33 bits were made, or more than there are, or 0, as one that
// made all or none. The opening and TAR have five data phases before the word's, which the target takes each time. The
// rest is driven, and may fail likewise.
#[test]
fn a_data_phase_that_was_made_whole() {
    let counts = [0, 32, 33, 34, 63, 64, u32::MAX];
    for (word, made) in WRITTEN_WORDS.iter().flat_map(|word| counts.map(|made| (*word, made))) {
        for again in [None, Some(0), Some(1), Some(2), Some(64), Some(u32::MAX)] {
            let made = again.into_iter().chain([made]).collect::<Vec<_>>();
            let told = format!("{word:08x}, {made:?}");
            let target = Target::new(PlainMemory::new(BASE, 4, 100));
            let mut line = Unconfirmed { target, before: 5, is_broken: false, made };
            let mut session = Session::new(&mut line, 8);
            assert!(matches!(session.write(BASE, word), Err(Error::Line { .. })), "{told}");
            assert_eq!(session.open().is_err(), again.is_some(), "{told}");
            session.open().unwrap();
            assert_eq!(session.read(BASE), Ok(word), "{told}");
            assert_eq!(line.target.bus().log, [Transfer::Write(BASE, word), Transfer::Read(BASE, word)], "{told}");
        }
    }
}

// A request costs one exchange, and so does the data phase of a read: a written word costs three, and one in a burst.
// TAR costs one, and RDBUFF behind a burst two. The clocks are those of a line without sequences.
#[test]
fn exchanges_of_a_probe() {
    for (bursts, exchanges) in [(false, 3 * 12 + 1), (true, 12 + 3)] {
        let mut opened = Probe { line: line_with(&[]), queue: Vec::new(), exchanges: 0 };
        Session::new(&mut opened, 8).open().unwrap();
        let mut probe = Probe { line: line_with(&[]), queue: Vec::new(), exchanges: 0 };
        let mut session = Session::new(&mut probe, 8).bursts(bursts);
        session.open().unwrap();
        let mut slots = [Slot::EMPTY; 12];
        let writes = (0..12).map(|index| Access::write(BASE + 4 * index, index)).collect::<Vec<_>>();
        session.run(&writes, &mut slots).unwrap();
        assert_eq!(probe.exchanges, opened.exchanges + exchanges);
        assert!(probe.queue.is_empty());
        let mut line = line_with(&[]);
        let mut session = Session::new(&mut line, 8).bursts(bursts);
        session.open().unwrap();
        session.run(&writes, &mut slots).unwrap();
        assert!(probe.line.calls == line.calls);
    }
}
