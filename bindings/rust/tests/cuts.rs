//! Lines that fail at any one of their clocks: after that a session reads, resumes and identifies, and what it says
//! has to be true of the target's memory. What a call leaves behind doesn't reach the next one; each failure comes
//! twice.
//!
//! checks/wrong-bodies has hosts and lines that do something wrong, which these tests notice.

mod common;

use common::{answers, is_sure, plan_of, Damaged, Mark, PlainMemory, Transfer, BASE};
use std::cell::{Cell, RefCell};
use std::collections::VecDeque;
use std::io::Write;
use std::panic::{catch_unwind, AssertUnwindSafe};
use std::rc::Rc;
use swd::{block, Access, End, Error, Host, Identification, Line, Opening, Refused, Report, Session, Slot, Target};

const DPIDR: Identification = Identification { word: 0x2ba0_1477 };
/// The requests of an opening, and of a read over a target that is open.
const OPENING: usize = 9;
const POLL: usize = 3;

/// How a clock fails.
#[derive(Clone, Copy, Debug, PartialEq, Eq)]
enum Kind {
    Before,
    After,
    /// As `After`, and its level comes late.
    Late,
    /// Its call panics.
    Panics,
    /// So does each one behind it.
    Gone,
}

#[derive(Debug, PartialEq, Eq)]
struct Unplugged;

/// A line to a target, which its owner sees while a session has it.
#[derive(Clone)]
struct Cable {
    target: Rc<RefCell<Target<PlainMemory>>>,
    clocks: Rc<Cell<usize>>,
    fails: Rc<Cell<Option<(usize, Kind)>>>,
    /// The levels that came and weren't taken yet: more than one where that of a clock that failed came late.
    levels: Rc<RefCell<VecDeque<bool>>>,
    /// In how many clocks the target drove another level than the host, and in how many the host drove.
    contended: Rc<Cell<usize>>,
    driven: Rc<Cell<usize>>,
}

impl Cable {
    fn new() -> Cable {
        let target = Rc::new(RefCell::new(Target::new(PlainMemory::new(BASE, 16, 1 << 20))));
        let (clocks, fails, levels) = (Rc::default(), Rc::default(), Rc::default());
        Cable { target, clocks, fails, levels, contended: Rc::default(), driven: Rc::default() }
    }

    /// Has the clock fail that comes after so many more.
    fn fail(&self, after: usize, kind: Kind) {
        self.fails.set(Some((self.clocks.get() + after, kind)));
    }

    fn memory(&self) -> PlainMemory {
        self.target.borrow().bus().clone()
    }

    fn set(&self, word: u32) {
        self.target.borrow_mut().bus_mut().words.insert(BASE, word);
    }

    fn cycle(&self, drive: Option<bool>) -> Result<bool, Unplugged> {
        let now = self.clocks.get();
        self.clocks.set(now + 1);
        let failure = self.fails.get().filter(|(at, _)| now >= *at).map(|(_, kind)| kind);
        if !matches!(failure, None | Some(Kind::Gone)) {
            self.fails.set(None);
        }
        match failure {
            Some(Kind::Before | Kind::Gone) => return Err(Unplugged),
            Some(Kind::Panics) => std::panic::resume_unwind(Box::new(())),
            Some(Kind::After | Kind::Late) | None => {}
        }
        let mut levels = self.levels.borrow_mut();
        // The level of a clock that failed is dropped.
        levels.clear();
        let level = self.target.borrow_mut().cycle(drive);
        self.driven.set(self.driven.get() + usize::from(drive.is_some()));
        if drive.is_some_and(|bit| bit != level) {
            self.contended.set(self.contended.get() + 1);
        }
        if drive.is_none() && failure != Some(Kind::After) {
            levels.push_back(level);
        }
        if failure.is_some() {
            return Err(Unplugged);
        }
        // Of a clock that is driven no level comes.
        let taken = if drive.is_none() { levels.pop_front() } else { None };
        Ok(taken.unwrap_or(level))
    }
}

impl Line for Cable {
    type Error = Unplugged;

    fn drive(&mut self, bit: bool) -> Result<(), Unplugged> {
        self.cycle(Some(bit)).map(|_| ())
    }

    fn release(&mut self) -> Result<(), Unplugged> {
        self.cycle(None).map(|_| ())
    }

    fn sample(&mut self) -> Result<bool, Unplugged> {
        self.cycle(None)
    }
}

/// What is cut: accesses, and whether they are a block.
fn acts() -> [(&'static str, Vec<Access>, bool); 4] {
    let list = vec![
        Access::write(BASE, 0x1001),
        Access::read(BASE + 4),
        Access::write(BASE + 8, 0x7fff_ffff),
        Access::read(BASE),
    ];
    let load = (0..6).map(|place| Access::write(BASE + 4 * place, 0x2001 + place)).collect();
    [
        ("a list", list, false),
        ("a poll", vec![Access::read(BASE)], false),
        ("a block", block(BASE, 6).collect(), true),
        ("a load", load, false),
    ]
}

fn act(
    session: &mut Session<'_, Cable>,
    accesses: &[Access],
    slots: &mut [Slot],
    blocks: bool,
) -> Result<Report, Error<Unplugged>> {
    if blocks {
        session.run_block(accesses, slots)
    } else {
        session.run(accesses, slots)
    }
}

/// The writes in a log that no access is.
fn foreign(log: &[Transfer], accesses: &[Access]) -> Vec<Transfer> {
    let mine: Vec<_> =
        accesses.iter().filter_map(|access| Some(Transfer::Write(access.addr(), access.word()?))).collect();
    log.iter().filter(|it| matches!(it, Transfer::Write(..)) && !mine.contains(it)).copied().collect()
}

#[test]
fn what_a_session_says_is_true_wherever_its_line_fails() {
    let mut tried = 0;
    for (name, accesses, blocks) in acts() {
        let mut whole = Cable::new();
        let (seen, mut session) = (whole.clone(), Session::new(&mut whole, 8));
        session.open().unwrap();
        let before = seen.clocks.get();
        act(&mut session, &accesses, &mut [Slot::EMPTY; 8], blocks).unwrap();
        for at in 0..seen.clocks.get() - before {
            for kind in [Kind::Before, Kind::After, Kind::Late, Kind::Panics, Kind::Gone] {
                for then in ["read", "resume", "identify"] {
                    tried += 1;
                    cut(&accesses, blocks, (at, kind), then, &format!("{name}: {kind:?} at {at}, then {then}"));
                }
            }
        }
    }
    // (the harness keeps what a test that passes prints)
    writeln!(std::io::stderr(), "a line cut at {tried} places").unwrap();
    assert!(tried >= 10_000, "{tried}");
}

/// Cuts the line inside a call at this clock, and goes on.
fn cut(accesses: &[Access], blocks: bool, failure: (usize, Kind), then: &str, told: &str) {
    let mut line = Cable::new();
    let (seen, mut session) = (line.clone(), Session::new(&mut line, 8));
    session.open().unwrap();
    let mut slots = [Slot::EMPTY; 8];
    let slots = &mut slots[..accesses.len()];
    seen.fail(failure.0, failure.1);
    let ended = catch_unwind(AssertUnwindSafe(|| act(&mut session, accesses, slots, blocks)));
    let Ok(ended) = ended else {
        assert_eq!(failure.1, Kind::Panics, "{told}");
        assert_eq!(session.read(BASE), Err(Refused::Panicked.into()), "{told}");
        assert_eq!(session.identify(), Err(Refused::Panicked.into()), "{told}");
        assert_eq!(foreign(&seen.memory().log, accesses), [], "{told}");
        return;
    };
    let Err(Error::Line { report, .. }) = ended else {
        panic!("{told}: {ended:?}");
    };
    is_sure(accesses, slots, &report, &seen.memory(), PlainMemory::new(BASE, 16, 1 << 20));
    if failure.1 == Kind::Gone {
        for _ in 0..2 {
            assert!(matches!(session.read(BASE), Err(Error::Line { error: Unplugged, .. })), "{told}");
        }
        seen.fails.set(None);
    }
    match then {
        "resume" if report.ended == End::Lost => {
            let whole = session.resume(accesses, slots, &report).unwrap();
            assert_eq!((whole.answered, whole.ended), (accesses.len(), End::All), "{told}");
            let mut model = PlainMemory::new(BASE, 16, 1 << 20);
            assert_eq!(answers(slots), model.answers(accesses), "{told}");
            assert_eq!(seen.memory().words, model.words, "{told}");
        }
        "identify" => assert_eq!(session.identify(), Ok(DPIDR), "{told}"),
        _ => {}
    }
    for addr in [BASE, BASE + 8] {
        assert_eq!(session.read(addr), Ok(seen.memory().words[&addr]), "{told}");
    }
    assert_eq!(foreign(&seen.memory().log, accesses), [], "{told}");
    assert_eq!(seen.contended.get(), 0, "{told}");
}

// No read returns the word of the one before. Once the target is there again, each returns the word that it has.
#[test]
fn a_poll_whose_target_is_gone() {
    let mut line = Cable::new();
    let (seen, mut session) = (line.clone(), Session::new(&mut line, 8));
    for word in 7..10 {
        seen.set(word);
        for _ in 0..3 {
            assert_eq!(session.read(BASE), Ok(word));
        }
        seen.fail(0, Kind::Gone);
        for _ in 0..2 {
            assert!(matches!(session.read(BASE), Err(Error::Line { report, .. }) if report.answered == 0));
            assert!(!session.is_open());
        }
        seen.fails.set(None);
    }
}

// At each request of a poll and of the one behind it. The next read opens the target again, and the one after it is a
// poll.
#[test]
fn a_poll_that_is_lost_twice() {
    for (mark, number) in
        [Mark::Deaf, Mark::Mute(0), Mark::Mute(1)].iter().flat_map(|mark| (1..=2 * POLL).map(|at| (*mark, at)))
    {
        let first = OPENING + POLL + number;
        let marks = [(first, mark), (first + OPENING + POLL + number, mark)];
        let mut line = Damaged::new(PlainMemory::new(BASE, 16, 1000), plan_of(&marks));
        let mut session = Session::new(&mut line, 8);
        let mut lost = 0;
        for _ in 0..20 {
            match session.read(BASE) {
                Ok(word) => assert!(word == 0 && session.is_open()),
                Err(error) => {
                    assert!(matches!(error, Error::Stopped(report) if report.ended == End::Lost), "{mark} {number}");
                    assert!(!session.is_open());
                    lost += 1;
                }
            }
        }
        assert_eq!(lost, 2, "{mark} {number}");
        let requests = session.run(&[Access::read(BASE)], &mut [Slot::EMPTY]).map(|report| report.requests);
        assert_eq!(requests, Ok(POLL as u64), "{mark} {number}");
    }
}

// The session isn't open afterwards, and the next read brings the target to rest.
#[test]
fn a_poll_with_too_few_tries() {
    let first = OPENING + POLL + 2;
    let marks = [(first, Mark::Wait), (first + 1 + OPENING + POLL + 2, Mark::Wait)];
    let mut line = Damaged::new(PlainMemory::new(BASE, 16, 1000), plan_of(&marks));
    let mut session = Session::new(&mut line, 0);
    let mut ended = Vec::new();
    for _ in 0..8 {
        if let Err(error) = session.read(BASE) {
            ended.push(error.report().unwrap().ended);
            assert!(!session.is_open());
            session.open().unwrap();
        }
    }
    assert_eq!(ended, [End::TriesOut; 2]);
}

// At each clock of a read, twice: the target, which may be driving the line, is brought to rest first.
#[test]
fn a_target_that_is_astray_is_identified() {
    for at in 0..46 * POLL {
        let mut line = Cable::new();
        let (seen, mut session) = (line.clone(), Session::new(&mut line, 8));
        let mut host = Host::new(seen.clone(), 8);
        session.open().unwrap();
        for word in 1..3 {
            seen.set(word);
            seen.fail(at, Kind::Before);
            assert!(matches!(session.read(BASE), Err(Error::Line { .. })), "{at}");
            assert_eq!(session.identify(), Ok(DPIDR), "{at}");
            assert_eq!(session.read(BASE), Ok(word), "{at}");
        }
        session.close();
        let opening = seen.clocks.get();
        host.identify().unwrap();
        let opening = seen.clocks.get() - opening - 8;
        for _ in 0..2 {
            seen.fail(opening + at, Kind::Before);
            assert!(host.run(&[Access::read(BASE)], &mut [Slot::EMPTY]).is_err(), "{at}");
            assert_eq!(host.identify(), Ok(DPIDR), "{at}");
        }
        assert_eq!(seen.contended.get(), 0, "{at}");
    }
}

// `close` doesn't forget where the last call left the target: the next one brings it to rest first.
#[test]
fn a_target_that_is_astray_and_closed() {
    for at in 0..46 * POLL {
        let mut line = Cable::new();
        let (seen, mut session) = (line.clone(), Session::new(&mut line, 8));
        session.open().unwrap();
        for word in 1..3 {
            seen.set(word);
            seen.fail(at, Kind::Before);
            assert!(matches!(session.read(BASE), Err(Error::Line { .. })), "{at}");
            session.close();
            assert_eq!(session.read(BASE), Ok(word), "{at}");
        }
        assert_eq!(seen.contended.get(), 0, "{at}");
    }
}

// The line fails inside the data phase of a write, and then behind its rest, in each of the four released clocks. The
// next call drives nothing before its line reset.
#[test]
fn the_rest_of_a_data_phase_is_sent_once() {
    for at in 0..4 {
        let mut line = Cable::new();
        let (seen, mut session) = (line.clone(), Session::new(&mut line, 8));
        session.open().unwrap();
        // A request, a turnaround, an acknowledgement, a turnaround, and ten bits.
        seen.fail(8 + 1 + 3 + 1 + 10, Kind::Before);
        assert!(session.write(BASE, 1).is_err());
        seen.fail(23 + at, Kind::Before);
        assert!(session.read(BASE).is_err());
        let driven = seen.driven.get();
        seen.fail(4, Kind::Before);
        assert!(session.read(BASE).is_err());
        assert_eq!(seen.driven.get(), driven, "{at}");
        assert_eq!(session.read(BASE), Ok(0), "{at}");
    }
}

// What was read before isn't told of an identification whose line failed at its first clock.
#[test]
fn an_identification_that_reached_no_target() {
    let mut line = Cable::new();
    let (seen, mut session) = (line.clone(), Session::new(&mut line, 8));
    assert_eq!(session.identify(), Ok(DPIDR));
    for at in [23, 1] {
        seen.fail(at, Kind::Before);
        assert!(session.write(BASE, 1).is_err());
        seen.fail(0, Kind::Before);
        assert!(session.identify().is_err());
        assert_eq!(session.opening(), Opening::default());
        assert_eq!(session.identify(), Ok(DPIDR));
        assert_eq!(session.opening().dpidr, Some(DPIDR));
    }
}
