//! Each list, block and poll once at its greatest size.

mod common;

use common::{answers, plan_of, Damaged, Mark, PlainMemory, BASE};
use std::cell::Cell;
use std::convert::Infallible;
use swd::{block, Access, Answer, Broken, End, Error, Host, Line, Session, Slot, Target, MOST_ACCESSES};

/// The requests of a list of writes in bursts: the opening, DRW for each, and in each kilobyte TAR before its first
/// word and RDBUFF after its last one.
const REQUESTS: usize = 9 + MOST_ACCESSES + 2 * 256;

fn line_with(marks: &[(usize, Mark)]) -> Damaged {
    Damaged::new(PlainMemory::new(BASE, 65_536, 4 * MOST_ACCESSES), plan_of(marks))
}

/// Each word of the memory is written with the complement of its address.
fn writes() -> Vec<Access> {
    (0..65_536).map(|place| BASE + 4 * place).map(|addr| Access::write(addr, !addr)).collect()
}

fn words() -> Vec<Answer> {
    writes().iter().map(|write| Answer::Value(!write.addr())).collect()
}

#[test]
fn a_list_and_a_block() {
    let mut host = Host::new(line_with(&[]), 8).bursts(true);
    let mut slots = vec![Slot::EMPTY; MOST_ACCESSES];
    let report = host.run(&writes(), &mut slots).unwrap();
    assert_eq!(report.requests, REQUESTS as u64);
    assert!(answers(&slots).iter().all(|answer| *answer == Answer::Written));
    let reads = block(BASE, 65_536).collect::<Vec<_>>();
    host.run_block(&reads, &mut slots).unwrap();
    assert_eq!(answers(&slots), words());
}

// The acknowledgement of the request that confirms the last write is lost.
#[test]
fn a_list_that_is_resumed_at_its_last_access() {
    let mut host = Host::new(line_with(&[(REQUESTS, Mark::Mute(0))]), 8).bursts(true);
    let mut slots = vec![Slot::EMPTY; MOST_ACCESSES];
    let Err(Error::Stopped(lost)) = host.run(&writes(), &mut slots) else {
        panic!("the run didn't stop");
    };
    assert_eq!((lost.ended, lost.answered, lost.begun), (End::Lost, MOST_ACCESSES - 1, 1));
    host.resume(&writes(), &mut slots, &lost).unwrap();
    assert!(answers(&slots).iter().all(|answer| *answer == Answer::Written));
    let reads = block(BASE, 65_536).collect::<Vec<_>>();
    host.run_block(&reads, &mut slots).unwrap();
    assert_eq!(answers(&slots), words());
}

const RDBUFF: u64 = 0xbd;

/// A line to a status that is 0, and 1 at the last of so many reads. The library's target is at its end while it is
/// opened. Afterwards the replies alone are made: a million reads of that target take minutes.
struct Status<'a> {
    target: Target<PlainMemory>,
    reads: u32,
    is_open: &'a Cell<bool>,
    request: u64,
}

impl Line for Status<'_> {
    type Error = Infallible;

    fn drive(&mut self, bit: bool) -> Result<(), Infallible> {
        self.target.drive(bit)
    }

    fn release(&mut self) -> Result<(), Infallible> {
        self.target.release()
    }

    fn sample(&mut self) -> Result<bool, Infallible> {
        self.target.sample()
    }

    fn drive_bits(&mut self, bits: u64, count: u32) -> Result<(), Broken<Infallible>> {
        if !self.is_open.get() {
            return self.target.drive_bits(bits, count);
        }
        if count == 8 {
            self.request = bits;
        }
        Ok(())
    }

    fn release_for(&mut self, count: u32) -> Result<(), Infallible> {
        if self.is_open.get() {
            Ok(())
        } else {
            self.target.release_for(count)
        }
    }

    fn sample_bits(&mut self, count: u32) -> Result<u64, Infallible> {
        if !self.is_open.get() {
            return self.target.sample_bits(count);
        }
        if count == 3 {
            return Ok(1);
        }
        if self.request == RDBUFF {
            self.reads -= 1;
        }
        Ok(if self.reads == 0 { 1 | 1 << 32 } else { 0 })
    }
}

#[test]
fn a_status_that_is_ready_at_the_last_read() {
    let (reads, is_open) = (1_000_000, Cell::new(false));
    let target = Target::new(PlainMemory::new(BASE, 1, 1));
    let mut line = Status { target, reads, is_open: &is_open, request: 0 };
    let mut session = Session::new(&mut line, 8);
    session.open().unwrap();
    is_open.set(true);
    assert_eq!(session.until(BASE, 1, 1, reads).unwrap(), 1);
    assert_eq!(line.reads, 0);
}
