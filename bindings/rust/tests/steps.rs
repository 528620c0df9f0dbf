//! Runs by steps, over a line whose calls are futures: the run that a host makes, and runs that are dropped at each
//! await and continued.

mod common;

use common::{answers, Damaged, PlainMemory, Transfer, Unplugged, BASE, WORD};
use std::future::Future;
use std::pin::{pin, Pin};
use std::sync::Arc;
use std::task::{Context, Poll, Wake, Waker};
use swd::{Access, Answer, End, Host, Line, Planned, Refused, Run, Slot, Step, MOST_PLANNED};

struct Nobody;

impl Wake for Nobody {
    fn wake(self: Arc<Self>) {}
}

/// Polls a future so often at most. Returns what it gave, if it ended.
fn poll<T>(future: impl Future<Output = T>, most: usize) -> Option<T> {
    let (waker, mut future) = (Waker::from(Arc::new(Nobody)), pin!(future));
    let mut context = Context::from_waker(&waker);
    (0..most).find_map(|_| match future.as_mut().poll(&mut context) {
        Poll::Ready(given) => Some(given),
        Poll::Pending => None,
    })
}

/// Waits once.
struct Later(bool);

impl Future for Later {
    type Output = ();

    fn poll(mut self: Pin<&mut Self>, _: &mut Context<'_>) -> Poll<()> {
        if std::mem::replace(&mut self.0, true) {
            Poll::Ready(())
        } else {
            Poll::Pending
        }
    }
}

/// Makes a step as a whole, before it waits or after.
async fn made(step: Step, line: &mut Damaged, is_early: bool) -> Result<u64, Unplugged> {
    if !is_early {
        Later(false).await;
    }
    let reply = match step {
        Step::Drive { bits, count } => line.drive_bits(bits, count).map(|()| 0).map_err(|broken| broken.error),
        Step::Release { count } => line.release_for(count).map(|()| 0),
        Step::Sample { count } => line.sample_bits(count),
    };
    if is_early {
        Later(false).await;
    }
    reply
}

async fn perform(run: &mut Run<'_>, line: &mut Damaged, is_early: bool) -> Result<(), Unplugged> {
    while let Some(step) = run.step() {
        let levels = made(step, line, is_early).await?;
        run.made(levels);
    }
    Ok(())
}

fn line() -> Damaged {
    Damaged::new(PlainMemory::new(BASE, 16, 65_536), Vec::new())
}

fn list() -> [Access; 6] {
    let write = |place: u32, word| Access::write(BASE + 4 * place, word);
    [write(0, WORD), write(1, 0), write(2, 0xffff_ffff), Access::read(BASE), Access::read(BASE + 4), write(0, 7)]
}

const ANSWERED: [Answer; 6] =
    [Answer::Written, Answer::Written, Answer::Written, Answer::Value(WORD), Answer::Value(0), Answer::Written];

#[test]
fn a_run_by_steps_is_that_of_a_host() {
    let (mut first, mut second, accesses) = (line(), line(), list());
    let (mut slots, mut others) = ([Slot::EMPTY; 6], [Slot::EMPTY; 6]);
    let report = Host::new(&mut first, 8).run(&accesses, &mut slots).unwrap();
    let mut run = Run::new(&accesses, &mut others, 8).unwrap();
    assert_eq!(poll(perform(&mut run, &mut second, true), usize::MAX), Some(Ok(())));
    assert_eq!(run.report(), report);
    assert_eq!(answers(run.slots()), ANSWERED);
    assert_eq!(answers(&slots), ANSWERED);
    assert_eq!(first.calls, second.calls);
    // One more over the open target, and with bursts.
    let mut run = Run::opened(&accesses[..1], &mut others, 8).unwrap();
    poll(perform(&mut run, &mut second, false), usize::MAX).unwrap().unwrap();
    assert_eq!((run.report().requests, run.report().ended), (3, End::All));
    let report = Host::new(&mut first, 8).bursts(true).run(&accesses, &mut slots).unwrap();
    let mut run = Run::with_bursts(&accesses, &mut others, 8).unwrap();
    poll(perform(&mut run, &mut second, true), usize::MAX).unwrap().unwrap();
    assert_eq!(run.report(), report);
}

// The access that was in flight may be made twice, and no other; no word is written that isn't in the list.
#[test]
fn a_run_that_is_dropped_at_each_await_is_continued() {
    let (accesses, mut slots) = (list(), [Slot::EMPTY; 6]);
    let polls = (1..).find(|most| {
        let mut run = Run::new(&accesses, &mut slots, 8).unwrap();
        poll(perform(&mut run, &mut line(), true), *most).is_some()
    });
    let polls = polls.unwrap();
    assert!(polls > 60);
    for (most, is_early) in (1..polls).flat_map(|most| [(most, false), (most, true)]) {
        for again in [usize::MAX, 3, 7] {
            let (mut line, mut slots) = (line(), [Slot::EMPTY; 6]);
            let mut run = Run::new(&accesses, &mut slots, 8).unwrap();
            assert_eq!(poll(perform(&mut run, &mut line, is_early), most), None);
            run.fail(0);
            let first = run.report();
            assert_eq!(first.ended, End::Lost);
            run.again(8).unwrap();
            // It may be dropped once more, in what ends the cue or in the lead.
            if poll(perform(&mut run, &mut line, is_early), again).is_none() {
                run.fail(0);
                run.again(8).unwrap();
                poll(perform(&mut run, &mut line, is_early), usize::MAX).unwrap().unwrap();
            }
            assert_eq!(run.report().ended, End::All, "{most} {is_early} {again}");
            assert_eq!(answers(run.slots()), ANSWERED, "{most} {is_early} {again}");
            let mut log = line.memory().log.clone();
            log.dedup();
            let transfers = [
                Transfer::Write(BASE, WORD),
                Transfer::Write(BASE + 4, 0),
                Transfer::Write(BASE + 8, 0xffff_ffff),
                Transfer::Read(BASE, WORD),
                Transfer::Read(BASE + 4, 0),
                Transfer::Write(BASE, 7),
            ];
            let writes =
                |log: &[Transfer]| log.iter().filter(|it| matches!(it, Transfer::Write(..))).copied().collect();
            let (found, wanted): (Vec<_>, Vec<_>) = (writes(&log), writes(&transfers));
            assert_eq!(found, wanted, "{most} {is_early} {again}");
            assert!(line.memory().log.len() <= transfers.len() + 3, "{most} {is_early} {again}");
        }
    }
}

// The run fails inside a data phase, inside its rest, and behind that.
#[test]
fn the_rest_of_a_data_phase_is_driven_once() {
    let (accesses, mut slots, mut line) = (list(), [Slot::EMPTY; 6], line());
    let mut run = Run::new(&accesses, &mut slots, 8).unwrap();
    while !matches!(run.step(), Some(Step::Drive { count: 33, .. })) {
        let levels = poll(made(run.step().unwrap(), &mut line, true), 2).unwrap().unwrap();
        run.made(levels);
    }
    for (clocks, rest) in [(10, 23), (5, 18)] {
        run.fail(clocks);
        run.again(8).unwrap();
        assert!(matches!(run.step(), Some(Step::Drive { count, .. }) if count == rest), "{rest}");
    }
    run.made(0);
    for _ in 0..2 {
        assert_eq!(run.step(), Some(Step::Release { count: 4 }));
        run.fail(0);
        run.again(8).unwrap();
    }
}

#[test]
fn what_is_refused() {
    let (accesses, mut slots) = (list(), [Slot::EMPTY; 6]);
    let few = Run::new(&accesses, &mut slots[..5], 8).unwrap_err();
    assert_eq!(few, Refused::TooFewSlots { accesses: 6, slots: 5 });
    let odd = [Access::read(BASE + 2)];
    assert_eq!(Run::opened(&odd, &mut slots, 8).unwrap_err(), Refused::Unaligned { index: 0 });
    let mut run = Run::new(&accesses, &mut slots, 8).unwrap();
    assert_eq!(run.again(8), Err(Refused::NotResumable(End::Lost)));
    poll(perform(&mut run, &mut line(), true), usize::MAX).unwrap().unwrap();
    assert_eq!(run.again(8), Err(Refused::NotResumable(End::All)));
    // Nothing more is made, and nothing fails.
    let report = run.report();
    run.made(7);
    run.fail(3);
    assert_eq!((run.step(), run.report()), (None, report));
}

#[test]
fn steps_have_at_most_64_clocks() {
    let (mut run, mut steps) = (Run::new(&[], &mut [], 8).unwrap(), Vec::new());
    while let Some(step) = run.step() {
        steps.push(step);
        run.made(u64::MAX);
    }
    let clocks = |step: &Step| match step {
        Step::Drive { count, .. } | Step::Release { count } | Step::Sample { count } => *count,
    };
    assert!(steps.iter().all(|step| (1..=64).contains(&clocks(step))));
    // A line reset on each side of the switch.
    let at = steps.iter().position(|step| *step == Step::Drive { bits: 0xe79e, count: 16 }).unwrap();
    assert!(steps[..at].iter().map(clocks).sum::<u32>() >= 50);
    assert!(matches!(steps[at + 1], Step::Drive { bits: u64::MAX, count: 50.. }));
    // Nobody answers the first request.
    assert_eq!(steps.last(), Some(&Step::Sample { count: 3 }));
    assert_eq!(run.report().ended, End::Lost);
}

/// The requests of a write, of RDBUFF and of two reads in a burst, with the words that are written.
const PLANNED: [(u8, u32); 7] = [(0x8b, BASE), (0xbb, WORD), (0xbd, 0), (0x8b, BASE), (0x9f, 0), (0x9f, 0), (0xbd, 0)];

/// Makes the steps of a cue that is acknowledged with OK, and of its data phase, of zeros.
fn okay(run: &mut Run<'_>) {
    for levels in [0, 0, 1] {
        run.made(levels);
    }
    run.made(0);
    run.made(0);
}

#[test]
fn a_plan_is_what_the_run_asks_for() {
    let accesses = [Access::write(BASE, WORD), Access::read(BASE), Access::read(BASE + 4)];
    let (mut slots, mut room) = ([Slot::EMPTY; 3], [Planned::EMPTY; MOST_PLANNED]);
    let mut run = Run::opened(&accesses, &mut slots, 8).unwrap();
    for left in 0..PLANNED.len() {
        let plan: Vec<_> = run.plan(&mut room).iter().map(|it| (it.request(), it.word())).collect();
        assert_eq!(plan, PLANNED[left..]);
        assert_eq!(run.step(), Some(Step::Drive { bits: u64::from(PLANNED[left].0), count: 8 }));
        okay(&mut run);
    }
    assert_eq!(run.plan(&mut room), []);
    run.made(0);
    assert_eq!(run.report().ended, End::All);
}

#[test]
fn a_plan_has_no_more_than_there_is_room_for() {
    let accesses: Vec<_> = (0..200).map(|place| Access::read(BASE + 4 * place)).collect();
    let (mut slots, mut room) = ([Slot::EMPTY; 200], [Planned::EMPTY; 2 * MOST_PLANNED]);
    let run = Run::opened(&accesses, &mut slots, 8).unwrap();
    assert_eq!(run.plan(&mut room).len(), MOST_PLANNED);
    let plan = run.plan(&mut room[..3]);
    assert_eq!(plan.len(), 3);
    assert_eq!((plan[0].is_ap(), plan[0].is_read(), plan[0].addr(), plan[0].word()), (true, false, 4, BASE));
    assert!(plan[1..].iter().all(|it| it.is_ap() && it.is_read() && it.addr() == 12));
    assert_eq!(run.plan(&mut []), []);
}

#[test]
fn a_run_that_leaves_a_cue_has_no_plan() {
    let accesses = [Access::read(BASE)];
    let (mut slots, mut room) = ([Slot::EMPTY; 1], [Planned::EMPTY; MOST_PLANNED]);
    let mut run = Run::new(&accesses, &mut slots, 8).unwrap();
    assert_eq!(run.plan(&mut room), []);
    run.fail(0);
    assert_eq!(run.plan(&mut room), []);
    run.again(8).unwrap();
    assert_eq!(run.plan(&mut room), []);
}
