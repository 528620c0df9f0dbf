//! Runs without a line, whose steps the caller makes: for lines whose calls are futures, or that somebody else drives.

use crate::cut::{Cut, DATA_CLOCKS};
use crate::ffi::{listed, planned, stored};
use crate::host::{check, REQUEST_REST};
use crate::wire::{ASK, GIVE, LEAD, PASS, REST, SWITCH_BITS, TAKE};
use crate::{ffi, Access, Refused, Report, Slot};

/// The most clocks of a step.
const MOST_CLOCKS: u32 = 64;

/// Successive clocks on the line.
#[derive(Clone, Copy, Debug, PartialEq, Eq)]
pub enum Step {
    /// The host drives the low bits of `bits`, the least significant first.
    Drive {
        /// The bits.
        bits: u64,
        /// How many clocks: 1 to 64.
        count: u32,
    },
    /// The host doesn't drive SWDIO, and nobody looks at it.
    Release {
        /// How many clocks: 1 to 64.
        count: u32,
    },
    /// The host doesn't drive SWDIO. Its levels from before the rising edges are the reply, the first in time least
    /// significant.
    Sample {
        /// How many clocks: 3 or 33.
        count: u32,
    },
}

impl Step {
    const fn count(self) -> u32 {
        match self {
            Step::Drive { count, .. } | Step::Release { count } | Step::Sample { count } => count,
        }
    }

    /// The step with another number of clocks.
    const fn of_count(self, count: u32) -> Step {
        match self {
            Step::Drive { bits, .. } => Step::Drive { bits, count },
            Step::Release { .. } => Step::Release { count },
            Step::Sample { .. } => Step::Sample { count },
        }
    }
}

/// The steps of a cue that are still to be made. Those with more than 64 clocks have one level throughout, and are made
/// in parts; those without a clock aren't made.
#[derive(Clone, Copy, Debug)]
struct Steps([Step; 5]);

impl Steps {
    fn of(steps: &[Step]) -> Steps {
        let mut all = [Step::Release { count: 0 }; 5];
        all[..steps.len()].copy_from_slice(steps);
        Steps(all)
    }

    fn of_cue(cue: &ffi::Cue) -> Steps {
        let turnaround = Step::Release { count: 1 };
        match cue.kind {
            LEAD => Steps::of_lead(cue),
            ASK => {
                let request = Step::Drive { bits: u64::from(cue.request), count: 8 };
                Steps::of(&[request, turnaround, Step::Sample { count: 3 }])
            }
            TAKE => Steps::of(&[Step::Sample { count: DATA_CLOCKS }, turnaround]),
            GIVE => Steps::of(&[turnaround, Step::Drive { bits: cue.bits, count: DATA_CLOCKS }]),
            PASS => Steps::of(&[turnaround]),
            REST => Steps::of(&[]),
            kind => unreachable!("cue {kind}"),
        }
    }

    fn of_lead(cue: &ffi::Cue) -> Steps {
        let undriven = cue.undriven.min(cue.ones);
        let level = |bits, count| Step::Drive { bits, count };
        let (switch, ones_again) = if cue.with_switch == 0 { (0, 0) } else { (16, cue.ones) };
        Steps::of(&[
            Step::Release { count: undriven },
            level(u64::MAX, cue.ones - undriven),
            level(SWITCH_BITS, switch),
            level(u64::MAX, ones_again),
            level(0, cue.zeros),
        ])
    }

    /// Bits that end a data phase, and the clocks up to the end of an acknowledgement.
    fn leaving(cut: Option<Cut>) -> Steps {
        let (bits, count) = cut.map_or((0, 0), |cut| cut.rest());
        Steps::of(&[Step::Drive { bits, count }, Step::Release { count: REQUEST_REST }])
    }

    /// The next step, or `None` where all are made.
    fn now(&self) -> Option<Step> {
        let step = self.0.iter().find(|step| step.count() > 0)?;
        Some(step.of_count(step.count().min(MOST_CLOCKS)))
    }

    /// Goes on behind the next step.
    fn pass(&mut self) {
        let is_next = |step: &&mut Step| step.count() > 0;
        if let Some(step) = self.0.iter_mut().find(is_next) {
            *step = step.of_count(step.count().saturating_sub(MOST_CLOCKS));
        }
    }
}

/// The most transactions of a [plan](Run::plan).
pub const MOST_PLANNED: usize = 128;

/// A transaction that comes next if each before it is OK.
#[repr(transparent)]
#[derive(Clone, Copy, Debug, Default, PartialEq, Eq)]
pub struct Planned(pub(crate) ffi::Planned);

impl Planned {
    /// A place of a plan without a transaction.
    pub const EMPTY: Planned = Planned(ffi::Planned { word: 0, request: 0 });

    /// The eight bits of the request, the first in time least significant.
    #[must_use]
    pub const fn request(self) -> u8 {
        self.0.request
    }

    /// The word that a write sends; 0 for a read.
    #[must_use]
    pub const fn word(self) -> u32 {
        self.0.word
    }

    /// Whether it goes to the access port.
    #[must_use]
    pub const fn is_ap(self) -> bool {
        self.0.request & 2 != 0
    }

    /// Whether it is a read.
    #[must_use]
    pub const fn is_read(self) -> bool {
        self.0.request & 4 != 0
    }

    /// The address of the register: 0, 4, 8 or 12.
    #[must_use]
    pub const fn addr(self) -> u8 {
        self.0.request >> 1 & 12
    }
}

/// A run over a list of accesses that knows no line: it says which clocks to make next, and takes what was seen.
///
/// ```
/// use swd::{Access, Run, Slot, Step};
/// # struct Probe;
/// # impl Probe {
/// #     async fn drive(&mut self, _bits: u64, _count: u32) -> Result<u64, ()> { Ok(0) }
/// #     async fn release(&mut self, _count: u32) -> Result<u64, ()> { Ok(0) }
/// #     async fn sample(&mut self, _count: u32) -> Result<u64, ()> { Ok(u64::MAX) }
/// # }
///
/// /// Performs a run over a probe whose calls are futures.
/// async fn perform(run: &mut Run<'_>, probe: &mut Probe) -> Result<(), ()> {
///     while let Some(step) = run.step() {
///         let levels = match step {
///             Step::Drive { bits, count } => probe.drive(bits, count).await?,
///             Step::Release { count } => probe.release(count).await?,
///             Step::Sample { count } => probe.sample(count).await?,
///         };
///         run.made(levels);
///     }
///     Ok(())
/// }
///
/// # fn main() -> Result<(), swd::Refused> {
/// let accesses = [Access::write(0x2000_0000, 7), Access::read(0x2000_0000)];
/// let mut slots = [Slot::EMPTY; 2];
/// let mut run = Run::new(&accesses, &mut slots, 8)?;
/// # let _ = perform(&mut run, &mut Probe);
/// # Ok(())
/// # }
/// ```
///
/// Where a step fails, or its future is dropped before it ended, [`fail`](Run::fail) ends the run as
/// [`End::Lost`](crate::End::Lost), and [`again`](Run::again) continues it. **Before another run over the same target
/// continue one that failed, to its end**, over an empty list if need be: the target may be inside a data phase, whose
/// word it would otherwise write.
#[derive(Debug)]
pub struct Run<'a> {
    run: ffi::Run,
    accesses: &'a [Access],
    slots: &'a mut [Slot],
    /// The steps of the cue that are still to be made, and its reply so far.
    steps: Steps,
    reply: u64,
    /// Whether these leave a cue in which the line failed, before the run goes on.
    leaves: bool,
    /// The write's data phase in which the line failed, until it was left.
    cut: Option<Cut>,
}

impl<'a> Run<'a> {
    /// Makes a run that opens the target and performs the accesses in order, each once. Each write is confirmed by a
    /// read of RDBUFF, and reads at consecutive addresses go in bursts. `tries` are as of
    /// [`Host::new`](crate::Host::new).
    ///
    /// # Errors
    ///
    /// A list that can't be performed is refused, and so are fewer slots than accesses.
    pub fn new(accesses: &'a [Access], slots: &'a mut [Slot], tries: u32) -> Result<Run<'a>, Refused> {
        Run::over(accesses, slots, |_| ffi::Run::beginning(true, tries))
    }

    /// Makes the same run with bursts of writes, as [`Host::bursts`](crate::Host::bursts).
    ///
    /// # Errors
    ///
    /// As [`Run::new`].
    pub fn with_bursts(accesses: &'a [Access], slots: &'a mut [Slot], tries: u32) -> Result<Run<'a>, Refused> {
        Run::over(accesses, slots, |_| ffi::Run::beginning(false, tries))
    }

    /// Makes a run over a target that is open already, as after a run that ended with [`End::All`](crate::End::All),
    /// where nothing else drove the line since, and the target wasn't reset.
    ///
    /// # Errors
    ///
    /// As [`Run::new`].
    pub fn opened(accesses: &'a [Access], slots: &'a mut [Slot], tries: u32) -> Result<Run<'a>, Refused> {
        Run::over(accesses, slots, |accesses| ffi::Run::opened(listed(accesses), true, tries).0)
    }

    fn over(
        accesses: &'a [Access],
        slots: &'a mut [Slot],
        begin: impl FnOnce(&[Access]) -> ffi::Run,
    ) -> Result<Run<'a>, Refused> {
        check(accesses, slots)?;
        slots.fill(Slot::EMPTY);
        let run = begin(accesses);
        Ok(Run { run, accesses, slots, steps: Steps::of_cue(&run.cue()), reply: 0, leaves: false, cut: None })
    }

    /// What has to be made next, or `None` where the run has ended.
    #[must_use]
    pub fn step(&self) -> Option<Step> {
        self.steps.now()
    }

    /// Takes what a step showed once all of it was made: the levels of a [`Step::Sample`], of which bits above its
    /// clocks are ignored. Of another step the levels are ignored. Does nothing where the run has ended.
    pub fn made(&mut self, levels: u64) {
        let Some(step) = self.steps.now() else {
            return;
        };
        match step {
            Step::Sample { count } => self.reply = levels & ((1 << count) - 1),
            Step::Drive { .. } if self.leaves => self.cut = None,
            Step::Drive { .. } | Step::Release { .. } => {}
        }
        self.steps.pass();
        if self.steps.now().is_none() {
            self.next();
        }
    }

    /// Stores the transactions that come next, and returns them: as many as there is room for, at most
    /// [`MOST_PLANNED`]. As long as each is acknowledged with OK and each word arrives with right parity, the steps are
    /// those of exactly these, whatever words are read. They end behind a read whose word decides what follows, and
    /// behind the last access. There are none where no request comes next. The first one is that of the step at hand.
    ///
    /// A probe that makes whole transactions, as by `DAP_Transfer` of CMSIS-DAP, is told of as many of them as a packet
    /// takes. Where it stops at the first that isn't OK, its reply has the levels of the steps up to there.
    pub fn plan<'r>(&self, room: &'r mut [Planned]) -> &'r [Planned] {
        let count = self.run.plan(listed(self.accesses), planned(room));
        &room[..count]
    }

    /// Goes on with the next cue that has a clock.
    fn next(&mut self) {
        let cue = if self.leaves {
            self.leaves = false;
            self.run.cue()
        } else {
            self.run.next(listed(self.accesses), stored(self.slots), self.reply)
        };
        (self.steps, self.reply) = (Steps::of_cue(&cue), 0);
    }

    /// Ends the run as [`End::Lost`](crate::End::Lost): the line failed inside the step, after so many of its clocks.
    /// The next clock was made or wasn't, and no other was. Say 0 where the line makes a step as a whole or not at all.
    /// Does nothing where the run has ended.
    pub fn fail(&mut self, made: u32) {
        let cue = self.run.cue();
        match self.steps.now() {
            None => return,
            Some(Step::Drive { .. }) if self.leaves => self.cut = self.cut.map(|cut| cut.again(made)),
            Some(Step::Drive { bits, .. }) if cue.kind == GIVE => self.cut = Some(Cut::new(bits, made)),
            Some(_) => {}
        }
        self.run.fail();
        self.steps = Steps::of_cue(&self.run.cue());
    }

    /// Continues a run that ended with [`End::Lost`](crate::End::Lost) or [`End::TriesOut`](crate::End::TriesOut), with
    /// the first access that isn't answered. One that was in flight may then be done again.
    ///
    /// # Errors
    ///
    /// [`Refused::NotResumable`] for a run that ended otherwise, or that goes on.
    pub fn again(&mut self, tries: u32) -> Result<(), Refused> {
        if !self.run.again(tries) {
            return Err(Refused::NotResumable(self.report().ended));
        }
        (self.steps, self.reply, self.leaves) = (Steps::leaving(self.cut), 0, true);
        Ok(())
    }

    /// What is certain so far. A run that goes on is [`End::Lost`](crate::End::Lost) here.
    #[must_use]
    pub fn report(&self) -> Report {
        Report::of(&self.run)
    }

    /// The slots, the first of which have the answers so far.
    #[must_use]
    pub fn slots(&self) -> &[Slot] {
        self.slots
    }
}
