//! Worked runs, which clocks are driven, released and sampled, and what is refused.

mod common;

use common::{answers, plan_of, report_of, Call, Damaged, Mark, PlainMemory, Transfer, Unplugged, BASE, WORD};
use std::convert::Infallible;
use std::num::ParseIntError;
use std::str::FromStr;
use swd::{block, Access, Answer, End, Error, Host, Line, Refused, Report, Session, Slot, Target};

use Answer::{BusFault, Value, Written};

const fn read(addr: u32) -> Access {
    Access::read(addr)
}

const fn write(addr: u32, word: u32) -> Access {
    Access::write(addr, word)
}

fn reads(count: u32) -> Vec<Access> {
    (0..count).map(|index| read(BASE + 4 * index)).collect()
}

/// A paragraph of `rows.txt`, whose head says what its lines mean.
struct Row<'t> {
    name: &'t str,
    lines: Vec<&'t str>,
}

fn word(text: &str) -> u32 {
    u32::from_str_radix(text, 16).unwrap()
}

fn number<N: FromStr<Err = ParseIntError>>(text: &str) -> N {
    text.parse().unwrap()
}

impl<'t> Row<'t> {
    fn of(text: &'t str) -> Row<'t> {
        let mut lines = text.lines();
        Row { name: lines.next().unwrap(), lines: lines.collect() }
    }

    /// The words behind the first one of each line that begins with that.
    fn said(&self, first: &str) -> Vec<Vec<&'t str>> {
        let words = self.lines.iter().map(|line| line.split(' ').collect::<Vec<_>>());
        words.filter(|it| it[0] == first).map(|it| it[1..].to_vec()).collect()
    }

    fn number(&self, first: &str, place: usize, default: u32) -> u32 {
        self.said(first).first().map_or(default, |it| number(it[place]))
    }

    fn plan(&self) -> Vec<Mark> {
        let mark = |words: &[&str]| match *words {
            [_, "wait"] => Mark::Wait,
            [_, "deaf"] => Mark::Deaf,
            [_, "flip", place] => Mark::Flip(number(place)),
            [_, "mute", place] => Mark::Mute(number(place)),
            _ => panic!("{words:?}"),
        };
        plan_of(&self.said("mark").iter().map(|it| (number(it[0]), mark(it))).collect::<Vec<_>>())
    }

    fn is_block(&self) -> bool {
        !self.said("block").is_empty()
    }

    fn accesses(&self) -> Vec<Access> {
        if let [words] = self.said("block").as_slice() {
            return block(word(words[0]), number(words[1])).collect();
        }
        let access = |line: &&str| match *line.split(' ').collect::<Vec<_>>() {
            ["r", addr] => Some(read(word(addr))),
            ["w", addr, written] => Some(write(word(addr), word(written))),
            _ => None,
        };
        self.lines.iter().filter_map(access).collect()
    }

    /// Whether it holds for a host with bursts of writes, or else of reads.
    fn is_for(&self, bursts: bool) -> bool {
        let kind = if self.is_block() { Some("reads") } else { self.said("bursts").first().map(|it| it[0]) };
        !self.lines.contains(&"late") && kind.map_or(true, |it| it == if bursts { "writes" } else { "reads" })
    }

    /// Whether these lines came, with what went over the wire at the end of each run.
    fn is_wanted(&self, lines: &[String]) -> bool {
        let kinds = ["> ", "= ", "begun ", "end ", "resume ", "log "];
        let wanted = self.lines.iter().filter(|line| kinds.iter().any(|kind| line.starts_with(kind)));
        // How many ones of a resumed run's lead are seen depends on what the target still drives.
        let is_as_wanted = |line: &String, wanted: &str| match wanted.strip_suffix('?') {
            Some(head) => line.starts_with(head),
            None if wanted == "> reset 100" => line.starts_with("> reset "),
            None => line == wanted,
        };
        lines.len() == wanted.clone().count() && lines.iter().zip(wanted).all(|(line, it)| is_as_wanted(line, it))
    }
}

/// What a report says, as a row has it. A run that ended early, or met a bus error, is an error that says so.
fn told<E: std::fmt::Debug>(
    result: Result<Report, Error<E>>,
    accesses: &[Access],
    slots: &[Slot],
) -> (Report, Vec<String>) {
    let faulted = slots.iter().position(|slot| slot.answer() == Some(BusFault));
    match &result {
        Ok(report) => assert_eq!((report.ended, faulted), (End::All, None)),
        Err(Error::Stopped(report)) => assert_ne!(report.ended, End::All),
        Err(Error::BusFault { index, access, report }) => {
            assert_eq!((report.ended, faulted, *access), (End::All, Some(*index), accesses[*index]));
        }
        Err(other) => panic!("{other:?}"),
    }
    let report = report_of(result);
    assert!(slots[report.answered..].iter().all(|slot| slot.answer().is_none()));
    let mut lines = Vec::new();
    for answer in answers(&slots[..report.answered]) {
        lines.push(match answer {
            Value(word) => format!("= {word:08x}"),
            Written => "= written".to_string(),
            BusFault => "= busfault".to_string(),
        });
    }
    lines.extend((report.begun > 0).then(|| format!("begun {}", report.begun)));
    lines.push(format!("end {} {}", report.ended, report.requests));
    (report, lines)
}

/// What came of a row, as it has that.
fn came(row: &Row, bursts: bool) -> Vec<String> {
    let memory = PlainMemory::new(BASE, row.number("memory", 0, 16), row.number("memory", 1, 16) as usize);
    let mut line = Damaged::new(memory, row.plan());
    let (accesses, mut lines) = (row.accesses(), Vec::new());
    let mut slots = vec![Slot::EMPTY; accesses.len()];
    let text = row.lines.join("\n");
    let mut last: Option<Report> = None;
    for part in text.split("\nresume ") {
        let tries = if last.is_some() { number(part.lines().next().unwrap()) } else { row.number("tries", 0, 8) };
        let mut host = Host::new(&mut line, tries).bursts(bursts);
        let result = match &last {
            Some(report) => host.resume(&accesses, &mut slots, report),
            None if row.is_block() => host.run_block(&accesses, &mut slots),
            None => host.run(&accesses, &mut slots),
        };
        let (report, shown) = told(result, &accesses, &slots);
        let items = swd::decode(line.levels.iter().copied()).map(|item| format!("> {item}")).collect::<Vec<_>>();
        let sent = part.lines().filter(|line| line.starts_with("> ")).count();
        lines.extend(last.map(|_| format!("resume {tries}")));
        lines.extend_from_slice(&items[items.len() - sent..]);
        lines.extend(shown);
        last = Some(report);
    }
    for transfer in &line.memory().log {
        lines.push(match transfer {
            Transfer::Read(addr, word) => format!("log r {addr:08x} {word:08x}"),
            Transfer::Write(addr, word) => format!("log w {addr:08x} {word:08x}"),
        });
    }
    lines
}

#[test]
fn worked_runs() {
    let root = concat!(env!("CARGO_MANIFEST_DIR"), "/../../crates/swd_rows_tests/data/rows.txt");
    let path = std::env::var("SWD_ROWS").unwrap_or(root.to_string());
    let text = std::fs::read_to_string(path).unwrap();
    let mut runs = 0;
    for row in text.split("\n\n").filter(|it| !it.starts_with('#')).map(Row::of) {
        for bursts in [false, true].into_iter().filter(|it| row.is_for(*it)) {
            let lines = came(&row, bursts);
            assert!(row.is_wanted(&lines), "{}, bursts of writes {bursts}, came to {lines:#?}", row.name);
            runs += 1;
        }
    }
    assert!(runs > 0);
}

// Nine requests of the opening, TAR and DRW, and RDBUFF behind each access, or at the end of a burst. A hundred words
// lie in one kilobyte.
#[test]
fn bursts_are_of_reads_or_of_writes() {
    let writes = (0..100).map(|index| write(BASE + 4 * index, 1)).collect::<Vec<_>>();
    let apart = (0..100).map(|index| write(BASE + 8 * index, 1)).collect::<Vec<_>>();
    let reads = block(BASE, 100).collect::<Vec<_>>();
    let each = 9 + 1 + 2 * 100;
    let burst = 9 + 1 + 100 + 1;
    for (bursts, accesses, requests) in [
        (false, &writes, each),
        (true, &writes, burst),
        (false, &reads, burst),
        (true, &reads, each),
        (false, &apart, 9 + 3 * 100),
        (true, &apart, 9 + 3 * 100),
    ] {
        let mut line = Damaged::new(PlainMemory::new(BASE, 256, 300), Vec::new());
        let mut slots = [Slot::EMPTY; 100];
        let mut host = Host::new(&mut line, 8).bursts(bursts);
        assert_eq!(host.run(accesses, &mut slots).unwrap().requests, requests, "{bursts}");
        assert_eq!(host.run_block(&reads, &mut slots).unwrap().requests, burst, "{bursts}");
        let mut session = Session::new(&mut line, 8).bursts(bursts);
        session.open().unwrap();
        assert_eq!(session.run(accesses, &mut slots).unwrap().requests, requests - 9, "{bursts}");
    }
}

// Over one target: words that one run writes are read by the next ones, one by one and as a block.
#[test]
fn runs_one_after_the_other() {
    let words = [WORD, 0, 0xffff_ffff, 7];
    let writes = [0, 1, 2, 3].map(|index| write(BASE + 4 * index, words[index as usize]));
    let mut host = Host::new(Damaged::new(PlainMemory::new(BASE, 16, 16), Vec::new()), 8);
    let mut slots = [Slot::EMPTY; 4];
    host.run(&writes, &mut slots).unwrap();
    assert_eq!(answers(&slots), [Written; 4]);
    host.run(&reads(4), &mut slots).unwrap();
    assert_eq!(answers(&slots), words.map(Value));
    host.run_block(&reads(4), &mut slots).unwrap();
    assert_eq!(answers(&slots), words.map(Value));
}

// The acknowledgement behind the second write is lost. The target may still drive a data phase: the line is released
// for 34 clocks.
#[test]
fn the_lead_of_a_resumed_run_is_released() {
    let accesses = [write(BASE, WORD), write(BASE + 16, 1)];
    let mut host = Host::new(Damaged::new(PlainMemory::new(BASE, 16, 16), plan_of(&[(15, Mark::Deaf)])), 8);
    let mut slots = [Slot::EMPTY; 2];
    let lost = report_of(host.run(&accesses, &mut slots));
    let before = host.line().calls.len();
    host.resume(&accesses, &mut slots, &lost).unwrap();
    let lead = text(&host.line().calls[before..before + 102]);
    assert_eq!(lead, "-".repeat(34) + &"1".repeat(66) + "00");
}

fn text(calls: &[Call]) -> String {
    let character = |call: &Call| match call {
        Call::Drive(bit) => {
            if *bit {
                '1'
            } else {
                '0'
            }
        }
        Call::Release => '-',
        Call::Sample => '?',
    };
    calls.iter().map(character).collect()
}

fn calls_of(plan: Vec<Mark>) -> String {
    let mut host = Host::new(Damaged::new(PlainMemory::new(BASE, 1, 1), plan), 8);
    let _ = host.run(&[], &mut []);
    text(&host.line().calls)
}

#[test]
fn clocks_of_an_opening() {
    let lead = "1".repeat(56) + "0111100111100111" + &"1".repeat(56) + "00";
    let ask = "10100101-???";
    let calls = calls_of(Vec::new());
    assert!(calls.starts_with(&(lead.clone() + ask + &"?".repeat(33) + "-")), "{calls}");
    assert!(calls.ends_with(&("?".repeat(33) + "-" + "00000000")), "{calls}");
    assert_eq!(calls_of(vec![Mark::Deaf]), lead + ask);
}

/// A line that shows these levels, and then ones.
struct Shows(std::vec::IntoIter<bool>);

impl Line for Shows {
    type Error = Infallible;

    fn drive(&mut self, _bit: bool) -> Result<(), Infallible> {
        Ok(())
    }

    fn release(&mut self) -> Result<(), Infallible> {
        Ok(())
    }

    fn sample(&mut self) -> Result<bool, Infallible> {
        Ok(self.0.next().unwrap_or(true))
    }
}

fn shown(ack: u8, bits: u64) -> End {
    let levels = (0..3).map(|place| ack >> place & 1 == 1).chain((0..33).map(|place| bits >> place & 1 == 1));
    let mut host = Host::new(Shows(levels.collect::<Vec<_>>().into_iter()), 8);
    report_of(host.run(&[], &mut [])).ended
}

#[test]
fn other_targets() {
    assert_eq!(shown(7, 0), End::Lost);
    assert_eq!(shown(4, 0), End::Confused);
    assert_eq!(shown(1, 0x1_2ba0_1476), End::WrongId(0x2ba0_1476));
    assert_eq!(shown(1, 0x1_2ba0_1476).to_string(), "id 2ba01476");
}

#[test]
fn refusals_send_nothing() {
    let mut host = Host::new(Damaged::new(PlainMemory::new(BASE, 4, 4), Vec::new()), 8);
    let mut slots = vec![Slot::EMPTY; 65_537];
    let lost = Report { answered: 2, begun: 0, requests: 1, ended: End::Lost };
    let all = Report { ended: End::All, ..lost };
    let many = vec![read(BASE); 65_537];
    let cases = [
        (host.run(&[read(BASE), write(BASE + 2, 0)], &mut slots), Refused::Unaligned { index: 1 }),
        (host.run(&many, &mut slots), Refused::TooMany { accesses: 65_537 }),
        (host.run(&[read(BASE)], &mut []), Refused::TooFewSlots { accesses: 1, slots: 0 }),
        (host.run_block(&many, &mut slots), Refused::TooMany { accesses: 65_537 }),
        (host.run_block(&[read(BASE + 1)], &mut slots), Refused::Unaligned { index: 0 }),
        (host.resume(&[read(BASE)], &mut slots, &all), Refused::NotResumable(End::All)),
        (host.resume(&[read(BASE)], &mut slots, &lost), Refused::OtherReport { accesses: 1, answered: 2 }),
    ];
    for (result, refused) in cases {
        assert_eq!(result, Err(Error::Refused(refused)), "{refused}");
    }
    assert!(host.line().calls.is_empty());
}

#[test]
fn words_at_the_end_of_the_address_space() {
    let mut host = Host::new(Target::new(PlainMemory::new(0xffff_fff8, 2, 16)), 8);
    let mut slots = [Slot::EMPTY; 2];
    let accesses = block(0xffff_fff8, 2).collect::<Vec<_>>();
    assert_eq!(host.run_block(&accesses, &mut slots).map(|report| report.answered), Ok(2));
    assert_eq!(answers(&slots), [Value(0), Value(0)]);
}

// What an earlier call started stays begun until it is answered: here in a resumed opening whose line fails.
#[test]
fn a_resumed_run_is_lost_again() {
    let accesses = [write(BASE, WORD), write(BASE + 16, 1)];
    let mut host = Host::new(Damaged::new(PlainMemory::new(BASE, 16, 16), plan_of(&[(15, Mark::Deaf)])), 0);
    let mut slots = [Slot::EMPTY; 2];
    let lost = report_of(host.run(&accesses, &mut slots));
    host.line_mut().fails_at = Some(0);
    let report = report_of(host.resume(&accesses, &mut slots, &lost));
    assert_eq!(report, Report { answered: 1, begun: 1, requests: 1, ended: End::Lost });
}

// What an earlier call started isn't in flight any more once it is answered. The marks are in the second write, and
// where the third would begin.
#[test]
fn a_resumed_run_is_lost_later() {
    let accesses = [write(BASE, WORD), write(BASE + 16, 1), write(BASE + 32, 2)];
    let marks = plan_of(&[(15, Mark::Deaf), (15 + 13, Mark::Deaf)]);
    let mut host = Host::new(Damaged::new(PlainMemory::new(BASE, 16, 16), marks), 8);
    let mut slots = [Slot::EMPTY; 3];
    let lost = report_of(host.run(&accesses, &mut slots));
    assert_eq!(lost, Report { answered: 1, begun: 1, requests: 15, ended: End::Lost });
    let report = report_of(host.resume(&accesses, &mut slots, &lost));
    assert_eq!(report, Report { answered: 2, begun: 0, requests: 13, ended: End::Lost });
}

// At each clock in turn. Nothing is called after it, and what the report says is sure.
#[test]
fn lines_that_fail() {
    let lists = [
        vec![write(BASE, WORD), write(BASE + 4, 2), read(BASE), read(0x3000_0000)],
        vec![read(BASE), write(BASE, WORD)],
    ];
    for (accesses, tries) in lists.iter().flat_map(|list| [(list, 0), (list, 8)]) {
        let mut whole = Host::new(Damaged::new(PlainMemory::new(BASE, 16, 16), Vec::new()), tries);
        let _ = report_of(whole.run(accesses, &mut [Slot::EMPTY; 4]));
        for at in 0..whole.line().calls.len() {
            fails(accesses, tries, at);
        }
    }
}

fn fails(accesses: &[Access], tries: u32, at: usize) {
    let mut line = Damaged::new(PlainMemory::new(BASE, 16, 16), Vec::new());
    line.fails_at = Some(at);
    let mut host = Host::new(line, tries);
    let mut slots = [Slot::EMPTY; 4];
    let Err(Error::Line { error: Unplugged, report }) = host.run(accesses, &mut slots) else {
        panic!("clock {at} failed unnoticed");
    };
    assert_eq!(host.line().calls.len(), at + 1);
    common::is_sure(accesses, &slots, &report, host.line().memory(), PlainMemory::new(BASE, 16, 16));
    assert_eq!(report.ended, if report.answered == accesses.len() { End::All } else { End::Lost }, "clock {at}");
}

/// What TAR reads, and the buffer, after a write at the end of a kilobyte, by requests that no host of this crate
/// sends.
fn quirks(wraps: bool, filler: u32) -> Vec<String> {
    let mut target = Target::with_quirks(PlainMemory::new(BASE, 512, 16), wraps, filler);
    let mut levels = Vec::new();
    let mut send = |bits: u64, count: u32| {
        levels.extend((0..count).map(|place| target.cycle(Some(bits >> place & 1 == 1))));
    };
    send((1 << 50) - 1, 52);
    let mut transact = |request: u8, word: Option<u32>| {
        levels.extend((0..8).map(|place| target.cycle(Some(request >> place & 1 == 1))));
        let released = if word.is_some() { 5 } else { 38 };
        levels.extend((0..released).map(|_| target.cycle(None)));
        if let Some(word) = word {
            let bits = u64::from(word) | u64::from(word.count_ones() % 2) << 32;
            levels.extend((0..33).map(|place| target.cycle(Some(bits >> place & 1 == 1))));
        }
    };
    transact(0xa5, None);
    for (request, word) in [(0xa9, 0x5000_0000), (0xa3, 0x2300_0012), (0x8b, BASE + 0x3fc), (0xbb, WORD)] {
        transact(request, Some(word));
    }
    for request in [0xaf, 0xbd, 0xbd] {
        transact(request, None);
    }
    assert_eq!(target.cycles(), levels.len() as u64);
    let lines = swd::decode(levels).map(|item| item.to_string()).collect::<Vec<_>>();
    lines[lines.len() - 2..].to_vec()
}

#[test]
fn what_a_target_is_made_with() {
    for (wraps, filler, tar) in [(true, 0, BASE), (true, WORD, BASE), (false, 7, BASE + 0x400)] {
        let wanted = [tar, filler].map(|word| format!("dp c read ok {word:08x}"));
        assert_eq!(quirks(wraps, filler), wanted);
    }
}
