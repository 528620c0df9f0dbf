//! Random lists of accesses under random damage, against a plain memory, and against the program `swd run` where the
//! environment variable SWD names it. COUNT is how many lists, 300 without it.

mod common;

use common::{report_of, Damaged, Mark, PlainMemory, Random, BASE};
use std::fs;
use std::io::Write as _;
use std::path::Path;
use std::process::{Command, Stdio};
use swd::{Access, End, Host, Report, Slot};

const WORDS: u32 = 520;

/// A random list over a random plan.
struct Session {
    plan: Vec<Mark>,
    tries: u32,
    resumes: usize,
    room: usize,
    block: bool,
    accesses: Vec<Access>,
}

fn mark(random: &mut Random) -> Mark {
    match random.below(7) {
        0 | 1 => Mark::Wait,
        2..=4 => Mark::Flip(random.below(33)),
        5 => Mark::Deaf,
        _ => Mark::Mute(random.below(3)),
    }
}

fn address(random: &mut Random) -> u32 {
    match random.below(10) {
        0 => [0, 0x3000_0000, 0xffff_fffc, BASE + 4 * WORDS][random.below(4) as usize],
        1..=3 => BASE + 1024 * (1 + random.below(2)) - 4 * (1 + random.below(4)),
        _ => BASE + 4 * random.below(WORDS),
    }
}

fn list(random: &mut Random) -> Vec<Access> {
    let mut accesses = Vec::new();
    while accesses.len() < 30 && random.percent(92) {
        let (addr, reads) = (address(random), random.percent(50));
        for index in 0..[1, 1, 2, 6][random.below(4) as usize] {
            let at = addr.wrapping_add(4 * index);
            accesses.push(if reads { Access::read(at) } else { Access::write(at, random.next() as u32) });
        }
    }
    accesses
}

fn block(random: &mut Random) -> Vec<Access> {
    let addr = BASE + 4 * random.below(WORDS);
    (0..=random.below(40)).map(|index| Access::read(addr + 4 * index)).collect()
}

impl Session {
    fn new(seed: u64) -> Session {
        let mut random = Random::new(seed);
        let bad = [0, 2, 10, 30][random.below(4) as usize];
        let requests = random.below(400);
        let plan = (0..requests).map(|_| if random.percent(bad) { mark(&mut random) } else { Mark::Clean }).collect();
        let resumes = [0, 0, 1, 3][random.below(4) as usize];
        let block_of_reads = random.percent(25);
        Session {
            plan,
            tries: [0, 1, 2, 8][random.below(4) as usize],
            resumes,
            room: if resumes == 0 && random.percent(20) { random.below(40) as usize } else { 65_536 },
            block: block_of_reads,
            accesses: if block_of_reads { block(&mut random) } else { list(&mut random) },
        }
    }

    fn memory(&self) -> PlainMemory {
        PlainMemory::new(BASE, WORDS, self.room)
    }

    /// The reports of the run and of each time that it was resumed, the slots, and the line.
    fn run(&self, resumes: usize, bursts: bool) -> (Vec<Report>, Vec<Slot>, Damaged) {
        let mut host = Host::new(Damaged::new(self.memory(), self.plan.clone()), self.tries).bursts(bursts);
        let mut slots = vec![Slot::EMPTY; self.accesses.len()];
        let first =
            if self.block { host.run_block(&self.accesses, &mut slots) } else { host.run(&self.accesses, &mut slots) };
        let mut reports = vec![report_of(first)];
        while reports[reports.len() - 1].ended == End::Lost && reports.len() <= resumes {
            let last = reports[reports.len() - 1];
            reports.push(report_of(host.resume(&self.accesses, &mut slots, &last)));
        }
        (reports, slots, host.into_line())
    }

    /// What `swd run` prints.
    fn report(&self, reports: &[Report], slots: &[Slot]) -> String {
        let (last, stops) = reports.split_last().unwrap();
        let answered = self.accesses.iter().zip(common::answers(&slots[..last.answered]));
        let mut lines = answered.map(|(access, answer)| format!("{access} {answer}\n")).collect::<Vec<_>>();
        for stop in stops.iter().rev() {
            lines.insert(stop.answered, format!("resume {} begun {}\n", stop.answered, stop.begun));
        }
        lines.push(match last.ended {
            End::All => format!("end all {}\n", last.answered),
            ended => format!("end {ended} {} begun {}\n", last.answered, last.begun),
        });
        lines.concat()
    }

    fn script(&self) -> String {
        let mut text = format!("memory {BASE:08x} {WORDS}\nroom {}\n", self.room);
        if self.block {
            return text + &format!("block {:08x} {}\n", self.accesses[0].addr(), self.accesses.len());
        }
        for access in &self.accesses {
            text += &match access.word() {
                None => format!("{access}\n"),
                Some(word) => format!("{access} {word:08x}\n"),
            };
        }
        text
    }
}

fn count() -> u64 {
    std::env::var("COUNT").map_or(300, |count| count.parse().expect("COUNT is a number"))
}

#[test]
fn lists_against_a_plain_memory() {
    let mut ends = [0; 3];
    for seed in 1..=count() {
        let (session, bursts) = (Session::new(seed), seed % 2 == 0);
        let (reports, answers, line) = session.run(0, bursts);
        let first = &reports[0];
        common::is_sure(&session.accesses, &answers, first, line.memory(), session.memory());
        let most = u64::from(5 * session.tries);
        let accesses = session.accesses.len() as u64;
        assert!(first.requests <= 10 + most + (6 + most) * accesses, "list {seed}");
        let (reports, answers, line) = session.run(session.resumes, bursts);
        let last = reports[reports.len() - 1];
        let mut model = session.memory();
        let (done, _) = session.accesses.split_at(last.answered);
        assert_eq!(model.answers(done), common::answers(&answers[..last.answered]), "list {seed}");
        match last.ended {
            End::All => {
                assert_eq!(line.memory().words, model.words, "list {seed}");
                ends[0] += 1;
            }
            End::Lost => ends[1] += 1,
            End::TriesOut => ends[2] += 1,
            ended => panic!("list {seed} ended with {ended}"),
        }
    }
    // So many lists end in each way.
    assert!(count() < 100 || ends.iter().all(|ended| *ended > 0), "{ends:?}");
}

// The report is that of the program, whose runs have bursts of writes; and where the run wasn't resumed, each clock is
// that of its trace.
#[test]
fn lists_against_the_program() {
    let Some(program) = std::env::var_os("SWD") else {
        println!("SWD names no program: nothing is compared with it");
        return;
    };
    let folder = Path::new(env!("CARGO_TARGET_TMPDIR"));
    let (script, plan, trace) = (folder.join("script"), folder.join("plan"), folder.join("trace"));
    for seed in 1..=count() {
        let session = Session::new(seed);
        let (reports, answers, line) = session.run(session.resumes, true);
        fs::write(&script, session.script()).unwrap();
        fs::write(&plan, session.plan.iter().map(|mark| format!("{mark}\n")).collect::<String>()).unwrap();
        let output = Command::new(&program)
            .arg("run")
            .arg(&script)
            .arg("--plan")
            .arg(&plan)
            .arg("--trace")
            .arg(&trace)
            .args(["--tries", &session.tries.to_string(), "--resume", &session.resumes.to_string()])
            .output()
            .unwrap();
        let told = String::from_utf8(output.stdout).unwrap();
        assert_eq!(session.report(&reports, &answers), told, "list {seed}");
        let traced = fs::read_to_string(&trace).unwrap().replace(char::is_whitespace, "");
        if reports.len() == 1 {
            assert_eq!(characters(&line.levels), traced, "list {seed}");
        }
    }
}

fn characters(bits: &[bool]) -> String {
    bits.iter().map(|bit| if *bit { '1' } else { '0' }).collect()
}

fn listing(bits: &[bool]) -> String {
    swd::decode(bits.iter().copied()).map(|item| format!("{item}\n")).collect()
}

/// The levels of some sessions, whole and cut off, and random bits.
fn traces() -> Vec<Vec<bool>> {
    let mut random = Random::new(1);
    let mut traces = Vec::new();
    for seed in 1..=20 {
        let (_, _, line) = Session::new(seed).run(3, true);
        let cut = random.below(line.levels.len() as u32) as usize;
        traces.push(line.levels[..cut].to_vec());
        traces.push(line.levels);
    }
    for length in (0..70).chain([500, 5000]) {
        traces.push((0..length).map(|_| random.percent(70)).collect());
    }
    traces
}

#[test]
fn traces_in_pieces() {
    let mut random = Random::new(2);
    for bits in traces() {
        let mut decoder = swd::Decoder::new();
        let mut lines = String::new();
        let mut rest = &bits[..];
        while !rest.is_empty() {
            let (piece, more) = rest.split_at((1 + random.below(130) as usize).min(rest.len()));
            decoder.feed(piece.iter().copied(), |item| lines += &format!("{item}\n"));
            rest = more;
        }
        assert_eq!(decoder.fed(), bits.len() as u64);
        decoder.finish(|item| lines += &format!("{item}\n"));
        assert_eq!(lines, listing(&bits));
    }
}

#[test]
fn traces_against_the_program() {
    let Some(program) = std::env::var_os("SWD") else {
        println!("SWD names no program: nothing is compared with it");
        return;
    };
    for bits in traces() {
        let mut child =
            Command::new(&program).arg("decode").stdin(Stdio::piped()).stdout(Stdio::piped()).spawn().unwrap();
        child.stdin.take().unwrap().write_all(characters(&bits).as_bytes()).unwrap();
        let told = String::from_utf8(child.wait_with_output().unwrap().stdout).unwrap();
        assert_eq!(listing(&bits), told);
    }
}

#[test]
fn a_worked_trace() {
    let word = 0x2ba0_1477_u64;
    let text = "1".repeat(50) + "0" + "10100101" + "1" + "100";
    let mut bits = text.chars().map(|bit| bit == '1').collect::<Vec<_>>();
    bits.extend((0..34).map(|place| place == 33 || word >> place & 1 == 1));
    assert_eq!(listing(&bits), "reset 50\nidle 1\ndp 0 read ok 2ba01477\n");
    assert_eq!(listing(&bits[..55]), "reset 50\nidle 1\ncut 1010\n");
}
