//! Runs two commands by turns, ours and a plain-Rust baseline, and prints how their processor times compare:
//! `harness NAME [--input FILE] OURS.. -- BASELINE..`. Both have to write the same, which a first run of each shows;
//! it isn't counted, nor is what the later runs write, which goes to /dev/null.
//!
//! A pair is one turn of each. A turn runs its command as often as takes a second or so, and who goes first changes
//! from pair to pair, so what disturbs the one disturbs the other. The ratio of a pair is our processor time over the
//! baseline's; printed are the median of the ratios and their quartiles. The environment can set the number of pairs,
//! at least fifteen, by PAIRS, and the seconds of a turn by SECONDS.
use std::env;
use std::fs::File;
use std::io::{self, Read};
use std::os::unix::process::CommandExt;
use std::process::{Child, Command, ExitCode, Stdio};
use std::str::FromStr;

const PAIRS: usize = 15;
const SECONDS: f64 = 1.0;

#[repr(C)]
struct Usage {
    times: [i64; 4],
    max_rss: i64,
    others: [i64; 13],
}

unsafe extern "C" {
    fn wait4(pid: i32, status: *mut i32, options: i32, usage: *mut Usage) -> i32;
}

/// A program with its words, and the file that it reads.
struct Program<'a> {
    words: &'a [String],
    input: Option<&'a str>,
}

/// What one run took, or the mean of some, with the most memory of any.
#[derive(Clone, Copy)]
struct Figures {
    processor: f64,
    kilobytes: i64,
}

/// Waits for a child, and tells what it took.
fn figures_of(child: &Child) -> io::Result<Figures> {
    let mut usage = Usage { times: [0; 4], max_rss: 0, others: [0; 13] };
    let mut status = 0;
    // SAFETY: the child is ours and not yet waited for, and both places outlive the call.
    let waited = unsafe { wait4(child.id() as i32, &mut status, 0, &mut usage) };
    if waited < 0 || status != 0 {
        return Err(io::Error::other(format!("ended with {status}")));
    }
    let [user, user_micros, system, system_micros] = usage.times;
    Ok(Figures {
        processor: (user + system) as f64 + (user_micros + system_micros) as f64 / 1e6,
        kilobytes: usage.max_rss,
    })
}

impl Program<'_> {
    fn command(&self) -> io::Result<Command> {
        let [program, words @ ..] = self.words else {
            return Err(io::Error::other("no command"));
        };
        let mut command = Command::new(program);
        command.args(words).process_group(0);
        match self.input {
            Some(file) => command.stdin(File::open(file)?),
            None => command.stdin(Stdio::null()),
        };
        Ok(command)
    }

    fn run(&self) -> io::Result<Figures> {
        figures_of(&self.command()?.stdout(Stdio::null()).spawn()?)
    }

    /// So many runs.
    fn turn(&self, runs: usize) -> io::Result<Figures> {
        let mut total = Figures { processor: 0.0, kilobytes: 0 };
        for _ in 0..runs {
            let figures = self.run()?;
            total.processor += figures.processor;
            total.kilobytes = total.kilobytes.max(figures.kilobytes);
        }
        total.processor /= runs as f64;
        Ok(total)
    }

    /// The instructions of a run, in user mode, where the machine counts them.
    fn instructions(&self) -> Option<u64> {
        let mut command = Command::new("perf");
        command.args(["stat", "-x", ",", "-e", "instructions:u", "--"]).args(self.words);
        if let Some(file) = self.input {
            command.stdin(File::open(file).ok()?);
        }
        let output = command.stdout(Stdio::null()).stderr(Stdio::piped()).output().ok()?;
        let told = String::from_utf8(output.stderr).ok()?;
        told.lines().find(|line| line.contains("instructions"))?.split(',').next()?.parse().ok()
    }
}

/// As many bytes as there are, up to the length of the piece.
fn filled(mut reader: impl Read, piece: &mut [u8]) -> io::Result<usize> {
    let mut len = 0;
    while len < piece.len() {
        match reader.read(&mut piece[len..])? {
            0 => break,
            more => len += more,
        }
    }
    Ok(len)
}

/// Whether both write the same, as they run side by side. It is held a piece at a time: a child's figure of memory
/// begins with ours.
fn write_the_same(ours: &Program, theirs: &Program) -> io::Result<bool> {
    let begun = |program: &Program| program.command()?.stdout(Stdio::piped()).spawn();
    let mut children = [begun(ours)?, begun(theirs)?];
    let mut pieces = [vec![0; 65536], vec![0; 65536]];
    let mut same = true;
    loop {
        let mut lens = [0; 2];
        for ((child, piece), len) in children.iter_mut().zip(&mut pieces).zip(&mut lens) {
            *len = filled(child.stdout.as_mut().ok_or(io::ErrorKind::BrokenPipe)?, piece)?;
        }
        same &= pieces[0][..lens[0]] == pieces[1][..lens[1]];
        if lens == [0; 2] {
            break;
        }
    }
    for child in &children {
        figures_of(child)?;
    }
    Ok(same)
}

/// The value below which that share of the sorted values lies.
fn quantile(sorted: &[f64], share: f64) -> f64 {
    sorted[((sorted.len() - 1) as f64 * share).round() as usize]
}

fn sorted(values: impl Iterator<Item = f64>) -> Vec<f64> {
    let mut values: Vec<f64> = values.collect();
    values.sort_by(f64::total_cmp);
    values
}

fn setting<T: FromStr>(name: &str, default: T) -> T {
    env::var(name).ok().and_then(|value| value.parse().ok()).unwrap_or(default)
}

/// The figures of each pair, ours first.
fn pairs(ours: &Program, theirs: &Program) -> io::Result<Vec<[Figures; 2]>> {
    let first = ours.run()?.processor.max(theirs.run()?.processor).max(0.001);
    let runs = (setting("SECONDS", SECONDS) / first).ceil() as usize;
    (0..setting("PAIRS", PAIRS).max(PAIRS))
        .map(|pair| {
            if pair % 2 == 0 {
                let our = ours.turn(runs)?;
                Ok([our, theirs.turn(runs)?])
            } else {
                let their = theirs.turn(runs)?;
                Ok([ours.turn(runs)?, their])
            }
        })
        .collect()
}

fn compare(name: &str, ours: &Program, theirs: &Program) -> io::Result<bool> {
    let same = write_the_same(ours, theirs)?;
    let pairs = pairs(ours, theirs)?;
    let ratios = sorted(pairs.iter().map(|[our, their]| our.processor / their.processor));
    let times = [0, 1].map(|who| quantile(&sorted(pairs.iter().map(|pair| pair[who].processor)), 0.5));
    let [our_kb, their_kb] = [0, 1].map(|who| pairs.iter().map(|pair| pair[who].kilobytes).max().unwrap_or(0));
    let [low, middle, high] = [0.25, 0.5, 0.75].map(|share| quantile(&ratios, share));
    print!(
        "{name:<26} {:7.4} s {our_kb:6} kB  {:7.4} s {their_kb:6} kB  {middle:5.2} ({low:.2} to {high:.2})",
        times[0], times[1]
    );
    match (ours.instructions(), theirs.instructions()) {
        (Some(our), Some(their)) => print!("  {:5.2}", our as f64 / their as f64),
        _ => print!("      -"),
    }
    println!("  {}", if same { "same" } else { "OTHER" });
    Ok(same)
}

fn main() -> io::Result<ExitCode> {
    let words: Vec<String> = env::args().skip(1).collect();
    let (name, words) = match words.as_slice() {
        [name, words @ ..] if name != "--titles" => (name, words),
        _ => {
            println!("{:<26} {:<20}  {:<20}  {:<20}  {:<5}  output", "", "ours", "baseline", "processor time", "instr");
            return Ok(ExitCode::SUCCESS);
        }
    };
    let (input, words) = match words {
        [flag, file, words @ ..] if flag == "--input" => (Some(file.as_str()), words),
        words => (None, words),
    };
    let mut commands = words.split(|word| word == "--");
    let (Some(ours), Some(theirs)) = (commands.next(), commands.next()) else {
        return Err(io::Error::other("harness NAME [--input FILE] COMMAND.. -- COMMAND.."));
    };
    let same = compare(name, &Program { words: ours, input }, &Program { words: theirs, input })?;
    Ok(if same { ExitCode::SUCCESS } else { ExitCode::FAILURE })
}
