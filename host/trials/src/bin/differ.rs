//! Asks the proved library and the second implementation the cases of a seed and
//! compares their answers.

use std::env;
use std::fs;
use std::io::{self, Write};
use std::ops::Range;
use std::process::ExitCode;
use std::time::{Duration, Instant};

use conform::{Engine, Proved, Second};
use trials::{described, family, trial, Cases, Difference, Planted, FAMILIES};

const HELP: &str = "\
usage: differ [--plant ERROR | --print [--without FAMILY]] SEED COUNT [FIRST]

Makes COUNT cases of the conformance protocol from SEED, the first of them number
FIRST (0 if it is left out), asks the proved library and the second implementation
each of them, and compares the answers. Differences are printed with their numbers;
`differ SEED 1 NUMBER` asks one case again. At the end stands a table of the proved
library's answers.

  --plant ERROR     the second implementation with a planted error: sum, one kind of
                    load adds its operands modulo 65,536; copy, dcopy reads bytes that
                    it has written; shape, the row of call-imm8 has its values taken
                    and pushed exchanged; lookup, halving does not come to the last
                    entry of a pack; stream, an admission counts no bytes behind
                    contents that are bad, so that 31 does not come first
  --print           prints the cases and asks nobody, for `khx conform`
  --without FAMILY  leaves out those that begin with this word: lookup is no case of
                    the published protocol

Exit status: 0 no difference, 1 a difference, 2 bad usage.
";

/// The most differences that are printed.
const PRINTED: u64 = 20;

struct Task {
    seed: u64,
    numbers: Range<u64>,
    plant: Option<Planted>,
    print: bool,
    without: Option<&'static str>,
}

fn main() -> ExitCode {
    let words: Vec<String> = env::args().skip(1).collect();
    if words.iter().any(|word| word == "--help") {
        print!("{HELP}");
        return ExitCode::SUCCESS;
    }
    match task(words) {
        None => {
            eprintln!("differ: {}", HELP.lines().next().unwrap_or_default());
            ExitCode::from(2)
        }
        Some(task) if task.print => match print(&task) {
            Ok(()) => ExitCode::SUCCESS,
            Err(_) => ExitCode::FAILURE,
        },
        Some(task) => ExitCode::from(u8::from(compare(&task) > 0)),
    }
}

fn task(mut words: Vec<String>) -> Option<Task> {
    let plant = chosen(&mut words, "--plant", &Planted::ALL, Planted::name)?;
    let print = begins(&words, "--print");
    if print {
        words.remove(0);
    }
    let without = match print {
        true => chosen(&mut words, "--without", &FAMILIES, |family| family)?,
        false => None,
    };
    let numbers: Option<Vec<u64>> = words.iter().map(|word| word.parse().ok()).collect();
    let (seed, count, first) = match numbers?[..] {
        [seed, count] => (seed, count, 0),
        [seed, count, first] => (seed, count, first),
        _ => return None,
    };
    let numbers = first..first.checked_add(count)?;
    (plant.is_none() || !print).then_some(Task {
        seed,
        numbers,
        plant,
        print,
        without,
    })
}

fn begins(words: &[String], option: &str) -> bool {
    words.first().map_or(false, |word| word == option)
}

/// What the word behind an option names, if the words begin with the option; both words
/// are taken. None where it names none of these.
fn chosen<T: Copy>(
    words: &mut Vec<String>,
    option: &str,
    these: &[T],
    name: fn(T) -> &'static str,
) -> Option<Option<T>> {
    if !begins(words, option) {
        return Some(None);
    }
    let word = words.drain(..words.len().min(2)).nth(1)?;
    these.iter().copied().find(|&it| name(it) == word).map(Some)
}

fn print(task: &Task) -> io::Result<()> {
    let mut output = io::BufWriter::new(io::stdout().lock());
    let cases = Cases::new(task.seed);
    for case in task.numbers.clone().map(|number| cases.case(number)) {
        if task.without.is_none() || family(&case) != task.without {
            output.write_all(&case)?;
            output.write_all(b"\n")?;
        }
    }
    output.flush()
}

/// Asks and compares; gives the number of differences.
fn compare(task: &Task) -> u64 {
    let second: &dyn Engine = match &task.plant {
        Some(planted) => planted,
        None => &Second,
    };
    let start = Instant::now();
    let mut progress = Progress::new(start);
    let mut differences = 0;
    let tally = trial(
        &Cases::new(task.seed),
        task.numbers.clone(),
        [&Proved, second],
        |number, difference| {
            if let Some(difference) = difference {
                differences += 1;
                show(task.seed, differences, &difference);
            }
            progress.show(number - task.numbers.start, differences);
        },
    );
    progress.wipe();
    print!("{tally}");
    let count = task.numbers.end - task.numbers.start;
    let seconds = start.elapsed().as_secs_f64();
    let rate = count as f64 / seconds.max(0.001);
    println!(
        "seed {}, first {}: {count} cases, {differences} differences, {seconds:.0} s, {rate:.0} a second",
        task.seed, task.numbers.start
    );
    differences
}

fn show(seed: u64, so_far: u64, difference: &Difference) {
    if so_far <= PRINTED {
        println!("difference: seed {seed}, number {}", difference.number);
        print!("{}", described(difference));
    }
    if so_far == PRINTED {
        println!("further differences are only counted");
    }
}

/// A line on standard error that tells how far the work is, on a terminal alone.
struct Progress {
    start: Instant,
    next: Option<Instant>,
}

impl Progress {
    fn new(start: Instant) -> Progress {
        let next = on_terminal().then(|| start + Duration::from_secs(1));
        Progress { start, next }
    }

    fn show(&mut self, done: u64, differences: u64) {
        if done % 64 != 0 || self.next.map_or(true, |next| Instant::now() < next) {
            return;
        }
        let seconds = self.start.elapsed().as_secs();
        eprint!("\r\x1b[K{done} cases, {differences} differences, {seconds} s");
        self.next = Some(Instant::now() + Duration::from_millis(500));
    }

    fn wipe(&self) {
        if self.next.is_some() {
            eprint!("\r\x1b[K");
        }
    }
}

fn on_terminal() -> bool {
    let terminal = |name: &str| name.starts_with("/dev/pts/") || name.starts_with("/dev/tty");
    fs::read_link("/proc/self/fd/2").map_or(false, |path| path.to_str().map_or(false, terminal))
}
