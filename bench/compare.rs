//! Compares the programs with the reference implementation, on cases made from seeds.
//!
//!     compare [--seeds N] [--from SEED] [--kinds KIND,..] [--programs DIR] [--reference FILE] [--to DIR]
//!
//! For each case the program and the reference must give the same standard output and the same
//! status. Where they do not, the case and both answers are kept in the folder of `--to`.

#[path = "generate/mod.rs"]
mod generate;

use generate::Kind;
use generate::random::Random;
use std::collections::BTreeMap;
use std::fs::{self, File};
use std::io::{self, Read, Write};
use std::path::{Path, PathBuf};
use std::process::{Child, Command, ExitCode, Stdio};
use std::sync::{Arc, Mutex};
use std::time::{Duration, Instant};

/// No case needs more than some hundredths of a second.
const PATIENCE: Duration = Duration::from_secs(20);

/// A source that shows whether a program loads sources: it is taken, and answered by `TAKEN`.
const PROBE: &[u8] = b"\x01\0\0\0\x1aheader h{f 8;}first h;do{}";
const TAKEN: &[u8] = &[17, 0, 0, 0, 0, 0];

struct Options {
    seeds: u64,
    from: u64,
    kinds: Vec<Kind>,
    programs: PathBuf,
    reference: PathBuf,
    to: PathBuf,
}

fn main() -> ExitCode {
    let options = match options() {
        Ok(options) => options,
        Err(message) => {
            eprintln!("compare: {message}");
            return ExitCode::from(2);
        }
    };
    match run(&options) {
        Ok(true) => ExitCode::SUCCESS,
        Ok(false) => ExitCode::FAILURE,
        Err(error) => {
            eprintln!("compare: {error}");
            ExitCode::from(2)
        }
    }
}

fn options() -> Result<Options, String> {
    let mut options = Options {
        seeds: 1000,
        from: 0,
        kinds: Kind::ALL.to_vec(),
        programs: PathBuf::from("target/bin"),
        reference: PathBuf::from("target/bench/reference"),
        to: PathBuf::from("target/bench/differences"),
    };
    let mut arguments = std::env::args().skip(1);
    while let Some(name) = arguments.next() {
        let value = arguments.next().ok_or(format!("{name} wants a value"))?;
        let number = || {
            value
                .parse()
                .map_err(|_| format!("{name}: {value} is no number"))
        };
        match name.as_str() {
            "--seeds" => options.seeds = number()?,
            "--from" => options.from = number()?,
            "--programs" => options.programs = PathBuf::from(value),
            "--reference" => options.reference = PathBuf::from(value),
            "--to" => options.to = PathBuf::from(value),
            "--kinds" => {
                let kinds = value
                    .split(',')
                    .map(|kind| Kind::from_name(kind).ok_or(format!("{kind} is no kind of case")));
                options.kinds = kinds.collect::<Result<_, _>>()?;
            }
            _ => return Err(format!("{name} is unknown")),
        }
    }
    Ok(options)
}

/// What a program wrote, and how it ended.
#[derive(Clone, Debug, PartialEq, Eq)]
struct Outcome {
    output: Vec<u8>,
    status: String,
}

/// Ends a program that takes too long.
struct Guard(Arc<Mutex<Option<(Instant, Child)>>>);

impl Guard {
    fn new() -> Self {
        let watched: Arc<Mutex<Option<(Instant, Child)>>> = Arc::default();
        let guard = Guard(Arc::clone(&watched));
        std::thread::spawn(move || {
            loop {
                std::thread::sleep(Duration::from_millis(500));
                if let Some((start, child)) = &mut *watched.lock().unwrap()
                    && start.elapsed() > PATIENCE
                {
                    let _ = child.kill();
                }
            }
        });
        guard
    }

    fn watch(&self, child: Child) {
        *self.0.lock().unwrap() = Some((Instant::now(), child));
    }

    /// Gives back the child that is watched, with the time of its start.
    fn release(&self) -> (Instant, Child) {
        let watched = self.0.lock().unwrap().take();
        watched.expect("a child is watched until it is released")
    }

    fn run(&self, command: &mut Command) -> io::Result<Outcome> {
        let mut child = command
            .stdout(Stdio::piped())
            .stderr(Stdio::null())
            .spawn()?;
        let mut stdout = child.stdout.take().expect("standard output is a pipe");
        self.watch(child);
        let mut output = Vec::new();
        let result = stdout.read_to_end(&mut output);
        let (start, mut child) = self.release();
        result?;
        let status = child.wait()?;
        let status = if start.elapsed() > PATIENCE {
            "took too long".to_string()
        } else {
            status.to_string()
        };
        Ok(Outcome { output, status })
    }
}

/// One way to run a program on a case.
#[derive(Clone, Copy, PartialEq, Eq)]
enum Trial {
    Lay,
    Line,
    Means,
    /// `means` with an input and an output.
    Record,
}

impl Trial {
    fn program(self) -> &'static str {
        match self {
            Trial::Lay => "lay",
            Trial::Line => "line",
            Trial::Means | Trial::Record => "means",
        }
    }

    fn name(self) -> &'static str {
        match self {
            Trial::Record => "means IN OUT",
            other => other.program(),
        }
    }

    fn of(kind: Kind) -> &'static [Trial] {
        match kind {
            Kind::Source | Kind::DamagedSource => &[Trial::Lay],
            Kind::Frames | Kind::DamagedFrames => &[Trial::Line, Trial::Means, Trial::Record],
        }
    }
}

/// A folder for the files of the case at hand, which is removed at the end.
struct Folder(PathBuf);

impl Folder {
    fn new() -> io::Result<Self> {
        let path = std::env::temp_dir().join(format!("compare-{}", std::process::id()));
        fs::create_dir_all(&path)?;
        Ok(Folder(path))
    }

    fn file(&self, name: &str, bytes: &[u8]) -> io::Result<PathBuf> {
        let path = self.0.join(name);
        fs::write(&path, bytes)?;
        Ok(path)
    }
}

impl Drop for Folder {
    fn drop(&mut self) {
        let _ = fs::remove_dir_all(&self.0);
    }
}

struct Driver<'options> {
    options: &'options Options,
    guard: Guard,
    folder: Folder,
}

#[derive(Default)]
struct Count {
    agreed: u64,
    tried: u64,
    /// How often the reference gave which answer, to show what the cases reach.
    answers: BTreeMap<String, u64>,
}

fn run(options: &Options) -> io::Result<bool> {
    let driver = Driver {
        options,
        guard: Guard::new(),
        folder: Folder::new()?,
    };
    let mut all_agreed = true;
    for &kind in &options.kinds {
        let mut trials = Vec::new();
        for &trial in Trial::of(kind) {
            match driver.missing(trial)? {
                None => trials.push((trial, Count::default())),
                Some(why) => println!("{}: {}: skipped: {why}", kind.name(), trial.name()),
            }
        }
        if trials.iter().any(|(trial, _)| *trial == Trial::Line) {
            let at_once = driver.answers_at_once()?;
            all_agreed &= at_once;
            let answer = if at_once { "yes" } else { "no" };
            println!("line: answers while its input is still open: {answer}");
        }
        if trials.is_empty() {
            continue;
        }
        for seed in options.from..options.from + options.seeds {
            driver.case(kind, seed, &mut trials)?;
        }
        for (trial, count) in trials {
            all_agreed &= count.agreed == count.tried;
            let answers: Vec<String> = count
                .answers
                .iter()
                .map(|(answer, count)| format!("{answer} {count}"))
                .collect();
            println!(
                "{}: {}: {} of {} agreed ({})",
                kind.name(),
                trial.name(),
                count.agreed,
                count.tried,
                answers.join(", "),
            );
        }
    }
    Ok(all_agreed)
}

impl Driver<'_> {
    fn program(&self, trial: Trial) -> PathBuf {
        self.options.programs.join(trial.program())
    }

    /// Whether `line` answers a source while its input is still open.
    fn answers_at_once(&self) -> io::Result<bool> {
        let mut child = Command::new(self.program(Trial::Line))
            .stdin(Stdio::piped())
            .stdout(Stdio::piped())
            .stderr(Stdio::null())
            .spawn()?;
        let mut input = child.stdin.take().expect("standard input is a pipe");
        let mut output = child.stdout.take().expect("standard output is a pipe");
        self.guard.watch(child);
        let mut answer = [0; TAKEN.len()];
        // If no answer comes, the program is ended, and so is its output.
        let answered = input.write_all(PROBE).is_ok()
            && output.read_exact(&mut answer).is_ok()
            && answer == TAKEN;
        drop(input);
        self.guard.release().1.wait()?;
        Ok(answered)
    }

    /// Why a trial cannot be made, if it cannot.
    fn missing(&self, trial: Trial) -> io::Result<Option<String>> {
        let program = self.program(trial);
        if !program.exists() {
            return Ok(Some(format!("{} is not there", trial.program())));
        }
        if trial == Trial::Lay {
            return Ok(None);
        }
        let probe = self.folder.file("probe", PROBE)?;
        let outcome = self
            .guard
            .run(Command::new(program).arg(probe).stdin(Stdio::null()))?;
        Ok(match outcome.output == TAKEN {
            true => None,
            false => Some(format!("{} does not load sources yet", trial.program())),
        })
    }

    fn case(&self, kind: Kind, seed: u64, trials: &mut [(Trial, Count)]) -> io::Result<()> {
        let case = generate::case(kind, seed);
        let input = self.folder.file("input", &case)?;
        for (trial, count) in trials {
            if *trial == Trial::Record {
                self.records(kind, seed, &input, count)?;
                continue;
            }
            // Even seeds are read from the file, odd ones from standard input.
            let outcome = |program: &Path, command: Option<&str>| {
                let mut run = Command::new(program);
                run.args(command);
                if seed.is_multiple_of(2) {
                    run.arg(&input).stdin(Stdio::null());
                } else {
                    run.stdin(File::open(&input)?);
                }
                self.guard.run(&mut run)
            };
            let due = outcome(&self.options.reference, Some(trial.program()))?;
            let given = outcome(&self.program(*trial), None)?;
            for answer in answers(*trial, &due) {
                *count.answers.entry(answer).or_default() += 1;
            }
            self.judge(
                &format!("{}-{seed}", kind.name()),
                *trial,
                &[&input],
                due,
                given,
                count,
            )?;
        }
        Ok(())
    }

    /// Lets `means` compare the case with its true output, and with outputs that are not.
    fn records(&self, kind: Kind, seed: u64, input: &Path, count: &mut Count) -> io::Result<()> {
        let line = self.guard.run(
            Command::new(&self.options.reference)
                .arg("line")
                .arg(input)
                .stdin(Stdio::null()),
        )?;
        let random = &mut Random::new(seed);
        for (name, record) in spoilt(random, line.output) {
            let output = self.folder.file("output", &record)?;
            let outcome = |program: &Path, command: Option<&str>| {
                let mut run = Command::new(program);
                run.args(command)
                    .arg(input)
                    .arg(&output)
                    .stdin(Stdio::null());
                self.guard.run(&mut run)
            };
            let due = outcome(&self.options.reference, Some("means"))?;
            let given = outcome(&self.program(Trial::Record), None)?;
            for answer in answers(Trial::Record, &due) {
                *count.answers.entry(answer).or_default() += 1;
            }
            let case = format!("{}-{seed}-{name}", kind.name());
            self.judge(&case, Trial::Record, &[input, &output], due, given, count)?;
        }
        Ok(())
    }

    fn judge(
        &self,
        case: &str,
        trial: Trial,
        files: &[&Path],
        due: Outcome,
        given: Outcome,
        count: &mut Count,
    ) -> io::Result<()> {
        count.tried += 1;
        if due == given {
            count.agreed += 1;
            return Ok(());
        }
        let folder = self.options.to.join(format!("{case}-{}", trial.program()));
        fs::create_dir_all(&folder)?;
        for file in files {
            fs::copy(
                file,
                folder.join(file.file_name().expect("a file has a name")),
            )?;
        }
        for (name, outcome) in [("reference", &due), (trial.program(), &given)] {
            fs::write(folder.join(format!("{name}.output")), &outcome.output)?;
            fs::write(
                folder.join(format!("{name}.status")),
                format!("{}\n", outcome.status),
            )?;
        }
        println!("differs: {}", folder.display());
        Ok(())
    }
}

/// The frames of an output; what is no frame is one piece at the end.
fn frames_of(output: &[u8]) -> Vec<&[u8]> {
    let mut frames = Vec::new();
    let mut rest = output;
    while !rest.is_empty() {
        let length = match rest {
            [16, _, high, low, ..] => 4 + usize::from(u16::from_be_bytes([*high, *low])),
            [17, ..] => 6,
            [18, ..] => 2,
            _ => rest.len(),
        };
        let (frame, behind) = rest.split_at(length.min(rest.len()));
        frames.push(frame);
        rest = behind;
    }
    frames
}

/// A true output, and some that are not: by a byte, a frame, or the order of two frames.
fn spoilt(random: &mut Random, output: Vec<u8>) -> Vec<(&'static str, Vec<u8>)> {
    let mut records = vec![("true", output.clone())];
    if !output.is_empty() {
        let mut changed = output.clone();
        changed[random.below(output.len())] ^= 1 << random.below(8);
        records.push(("byte", changed));
        records.push(("cut", output[..random.below(output.len())].to_vec()));

        let mut dropped = frames_of(&output);
        dropped.remove(random.below(dropped.len()));
        records.push(("dropped", dropped.concat()));

        let mut swapped = frames_of(&output);
        let (one, other) = (random.below(swapped.len()), random.below(swapped.len()));
        swapped.swap(one, other);
        records.push(("swapped", swapped.concat()));
    }
    let mut longer = output;
    longer.push(random.byte());
    records.push(("longer", longer));
    records
}

/// What kinds of answers an output has.
fn answers(trial: Trial, outcome: &Outcome) -> Vec<String> {
    match trial {
        Trial::Lay | Trial::Record => {
            let text = String::from_utf8_lossy(&outcome.output);
            let first = text.split(' ').next().unwrap_or_default().trim_end();
            vec![match first {
                "node" => "placed".to_string(),
                "as" => "as meant".to_string(),
                code if trial == Trial::Lay => format!("code {code:>2}"),
                other => other.to_string(),
            }]
        }
        Trial::Line | Trial::Means => frames_of(&outcome.output)
            .into_iter()
            .map(|frame| match frame {
                [16, ..] => "packets".to_string(),
                [17, 0, ..] => "taken".to_string(),
                [_, code, ..] => format!("code {code:>2}"),
                _ => "no frame".to_string(),
            })
            .collect(),
    }
}
