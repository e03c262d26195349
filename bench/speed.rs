//! Measures how fast `line` is, beside the reference implementation and a plain copy of the bytes.
//!
//!     speed [--programs DIR] [--reference FILE] [--mebibytes N]
//!     speed copy                  copies standard input to standard output
//!
//! All three read the same file and write a file. They take turns, so that what else happens on the
//! machine meets all of them alike; of five turns the median counts.

#[path = "generate/random.rs"]
#[allow(dead_code, reason = "a part of the generator is enough here")]
mod random;

#[allow(dead_code, reason = "each who measures wants a part of the figures")]
mod measure;

use random::Random;
use std::fs::File;
use std::io::{self, BufWriter, Read, Write};
use std::path::{Path, PathBuf};
use std::process::{Command, ExitCode, Stdio};

const TURNS: usize = 5;

const SOURCE: &str = "\
header link { to 32; from 32; kind 16; }
header ip { ttl 8; protocol 8; source 32; target 32; }
first link;
after link by kind { 0x0800 : ip; }
table stations { look to; sets out; lines 256; }
table rules { look source, target; sets protocol; lines 256; }
table routes { look target, ttl; sets out, link.to; lines 256; }
do {
    apply stations;
    apply rules;
    apply routes;
    if ttl < 2 { set out = 0; } else { add ttl = 255; }
}
";

// The numbers of fields and tables by the order in which the source declares them.
const OUT: u8 = 0;
const LINK_TO: u8 = 1;
const PROTOCOL: u8 = 5;

/// The bytes of a packet's frame in front of the packet.
const FRAME: usize = 3;

/// The bytes of both headers.
const HEADERS: usize = 20;

struct Load {
    name: &'static str,
    entries: u32,
    packet_bytes: usize,
}

const LOADS: [Load; 3] = [
    Load {
        name: "64 entries, 64-byte packets",
        entries: 64,
        packet_bytes: 64,
    },
    Load {
        name: "256 entries, 64-byte packets",
        entries: 256,
        packet_bytes: 64,
    },
    Load {
        name: "64 entries, 512-byte packets",
        entries: 64,
        packet_bytes: 512,
    },
];

struct Options {
    programs: PathBuf,
    reference: PathBuf,
    /// How much input there is for each load.
    bytes: usize,
}

fn main() -> ExitCode {
    let arguments: Vec<String> = std::env::args().skip(1).collect();
    let result = if arguments == ["copy"] {
        copy()
    } else {
        options(arguments).and_then(|options| run(&options))
    };
    match result {
        Ok(()) => ExitCode::SUCCESS,
        Err(error) => {
            eprintln!("speed: {error}");
            ExitCode::FAILURE
        }
    }
}

fn wrong(message: String) -> io::Error {
    io::Error::new(io::ErrorKind::InvalidInput, message)
}

fn options(arguments: Vec<String>) -> io::Result<Options> {
    let mut options = Options {
        programs: PathBuf::from("target/bin"),
        reference: PathBuf::from("target/bench/reference"),
        bytes: 64 << 20,
    };
    let mut arguments = arguments.into_iter();
    while let Some(name) = arguments.next() {
        let value = arguments
            .next()
            .ok_or(wrong(format!("{name} wants a value")))?;
        match name.as_str() {
            "--programs" => options.programs = PathBuf::from(value),
            "--reference" => options.reference = PathBuf::from(value),
            "--mebibytes" => {
                let mebibytes: usize = value
                    .parse()
                    .map_err(|_| wrong(format!("{value} is no number")))?;
                options.bytes = mebibytes << 20;
            }
            _ => return Err(wrong(format!("{name} is unknown"))),
        }
    }
    Ok(options)
}

/// Copies with reads and writes, and not within the system, as a program that looks at the bytes
/// must have them too.
fn copy() -> io::Result<()> {
    let (mut input, mut output) = (io::stdin().lock(), io::stdout().lock());
    let mut buffer = [0; 1 << 16];
    loop {
        let count = input.read(&mut buffer)?;
        if count == 0 {
            return output.flush();
        }
        output.write_all(&buffer[..count])?;
    }
}

/// One of the three that take turns.
struct Runner {
    name: &'static str,
    program: PathBuf,
    argument: Option<&'static str>,
    seconds: Vec<f64>,
}

fn run(options: &Options) -> io::Result<()> {
    let folder = std::env::temp_dir().join(format!("speed-{}", std::process::id()));
    std::fs::create_dir_all(&folder)?;
    let result = measure_all(options, &folder);
    let _ = std::fs::remove_dir_all(&folder);
    result
}

fn measure_all(options: &Options, folder: &Path) -> io::Result<()> {
    let line = options.programs.join("line");
    let with_line = line.exists() && loads_sources(&line, folder)?;
    if !with_line {
        println!("line is not there, or does not load sources yet: it is left out");
    }
    for load in &LOADS {
        let input = folder.join("input");
        let packets = options.bytes / (FRAME + load.packet_bytes);
        write_input(load, packets, &input)?;
        let runner = |name, program: &Path, argument| Runner {
            name,
            program: program.to_path_buf(),
            argument,
            seconds: Vec::new(),
        };
        let mut runners = vec![
            runner("copy", &std::env::current_exe()?, Some("copy")),
            runner("reference", &options.reference, Some("line")),
        ];
        if with_line {
            runners.push(runner("line", &line, None));
        }
        for _ in 0..TURNS {
            for runner in &mut runners {
                let output = folder.join(runner.name);
                let mut command = Command::new(&runner.program);
                command.args(runner.argument).stdin(File::open(&input)?);
                command
                    .stdout(File::create(&output)?)
                    .stderr(Stdio::inherit());
                runner
                    .seconds
                    .push(measure::run(&mut command)?.elapsed.as_secs_f64());
            }
        }
        println!("{}, {packets} packets:", load.name);
        report(packets, runners);
        if with_line && !same(&folder.join("line"), &folder.join("reference"))? {
            return Err(io::Error::other(
                "line and the reference write different bytes",
            ));
        }
    }
    Ok(())
}

/// The middle one of an odd count of values.
fn median(mut values: Vec<f64>) -> f64 {
    values.sort_by(f64::total_cmp);
    values[values.len() / 2]
}

fn report(packets: usize, runners: Vec<Runner>) {
    let medians: Vec<(&str, f64)> = runners
        .into_iter()
        .map(|runner| (runner.name, median(runner.seconds)))
        .collect();
    for (index, (name, seconds)) in medians.iter().enumerate() {
        let mut text = format!(
            "    {name:10}{seconds:>9.4} seconds{:>12.0} packets a second",
            packets as f64 / seconds,
        );
        for (other, other_seconds) in &medians[..index] {
            text += &format!(", {:.2} times the {other}", seconds / other_seconds);
        }
        println!("{text}");
    }
}

fn loads_sources(line: &Path, folder: &Path) -> io::Result<bool> {
    let path = folder.join("probe");
    let mut file = File::create(&path)?;
    write_frame(&mut file, 1, SOURCE.as_bytes())?;
    let output = Command::new(line)
        .stdin(File::open(&path)?)
        .stderr(Stdio::null())
        .output()?;
    Ok(output.stdout == [17, 0, 0, 0, 0, 0])
}

fn same(one: &Path, other: &Path) -> io::Result<bool> {
    Ok(std::fs::read(one)? == std::fs::read(other)?)
}

fn write_frame(output: &mut impl Write, kind: u8, bytes: &[u8]) -> io::Result<()> {
    let length = (bytes.len() as u32).to_be_bytes();
    output.write_all(&[kind])?;
    output.write_all(if kind == 3 { &length[2..] } else { &length })?;
    output.write_all(bytes)
}

/// The source, an update that fills the three tables, the packets, and twelve pauses.
fn write_input(load: &Load, packets: usize, path: &Path) -> io::Result<()> {
    let random = &mut Random::new(1);
    let mut output = BufWriter::new(File::create(path)?);
    write_frame(&mut output, 1, SOURCE.as_bytes())?;
    write_frame(&mut output, 2, &update(load.entries))?;
    for _ in 0..packets {
        // Each packet is found somewhere in each table, so that half of it is tried on average.
        let mut entry = || random.below(load.entries as usize) as u32;
        let mut packet = Vec::with_capacity(load.packet_bytes);
        packet.extend(station(entry()).to_be_bytes());
        packet.extend(0u32.to_be_bytes());
        packet.extend(0x0800u16.to_be_bytes());
        packet.extend([64, 6]);
        let target = entry();
        packet.extend(source_of(target).to_be_bytes());
        packet.extend(target_of(target).to_be_bytes());
        assert_eq!(packet.len(), HEADERS);
        packet.resize(load.packet_bytes, 0x5a);
        write_frame(&mut output, 3, &packet)?;
    }
    output.write_all(&[4; 12])?;
    output.flush()
}

fn station(entry: u32) -> u32 {
    0x0200_0000 + entry * 7
}

fn source_of(entry: u32) -> u32 {
    0x0a00_0000 + entry
}

fn target_of(entry: u32) -> u32 {
    0xc0a8_0000 + entry * 256
}

fn update(entries: u32) -> Vec<u8> {
    let exact = |value: u32| [value.to_be_bytes(), u32::MAX.to_be_bytes()].concat();
    let set = |field: u8, number: u32| [&[1, field, 0], &number.to_be_bytes()[..]].concat();
    let mut bytes = vec![3];
    for table in 0..3u8 {
        bytes.push(table);
        bytes.extend((entries as u16).to_be_bytes());
        for entry in 0..entries {
            let (look, actions) = match table {
                0 => (exact(station(entry)), vec![set(OUT, 1 + entry % 255)]),
                1 => {
                    let look = [exact(source_of(entry)), exact(target_of(entry))].concat();
                    (look, vec![set(PROTOCOL, entry)])
                }
                _ => {
                    // Any `ttl` will do: a value and a mask of 0.
                    let look = [exact(target_of(entry)), vec![0; 8]].concat();
                    (look, vec![set(OUT, 1 + entry % 200), set(LINK_TO, entry)])
                }
            };
            bytes.extend(look);
            bytes.push(actions.len() as u8);
            bytes.extend(actions.concat());
        }
    }
    bytes
}
