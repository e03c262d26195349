//! Shows how the time and the memory of `lay` grow with the source.
//!
//!     scale [--programs DIR] [--largest MEBIBYTES]
//!
//! For each shape of source there are sizes that grow by four. If time and memory are in proportion
//! to the source, both grow by four as well, or by less where the program's own size shows; and what
//! a further byte of source costs stays the same.

#[allow(dead_code, reason = "each who measures wants a part of the figures")]
mod measure;

use measure::Measured;
use std::fs::File;
use std::io::{self, BufWriter, Write};
use std::path::{Path, PathBuf};
use std::process::{Command, ExitCode, Stdio};

const GROWTH: usize = 4;
const RUNS: usize = 5;

/// A source of any size: the unit stands between the front and the back as often as it fits.
struct Shape {
    name: &'static str,
    front: &'static [u8],
    unit: &'static [u8],
    back: &'static [u8],
}

const PROGRAM: &[u8] = b"header h { f 8; } first h; do { set out = 1; }";
const FRONT: &[u8] = b"header h { f 8; } first h; do {";
const LONG_NAMES: &[u8] = b"header abcdefghijklmnopqrstuvwx { abcdefghijklmnopqrstuvw1 8; } \
                            first abcdefghijklmnopqrstuvwx; do {";

const SHAPES: &[Shape] = &[
    Shape {
        name: "comment lines",
        front: b"",
        unit: b"// a comment, and more\n",
        back: PROGRAM,
    },
    Shape {
        name: "one comment",
        front: b"//",
        unit: b"x",
        back: b"",
    },
    Shape {
        name: "white space",
        front: b"",
        unit: b" \t\r\n",
        back: PROGRAM,
    },
    Shape {
        name: "statements",
        front: FRONT,
        unit: b"set out=1;",
        back: b"}",
    },
    Shape {
        name: "statements, long names",
        front: LONG_NAMES,
        unit:
            b"add abcdefghijklmnopqrstuvwx.abcdefghijklmnopqrstuvw1 = abcdefghijklmnopqrstuvw1;\n",
        back: b"}",
    },
    Shape {
        name: "statements, then a fault",
        front: FRONT,
        unit: b"set f = h.f; ",
        back: b"$",
    },
    Shape {
        name: "branches in a row",
        front: FRONT,
        unit: b"if f==1{}else{}",
        back: b"}",
    },
    Shape {
        name: "branches, eight deep",
        front: FRONT,
        unit: b"if f<1{if f<2{if f<3{if f<4{if f<5{if f<6{if f<7{add f=1;}}}}}}}",
        back: b"}",
    },
    Shape {
        name: "a declared name",
        front: b"header ",
        unit: b"n",
        back: b" { f 8; }",
    },
    Shape {
        name: "a used name",
        front: b"first ",
        unit: b"n",
        back: b";",
    },
    Shape {
        name: "a number",
        front: b"header h { f ",
        unit: b"0",
        back: b"8; } first h; do {}",
    },
    Shape {
        name: "a number that is too large",
        front: b"header h { f ",
        unit: b"9",
        back: b";}",
    },
    Shape {
        name: "opening braces",
        front: b"",
        unit: b"{",
        back: b"",
    },
    Shape {
        name: "zeros",
        front: b"",
        unit: b"\0",
        back: b"",
    },
    Shape {
        name: "bytes 0xFF",
        front: b"",
        unit: b"\xff",
        back: b"",
    },
];

fn main() -> ExitCode {
    match run() {
        Ok(()) => ExitCode::SUCCESS,
        Err(error) => {
            eprintln!("scale: {error}");
            ExitCode::FAILURE
        }
    }
}

fn run() -> io::Result<()> {
    let wrong = |message: String| io::Error::new(io::ErrorKind::InvalidInput, message);
    let mut programs = PathBuf::from("target/bin");
    let mut largest = 16 << 20;
    let mut arguments = std::env::args().skip(1);
    while let Some(name) = arguments.next() {
        let value = arguments
            .next()
            .ok_or(wrong(format!("{name} wants a value")))?;
        match name.as_str() {
            "--programs" => programs = PathBuf::from(value),
            "--largest" => {
                let mebibytes: usize = value
                    .parse()
                    .map_err(|_| wrong(format!("{value} is no number")))?;
                largest = mebibytes << 20;
            }
            _ => return Err(wrong(format!("{name} is unknown"))),
        }
    }
    let lay = programs.join("lay");
    if !lay.exists() {
        return Err(wrong(format!("{} is not there", lay.display())));
    }
    let file = std::env::temp_dir().join(format!("scale-{}", std::process::id()));
    let result = measure_all(&lay, &file, largest);
    let _ = std::fs::remove_file(&file);
    result
}

fn measure_all(lay: &Path, file: &Path, largest: usize) -> io::Result<()> {
    let sizes = [largest / GROWTH / GROWTH, largest / GROWTH, largest];
    println!(
        "{:27}{:>10}{:>9}{:>7}{:>9}{:>10}{:>7}{:>11}",
        "shape", "bytes", "seconds", "times", "ns/byte", "KiB", "times", "byte/byte",
    );
    let mut most_seconds: f64 = 0.0;
    let mut most_memory: f64 = 0.0;
    for shape in SHAPES {
        let mut previous: Option<(usize, Measured)> = None;
        for size in sizes {
            write_source(shape, size, file)?;
            let measured = measure_lay(lay, file)?;
            let seconds = measured.processor.as_secs_f64();
            let memory = measured.resident as f64;
            print!("{:27}{size:>10}{seconds:>9.4}", shape.name);
            if let Some((smaller, previous)) = previous {
                let seconds_before = previous.processor.as_secs_f64();
                let memory_before = previous.resident as f64;
                let more = (size - smaller) as f64;
                most_seconds = most_seconds.max(seconds / seconds_before);
                most_memory = most_memory.max(memory / memory_before);
                println!(
                    "{:>7.1}{:>9.1}{:>10}{:>7.1}{:>11.1}",
                    seconds / seconds_before,
                    (seconds - seconds_before) * 1e9 / more,
                    measured.resident / 1024,
                    memory / memory_before,
                    (memory - memory_before) / more,
                );
            } else {
                println!("{:>7}{:>9}{:>10}", "", "", measured.resident / 1024);
            }
            previous = Some((size, measured));
        }
    }
    println!();
    println!(
        "{GROWTH} times the source takes at most {most_seconds:.1} times the seconds and \
         {most_memory:.1} times the memory"
    );
    Ok(())
}

/// Writes the source piece by piece, as this program must stay smaller than the one it measures.
fn write_source(shape: &Shape, size: usize, file: &Path) -> io::Result<()> {
    let mut output = BufWriter::new(File::create(file)?);
    output.write_all(shape.front)?;
    let room = size.saturating_sub(shape.front.len() + shape.back.len());
    for _ in 0..room / shape.unit.len() {
        output.write_all(shape.unit)?;
    }
    output.write_all(shape.back)?;
    output.flush()
}

/// The quickest of some runs, as all that can disturb a run makes it slower.
fn measure_lay(lay: &Path, file: &Path) -> io::Result<Measured> {
    let mut best: Option<Measured> = None;
    for _ in 0..RUNS {
        let mut command = Command::new(lay);
        command
            .arg(file)
            .stdin(Stdio::null())
            .stdout(Stdio::null())
            .stderr(Stdio::null());
        let measured = measure::run(&mut command)?;
        if best
            .as_ref()
            .is_none_or(|best| measured.processor < best.processor)
        {
            best = Some(measured);
        }
    }
    Ok(best.expect("there is more than one run"))
}
