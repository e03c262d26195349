//! An independent second implementation of the switch, written from docs/REFERENCE.md alone.
//!
//! It is plain: a packet is run to its end when it comes, statement by statement, and what it gives
//! is kept until the step in which it leaves. There are no nodes, stages or slots on that way, so
//! what it has in common with the pipeline is the reference and nothing else.
//!
//!     reference lay [FILE]       the nodes of a source, or CODE OFFSET and status 1
//!     reference line [FILE]      frames in, frames out, as the switch writes them
//!     reference means [FILE]     the same, with each packet answered at once
//!     reference means IN OUT     whether OUT is what the switch owes for IN

#[path = "reference/meaning.rs"]
mod meaning;
#[path = "reference/packet.rs"]
mod packet;
#[path = "reference/placement.rs"]
mod placement;
#[path = "reference/program.rs"]
mod program;
#[path = "reference/source.rs"]
mod source;
#[path = "reference/switch.rs"]
mod switch;
#[path = "reference/token.rs"]
mod token;
#[path = "reference/update.rs"]
mod update;

use program::Fault;
use std::fs::File;
use std::io::{self, BufWriter, Read, Write};
use std::process::ExitCode;
use switch::{Comparison, Timing};

const USAGE: &str = "\
usage: reference lay [FILE]
       reference line [FILE]
       reference means [FILE]
       reference means IN OUT
";

/// Why a command ends with status 1: a message for people.
struct Failure(String);

fn main() -> ExitCode {
    let arguments: Vec<String> = std::env::args_os()
        .skip(1)
        .map(|argument| argument.to_string_lossy().into_owned())
        .collect();
    let arguments: Vec<&str> = arguments.iter().map(String::as_str).collect();
    match run(&arguments) {
        Ok(code) => code,
        Err(Failure(message)) => {
            eprintln!("reference: {message}");
            ExitCode::FAILURE
        }
    }
}

fn run(arguments: &[&str]) -> Result<ExitCode, Failure> {
    match arguments {
        [] => Err(Failure(format!("a command is wanted\n{USAGE}"))),
        ["--help"] | [_, "--help"] => {
            print!("{USAGE}");
            Ok(ExitCode::SUCCESS)
        }
        ["--version"] | [_, "--version"] => {
            println!("reference 1");
            Ok(ExitCode::SUCCESS)
        }
        ["lay", files @ ..] if files.len() <= 1 => lay(files.first().copied()),
        ["line", files @ ..] if files.len() <= 1 => {
            serve(files.first().copied(), Timing::TwelveStepsLater)
        }
        ["means", files @ ..] if files.len() <= 1 => serve(files.first().copied(), Timing::AtOnce),
        ["means", input, output] => compare(input, output),
        ["lay" | "line" | "means", ..] => Err(Failure("too many arguments".to_string())),
        [command, ..] => Err(Failure(format!("unknown command {command}\n{USAGE}"))),
    }
}

/// Standard input, or the file that is named.
fn open(file: Option<&str>) -> Result<Box<dyn Read>, Failure> {
    match file {
        None => Ok(Box::new(io::stdin().lock())),
        Some(path) => match File::open(path) {
            Ok(file) => Ok(Box::new(file)),
            Err(error) => Err(Failure(format!("{path}: {error}"))),
        },
    }
}

fn read_whole(file: Option<&str>) -> Result<Vec<u8>, Failure> {
    let mut bytes = Vec::new();
    match open(file)?.read_to_end(&mut bytes) {
        Ok(_) => Ok(bytes),
        Err(error) => Err(Failure(format!(
            "{}: {error}",
            file.unwrap_or("standard input")
        ))),
    }
}

fn failed_output(error: io::Error) -> Failure {
    Failure(format!("standard output: {error}"))
}

fn lay(file: Option<&str>) -> Result<ExitCode, Failure> {
    let source = read_whole(file)?;
    let mut output = BufWriter::new(io::stdout().lock());
    let code = match placement::lay(&source) {
        Ok(listing) => {
            output
                .write_all(listing.as_bytes())
                .map_err(failed_output)?;
            ExitCode::SUCCESS
        }
        Err(fault) => {
            writeln!(output, "{} {}", fault.code, fault.offset).map_err(failed_output)?;
            explain(file.unwrap_or("standard input"), &source, fault);
            ExitCode::FAILURE
        }
    };
    output.flush().map_err(failed_output)?;
    Ok(code)
}

/// Tells a person where in the source the fault is.
fn explain(name: &str, source: &[u8], fault: Fault) {
    let before = &source[..fault.offset];
    let line = before.iter().filter(|&&byte| byte == b'\n').count() + 1;
    let start = before
        .iter()
        .rposition(|&byte| byte == b'\n')
        .map_or(0, |place| place + 1);
    let rest = &source[start..];
    let end = rest
        .iter()
        .position(|&byte| byte == b'\n')
        .unwrap_or(rest.len());
    eprintln!(
        "{name}:{line}:{}: code {}",
        fault.offset - start + 1,
        fault.code
    );
    eprintln!("    {}", String::from_utf8_lossy(&rest[..end]));
}

fn serve(file: Option<&str>, timing: Timing) -> Result<ExitCode, Failure> {
    let input = open(file)?;
    let mut output = BufWriter::with_capacity(1 << 16, io::stdout().lock());
    match switch::serve(input, &mut output, timing) {
        Ok(()) => Ok(ExitCode::SUCCESS),
        Err(error) => Err(Failure(error.to_string())),
    }
}

fn compare(input: &str, output: &str) -> Result<ExitCode, Failure> {
    let came_out = read_whole(Some(output))?;
    let comparison = switch::compare(open(Some(input))?, &came_out)
        .map_err(|error| Failure(format!("{input}: {error}")))?;
    println!("{comparison}");
    Ok(match comparison {
        Comparison::AsMeant => ExitCode::SUCCESS,
        _ => ExitCode::FAILURE,
    })
}
