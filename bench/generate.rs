//! Writes one case for the comparison to standard output: `generate KIND SEED`.
//!
//! The same kind and seed always give the same bytes.

#[path = "generate/mod.rs"]
mod generate;

use generate::Kind;
use std::io::Write;
use std::process::ExitCode;

fn main() -> ExitCode {
    let arguments: Vec<String> = std::env::args().skip(1).collect();
    let case = match &arguments[..] {
        [kind, seed] => Kind::from_name(kind).zip(seed.parse().ok()),
        _ => None,
    };
    let Some((kind, seed)) = case else {
        let kinds: Vec<&str> = Kind::ALL.iter().map(|kind| kind.name()).collect();
        eprintln!(
            "usage: generate KIND SEED, where KIND is one of {}",
            kinds.join(", ")
        );
        return ExitCode::FAILURE;
    };
    match std::io::stdout().write_all(&generate::case(kind, seed)) {
        Ok(()) => ExitCode::SUCCESS,
        Err(error) => {
            eprintln!("generate: standard output: {error}");
            ExitCode::FAILURE
        }
    }
}
