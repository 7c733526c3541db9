//! A plain Rust program that does what `ntrun run` does, and proves nothing: a measure for what `ntrun` costs.
//!
//! `run [--turns N]` reads a script of either version from standard input, runs it by the robin rule and writes the
//! report to standard output: the same bytes as `ntrun run` for each script that is accepted. A script that is refused,
//! and input that is too long, give the one line `refused` and status 2; it doesn't say which line is bad. Faulty words
//! give a usage line and status 1.
//!
//! It does less than `ntrun`: it has no other command. So it keeps no history, since the text is written as the events
//! come, and no lanes (see machine.rs).
//!
//! To build it, outside of the gate: `rustc --edition 2021 -O tools/plain/main.rs -o plain`. `tools/speed` does so, and
//! compares it with a built `ntrun`.

mod commands;
mod machine;
mod report;
mod script;
mod state;

use std::io::{self, Read, Write};
use std::process::ExitCode;

use crate::machine::Machine;

const USAGE: &str = "usage: plain run [--turns N]\n";
const INPUT_LIMIT: usize = 33_554_432;

/// The turn limit, where the words are `run` and at most one `--turns`, behind or before it.
fn turns_of(words: &[String]) -> Option<u32> {
    let (mut has_run, mut turns) = (false, None);
    let mut words = words.iter();
    while let Some(word) = words.next() {
        let value = match word.as_str() {
            "run" if !has_run => {
                has_run = true;
                continue;
            }
            "--turns" => words.next()?,
            _ => word.strip_prefix("--turns=")?,
        };
        let number = script::number(value.as_bytes(), 20_000).filter(|&n| n > 0)?;
        if turns.replace(number).is_some() {
            return None;
        }
    }
    has_run.then_some(turns.unwrap_or(10_000))
}

fn report_of(bytes: &[u8], turns: u32) -> Option<Vec<u8>> {
    if bytes.len() > INPUT_LIMIT {
        return None;
    }
    let script = script::read(bytes)?;
    let limit = if script.cpus > 8 { turns.min(2_500) } else { turns };
    Some(Machine::new(&script, limit).run())
}

fn answer(words: &[String]) -> io::Result<u8> {
    let mut sink = io::stdout().lock();
    let Some(turns) = turns_of(words) else {
        sink.write_all(USAGE.as_bytes())?;
        return Ok(1);
    };
    let mut bytes = Vec::new();
    io::stdin().lock().read_to_end(&mut bytes)?;
    match report_of(&bytes, turns) {
        Some(report) => {
            sink.write_all(&report)?;
            Ok(0)
        }
        None => {
            sink.write_all(b"refused\n")?;
            Ok(2)
        }
    }
}

fn main() -> ExitCode {
    let words: Vec<String> = std::env::args().skip(1).collect();
    match answer(&words) {
        Ok(status) => ExitCode::from(status),
        Err(_) => ExitCode::from(5),
    }
}
