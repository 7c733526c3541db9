//! `ntrun_example WORD..`: does what `ntrun` does with these words, through the wrapper. It reads
//! standard input, writes the text to standard output, and ends with the status.

use std::env;
use std::io::{self, Read, Write};
use std::process::ExitCode;

fn main() -> io::Result<ExitCode> {
    let words: Vec<String> = env::args().skip(1).collect();
    let mut input = Vec::new();
    io::stdin().lock().read_to_end(&mut input)?;
    let (status, text) = ntrun::call(&words.join(" "), &input);
    if status == ntrun::Status::NEEDS_THREADS {
        eprintln!("ntrun_example: live and audit need threads, so they are not in the library");
    }
    io::stdout().lock().write_all(&text)?;
    Ok(ExitCode::from(status.0))
}
