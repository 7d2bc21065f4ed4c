//! Reads a dossier from standard input and prints what the docket did with it. With the argument `wide` it reads more and
//! opens a larger docket.

use independent::intake::{NARROW, WIDE, report};
use std::io::{self, Read, Write};
use std::process::ExitCode;

fn main() -> ExitCode {
    let size = match std::env::args().nth(1).as_deref() {
        None => NARROW,
        Some("wide") => WIDE,
        Some(_) => {
            eprintln!("usage: plain [wide] < DOSSIER");
            return ExitCode::from(2);
        }
    };
    match run(size.bytes as u64, |file| report(file, size)) {
        Ok(()) => ExitCode::SUCCESS,
        Err(error) => {
            eprintln!("plain: {error}");
            ExitCode::FAILURE
        }
    }
}

fn run(limit: u64, answer: impl Fn(&[u8]) -> Vec<u8>) -> io::Result<()> {
    let mut file = Vec::new();
    io::stdin().lock().take(limit).read_to_end(&mut file)?;
    let mut out = io::stdout().lock();
    out.write_all(&answer(&file))?;
    out.flush()?;
    if file.len() as u64 == limit {
        writeln!(
            io::stderr(),
            "the limit of {limit} bytes is reached; what may lie behind them was not looked at"
        )?;
    }
    Ok(())
}
