//! Runs two programs on dossier after dossier and compares what they print. Every dossier follows from a seed and a
//! number, so that each can be had again.

mod counts;
mod dossiers;
mod interpretation;
mod random;
mod world;

use counts::Counts;
use dossiers::{WAYS, dossier};
use std::fs::{self, File};
use std::io::{self, Write};
use std::path::{Path, PathBuf};
use std::process::{Command, ExitCode, Output, Stdio};
use std::sync::Mutex;
use std::sync::atomic::{AtomicU64, Ordering};

const USAGE: &str = "usage: compare PROGRAM PLAIN [--seed N] [--count N] [--first N] [--threads N] [--wide]
       compare --dump NUMBER [--seed N] [--wide]      (writes that dossier to standard output)
PROGRAM and PLAIN may have arguments behind a blank. With --wide PLAIN is given `wide`.";

struct Options {
    programs: Vec<String>,
    seed: u64,
    first: u64,
    count: u64,
    threads: usize,
    wide: bool,
    dump: Option<u64>,
}

fn options() -> Option<Options> {
    let mut options = Options {
        programs: Vec::new(),
        seed: 1,
        first: 0,
        count: 20_000,
        threads: 2,
        wide: false,
        dump: None,
    };
    let mut words = std::env::args().skip(1);
    while let Some(word) = words.next() {
        match word.as_str() {
            "--seed" => options.seed = words.next()?.parse().ok()?,
            "--first" => options.first = words.next()?.parse().ok()?,
            "--count" => options.count = words.next()?.parse().ok()?,
            "--threads" => options.threads = words.next()?.parse().ok()?,
            "--dump" => options.dump = Some(words.next()?.parse().ok()?),
            "--wide" => options.wide = true,
            _ if word.starts_with("--") => return None,
            _ => options.programs.push(word),
        }
    }
    (options.programs.len() == 2 || options.dump.is_some() && options.programs.is_empty()).then_some(options)
}

fn main() -> ExitCode {
    let Some(options) = options() else {
        eprintln!("{USAGE}");
        return ExitCode::from(2);
    };
    let done = match options.dump {
        Some(number) => io::stdout()
            .write_all(&dossier(options.seed, number, options.wide).bytes)
            .map(|()| true),
        None => compare(&options),
    };
    match done {
        Ok(true) => ExitCode::SUCCESS,
        Ok(false) => ExitCode::FAILURE,
        Err(error) => {
            eprintln!("compare: {error}");
            ExitCode::from(2)
        }
    }
}

/// Whether the two agree on every dossier.
fn compare(options: &Options) -> io::Result<bool> {
    let folder = std::env::temp_dir().join(format!("docket-compare-{}", std::process::id()));
    fs::create_dir_all(&folder)?;
    let next = AtomicU64::new(options.first);
    let total = Mutex::new(Counts::default());
    std::thread::scope(|scope| {
        let workers: Vec<_> = (0..options.threads.max(1))
            .map(|thread| {
                scope.spawn({
                    let (folder, next, total) = (&folder, &next, &total);
                    move || work(options, folder, thread, next, total)
                })
            })
            .collect();
        workers
            .into_iter()
            .try_for_each(|worker| worker.join().expect("a worker ends by its result"))
    })?;
    let total = total.into_inner().expect("no worker panicked");
    total.print(&WAYS);
    if total.differences == 0 {
        fs::remove_dir_all(&folder)?;
    } else {
        println!("the dossiers that differ are in {}", folder.display());
    }
    Ok(total.differences == 0)
}

fn work(options: &Options, folder: &Path, thread: usize, next: &AtomicU64, total: &Mutex<Counts>) -> io::Result<()> {
    let input = folder.join(format!("input-{thread}"));
    let mut counts = Counts::default();
    loop {
        let number = next.fetch_add(1, Ordering::Relaxed);
        if number >= options.first + options.count {
            break;
        }
        let made = dossier(options.seed, number, options.wide);
        fs::write(&input, &made.bytes)?;
        // A file and a pipe are read in different pieces, so that both are tried.
        let piped = number % 2 == 1 && made.bytes.len() < 60_000;
        let run = |words: &str, wide: bool| run(words, wide, &made.bytes, (!piped).then_some(&input));
        let one = run(&options.programs[0], false)?;
        let other = run(&options.programs[1], options.wide)?;
        counts.add(made.way, &made.bytes, &one.stdout);
        if one.stdout != other.stdout || one.stderr != other.stderr || one.status != other.status {
            counts.differences += 1;
            let kept = folder.join(format!("{}-{number}.dossier", options.seed));
            fs::write(&kept, &made.bytes)?;
            tell(number, WAYS[made.way], &one, &other, &kept);
        }
    }
    fs::remove_file(&input).or_else(|error| match error.kind() {
        io::ErrorKind::NotFound => Ok(()),
        _ => Err(error),
    })?;
    total.lock().expect("no worker panicked").join(&counts);
    Ok(())
}

fn run(words: &str, wide: bool, bytes: &[u8], file: Option<&PathBuf>) -> io::Result<Output> {
    let mut words = words.split_whitespace();
    let program = words.next().unwrap_or_default();
    let mut command = Command::new(program);
    command.args(words).args(wide.then_some("wide"));
    let failed = |error: io::Error| io::Error::new(error.kind(), format!("{program}: {error}"));
    match file {
        Some(file) => command.stdin(File::open(file)?).output().map_err(failed),
        None => {
            let mut child = command
                .stdin(Stdio::piped())
                .stdout(Stdio::piped())
                .stderr(Stdio::piped())
                .spawn()
                .map_err(failed)?;
            // A program may end before it has read everything. The dossier fits the pipe, so that nothing waits.
            if let Some(mut pipe) = child.stdin.take() {
                let middle = bytes.len() / 2;
                let _ = pipe
                    .write_all(&bytes[..middle])
                    .and_then(|()| pipe.write_all(&bytes[middle..]));
            }
            child.wait_with_output()
        }
    }
}

fn tell(number: u64, way: &str, one: &Output, other: &Output, kept: &Path) {
    println!("difference in dossier {number} ({way}), kept as {}", kept.display());
    if one.status != other.status {
        println!(
            "  the first ended with {}, the second with {}",
            one.status, other.status
        );
    }
    let (mut first, mut second) = (
        one.stdout.split(|&byte| byte == b'\n'),
        other.stdout.split(|&byte| byte == b'\n'),
    );
    for line in 1.. {
        let pair = (first.next(), second.next());
        if pair.0 != pair.1 {
            let text =
                |line: Option<&[u8]>| line.map_or("nothing".into(), |line| String::from_utf8_lossy(line).into_owned());
            println!(
                "  line {line}: the first has `{}`, the second `{}`",
                text(pair.0),
                text(pair.1)
            );
        }
        if pair.0 != pair.1 || pair == (None, None) {
            break;
        }
    }
}
