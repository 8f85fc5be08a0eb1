//! The command `second`: the line protocol, the desk's line, or requests to compare programs with.

use second::compile::desk_line;
use second::generate::{edges, parse_requests, random::Random, request, sweep_requests};
use second::protocol::answer;
use std::io::{self, BufRead, BufReader, BufWriter, Read, Write};
use std::process::ExitCode;

/// Answers line by line until input ends; answers leave whenever no further request waits.
fn lines() -> io::Result<()> {
    let mut input = BufReader::new(io::stdin().lock());
    let mut output = BufWriter::new(io::stdout().lock());
    let mut line = Vec::new();
    while input.read_until(b'\n', &mut line)? > 0 {
        let request = line.strip_suffix(b"\n").unwrap_or(&line);
        writeln!(output, "{}", answer(request))?;
        if input.buffer().is_empty() {
            output.flush()?;
        }
        line.clear();
    }
    output.flush()
}

fn desk() -> io::Result<()> {
    let mut text = Vec::new();
    io::stdin().lock().read_to_end(&mut text)?;
    writeln!(io::stdout().lock(), "{}", desk_line(&text))
}

/// Writes so many requests, the same for one seed everywhere.
fn requests(seed: u64, count: u64) -> io::Result<()> {
    let mut output = BufWriter::new(io::stdout().lock());
    let mut random = Random::new(seed);
    for _ in 0..count {
        writeln!(output, "{}", request(&mut random))?;
    }
    output.flush()
}

fn write_all(requests: &[String]) -> io::Result<()> {
    let mut output = BufWriter::new(io::stdout().lock());
    for request in requests {
        writeln!(output, "{request}")?;
    }
    output.flush()
}

/// Writes requests to parse: the edges, and so many from a seed.
fn texts(seed: u64, count: u64) -> io::Result<()> {
    write_all(&parse_requests(&mut Random::new(seed), count))
}

/// Writes texts to compile, and to evaluate at many budgets.
fn sweeps(seed: u64, count: u64) -> io::Result<()> {
    write_all(&sweep_requests(&mut Random::new(seed), count))
}

fn command(arguments: &[&str]) -> Option<io::Result<()>> {
    match arguments {
        [] | ["lines"] => Some(lines()),
        ["desk"] => Some(desk()),
        ["edges"] => Some(write_all(&edges::requests())),
        ["requests", seed, count] => Some(requests(seed.parse().ok()?, count.parse().ok()?)),
        ["sweeps", seed, count] => Some(sweeps(seed.parse().ok()?, count.parse().ok()?)),
        ["texts", seed, count] => Some(texts(seed.parse().ok()?, count.parse().ok()?)),
        _ => None,
    }
}

fn main() -> ExitCode {
    let arguments: Vec<String> = std::env::args().skip(1).collect();
    let words: Vec<&str> = arguments.iter().map(String::as_str).collect();
    match command(&words) {
        Some(Ok(())) => ExitCode::SUCCESS,
        Some(Err(error)) => {
            eprintln!("second: {error}");
            ExitCode::FAILURE
        }
        None => {
            eprintln!(
                "usage: second [lines | desk | edges | requests SEED COUNT | sweeps SEED COUNT | texts SEED COUNT]"
            );
            ExitCode::FAILURE
        }
    }
}
