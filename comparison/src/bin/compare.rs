//! The program `compare`: random programs and mnemonic lines on the twin and on the second simulator.

use comparison::{compare, Batch, Coverage, LineBatch, Simulated, Stepped, Twin};
use comparison::{CASES, LINES, SEED};
use std::process::ExitCode;
use std::time::{Duration, Instant};

/// What the command line asks for.
struct Wish {
    seed: u64,
    seconds: Option<u64>,
    case: Option<u64>,
    lines: Option<u64>,
    line: Option<u64>,
}

/// Reads the command line: `--seed S`, `--seconds N`, `--case C`, `--lines N`, `--line L`.
fn wish() -> Result<Wish, String> {
    let mut wish = Wish { seed: SEED, seconds: None, case: None, lines: None, line: None };
    let mut words = std::env::args().skip(1);
    while let Some(word) = words.next() {
        let number = words.next().and_then(|number| number.parse().ok());
        let number = number.ok_or(format!("{word} needs a number"))?;
        match word.as_str() {
            "--seed" => wish.seed = number,
            "--seconds" => wish.seconds = Some(number),
            "--case" => wish.case = Some(number),
            "--lines" => wish.lines = Some(number),
            "--line" => wish.line = Some(number),
            _ => {
                let known = "--seed S --seconds N --case C --lines N --line L";
                return Err(format!("unknown: {word}; known: {known}"));
            }
        }
    }
    Ok(wish)
}

fn main() -> ExitCode {
    match wish().and_then(|wish| compared(&wish)) {
        Ok(()) => ExitCode::SUCCESS,
        Err(text) => {
            eprintln!("{text}");
            ExitCode::FAILURE
        }
    }
}

/// Compares what is wished for: programs or lines, the quick batch of both where it is neither.
fn compared(wish: &Wish) -> Result<(), String> {
    println!("seed {}", wish.seed);
    let begin = Instant::now();
    let only_lines = wish.lines.is_some() || wish.line.is_some();
    let only_programs = wish.seconds.is_some() || wish.case.is_some();
    if only_lines && only_programs {
        return Err("--lines and --line stand without --seconds and --case".to_string());
    }
    let mut missing = Vec::new();
    if !only_lines {
        missing.extend(programs(wish)?);
    }
    if !only_programs {
        missing.extend(lines(wish)?);
    }
    if !only_lines && !only_programs && !missing.is_empty() {
        return Err(format!("the quick batch did not reach: {}", missing.join(", ")));
    }
    println!("no difference; {:.1} s", begin.elapsed().as_secs_f64());
    Ok(())
}

/// Compares random programs, prints what was reached and gives what was not.
fn programs(wish: &Wish) -> Result<Vec<String>, String> {
    let begin = Instant::now();
    let mut reference = Stepped { watcher: Coverage::default() };
    let mut twin = Twin;
    let mut batch = Batch::new(wish.seed, &mut reference, &mut twin);
    let first = wish.case.unwrap_or(0);
    let result = compare(&mut batch, first, |number| match (wish.case, wish.seconds) {
        (Some(case), _) => number == case,
        (None, Some(seconds)) => begin.elapsed() < Duration::from_secs(seconds),
        (None, None) => number < CASES,
    });
    let cases = result.map_err(|difference| difference.to_string())?;
    let Batch { calls, steps, .. } = batch;
    println!("cases {cases}, calls {calls}, steps {steps}");
    print!("{}", reference.watcher.print());
    Ok(reference.watcher.missing())
}

/// Compares every first word and random lines, or one of these; prints the answers and gives those that are rare.
fn lines(wish: &Wish) -> Result<Vec<String>, String> {
    let (mut simulator, mut twin) = (Simulated, Twin);
    let mut batch = LineBatch::new(wish.seed, &mut simulator, &mut twin);
    let result = match wish.line {
        Some(line) => batch.lines(line..line + 1),
        None => batch.first_words().and_then(|()| batch.lines(0..wish.lines.unwrap_or(LINES))),
    };
    result.map_err(|difference| difference.to_string())?;
    print!("{}", batch.print());
    Ok(batch.missing())
}
