//! The program `benchmark`: the twin and the second simulator side by side: steps a second, and mnemonic lines a second.

use comparison::{programs, LegalLines, Lent, Simulated, Subject, Twin};
use std::hint::black_box;
use std::process::ExitCode;
use std::time::Instant;
use twin1750::HUNDRED_EACH;

/// Steps of one run, the most that a run may have.
const STEPS: u32 = 1_000_000;
/// Runs of each machine on each program, and on each list of lines.
const RUNS: usize = 51;
/// How often a run goes through all legal lines.
const TURNS: usize = 4;
/// The long lines whose reading is measured: what they are, their start, the byte that is repeated behind it, the answer.
const LONG: [(&str, &str, &str, u32); 3] = [
    ("decimal", "LISP R3,", "9", 16),
    ("hexadecimal word", "L R3,", "F", 15),
    ("mnemonic", "", "A", 14),
];
/// How often the byte is repeated, and about how many bytes one run reads.
const LENGTHS: [usize; 5] = [10, 100, 1_000, 10_000, 100_000];
const BYTES: usize = 2_000_000;
/// The columns of the table of steps, and of that of lines, after the first.
const COLUMNS: [&str; 6] =
    ["twin, best", "median", "simulator, best", "median", "twin / simulator, best", "median"];

/// Million steps a second of one run.
fn measure(subject: &mut dyn Subject, lent: &mut Lent) -> Result<f64, String> {
    let begin = Instant::now();
    match subject.run(STEPS, &HUNDRED_EACH, lent) {
        0 => Ok(f64::from(STEPS) / begin.elapsed().as_secs_f64() / 1e6),
        refusal => Err(format!("a run was refused: {refusal}")),
    }
}

/// The best and the median of some rates.
fn best_and_median(mut rates: Vec<f64>) -> [f64; 2] {
    rates.sort_by(f64::total_cmp);
    [rates[rates.len() - 1], rates[rates.len() / 2]]
}

/// A line of a table, of the rates of both machines.
fn row(name: &str, twin: Vec<f64>, simulator: Vec<f64>) -> String {
    let [best, median] = best_and_median(twin);
    let [other_best, other] = best_and_median(simulator);
    let rates = format!("{best:.1} | {median:.1} | {other_best:.1} | {other:.1}");
    format!("| {name} | {rates} | {:.2} | {:.2} |", best / other_best, median / other)
}

/// The head of a table.
fn head(first: &str, columns: &[&str]) {
    println!("| {first} | {} |", columns.join(" | "));
    println!("|{}", "---|".repeat(columns.len() + 1));
}

/// Measures both machines on one program in turn and gives its line of the table.
fn line(name: &str, start: &Lent) -> Result<String, String> {
    let (mut left, mut right) = (start.clone(), start.clone());
    let (mut twin, mut simulator) = (Vec::new(), Vec::new());
    for _ in 0..RUNS {
        twin.push(measure(&mut Twin, &mut left)?);
        simulator.push(measure(&mut Simulated, &mut right)?);
    }
    if left != right {
        return Err(format!("the machines differ after {name}"));
    }
    Ok(row(name, twin, simulator))
}

/// Prints the table of steps.
fn steps() -> Result<(), String> {
    println!("Million steps a second, {RUNS} runs of {STEPS} steps each:\n");
    head("program", &COLUMNS);
    for (name, start) in programs() {
        println!("{}", line(name, &start)?);
    }
    Ok(())
}

/// A way through some lines, which gives a sum.
type Way = fn(&LegalLines, usize) -> u64;

/// Measures both on the same lines in turn and gives their line of the table: million lines a second.
fn lines_row(name: &str, lines: &LegalLines, ways: [Way; 2]) -> Result<String, String> {
    let count = TURNS * lines.number();
    let (mut rates, mut sums) = ([Vec::new(), Vec::new()], [0; 2]);
    for _ in 0..RUNS {
        for ((way, rates), sum) in ways.iter().zip(&mut rates).zip(&mut sums) {
            let begin = Instant::now();
            *sum = way(black_box(lines), count);
            rates.push(count as f64 / begin.elapsed().as_secs_f64() / 1e6);
        }
    }
    if sums[0] != sums[1] {
        return Err(format!("{name}: the sums differ"));
    }
    let [twin, simulator] = rates;
    Ok(row(name, twin, simulator))
}

/// Prints the table of lines.
fn lines() -> Result<(), String> {
    let all = LegalLines::default();
    let number = all.number();
    println!("\nMillion lines a second, {RUNS} runs of {TURNS} times {number} lines each:\n");
    head("lines", &COLUMNS);
    let printing: [Way; 2] = [LegalLines::print_twin, LegalLines::print_simulator];
    let reading: [Way; 2] = [LegalLines::read_twin, LegalLines::read_simulator];
    println!("{}", lines_row("printed", &all, printing)?);
    println!("{}", lines_row("read", &all, reading)?);
    Ok(())
}

/// Nanoseconds a byte that reading a line takes, the best of all runs; the line has this answer.
fn by_length(line: &[u8], answer: u32, read: fn(&[u8]) -> u32) -> Result<f64, String> {
    let times = BYTES / line.len();
    let mut best = f64::INFINITY;
    for _ in 0..RUNS {
        let begin = Instant::now();
        for _ in 0..times {
            if read(black_box(line)) != answer {
                return Err(format!("a line of {} bytes was not refused by {answer}", line.len()));
            }
        }
        best = best.min(begin.elapsed().as_secs_f64() * 1e9 / (times * line.len()) as f64);
    }
    Ok(best)
}

/// Prints the table of long lines.
fn long_lines() -> Result<(), String> {
    println!("\nNanoseconds a byte of reading long lines, the best of {RUNS} runs:\n");
    let names = LONG.map(|(name, _, _, _)| format!("{name}, twin | simulator"));
    println!("| bytes | {} |", names.join(" | "));
    println!("|{}", "---|".repeat(2 * LONG.len() + 1));
    for length in LENGTHS {
        print!("| {length} |");
        for (_, start, byte, answer) in LONG {
            let line = format!("{start}{}", byte.repeat(length)).into_bytes();
            let twin = by_length(&line, answer, |line| {
                twin1750::read(line).map_or_else(|refusal| refusal.number(), |_| 0)
            })?;
            let simulator = by_length(&line, answer, |line| {
                simulator::lines::read(line).map_or_else(u32::from, |_| 0)
            })?;
            print!(" {twin:.2} | {simulator:.2} |");
        }
        println!();
    }
    Ok(())
}

fn main() -> ExitCode {
    match steps().and_then(|()| lines()).and_then(|()| long_lines()) {
        Ok(()) => ExitCode::SUCCESS,
        Err(text) => {
            eprintln!("{text}");
            ExitCode::FAILURE
        }
    }
}
