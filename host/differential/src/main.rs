//! Runs the port against the Rust on generated cases and on large texts.

use cases::generate::{case, Kind};
use cases::sizes::{self, Shape};
use cases::{format, Case, Service};
use differential::difference;
use std::io::{self, BufReader};
use std::process::ExitCode;
use std::sync::atomic::{AtomicU64, AtomicUsize, Ordering};
use std::{fs::File, thread};

const HELP: &str = "\
usage: differential generated [--seed S] [--count N] [--first I] [--kind KIND]
       differential sizes [--most BYTES]
       differential recorded FILE

  generated   cases I to I+N-1 of KIND (mixed); 1,000,000 of seed 1 where nothing else is said
  sizes       each shape at 1 KiB to 1 MiB, with each service
  recorded    a file of recorded answers, as docs/ANSWERS.md has it

A difference is printed with its case's number; the status is then 1.
";

fn main() -> ExitCode {
    let words: Vec<String> = std::env::args().skip(1).collect();
    let words: Vec<&str> = words.iter().map(String::as_str).collect();
    let differ = match words.as_slice() {
        ["generated", options @ ..] => generated(options),
        ["sizes"] => Ok(large(1 << 20)),
        ["sizes", "--most", bytes] => number(bytes).map(|most| large(most as usize)),
        ["recorded", file] => recorded(file),
        ["--help" | "-h"] => {
            print!("{HELP}");
            return ExitCode::SUCCESS;
        }
        _ => Err("bad arguments; see differential --help".to_string()),
    };
    match differ {
        Ok(0) => ExitCode::SUCCESS,
        Ok(_) => ExitCode::from(1),
        Err(message) => {
            eprintln!("differential: {message}");
            ExitCode::from(2)
        }
    }
}

fn number(word: &str) -> Result<u64, String> {
    word.parse().map_err(|_| format!("{word} is no number"))
}

fn generated(options: &[&str]) -> Result<usize, String> {
    let (mut seed, mut count, mut first, mut kind) = (1, 1_000_000, 0, Kind::Mixed);
    for option in options.chunks(2) {
        match *option {
            ["--seed", value] => seed = number(value)?,
            ["--count", value] => count = number(value)?,
            ["--first", value] => first = number(value)?,
            ["--kind", name] => kind = Kind::by_name(name).ok_or("no such kind")?,
            _ => return Err("bad arguments; see differential --help".to_string()),
        }
    }
    let next = AtomicU64::new(first);
    let differ = AtomicUsize::new(0);
    let numbers: Vec<AtomicUsize> = (0..23).map(|_| AtomicUsize::new(0)).collect();
    let folds = AtomicUsize::new(0);
    let jobs = thread::available_parallelism().map_or(1, usize::from);
    thread::scope(|scope| {
        for _ in 0..jobs {
            scope.spawn(|| loop {
                let number = next.fetch_add(1, Ordering::Relaxed);
                if number >= first + count {
                    return;
                }
                let (label, case) = case(kind, seed, number);
                let expected = case.answer();
                numbers[expected.number].fetch_add(1, Ordering::Relaxed);
                folds.fetch_add(usize::from(expected.stats[6] > 0), Ordering::Relaxed);
                if let Some(what) = difference(&case, &expected) {
                    differ.fetch_add(1, Ordering::Relaxed);
                    println!("{label}: {} {}: {what}", case.service.name(), case.arg);
                }
            });
        }
    });
    let differ = differ.into_inner();
    println!("generated: {count} cases from {first} on, seed {seed}: {differ} differ");
    println!("  rewritten by a folding: {}", folds.into_inner());
    for (number, seen) in numbers.into_iter().enumerate() {
        println!("  answered with {number}: {}", seen.into_inner());
    }
    Ok(differ)
}

fn recorded(file: &str) -> Result<usize, String> {
    let failed = |error: io::Error| format!("{file}: {error}");
    let mut input = BufReader::new(File::open(file).map_err(failed)?);
    let (mut run, mut differ) = (0, 0);
    while let Some(recorded) = format::read(&mut input).map_err(failed)? {
        run += 1;
        if let Some(what) = difference(&recorded.case, &recorded.answer) {
            differ += 1;
            println!("{}: {what}", recorded.label);
        }
    }
    println!("recorded: {run} answers, {differ} differ");
    if run == 0 {
        return Err(format!("{file} has no recorded answer"));
    }
    Ok(differ)
}

fn large(most: usize) -> usize {
    let (mut run, mut differ) = (0, 0);
    for bytes in (10..=20)
        .map(|power| 1 << power)
        .filter(|&bytes| bytes <= most)
    {
        for shape in Shape::ALL {
            let text = sizes::text(shape, bytes);
            let calls = [
                (Service::Report, 10),
                (Service::Report, usize::MAX),
                (Service::Normalize, 0),
                (Service::Normalize, 1),
                (Service::Normalize, 7),
                (Service::Normalize, usize::MAX),
                (Service::Spell, 0),
                (Service::Spell, usize::MAX),
            ];
            for (service, arg) in calls {
                let mut case = Case::new(service, arg, text.clone());
                case.room = 8 * bytes + 65_536;
                let expected = case.answer();
                run += 1;
                if let Some(what) = difference(&case, &expected) {
                    differ += 1;
                    println!(
                        "{} of {bytes}: {} {arg}: {what}",
                        shape.name(),
                        service.name()
                    );
                }
            }
        }
    }
    println!("sizes: {run} calls, {differ} differ");
    differ
}
