//! The command line: cases are read, made, answered and compared.

use cases::format::{self, Recorded};
use cases::generate::{case, Kind};
use cases::list;
use cases::sizes::{self, Shape};
use std::collections::BTreeMap;
use std::fs::File;
use std::io::{self, BufReader, BufWriter, Write};
use std::process::ExitCode;
use std::str::FromStr;

const HELP: &str = "\
usage: cases COMMAND

  answer           read cases from standard input, write them with the oracle's answers
  record           write the fixed list with the oracle's answers
  verify FILE      compare the recorded answers with the oracle's; status 1 on a difference
  generate --seed S --count N [--first I] [--kind KIND]
                   write cases I to I+N-1 with answers; a case depends on KIND, S and its number;
                   KIND is tokens, pieces (all small texts by number), graphs, damaged, largest
                   (arguments at the end of the numbers) or mixed
  summary FILE     count cases by service and number
  text SHAPE BYTES write one large text; SHAPE is segments, links, long-paths, long-runs,
                   clashes, beginnings, one-slot, crlf or nothing-to-fold

docs/ANSWERS.md says the format of the cases.
";

fn main() -> ExitCode {
    let args: Vec<String> = std::env::args().skip(1).collect();
    let words: Vec<&str> = args.iter().map(String::as_str).collect();
    let done = match words.as_slice() {
        ["answer"] => answer(),
        ["record"] => record(),
        ["verify", file] => verify(file),
        ["generate", options @ ..] => generate(options),
        ["summary", file] => summary(file),
        ["text", shape, bytes] => text(shape, bytes),
        ["--help" | "-h" | "help"] => {
            print!("{HELP}");
            Ok(true)
        }
        _ => Err(bad_arguments()),
    };
    match done {
        Ok(true) => ExitCode::SUCCESS,
        Ok(false) => ExitCode::from(1),
        Err(error) => {
            eprintln!("cases: {error}");
            ExitCode::from(2)
        }
    }
}

fn wrong(message: &str) -> io::Error {
    io::Error::new(io::ErrorKind::InvalidInput, message)
}

fn bad_arguments() -> io::Error {
    wrong("bad arguments; see cases --help")
}

fn output() -> BufWriter<io::StdoutLock<'static>> {
    BufWriter::new(io::stdout().lock())
}

fn answer() -> io::Result<bool> {
    let mut input = io::stdin().lock();
    let mut out = output();
    while let Some(Recorded { label, case, .. }) = format::read(&mut input)? {
        format::write(&mut out, &label, &case, &case.answer())?;
    }
    out.flush()?;
    Ok(true)
}

fn record() -> io::Result<bool> {
    let mut out = output();
    for (label, case) in list::cases() {
        format::write(&mut out, &label, &case, &case.answer())?;
        out.write_all(b"\n")?;
    }
    out.flush()?;
    Ok(true)
}

fn verify(file: &str) -> io::Result<bool> {
    let (mut agree, mut differ) = (0, 0);
    let mut input = BufReader::new(File::open(file)?);
    while let Some(Recorded {
        label,
        case,
        answer,
    }) = format::read(&mut input)?
    {
        let found = case.answer();
        if found == answer {
            agree += 1;
        } else {
            differ += 1;
            println!("differs: {label}\n  recorded {answer:?}\n  oracle   {found:?}");
        }
    }
    println!("verify: {agree} answers agree, {differ} differ");
    Ok(differ == 0 && agree > 0)
}

fn generate(options: &[&str]) -> io::Result<bool> {
    let (mut seed, mut count): (Option<u64>, Option<u64>) = (None, None);
    let (mut first, mut kind) = (0, Kind::Mixed);
    for option in options.chunks(2) {
        match *option {
            ["--seed", value] => seed = Some(number(value)?),
            ["--count", value] => count = Some(number(value)?),
            ["--first", value] => first = number(value)?,
            ["--kind", name] => kind = Kind::by_name(name).ok_or_else(|| wrong("no such kind"))?,
            _ => return Err(bad_arguments()),
        }
    }
    let (Some(seed), Some(count)) = (seed, count) else {
        return Err(bad_arguments());
    };
    let mut out = output();
    for number in first..first + count {
        let (label, case) = case(kind, seed, number);
        format::write(&mut out, &label, &case, &case.answer())?;
    }
    out.flush()?;
    Ok(true)
}

fn number<T: FromStr>(word: &str) -> io::Result<T> {
    word.parse()
        .map_err(|_| wrong(&format!("{word} is no number")))
}

fn summary(file: &str) -> io::Result<bool> {
    let mut counts = BTreeMap::new();
    let mut input = BufReader::new(File::open(file)?);
    while let Some(recorded) = format::read(&mut input)? {
        let key = (recorded.case.service.name(), recorded.answer.number);
        *counts.entry(key).or_insert(0usize) += 1;
    }
    for ((service, number), count) in &counts {
        println!("{service} {number} {count}");
    }
    println!("all {}", counts.values().sum::<usize>());
    Ok(true)
}

fn text(shape: &str, bytes: &str) -> io::Result<bool> {
    let shape = Shape::by_name(shape).ok_or_else(|| wrong("no such shape"))?;
    io::stdout().write_all(&sizes::text(shape, number(bytes)?))?;
    Ok(true)
}
