//! The recorded format: `docs/ANSWERS.md` says it in words.

use crate::{Case, Service};
use oracle::Answer;
use std::io::{self, BufRead, Read, Write};

/// A case with its label and its recorded answer.
#[derive(Clone, Debug, Eq, PartialEq)]
pub struct Recorded {
    pub label: String,
    pub case: Case,
    pub answer: Answer,
}

/// Writes a case, the source of its answer after the label.
pub fn write(out: &mut impl Write, label: &str, case: &Case, answer: &Answer) -> io::Result<()> {
    writeln!(out, "# {label} ({})", case.source(answer))?;
    write!(
        out,
        "{} {} {} {} {} {} {} {} {} {}",
        case.service.name(),
        case.arg,
        case.room,
        case.work,
        answer.number,
        answer.line,
        answer.from,
        answer.length,
        case.text.len(),
        answer.output.len()
    )?;
    if case.service == Service::Normalize {
        for counter in answer.stats {
            write!(out, " {counter}")?;
        }
    }
    out.write_all(b"\n")?;
    out.write_all(&case.text)?;
    out.write_all(b"\n")?;
    out.write_all(&answer.output)?;
    out.write_all(b"\n")
}

/// The next case; nothing at the end of the input.
pub fn read(input: &mut impl BufRead) -> io::Result<Option<Recorded>> {
    let mut label = String::new();
    loop {
        let mut line = String::new();
        if input.read_line(&mut line)? == 0 {
            return Ok(None);
        }
        let line = line.trim_end_matches('\n');
        if let Some(comment) = line.strip_prefix('#') {
            label = without_source(comment.trim()).to_string();
        } else if !line.is_empty() {
            return rest(input, label, line).map(Some);
        }
    }
}

fn without_source(label: &str) -> &str {
    let source = [" (Rust)", " (rules)"];
    source
        .iter()
        .find_map(|source| label.strip_suffix(source))
        .unwrap_or(label)
}

fn rest(input: &mut impl BufRead, label: String, header: &str) -> io::Result<Recorded> {
    let bad = || invalid(format!("bad header: {header}"));
    let mut words = header.split(' ');
    let service = words.next().and_then(Service::by_name).ok_or_else(bad)?;
    let numbers = words
        .map(|word| word.parse().map_err(|_| bad()))
        .collect::<io::Result<Vec<usize>>>()?;
    let counters = if service == Service::Normalize { 14 } else { 0 };
    if numbers.len() != 9 + counters {
        return Err(bad());
    }
    let mut stats = [0; 14];
    stats[..counters].copy_from_slice(&numbers[9..]);
    let text = bytes(input, numbers[7])?;
    let output = bytes(input, numbers[8])?;
    Ok(Recorded {
        label,
        case: Case {
            service,
            arg: numbers[0],
            text,
            room: numbers[1],
            work: numbers[2],
        },
        answer: Answer {
            number: numbers[3],
            line: numbers[4],
            from: numbers[5],
            length: numbers[6],
            output,
            stats,
        },
    })
}

/// So many bytes, and the line feed after them.
fn bytes(input: &mut impl BufRead, length: usize) -> io::Result<Vec<u8>> {
    let mut bytes = Vec::new();
    input.take(length as u64 + 1).read_to_end(&mut bytes)?;
    if bytes.len() == length + 1 && bytes.pop() == Some(b'\n') {
        return Ok(bytes);
    }
    Err(invalid(format!("{length} bytes and a line feed expected")))
}

fn invalid(message: String) -> io::Error {
    io::Error::new(io::ErrorKind::InvalidData, message)
}

#[cfg(test)]
mod tests {
    use super::*;
    use crate::generate::{case, Kind};

    #[test]
    fn what_is_written_is_read() {
        let mut file = Vec::new();
        let mut expected = Vec::new();
        for number in 0..500 {
            let (label, case) = case(Kind::Mixed, 3, number);
            let answer = case.answer();
            write(&mut file, &label, &case, &answer).unwrap();
            expected.push(Recorded {
                label,
                case,
                answer,
            });
        }
        let mut input = file.as_slice();
        let mut found = Vec::new();
        while let Some(recorded) = read(&mut input).unwrap() {
            found.push(recorded);
        }
        assert_eq!(found, expected);
    }

    #[test]
    fn bad_files_are_refused() {
        for file in [
            "report 10\n",
            "sort 0 0 0 0 0 0 0 0 0\n\n\n",
            "report 10 9 64 0 0 0 0 0 0 7\n\n\n",
            "normalize 0 9 64 0 0 0 0 0 0\n\n\n",
            "report 10 9 64 5 1 0 0 9 0\nS\n\n",
            "report 10 9 64 5 1 0 0 1 0\nSS\n\n",
        ] {
            assert!(read(&mut file.as_bytes()).is_err(), "{file}");
        }
    }
}
