//! The words of the command line.

use crate::failure::Failure;
use crate::help::{HELP, VERSION};
use std::ffi::{OsStr, OsString};
use std::os::unix::ffi::{OsStrExt, OsStringExt};
use std::path::{Path, PathBuf};

/// The longest answer that room is made for, where nothing else is said.
const ROOM: usize = 1 << 30;

pub enum Command {
    Print(&'static str),
    Work(Work),
}

pub struct Work {
    pub service: Service,
    pub input: Option<PathBuf>,
    pub output: Option<PathBuf>,
    pub room: usize,
}

pub enum Service {
    Report { top_n: usize },
    Normalize { cap: usize, stats: bool, note: bool },
    Spell { path: Chosen },
    Paths,
}

/// The path to spell.
pub enum Chosen {
    Number(usize),
    Name(Vec<u8>),
}

impl Service {
    fn by_name(name: &OsStr) -> Option<Self> {
        Some(match name.to_str()? {
            "report" => Service::Report { top_n: 10 },
            "normalize" => Service::Normalize {
                cap: yeshqoram::NO_CAP,
                stats: false,
                note: false,
            },
            "spell" => Service::Spell {
                path: Chosen::Number(0),
            },
            "paths" => Service::Paths,
            _ => return None,
        })
    }
}

pub fn parse(mut words: impl Iterator<Item = OsString>) -> Result<Command, Failure> {
    let name = words.next().ok_or_else(|| wrong("a command is missing"))?;
    match name.to_str() {
        Some("--help" | "-h" | "help") => return Ok(Command::Print(HELP)),
        Some("--version" | "-V") => return Ok(Command::Print(VERSION)),
        _ => {}
    }
    let service = Service::by_name(&name)
        .ok_or_else(|| wrong(&format!("{} is no command", name.display())))?;
    let mut work = Work {
        service,
        input: None,
        output: None,
        room: ROOM,
    };
    let mut plain = Vec::new();
    while let Some(word) = words.next() {
        if word == "--" {
            plain.extend(words.by_ref());
        } else if word == "--help" || word == "-h" {
            return Ok(Command::Print(HELP));
        } else if word.len() > 1 && word.as_bytes().starts_with(b"-") {
            option(&name, &mut work, &word, &mut words)?;
        } else {
            plain.push(word);
        }
    }
    places(&mut work, plain)?;
    Ok(Command::Work(work))
}

/// An option: its value is joined to it by =, or is the next word.
fn option(
    name: &OsStr,
    work: &mut Work,
    word: &OsStr,
    words: &mut impl Iterator<Item = OsString>,
) -> Result<(), Failure> {
    let mut parts = word.as_bytes().splitn(2, |&byte| byte == b'=');
    let option = OsStr::from_bytes(parts.next().unwrap_or_default());
    let joined = parts.next().map(|value| OsStr::from_bytes(value).into());
    let flag = joined.is_none();
    let mut value = || {
        joined
            .clone()
            .or_else(|| words.next())
            .ok_or_else(|| wrong(&format!("{} wants a word behind it", option.display())))
    };
    match (option.to_str(), &mut work.service) {
        (Some("--top"), Service::Report { top_n }) => *top_n = number(option, &value()?)?,
        (Some("--cap"), Service::Normalize { cap, .. }) => *cap = number(option, &value()?)?,
        (Some("--stats"), Service::Normalize { stats, .. }) if flag => *stats = true,
        (Some("--note"), Service::Normalize { note, .. }) if flag => *note = true,
        (Some("--name"), Service::Spell { path }) => *path = Chosen::Name(value()?.into_vec()),
        (Some("--room"), service) if !matches!(service, Service::Paths) => {
            work.room = number(option, &value()?)?;
        }
        (Some("-o" | "--output"), _) => work.output = Some(value()?.into()),
        _ => {
            let (name, word) = (name.display(), word.display());
            return Err(wrong(&format!("{name} has no option {word}")));
        }
    }
    Ok(())
}

/// The words that are no options: a path's number where one is wanted, and the
/// file to read.
fn places(work: &mut Work, plain: Vec<OsString>) -> Result<(), Failure> {
    let mut plain = plain.into_iter();
    if let Service::Spell {
        path: Chosen::Number(path),
    } = &mut work.service
    {
        let word = plain
            .next()
            .ok_or_else(|| wrong("spell wants the number of a path, or --name"))?;
        *path = number(OsStr::new("spell"), &word)?;
    }
    work.input = plain.next().filter(|file| file != "-").map(PathBuf::from);
    if let Some(more) = plain.next() {
        return Err(wrong(&format!("{} is one word too many", more.display())));
    }
    let noted = matches!(work.service, Service::Normalize { note: true, .. });
    if noted && work.output.as_deref() == Some(Path::new("-")) {
        return Err(wrong(
            "the note and the text cannot both go to standard output",
        ));
    }
    Ok(())
}

fn number(option: &OsStr, word: &OsStr) -> Result<usize, Failure> {
    word.to_str()
        .and_then(|digits| digits.parse().ok())
        .ok_or_else(|| {
            wrong(&format!(
                "{}: {} is no number",
                option.display(),
                word.display()
            ))
        })
}

fn wrong(message: &str) -> Failure {
    Failure::Wrong(format!("{message}; see yeshqoram --help"))
}
