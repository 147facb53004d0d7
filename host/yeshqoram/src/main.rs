//! The command line.

mod args;
mod failure;
mod fault;
mod files;
mod folded;
mod graph;
mod help;
mod lines;
mod memory;
mod need;
mod note;
mod paths;
mod refusals;
mod room;
mod save;
mod shown;
mod streams;

use args::{Chosen, Command, Service, Work};
use failure::Failure;
use save::save;
use std::process::ExitCode;
use streams::Stream;

fn main() -> ExitCode {
    let Err(failure) = run() else {
        return ExitCode::SUCCESS;
    };
    if let Some(message) = failure.message() {
        // Where this cannot be said either, the status still tells.
        let _ = Stream::Error.write(format!("yeshqoram: {message}\n").as_bytes());
    }
    ExitCode::from(failure.status())
}

fn run() -> Result<(), Failure> {
    match args::parse(std::env::args_os().skip(1))? {
        Command::Print(text) => Stream::Output.write(text.as_bytes()),
        Command::Work(work) => serve(&work),
    }
}

fn serve(work: &Work) -> Result<(), Failure> {
    let text = files::read(work.input.as_deref())?;
    let output = work.output.as_deref();
    match &work.service {
        Service::Report { top_n } => save(output, &room::report(&text, *top_n, work.room)?),
        Service::Spell { path } => {
            let mut bases = room::spell_path(&text, chosen(&text, path)?, work.room)?;
            bases.push(b'\n');
            save(output, &bases)
        }
        Service::Paths => {
            room::readable(&text)?;
            save(output, &paths::list(&text)?)
        }
        Service::Normalize { cap, stats, note } => {
            let (normalized, counters) = room::normalize(&text, *cap, work.room)?;
            let note = note
                .then(|| note::note(&text, &normalized, *cap, &counters))
                .transpose()?;
            if *stats {
                show(&counters)?;
            }
            if note.is_none() || output.is_some() {
                save(output, &normalized)?;
            }
            note.map_or(Ok(()), |note| Stream::Output.write(&note))
        }
    }
}

fn chosen(text: &[u8], path: &Chosen) -> Result<usize, Failure> {
    match path {
        Chosen::Number(number) => Ok(*number),
        Chosen::Name(name) => {
            room::readable(text)?;
            paths::number(text, name)
        }
    }
}

/// The counters, on standard error, so that they do not mix with the text.
fn show(stats: &yeshqoram::Stats) -> Result<(), Failure> {
    let lines = stats
        .named()
        .map(|(name, value)| format!("{name}={value}\n"));
    Stream::Error.write(lines.concat().as_bytes())
}
