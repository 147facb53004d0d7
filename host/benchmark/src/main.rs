//! The port and the Rust on the same texts, in one run: the time of each, the
//! ratio, and how both grow from size to size. docs/PERFORMANCE.md records a run.
//!
//! usage: benchmark [--before LIBRARY] [SERVICE | SHAPE]...
//!
//! LIBRARY is another build of the port as a shared library, measured in the
//! same run: what it took, and the port's time divided by that.

mod before;

use before::Before;
use cases::sizes::{self, Shape};
use cases::Service;
use std::process;
use std::time::{Duration, Instant};
use yeshqoram::least_work;

const SIZES: [usize; 4] = [1 << 14, 1 << 16, 1 << 18, 1 << 20];

/// A measurement takes about so long.
const PATIENCE: Duration = Duration::from_millis(300);

fn main() {
    let mut words: Vec<String> = std::env::args().skip(1).collect();
    let before = asked(&mut words).unwrap_or_else(|fault| {
        eprintln!("benchmark: {fault}");
        process::exit(2);
    });
    let chosen = |name: &str| words.is_empty() || words.iter().any(|word| word == name);
    let more = before.as_ref().map_or("", |_| "  before ms  after/before");
    println!(
        "service    shape              bytes    port ms    Rust ms  port/Rust  port x  Rust x{more}"
    );
    for service in Service::ALL {
        for shape in Shape::ALL {
            if chosen(service.name()) || chosen(shape.name()) {
                shaped(service, shape, before.as_ref());
            }
        }
    }
}

/// The library that `--before` names, which it takes from the words.
fn asked(words: &mut Vec<String>) -> Result<Option<Before>, String> {
    let Some(at) = words.iter().position(|word| word == "--before") else {
        return Ok(None);
    };
    if at + 1 == words.len() {
        return Err("--before names no library".to_string());
    }
    let path = words.drain(at..at + 2).nth(1).expect("there are two");
    Before::load(&path).map(Some)
}

/// One shape at each size. `x` is the time divided by that of the size before,
/// which is a fourth.
fn shaped(service: Service, shape: Shape, before: Option<&Before>) {
    let mut smaller: Option<(f64, f64)> = None;
    for bytes in SIZES {
        let text = sizes::text(shape, bytes);
        let (port, rust) = (port(service, &text), rust(service, &text));
        let growth = smaller.map_or_else(
            || format!("{:>6}  {:>6}", "", ""),
            |(old_port, old_rust)| format!("{:>6.1}  {:>6.1}", port / old_port, rust / old_rust),
        );
        let earlier = before.map_or_else(String::new, |before| {
            let old = earlier(before, service, &text);
            format!("  {old:>9.3}  {:>12.3}", port / old)
        });
        println!(
            "{:<9}  {:<15}  {bytes:>8}  {port:>9.3}  {rust:>9.3}  {:>9.3}  {growth}{earlier}",
            service.name(),
            shape.name(),
            port / rust,
        );
        smaller = Some((port, rust));
    }
}

fn port(service: Service, text: &[u8]) -> f64 {
    timed(text, |out, work| match service {
        Service::Report => yeshqoram::report(text, 10, out, work).length,
        Service::Normalize => yeshqoram::normalize(text, 0, out, work).answer.length,
        Service::Spell => yeshqoram::spell_path(text, 0, out, work).length,
    })
}

fn earlier(before: &Before, service: Service, text: &[u8]) -> f64 {
    timed(text, |out, work| match service {
        Service::Report => before.report(text, 10, out, work).length,
        Service::Normalize => before.normalize(text, 0, out, work).answer.length,
        Service::Spell => before.spell_path(text, 0, out, work).length,
    })
}

fn rust(service: Service, text: &[u8]) -> f64 {
    let text = std::str::from_utf8(text).expect("the shapes are 7-bit text");
    best(|| match service {
        Service::Report => oracle::timed::report(text, 10),
        Service::Normalize => oracle::timed::normalize(text, 0),
        Service::Spell => oracle::timed::spell(text, 0),
    })
}

/// The buffers are lent anew for each shape and size, and used by every call.
fn timed(text: &[u8], mut call: impl FnMut(&mut [u8], &mut [u32]) -> usize) -> f64 {
    let mut out = vec![0; 8 * text.len() + 65_536];
    let mut work = vec![0; least_work(text.len())];
    best(|| call(&mut out, &mut work))
}

/// The shortest of several runs, in milliseconds.
fn best(mut call: impl FnMut() -> usize) -> f64 {
    let begin = Instant::now();
    let mut shortest = Duration::MAX;
    while shortest == Duration::MAX || begin.elapsed() < PATIENCE {
        let start = Instant::now();
        std::hint::black_box(call());
        shortest = shortest.min(start.elapsed());
    }
    shortest.as_secs_f64() * 1000.0
}
