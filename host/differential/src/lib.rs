//! The port against the Rust, on one case: every value, count and refusal, the
//! bytes that were written and those that were not, and every word of work.

use cases::{Case, Service};
use oracle::Answer;
use yeshqoram::Normalized;

/// What a call returned, and what it left behind.
struct Left {
    answer: yeshqoram::Answer,
    stats: [usize; 14],
    out: Vec<u8>,
    work: Vec<u32>,
}

/// A byte and a word that stand where nothing was written; they depend on the
/// place, so that a moved one is seen.
fn poison_byte(place: usize) -> u8 {
    (place.wrapping_mul(37) ^ 0xa5) as u8
}

fn poison_word(place: usize) -> u32 {
    (place as u32).wrapping_mul(0x9e37_79b9) | 1
}

fn call(case: &Case) -> Left {
    let mut out: Vec<u8> = (0..case.room).map(poison_byte).collect();
    let mut work: Vec<u32> = (0..case.work).map(poison_word).collect();
    let mut stats = [0; 14];
    let answer = match case.service {
        Service::Report => yeshqoram::report(&case.text, case.arg, &mut out, &mut work),
        Service::Spell => yeshqoram::spell_path(&case.text, case.arg, &mut out, &mut work),
        Service::Normalize => {
            let Normalized {
                answer,
                stats: counted,
            } = yeshqoram::normalize(&case.text, case.arg, &mut out, &mut work);
            stats = counted.named().map(|(_, value)| value);
            answer
        }
    };
    Left {
        answer,
        stats,
        out,
        work,
    }
}

/// The first thing in which the port differs from the expected answer, in
/// words; nothing where all is the same.
pub fn difference(case: &Case, expected: &Answer) -> Option<String> {
    let left = call(case);
    let fields = [
        ("number", left.answer.number, expected.number),
        ("line", left.answer.line, expected.line),
        ("from", left.answer.from, expected.from),
        ("length", left.answer.length, expected.length),
    ];
    for (field, found, wanted) in fields {
        if found != wanted {
            return Some(format!("{field} is {found}, not {wanted}"));
        }
    }
    if left.stats != expected.stats {
        return Some(format!(
            "counters are {:?}, not {:?}",
            left.stats, expected.stats
        ));
    }
    let written = expected.output.len();
    if left.out[..written] != expected.output[..] {
        return Some("the bytes that were written differ".to_string());
    }
    if let Some(place) =
        (written..left.out.len()).find(|&place| left.out[place] != poison_byte(place))
    {
        return Some(format!("byte {place} of the output was changed"));
    }
    if let Some(place) = left.work.iter().position(|&word| word != 0) {
        return Some(format!("word {place} of the work area is not zero"));
    }
    None
}
