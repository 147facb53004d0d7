//! Cases by number: a kind, a seed and a number give one case, so that any
//! range can be run again.

use crate::rng::Rng;
use crate::{damage, graphs, tiny, Case, Service};

#[derive(Clone, Copy, Debug, Eq, PartialEq)]
pub enum Kind {
    /// All texts over the tokens, each with the three services; no seed.
    Tokens,
    /// The same over the pieces.
    Pieces,
    Graphs,
    Damaged,
    /// Graphs and damaged graphs with the largest arguments.
    Largest,
    /// Graphs and damaged graphs by turns; two of eight have the largest
    /// arguments.
    Mixed,
}

impl Kind {
    pub fn by_name(name: &str) -> Option<Self> {
        Some(match name {
            "tokens" => Kind::Tokens,
            "pieces" => Kind::Pieces,
            "graphs" => Kind::Graphs,
            "damaged" => Kind::Damaged,
            "largest" => Kind::Largest,
            "mixed" => Kind::Mixed,
            _ => return None,
        })
    }
}

/// The case of a number, and its label.
pub fn case(kind: Kind, seed: u64, number: u64) -> (String, Case) {
    match kind {
        Kind::Tokens => enumerated("tokens", &tiny::TOKENS, number),
        Kind::Pieces => enumerated("pieces", &tiny::PIECES, number),
        Kind::Graphs => random(seed, number, false, argument),
        Kind::Damaged => random(seed, number, true, argument),
        Kind::Largest => random(seed, number, number % 2 == 1, largest),
        Kind::Mixed if number % 8 >= 6 => random(seed, number, number % 2 == 1, largest),
        Kind::Mixed => random(seed, number, number % 2 == 1, argument),
    }
}

fn enumerated(label: &str, alphabet: &[&str], number: u64) -> (String, Case) {
    let service = Service::ALL[(number % 3) as usize];
    let arg = if service == Service::Report { 10 } else { 0 };
    let text = tiny::text(alphabet, number / 3);
    (
        format!("{label} {}", number / 3),
        Case::new(service, arg, text),
    )
}

fn random(
    seed: u64,
    number: u64,
    damaged: bool,
    argument: fn(&mut Rng, Service) -> usize,
) -> (String, Case) {
    let mut rng = Rng::new(seed, number);
    let mut text = graphs::text(&mut rng);
    let mut label = "graph";
    if damaged {
        text = damage::damaged(&mut rng, &text);
        label = "damaged graph";
    }
    let service = Service::ALL[rng.below(3)];
    let arg = argument(&mut rng, service);
    let mut case = Case::new(service, arg, text);
    resize(&mut rng, &mut case);
    (format!("{label} {number} of seed {seed}"), case)
}

fn argument(rng: &mut Rng, service: Service) -> usize {
    let args = match service {
        Service::Report => [10, 10, 0, 1, 2, usize::MAX],
        Service::Normalize => [0, 0, 1, 2, 3, 7],
        Service::Spell => [0, 0, 0, 0, 1, 2],
    };
    args[rng.below(args.len())]
}

/// The largest number and those next to it, and the ends of shorter words:
/// the same for the nodes of a report, a cap, and the number of a path.
pub const LARGEST: [usize; 9] = [
    usize::MAX,
    usize::MAX - 1,
    usize::MAX - 2,
    usize::MAX / 2 + 1,
    usize::MAX / 2,
    usize::MAX / 4 + 1,
    u32::MAX as usize + 1,
    u32::MAX as usize,
    i32::MAX as usize + 1,
];

fn largest(rng: &mut Rng, _: Service) -> usize {
    LARGEST[rng.below(LARGEST.len())]
}

/// Now and then an output buffer or a work area near its least size.
fn resize(rng: &mut Rng, case: &mut Case) {
    if rng.once_in(12) {
        case.room = (case.answer().length + 1).saturating_sub(rng.below(3));
    }
    if rng.once_in(24) {
        case.room = rng.below(case.text.len() + 1);
    }
    if rng.once_in(24) {
        case.work = (case.work + 1).saturating_sub(rng.below(3));
    }
}

#[cfg(test)]
mod tests {
    use super::*;

    #[test]
    fn the_same_again() {
        for number in 0..200 {
            assert_eq!(case(Kind::Mixed, 7, number), case(Kind::Mixed, 7, number));
        }
        assert_ne!(case(Kind::Mixed, 7, 0), case(Kind::Mixed, 8, 0));
    }

    #[test]
    fn the_largest_arguments_of_every_service() {
        let cases: Vec<Case> = (0..2_000).map(|i| case(Kind::Mixed, 1, i).1).collect();
        for service in Service::ALL {
            for arg in LARGEST {
                let mut alike = cases
                    .iter()
                    .filter(|case| (case.service, case.arg) == (service, arg));
                assert!(alike.next().is_some(), "{service:?} {arg}");
            }
        }
        let folds = cases
            .iter()
            .filter(|case| LARGEST.contains(&case.arg) && case.answer().stats[6] > 0);
        assert!(folds.count() > 3);
    }

    #[test]
    fn every_refusal_and_folds() {
        let mut numbers = [0usize; 23];
        let mut folds = 0;
        for number in 0..20_000 {
            let answer = case(Kind::Mixed, 1, number).1.answer();
            numbers[answer.number] += 1;
            folds += usize::from(answer.stats[6] > 0);
        }
        for number in (2..=19).chain([0, 21, 22]) {
            assert!(numbers[number] > 0, "no case gives {number}");
        }
        assert_eq!((numbers[1], numbers[20]), (0, 0));
        assert!(folds > 500, "{folds} of 20,000 fold");
    }
}
