//! Cases for the services, answered by the oracle: small texts by enumeration,
//! random and damaged graphs from a seed, large texts of several shapes, the
//! fixed list of the repository, and the format they are recorded in.

pub mod damage;
pub mod format;
pub mod generate;
pub mod graphs;
pub mod list;
pub mod rng;
pub mod sizes;
pub mod tiny;

use oracle::Answer;

/// The output buffer of a case, where nothing else is said.
pub const ROOM: usize = 65_536;

#[derive(Clone, Copy, Debug, Eq, Hash, PartialEq)]
pub enum Service {
    Report,
    Normalize,
    Spell,
}

impl Service {
    pub const ALL: [Service; 3] = [Service::Report, Service::Normalize, Service::Spell];

    pub fn name(self) -> &'static str {
        match self {
            Service::Report => "report",
            Service::Normalize => "normalize",
            Service::Spell => "spell",
        }
    }

    pub fn by_name(name: &str) -> Option<Self> {
        Service::ALL
            .into_iter()
            .find(|service| service.name() == name)
    }

    /// What the service's argument means.
    pub fn argument(self) -> &'static str {
        match self {
            Service::Report => "top",
            Service::Normalize => "cap",
            Service::Spell => "path",
        }
    }
}

/// One call: the argument is the number of nodes to report, the cap, or the
/// number of the path; the work area is in words.
#[derive(Clone, Debug, Eq, PartialEq)]
pub struct Case {
    pub service: Service,
    pub arg: usize,
    pub text: Vec<u8>,
    pub room: usize,
    pub work: usize,
}

impl Case {
    /// A call with the usual room and the least work area that is accepted.
    pub fn new(service: Service, arg: usize, text: Vec<u8>) -> Self {
        let work = least_work(&text);
        Case {
            service,
            arg,
            text,
            room: ROOM,
            work,
        }
    }

    pub fn answer(&self) -> Answer {
        let service = match self.service {
            Service::Report => oracle::report,
            Service::Normalize => oracle::normalize,
            Service::Spell => oracle::spell,
        };
        service(&self.text, self.arg, self.room, self.work)
    }

    /// Whose answer it is: the Rust's, or one by document 01's rules alone.
    pub fn source(&self, answer: &Answer) -> &'static str {
        let rules = match answer.number {
            0 => self.service == Service::Report && oracle::tied_by_chance(&self.text, self.arg),
            number => matches!(number, 1..=4 | 21 | 22),
        };
        if rules {
            "rules"
        } else {
            "Rust"
        }
    }
}

/// The least work area that a text is not refused for.
pub fn least_work(text: &[u8]) -> usize {
    4 * text.len() + 64
}
