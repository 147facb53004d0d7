//! The command line: what it prints, its exit status, and that no file is lost.

mod gate;
mod memory;
mod need;
mod note;
mod output;
mod paths;
mod program;
mod refusals;
mod services;
mod statuses;

// The generators of the differential runs.
#[path = "../../../cases/src/damage.rs"]
mod damage;
#[path = "../../../cases/src/graphs.rs"]
mod graphs;
#[path = "../../../cases/src/rng.rs"]
mod rng;
