//! The proved library and the twin, an independent implementation of the same
//! document, called with the same octets: every answer must be the same, and
//! so must every octet of a lent buffer, on a refusal too, and the place where
//! a refused frame broke.
//!
//! All cases come from fixed seeds, so each run is the same run. It prints how
//! many cases were compared, how often each number was the answer, and at how
//! many places; it fails if anything differs, if a number that can occur did
//! not, or if the first or the last place of one was not met.

mod bodies;
mod builder;
mod captures;
mod count;
mod elements;
mod frames;
mod ibss;
mod lend;
mod numbers;
mod pairs;
mod raw;
mod records;
mod replies;
mod rng;
// The programs that write scenes use the rest of it.
#[allow(dead_code)]
mod scenes;
mod tape;

use count::Count;

fn main() {
    let mut count = Count::new();
    frames::run(&mut count);
    elements::run(&mut count);
    bodies::run(&mut count);
    replies::run(&mut count);
    numbers::run(&mut count);
    captures::run(&mut count);
    ibss::run(&mut count);
    records::run(&mut count);
    if !count.conclude() {
        std::process::exit(1);
    }
}
