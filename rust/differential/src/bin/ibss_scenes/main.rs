//! Scenes of a station of an IBSS (02, Five), in the words of the program
//! `run_scenes`: long runs of calls from several senders, each with the answer
//! that the twin gives. Without the answers the text is the program's input, and
//! what it writes must be this text.
//!
//! All of it comes from fixed seeds. What was given how often is told on
//! standard error; the run fails if something that can occur never did.

// The other programs of this package use the rest of these three.
#[allow(dead_code)]
#[path = "../../builder.rs"]
mod builder;
mod counts;
mod frames;
#[allow(dead_code)]
#[path = "../../rng.rs"]
mod rng;
mod scene;
#[allow(dead_code)]
#[path = "../../scenes/mod.rs"]
mod scenes;
mod words;

use counts::Counts;
use scene::Scene;
use std::io::Write;

const SCENES: u64 = 480;
/// So many of them begin near the clock's limit, which takes 65,538 advances.
const LATE: u64 = 12;

fn main() {
    let mut counts = Counts::default();
    let mut out = std::io::BufWriter::new(std::io::stdout().lock());
    for seed in 1..=SCENES {
        let is_late = seed % (SCENES / LATE) == 0;
        let text = Scene::play(seed, is_late, &mut counts);
        out.write_all(text.as_bytes()).expect("the text is taken");
    }
    out.flush().expect("the text is taken");
    if !counts.conclude() {
        std::process::exit(1);
    }
}
