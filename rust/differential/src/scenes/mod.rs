//! What the programs share that write scenes: frames and their words, moments
//! worth asking at, and the counts of what was reached.

pub mod counts;
pub mod frames;
pub mod moments;
pub mod words;
