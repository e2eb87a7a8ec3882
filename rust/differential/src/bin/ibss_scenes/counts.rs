//! What the scenes of an IBSS reached.

use crate::scenes::counts::{tell_events, tell_numbers, Given};

/// How often each answer was given, and how often what else is worth seeing.
#[derive(Default)]
pub struct Counts {
    pub lines: u64,
    pub starts: Given,
    pub frames: Given,
    pub advances: Given,
    pub asks: Given,
    pub reads: Given,
    pub pairs: Given,
    events: [u64; EVENTS.len()],
}

/// What can happen beside a number.
#[derive(Clone, Copy)]
pub enum Event {
    Named,
    NamedAgain,
    Replaced,
    NamedUnheard,
    Shortened,
    Heard,
    HeardAtTbtt,
    GivenUp,
    GivenUpPending,
    Missed,
    ObeyedInBeacon,
    ObeyedInProbe,
    ObeyedInAction,
    ObeyedAtOnce,
    NamedAndAnnounced,
    ForeignBeacon,
    ForeignNaming,
    ForeignProbe,
    ForeignAction,
    Switched,
    SwitchedOwned,
    LongAdvance,
    AtTheLimit,
}

const EVENTS: [&str; 23] = [
    "an owner named where none was known",
    "the same owner named again",
    "an owner replaced",
    "an owner named that had sent a beacon since the latest TBTT, and is not heard by that",
    "a recovery interval shortened to no more than the misses",
    "an owner heard",
    "an owner heard at the very moment of a TBTT",
    "an owner given up",
    "an owner given up while a switch was pending",
    "a miss counted",
    "an announcement in a beacon accepted",
    "an announcement in a probe response accepted",
    "an announcement in an action frame accepted",
    "an announcement of count 0 accepted",
    "an announcement accepted with the element 41 that names its sender",
    "23 for a beacon",
    "23 for a beacon with an element 41",
    "23 for a probe response",
    "23 for an action frame",
    "a switch reached",
    "a switch reached with an owner known",
    "an advance of 65,535",
    "the clock at its limit",
];

impl Counts {
    pub fn event(&mut self, event: Event) {
        self.events[event as usize] += 1;
    }

    /// Tells the counts; whether all that can occur did, and nothing else.
    pub fn conclude(&self) -> bool {
        // Of a pair no header is wrong, and no action body; frames that are read
        // alone, no station judges.
        let refusals = [0, 1, 2, 3, 4, 5, 6, 7, 8, 9, 10, 11, 12, 21, 22];
        let frames = [&refusals[..], &[23]].concat();
        let pairs = [0, 1, 6, 8, 9, 10, 11, 12, 16];
        let tables = [
            ("start", &self.starts, &[0, 15][..]),
            ("frame", &self.frames, &frames),
            ("advance", &self.advances, &[0, 14]),
            ("ask", &self.asks, &[0, 1, 2, 3, 4, 5]),
            ("read", &self.reads, &refusals),
            ("pair", &self.pairs, &pairs),
        ];
        let is_complete = tell_numbers("ibss scenes", self.lines, &tables);
        tell_events(&EVENTS, &self.events) && is_complete
    }
}
