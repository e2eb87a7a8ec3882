//! What the scenes of a table reached.

use crate::scenes::counts::{tell_events, tell_numbers, Given, NUMBERS};

/// How often each answer was given, and how often what else is worth seeing.
pub struct Counts {
    pub lines: u64,
    calls: [Given; CALLS.len()],
    events: [u64; EVENTS.len()],
}

/// The calls that give a number.
#[derive(Clone, Copy)]
pub enum Call {
    Start,
    Join,
    Leave,
    Tick,
    Ask,
    FrameToOne,
    FrameToAll,
    ReplyTpc,
    ReplyMeasurement,
    Row,
}

/// Their names, and the numbers that they can give.
const CALLS: [(&str, &[usize]); 10] = [
    ("start", &[0, 15]),
    ("join", &[0, 15, 24, 25]),
    ("leave", &[0, 26]),
    ("tick", &[0, 14]),
    ("ask", &[0, 1, 2, 3, 4, 5, 26]),
    ("frame to one", FRAME),
    ("frame to all", FRAME),
    ("reply-tpc", REPLY),
    ("reply-measurement", REPLY),
    ("row", &[0, 26]),
];

const FRAME: &[usize] = &[0, 1, 2, 3, 4, 5, 6, 7, 8, 9, 10, 11, 12, 21, 22];
const REPLY: &[usize] = &[0, 1, 2, 3, 4, 13, 16, 18];

/// What can happen beside a number.
#[derive(Clone, Copy)]
pub enum Event {
    Full,
    UsedAgain,
    JoinedAgain,
    JoinedWithin,
    JoinedAtLimit,
    ApJoined,
    JoinedTwiceInFull,
    WrongBeforeTwice,
    WrongInFull,
    LeftPending,
    LeftEmpty,
    HeardByAll,
    HeardByNobody,
    BrokenToNobody,
    HeardByAp,
    ToAp,
    ToLeft,
    ToGroup,
    OfOtherAp,
    AtOnce,
    Next,
    AfterNext,
    Last,
    Silencing,
    NextSoonAfterJoining,
    ManyQuiet,
    RunsOn,
    Switched,
    SwitchedAlone,
    LongTick,
    AtTheLimit,
    RefusedAtLimit,
    RefusedWithNobody,
    StrangerBeforeLength,
    Differently,
    PendingDifferently,
    TpcReport,
    ErrorReturn,
    Late,
    Incapable,
    Refused,
    Map,
    Busy,
    Densities,
    ReplyWithRun,
}

const EVENTS: [&str; 45] = [
    "the last free row joined",
    "a row joined that another had left, as there is no other",
    "an address joined again that had left",
    "a row joined within a beacon interval",
    "a row joined at the clock's limit",
    "a row joined by the AP's own address",
    "25 while no row is free",
    "15 for an address that is joined",
    "15 while no row is free",
    "a row left with a switch pending",
    "the last row left that was joined",
    "a frame to all ones accepted with several rows joined",
    "a frame to all ones accepted with no row joined",
    "a frame to all ones refused at a place of it with no row joined",
    "a frame to the AP's own address accepted",
    "4 for a frame to the AP, which is not joined",
    "4 for a frame to an address that has left",
    "4 for a frame to a group address that is not all ones",
    "4 for a frame to a station that is joined, or to all ones",
    "an announcement of count 0 accepted",
    "an announcement of count 1 accepted",
    "an announcement of count 2 accepted",
    "an announcement of count 255 accepted",
    "an announcement of mode 1 accepted",
    "an announcement of count 1 accepted in the beacon interval of a joining",
    "a frame with eight Quiet elements accepted",
    "a quiet interval that goes on past a frame without Quiet elements",
    "a switch reached",
    "a switch reached while that of another row stays pending",
    "a tick of 65,535",
    "the clock at its limit",
    "a tick of no more than 65,535 refused",
    "a tick refused with no row joined",
    "26 for a question of 0 or over 65,535 units",
    "one question answered differently by two rows",
    "different switches pending in two rows",
    "a TPC report as reply",
    "an error return as reply",
    "a late report as reply",
    "an incapable report as reply",
    "a refused report as reply",
    "a map as reply",
    "a busy fraction as reply",
    "densities as reply",
    "a reply with a run of octets that are alike",
];

impl Counts {
    pub fn new() -> Counts {
        Counts {
            lines: 0,
            calls: [[0; NUMBERS]; CALLS.len()],
            events: [0; EVENTS.len()],
        }
    }

    pub fn given(&mut self, call: Call, number: u8) {
        self.calls[call as usize][usize::from(number)] += 1;
    }

    pub fn event(&mut self, event: Event) {
        self.events[event as usize] += 1;
    }

    pub fn event_if(&mut self, happened: bool, event: Event) {
        if happened {
            self.event(event);
        }
    }

    /// Tells the counts; whether all that can occur did, and nothing else.
    pub fn conclude(&self) -> bool {
        let tables: Vec<_> = CALLS
            .iter()
            .zip(&self.calls)
            .map(|(&(name, can), given)| (name, given, can))
            .collect();
        let is_complete = tell_numbers("table scenes", self.lines, &tables);
        tell_events(&EVENTS, &self.events) && is_complete
    }
}
