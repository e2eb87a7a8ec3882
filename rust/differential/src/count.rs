//! Comparisons, and the count of what they reached.
//!
//! A run that compares equal answers shows little if some answer was never
//! among them. So each call has the numbers that it can give, and the run
//! fails unless it gave every one of them, and none besides. In the same way
//! each number has the first and the last place at which a frame can break so.

use crate::builder::{HEADER, LONGEST, NOTICE};
use crate::lend::Left;
use crate::rng::Rng;
use std::fmt::Debug;

/// The numbers of the document's table, with 0 for accepted.
const NUMBERS: usize = 23;
/// The answers to an ask.
const ASKS: usize = 6;
/// So many differences of a subject are told; the others are counted.
const TOLD: u64 = 3;

/// The calls of the library, and the lines that a list can have.
#[derive(Clone, Copy)]
pub enum Call {
    ReadFrame,
    FaultOffset,
    ReadElement,
    WriteFree,
    WriteElement,
    WriteBody,
    ReplyTpc,
    ReturnTpc,
    ReplyMeasurement,
    ReturnMeasurement,
    Number,
    List,
    StartLine,
    AdvanceLine,
    FrameLine,
    PlacedLine,
    AskLine,
    RecordLine,
    BlockLine,
    ReadIbss,
    IbssOffset,
    IbssQuiet,
    DfsPair,
    WriteDfs,
    RecordStart,
    RecordTake,
    RecordAdvance,
    RecordAsk,
    RecordTpc,
    RecordMeasurement,
}

/// Who was asked to send: the station of a list, or one in its caller's octets.
#[derive(Clone, Copy)]
pub enum Asked {
    Line,
    Record,
}

/// In the order of `Asked`.
const ASKED: [&str; 2] = ["line", "record"];

/// What broke at a place: a frame to document 01's reader, a frame of an IBSS,
/// or the element 41 of a beacon of an IBSS.
#[derive(Clone, Copy)]
pub enum Reader {
    Ap,
    Ibss,
    Dfs,
}

/// A call's name in the table, and the numbers that it can give.
struct Can(&'static str, &'static [u8]);

/// In the order of `Call`, with what cannot occur and why. All numbers occur
/// somewhere. 17, 19 and 20 do in the lines of lists alone, since no other call
/// has a block or a record of a capture to read; 14 and 15 there and where a
/// station is kept in octets, since nothing else has a clock or a start; 18 in
/// replies alone; 1 to 12, 21 and 22 where frames are read.
const CAN: [Can; 30] = [
    // Not 13: the safe call lends a buffer of its own, which is long enough.
    // Not 16: no index is asked for.
    Can("read", &[0, 1, 2, 3, 4, 5, 6, 7, 8, 9, 10, 11, 12, 21, 22]),
    // 0 stands for a place, which is how 5 to 12, 21 and 22 are answered; 16
    // for an accepted frame.
    Can("place", &[0, 1, 2, 3, 4, 16]),
    // The frame's own refusal, or 16 for the index. Not 13, as above.
    Can("index", &[0, 1, 2, 3, 4, 5, 6, 7, 8, 9, 10, 11, 12, 16, 21, 22]),
    // Elements 32, 34 and 35 and the TPC Report body. Not 16: the rules forbid
    // no value of theirs.
    Can("free", &[0, 13]),
    // Elements 37, 38, 39 and 40. Not 9: what the reader would refuse so, a
    // writer refuses with 16.
    Can("element", &[0, 13, 16]),
    // The bodies of actions 0, 1, 2 and 4. Not 2, 6 to 10, 21, 22: a body that
    // would be too long, a token that repeats, or something wrong with the body
    // to which an element is to be appended, is 16 as well.
    Can("body", &[0, 13, 16]),
    // Not 5 to 12, 21, 22: past check 4 a broken body is returned, which is 0,
    // or no reply is due, 18. Beside each call, of its 0 the error returns, by
    // what is wrong with the body. Not 11, 12: no action body is refused so.
    Can("tpc", &[0, 1, 2, 3, 4, 13, 16, 18]),
    Can("t-error", &[1, 5, 6, 7, 8, 9, 10, 21, 22]),
    Can("measure", &[0, 1, 2, 3, 4, 13, 16, 18]),
    Can("m-error", &[1, 5, 6, 7, 8, 9, 10, 21, 22]),
    // Not 13: nothing is lent, or a buffer of the safe call's own.
    Can("number", &[0, 16]),
    // The call as such. Nothing in a capture makes it refuse: that is told by
    // lines.
    Can("list", &[0, 13]),
    // Not 19: a start needs no station. A start of another length is 20.
    Can("start", &[0, 15]),
    // 14 for the clock's limit alone: two octets hold no more than 65,535.
    Can("advance", &[0, 14, 19]),
    // Lines that end with the number, and lines in which a place follows it.
    // Not 2: a record has at most 508 octets, so a frame in it at most 505. Not
    // 13, 16, 18: a station that takes a frame writes nothing.
    Can("frame", &[0, 1, 3, 4, 19]),
    Can("f-place", &[5, 6, 7, 8, 9, 10, 11, 12, 21, 22]),
    // The answers to an ask have a table of their own, in which all six occur,
    // 5 for asks of 0 alone: two octets hold no more than 65,535.
    Can("ask", &[19]),
    // These two words stand for one refusal each.
    Can("record", &[20]),
    Can("block", &[17]),
    // Frames of an IBSS, in the same way; 13 in buffers that are short. Not 16:
    // no index is asked for. Not 23: whether an announcement is the owner's is
    // for a station to say, and no reader knows the owner.
    Can("ibss", &[0, 1, 2, 3, 4, 5, 6, 7, 8, 9, 10, 11, 12, 13, 21, 22]),
    Can("i-place", &[0, 1, 2, 3, 4, 16]),
    Can("i-quiet", &[0, 1, 2, 3, 4, 5, 6, 7, 8, 9, 10, 11, 12, 13, 16, 21, 22]),
    Can("pair", &[0, 1, 2, 3, 4, 5, 6, 7, 8, 9, 10, 11, 12, 13, 16, 21, 22]),
    // Not 9, as with the other elements.
    Can("dfs", &[0, 13, 16]),
    // A station in octets. Not 16 at a start, which asks nothing of them but
    // their number; 16 from all other calls where they hold no station.
    Can("r-start", &[0, 13, 15]),
    Can("r-frame", &[0, 1, 2, 3, 4, 5, 6, 7, 8, 9, 10, 11, 12, 16, 21, 22]),
    Can("r-adv", &[0, 14, 16]),
    // 0 stands for an answer, which the table of asks counts.
    Can("r-ask", &[0, 16]),
    Can("r-tpc", &[0, 1, 2, 3, 4, 13, 16, 18]),
    Can("r-meas", &[0, 1, 2, 3, 4, 13, 16, 18]),
];

/// A number that comes with a place, and the first and the last place that it
/// can have.
struct Placed(u8, usize, usize);

/// The places were worked out from the document. The last ones are those of
/// the shortest thing that can be so wrong, at the end of the longest frame.
const PLACED: [Placed; 10] = [
    // The category or the action.
    Placed(5, HEADER, HEADER + 1),
    // The element of action 4, which has no token; half an element's header.
    Placed(6, HEADER + 2, LONGEST - 1),
    // Where the element would begin, without a token before it and with one.
    Placed(7, HEADER + 2, HEADER + 3),
    // An element without contents.
    Placed(8, HEADER + 2, LONGEST - 2),
    // A token, or the element of action 4; an element of five octets.
    Placed(9, HEADER + 2, LONGEST - 5),
    // The second Enable element of a request; a second Power Constraint.
    Placed(10, HEADER + 3 + 5, LONGEST - 3),
    // A Quiet element right after eight others; one at the end.
    Placed(11, NOTICE + 8 * 8, LONGEST - 8),
    // The field of the interval.
    Placed(12, HEADER + 8, HEADER + 8),
    // As with 6, but with a whole header: half a header is 6.
    Placed(21, HEADER + 2, LONGEST - 2),
    // After the element of action 2; one octet after vendors' elements.
    Placed(22, HEADER + 5, LONGEST - 1),
];

/// The places of a frame of an IBSS are the same: element 41 is longer than what
/// breaks first or last. Those of element 41 itself, which begins where the
/// elements of a beacon do.
const DFS_PLACED: [Placed; 4] = [
    // Half its header.
    Placed(6, NOTICE, LONGEST - 1),
    // Without contents.
    Placed(8, NOTICE, LONGEST - 2),
    // The shortest has nine octets.
    Placed(9, NOTICE, LONGEST - 9),
    // A second one right after the shortest, and at the end.
    Placed(10, NOTICE + 9, LONGEST - 9),
];

/// In the order of `Reader`: what breaks, and its places.
const READERS: [(&str, &[Placed]); 3] = [("frame", &PLACED), ("ibss", &PLACED), ("dfs", &DFS_PLACED)];

/// What a subject has compared so far.
struct Subject {
    name: &'static str,
    seed: u64,
    cases: u64,
    differences: u64,
}

/// The count of a whole run.
pub struct Count {
    subjects: Vec<Subject>,
    answers: [[u64; NUMBERS]; CAN.len()],
    /// How often each number came with each place, by the reader.
    places: [Vec<[u64; NUMBERS]>; READERS.len()],
    /// How often each answer was given, by who was asked.
    asks: [[u64; ASKS]; ASKED.len()],
}

impl Count {
    pub fn new() -> Count {
        Count {
            subjects: Vec::new(),
            answers: [[0; NUMBERS]; CAN.len()],
            places: std::array::from_fn(|_| vec![[0; NUMBERS]; LONGEST + 1]),
            asks: [[0; ASKS]; ASKED.len()],
        }
    }

    /// Begins a subject, and gives the generator of its seed.
    pub fn begin(&mut self, name: &'static str, seed: u64) -> Rng {
        self.subjects.push(Subject {
            name,
            seed,
            cases: 0,
            differences: 0,
        });
        Rng::new(seed)
    }

    /// Notes that a call gave this number. One that is not in the table is no
    /// number of the twin, so it is told as a difference.
    pub fn note(&mut self, call: Call, number: u8) {
        if let Some(place) = self.answers[call as usize].get_mut(usize::from(number)) {
            *place += 1;
        }
    }

    /// Notes that a frame was refused with this number at this place. A place
    /// past the longest frame is none of the twin, so it is told as a
    /// difference.
    pub fn note_place(&mut self, reader: Reader, number: u8, place: usize) {
        let numbers = self.places[reader as usize].get_mut(place);
        if let Some(times) = numbers.and_then(|numbers| numbers.get_mut(usize::from(number))) {
            *times += 1;
        }
    }

    /// Notes the answer to an ask.
    pub fn note_ask(&mut self, asked: Asked, number: u8) {
        if let Some(place) = self.asks[asked as usize].get_mut(usize::from(number)) {
            *place += 1;
        }
    }

    /// Compares what a call gave back.
    pub fn values<T: PartialEq + Debug>(
        &mut self,
        call: Call,
        library: &Result<T, u8>,
        twin: &Result<T, u8>,
        input: impl FnOnce() -> String,
    ) {
        self.note(call, library.as_ref().err().copied().unwrap_or(0));
        self.compare(library, twin, input);
    }

    /// Compares what a call left in the buffer that it was lent. That a refusal
    /// leaves every octet as it was is asked of the library by itself too, so
    /// that it does not rest on the twin.
    pub fn buffers(
        &mut self,
        call: Call,
        library: &Left,
        twin: &Left,
        input: impl FnOnce() -> String,
    ) {
        self.note(call, library.answer.err().unwrap_or(0));
        let kept = library.answer.is_ok() || library.is_as_before();
        self.compare(&(library, kept), &(twin, true), input);
    }

    /// Compares what the library reads with the record that was written.
    pub fn read_back<T: PartialEq + Debug>(
        &mut self,
        call: Call,
        library: &Result<T, u8>,
        record: T,
        input: impl FnOnce() -> String,
    ) {
        self.note(call, library.as_ref().err().copied().unwrap_or(0));
        self.case(("library", library), ("record", &Ok(record)), input);
    }

    /// Compares what the twin gives with what it must give, by the document or
    /// by what was written: the twin is no judge where it is wrong itself.
    pub fn twin_gives<T: PartialEq + Debug>(
        &mut self,
        twin: &T,
        expected: &T,
        input: impl FnOnce() -> String,
    ) {
        self.case(("twin", twin), ("expected", expected), input);
    }

    /// Compares what the library gives with what it must give by the document.
    pub fn library_gives<T: PartialEq + Debug>(
        &mut self,
        library: &T,
        expected: &T,
        input: impl FnOnce() -> String,
    ) {
        self.case(("library", library), ("expected", expected), input);
    }

    /// Compares what the two sides give.
    pub fn compare<T: PartialEq + Debug>(
        &mut self,
        library: &T,
        twin: &T,
        input: impl FnOnce() -> String,
    ) {
        self.case(("library", library), ("twin", twin), input);
    }

    /// One case: two values, each with the name of what gave it. The input is
    /// asked for only where there is something to tell.
    fn case<T: PartialEq + Debug>(
        &mut self,
        one: (&str, &T),
        other: (&str, &T),
        input: impl FnOnce() -> String,
    ) {
        let subject = self.subjects.last_mut().expect("a subject was begun");
        subject.cases += 1;
        if one.1 == other.1 {
            return;
        }
        subject.differences += 1;
        if subject.differences <= TOLD {
            println!(
                "DIFFERS: {}, seed {:#x}, case {}",
                subject.name, subject.seed, subject.cases
            );
            println!("  input: {}", input());
            println!("  {}: {:?}", one.0, one.1);
            println!("  {}: {:?}", other.0, other.1);
        }
    }

    /// Prints the tables, and what is wrong with them; whether all is well.
    pub fn conclude(&self) -> bool {
        self.print_cases();
        self.print_answers();
        self.print_places();
        let mut well = true;
        for subject in &self.subjects {
            if subject.differences != 0 {
                println!(
                    "FAILED: {} cases of {} differ",
                    subject.differences, subject.name
                );
                well = false;
            }
        }
        for fault in self.faults() {
            println!("FAILED: {}", fault);
            well = false;
        }
        well
    }

    fn print_cases(&self) {
        for subject in &self.subjects {
            println!("{:<10}{:>9} cases compared", subject.name, subject.cases);
        }
    }

    /// A line for each number: how often in all, then by call. A dash stands
    /// where the call cannot give the number.
    fn print_answers(&self) {
        print!("\nanswer     all");
        for Can(name, _) in &CAN {
            print!("{:>8}", name);
        }
        println!();
        for number in 0..NUMBERS {
            let all: u64 = self.answers.iter().map(|answers| answers[number]).sum();
            print!("{:>6}{:>8}", number, all);
            for (Can(_, can), answers) in CAN.iter().zip(&self.answers) {
                if answers[number] != 0 || can.contains(&(number as u8)) {
                    print!("{:>8}", answers[number]);
                } else {
                    print!("{:>8}", "-");
                }
            }
            println!();
        }
        let [line, record] = ASKED;
        println!("\n   ask{line:>8}{record:>8}");
        for answer in 0..ASKS {
            let [line, record] = self.asks.map(|asks| asks[answer]);
            println!("{answer:>6}{line:>8}{record:>8}");
        }
    }

    /// The places at which frames were refused with this number, in order.
    fn places_of(&self, reader: usize, number: usize) -> Vec<usize> {
        let places = self.places[reader].iter().enumerate();
        let seen = places.filter(|(_, numbers)| numbers[number] != 0);
        seen.map(|(place, _)| place).collect()
    }

    /// A line for each number that came with a place: how often, at how many
    /// different places, and the first and the last of them.
    fn print_places(&self) {
        for (reader, (name, _)) in READERS.iter().enumerate() {
            println!("\n{name:>6}     all  places   first    last");
            for number in 0..NUMBERS {
                let all: u64 = self.places[reader].iter().map(|numbers| numbers[number]).sum();
                let places = self.places_of(reader, number);
                if let (Some(first), Some(last)) = (places.first(), places.last()) {
                    let many = places.len();
                    println!("{number:>6}{all:>8}{many:>8}{first:>8}{last:>8}");
                }
            }
        }
    }

    /// Numbers that came with a place and should not, or of which the first or
    /// the last place is not the one that it must be.
    fn misplaced(&self) -> Vec<String> {
        let mut faults = Vec::new();
        for (reader, (name, placed)) in READERS.iter().enumerate() {
            for number in 0..NUMBERS {
                let places = self.places_of(reader, number);
                let seen = places.first().copied().zip(places.last().copied());
                let placed = placed.iter().find(|placed| usize::from(placed.0) == number);
                let expected = placed.map(|&Placed(_, first, last)| (first, last));
                if seen != expected {
                    faults.push(format!(
                        "first and last place of {} for '{}': {:?}, not {:?}",
                        number, name, seen, expected
                    ));
                }
            }
        }
        faults
    }

    /// Numbers that were not reached, or that a call should not have given.
    fn faults(&self) -> Vec<String> {
        let mut faults = Vec::new();
        for (Can(name, can), answers) in CAN.iter().zip(&self.answers) {
            for (number, &times) in answers.iter().enumerate() {
                match (can.contains(&(number as u8)), times) {
                    (true, 0) => faults.push(format!("'{}' never gave {}", name, number)),
                    (true, _) | (false, 0) => {}
                    (false, _) => faults.push(format!("'{}' gave {}", name, number)),
                }
            }
        }
        for (asked, asks) in ASKED.iter().zip(&self.asks) {
            for (answer, &times) in asks.iter().enumerate() {
                if times == 0 {
                    faults.push(format!("no ask of a {} was answered by {}", asked, answer));
                }
            }
        }
        faults.extend(self.misplaced());
        faults
    }
}

/// Where the run was, should one side panic.
impl Drop for Count {
    fn drop(&mut self) {
        if let (true, Some(subject)) = (std::thread::panicking(), self.subjects.last()) {
            println!(
                "PANICKED: {}, seed {:#x}, after case {}",
                subject.name, subject.seed, subject.cases
            );
        }
    }
}
