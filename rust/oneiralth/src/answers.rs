//! The refusals by their numbers (docs/ANSWERS.md). 0, accepted, is `Ok`.

use crate::Refusal;

/// The frame is under 24 octets, or a fixed field of its body is missing.
pub const TOO_SHORT: Refusal = 1;
/// The frame is over 2,336 octets.
pub const TOO_LONG: Refusal = 2;
/// Version, type, subtype, a flag or the fragment number is none that is read.
pub const FOREIGN_HEADER: Refusal = 3;
/// SA or BSSID is not the AP, or DA is neither the station nor all ones; in an
/// IBSS SA may be any individual address.
pub const FOREIGN_ADDRESS: Refusal = 4;
/// Category not 0, or action over 4.
pub const FOREIGN_ACTION: Refusal = 5;
/// An element runs past the frame's end.
pub const ELEMENT_CUT: Refusal = 6;
/// The required element is absent.
pub const ELEMENT_ABSENT: Refusal = 7;
/// The length of an element is wrong.
pub const WRONG_LENGTH: Refusal = 8;
/// A value that the rules forbid.
pub const FORBIDDEN_VALUE: Refusal = 9;
/// A second 32, 35 or 37, in a beacon of an IBSS 41, or a measurement token used
/// twice.
pub const REPEATED: Refusal = 10;
/// A ninth Quiet element.
pub const TOO_MANY_QUIETS: Refusal = 11;
/// The beacon's interval is not the station's.
pub const OTHER_INTERVAL: Refusal = 12;
/// The buffer is shorter than what is to be written.
pub const BUFFER_SHORT: Refusal = 13;
/// The clock would pass its limit, or the advance is over 65,535.
pub const PAST_CLOCK: Refusal = 14;
/// A station cannot be started so.
pub const BAD_START: Refusal = 15;
/// A record that cannot be written, impossible readings, an index past the last, a centre over channel 200, octets that
/// hold no station.
pub const IMPOSSIBLE: Refusal = 16;
/// A damaged block.
pub const BLOCK_DAMAGED: Refusal = 17;
/// No reply is due.
pub const NO_REPLY_DUE: Refusal = 18;
/// A capture record with no station started.
pub const NO_STATION: Refusal = 19;
/// A malformed capture record.
pub const RECORD_MALFORMED: Refusal = 20;
/// Another element stands where one is required.
pub const OTHER_ELEMENT: Refusal = 21;
/// Octets are left over after the one element of an action frame.
pub const LEFT_OVER: Refusal = 22;
/// In an IBSS, an announcement by any but a known DFS owner. No call gives it yet.
pub const FOREIGN_ANNOUNCEMENT: Refusal = 23;
