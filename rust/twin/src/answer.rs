//! The numbers of the section "Answer numbers" and of requests One, Five and Six
//! in document 02, and the answers to an ask from the section "The station".

/// The refusal of a frame, with the place where the frame broke (02, One).
#[derive(Clone, Copy, Debug, PartialEq, Eq)]
pub struct Refusal {
    /// The number of the refusal.
    pub number: u8,
    /// "The offset in the frame of the octet at fault", the header's first
    /// octet being 0: given for 5 to 12, 21 and 22. Of 7 it is the frame's
    /// length. The numbers 1 to 4 and 23 have none.
    pub offset: Option<usize>,
}

impl Refusal {
    /// A refusal with no octet at fault: 1 to 4 and 23.
    pub(crate) fn nowhere(number: u8) -> Refusal {
        Refusal {
            number,
            offset: None,
        }
    }

    /// A refusal whose octet at fault has `offset` octets before it.
    pub(crate) fn at(number: u8, offset: usize) -> Refusal {
        Refusal {
            number,
            offset: Some(offset),
        }
    }
}

/// Accepted.
pub const ACCEPTED: u8 = 0;
/// Frame under 24 octets, or a fixed field of the body is missing.
pub const FRAME_SHORT: u8 = 1;
/// Frame over 2,336 octets.
pub const FRAME_LONG: u8 = 2;
/// Version, type, subtype, flags or fragment number not of the kinds read here.
pub const FRAME_CONTROL: u8 = 3;
/// SA or BSSID is not the AP, or DA is neither the station nor all ones. In an
/// IBSS: the BSSID is not its own, SA is no individual address, or DA as before.
pub const ADDRESSES: u8 = 4;
/// Category not 0, or action over 4.
pub const ACTION: u8 = 5;
/// An element's header or contents run past the end.
pub const ELEMENT_CUT: u8 = 6;
/// In an action frame: the required element is absent.
pub const ELEMENT_ABSENT: u8 = 7;
/// Element length wrong.
pub const ELEMENT_LENGTH: u8 = 8;
/// A value that the rules forbid.
pub const VALUE: u8 = 9;
/// A second 32, 35 or 37, or a measurement token used twice in one request
/// frame; in a beacon of an IBSS a second 41 too.
pub const REPEATED: u8 = 10;
/// A ninth Quiet element.
pub const NINTH_QUIET: u8 = 11;
/// The beacon's (or probe response's) interval is not B.
pub const INTERVAL: u8 = 12;
/// Buffer shorter than what is to be written.
pub const BUFFER_SHORT: u8 = 13;
/// The clock would pass its limit, or the advance is over 65,535.
pub const CLOCK: u8 = 14;
/// At start, and where a row of a table is joined: B is 0, channel over 200, or
/// an address with its group bit set.
pub const START: u8 = 15;
/// Record that cannot be written, impossible readings, index past the last or
/// on a kind without elements, or a centre asked over channel 200.
pub const IMPOSSIBLE: u8 = 16;
/// Damaged block.
pub const DAMAGED_BLOCK: u8 = 17;
/// No reply is due.
pub const NO_REPLY: u8 = 18;
/// Capture record with no station started.
pub const NO_STATION: u8 = 19;
/// Malformed capture record.
pub const MALFORMED_RECORD: u8 = 20;
/// In an action frame: another element where one of the action's own must stand.
pub const ANOTHER_ELEMENT: u8 = 21;
/// In an action frame of one element: octets left over after it and the
/// vendors' elements after it.
pub const LEFT_OVER: u8 = 22;

/// In an IBSS: an announcement by any but a known owner.
pub const NOT_THE_OWNER: u8 = 23;

/// In a table: no free row.
pub const NO_FREE_ROW: u8 = 24;
/// In a table: the address is already joined.
pub const ALREADY_JOINED: u8 = 25;
/// In a table: the address is not joined.
pub const NOT_JOINED: u8 = 26;

/// Ask: granted.
pub const ASK_GRANTED: u8 = 0;
/// Ask: a mode-1 switch is pending.
pub const ASK_SILENCED: u8 = 1;
/// Ask: the present unit is quiet.
pub const ASK_QUIET_NOW: u8 = 2;
/// Ask: a later covered unit, before the pending switch if any, is quiet.
pub const ASK_QUIET_AHEAD: u8 = 3;
/// Ask: the pending switch lies before the end of what was asked for.
pub const ASK_SWITCH_AHEAD: u8 = 4;
/// Ask: 0 units, or over 65,535.
pub const ASK_LENGTH: u8 = 5;
