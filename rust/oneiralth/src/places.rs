//! Where the library puts each field, and how many octets the fields of each
//! kind are (docs/BOUNDARY.md). Numbers have their least significant octet
//! first.

/// The fields of a frame: the kind, whether it was sent to all ones, the dialog
/// token, how many measurement elements (8 octets) and Quiet elements (8) it
/// has, timestamp (8) and capability (2).
pub const KIND: usize = 0;
pub const TO_ALL: usize = 1;
pub const TOKEN: usize = 2;
pub const ELEMENTS: usize = 3;
pub const QUIETS: usize = 11;
pub const TIMESTAMP: usize = 19;
pub const CAPABILITY: usize = 27;
/// 1 if there is a Power Constraint, and its value.
pub const POWER: usize = 29;
/// 1 if there is a TPC Report, power, margin.
pub const REPORT: usize = 31;
/// 1 if there is a Channel Switch Announcement, mode, channel, count.
pub const SWITCH: usize = 34;
pub const FRAME_LENGTH: usize = 38;

/// The fields of a frame of an IBSS: those above, then the sender (6 octets), 1 if
/// there is an element 41, its owner (6), its recovery interval and how many
/// pairs it has (8).
pub const SENDER: usize = 38;
pub const DFS: usize = 44;
pub const OWNER: usize = 45;
pub const RECOVERY: usize = 51;
pub const PAIRS: usize = 52;
pub const IBSS_FRAME_LENGTH: usize = 60;

/// A pair of element 41: channel, map.
pub const PAIR_CHANNEL: usize = 0;
pub const PAIR_MAP: usize = 1;
pub const PAIR_LENGTH: usize = 2;

/// The fields of a Quiet element: count, period, duration (2), offset (2).
pub const QUIET_COUNT: usize = 0;
pub const QUIET_PERIOD: usize = 1;
pub const QUIET_DURATION: usize = 2;
pub const QUIET_OFFSET: usize = 4;
pub const QUIET_LENGTH: usize = 6;

/// The fields of a Measurement Request element: token, type, what is asked, the
/// Request bit, the Report bit, channel, start (8), duration (2).
pub const REQUEST_TOKEN: usize = 0;
pub const REQUEST_TYPE: usize = 1;
pub const REQUEST_ASKS: usize = 2;
pub const REQUEST_REQUEST: usize = 3;
pub const REQUEST_REPORT: usize = 4;
pub const REQUEST_CHANNEL: usize = 5;
pub const REQUEST_START: usize = 6;
pub const REQUEST_DURATION: usize = 14;
pub const REQUEST_LENGTH: usize = 16;

/// The fields of a Measurement Report element: token, type, what is said, the
/// map or the busy fraction, channel, start (8), duration (2), densities (8).
pub const REPORT_TOKEN: usize = 0;
pub const REPORT_TYPE: usize = 1;
pub const REPORT_SAYS: usize = 2;
pub const REPORT_VALUE: usize = 3;
pub const REPORT_CHANNEL: usize = 4;
pub const REPORT_START: usize = 5;
pub const REPORT_DURATION: usize = 13;
pub const REPORT_DENSITIES: usize = 15;
pub const REPORT_LENGTH: usize = 23;

/// A station in its caller's octets: version (1), channel, interval (2), clock
/// (4), its own address (6) and its AP's (6).
pub const STATION_VERSION: usize = 0;
pub const STATION_CHANNEL: usize = 1;
pub const STATION_INTERVAL: usize = 2;
pub const STATION_CLOCK: usize = 4;
pub const STATION_OWN: usize = 8;
pub const STATION_AP: usize = 14;
/// 1 if there is a Power Constraint, and its value.
pub const STATION_POWER: usize = 20;
/// 1 if a switch is pending, mode, channel, moment (8).
pub const STATION_SWITCH: usize = 22;
/// Until when what had begun of replaced quiet schedules runs on (8), and how
/// many schedules are in use.
pub const STATION_UNTIL: usize = 33;
pub const STATION_COUNT: usize = 41;
/// The schedules in use, so many octets for each: start (8), period (8),
/// duration (2).
pub const STATION_SCHEDULES: usize = 42;
pub const STATION_SCHEDULE_LENGTH: usize = 18;
