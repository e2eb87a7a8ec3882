//! A station that is changed where it lies, in octets of fixed size.

use crate::{address, number, places, raw, written, Finding, Refusal, Settings, TpcReport, Written};
use std::fmt;

/// How many octets a station takes.
pub const SIZE: usize = 336;

/// One non-AP station of an infrastructure BSS: its settings, its clock and
/// what it has heard. Calls change it where it lies, so that it may live at one
/// address for as long as a probe runs.
///
/// ```
/// use oneiralth::{answers, station, Permission, Settings, Station};
///
/// let settings = Settings { own: [2, 0, 0, 0, 0, 1], ap: [2, 0, 0, 0, 0, 9], interval: 100 };
/// let mut station = Station::start(settings, 36)?;
///
/// // An announcement of mode 1: to channel 44, at the second TBTT from now.
/// let header = [&[0xD0, 0, 0, 0][..], &settings.own, &settings.ap, &settings.ap, &[0, 0]].concat();
/// let announcement = [&header[..], &[0, 4, 37, 3, 1, 44, 2]].concat();
/// station.take(&announcement)?;
///
/// station.advance(199)?;
/// assert_eq!(station.ask(1), Permission::SwitchSilences);
/// station.advance(1)?;
/// assert_eq!(station.ask(1), Permission::Granted);
///
/// // A frame that is refused changes nothing.
/// let before = station.clone();
/// assert_eq!(station.take(&announcement[..30]), Err(answers::ELEMENT_CUT));
/// assert_eq!(station, before);
///
/// // Its octets are the station; other octets are none.
/// assert_eq!(Station::from_octets(*station.as_octets()), Ok(station));
/// assert_eq!(Station::from_octets([0; station::SIZE]), Err(answers::IMPOSSIBLE));
/// # Ok::<(), oneiralth::Refusal>(())
/// ```
#[derive(Clone)]
pub struct Station {
    /// What a start or `from_octets` let in, and calls changed since: the record
    /// of a station, always.
    octets: [u8; SIZE],
}

/// What a station answers when it is asked to send.
#[derive(Clone, Copy, Debug, PartialEq, Eq)]
pub enum Permission {
    Granted,
    /// A switch of mode 1 is pending.
    SwitchSilences,
    /// The first unit is quiet.
    QuietNow,
    /// A later unit before the pending switch, if any, is quiet.
    QuietLater,
    /// The switch lies before the end of the units.
    SwitchBefore,
    /// No units, or more than 65,535.
    WrongLength,
}

impl Permission {
    /// In the order of their numbers.
    const ALL: [Permission; 6] = [
        Permission::Granted,
        Permission::SwitchSilences,
        Permission::QuietNow,
        Permission::QuietLater,
        Permission::SwitchBefore,
        Permission::WrongLength,
    ];

    /// The scope document's number of this answer.
    pub fn number(self) -> u8 {
        self as u8
    }

    fn of(number: u64) -> Permission {
        Permission::ALL[number as usize]
    }
}

/// Asks octets for a station's answer; 16 where they hold none.
fn asked(octets: &[u8; SIZE], units: u32) -> Result<Permission, Refusal> {
    number(unsafe { raw::oneiralth_station_ask(octets.as_ptr(), octets.len(), units) }).map(Permission::of)
}

impl Station {
    /// Starts a station at clock 0; 15 where the interval is 0, the channel is
    /// over 200 or an address is a group's.
    pub fn start(settings: Settings, channel: u8) -> Result<Station, Refusal> {
        let mut octets = [0; SIZE];
        let (own, ap) = (address(settings.own), address(settings.ap));
        let code = unsafe {
            raw::oneiralth_station_start(own, ap, settings.interval, channel, octets.as_mut_ptr(), octets.len())
        };
        number(code).map(|_| Station { octets })
    }

    /// The station that these octets hold; 16 where they hold none.
    pub fn from_octets(octets: [u8; SIZE]) -> Result<Station, Refusal> {
        // Any question tells whether there is somebody to answer it.
        asked(&octets, 1).map(|_| Station { octets })
    }

    /// Its octets (`places`). Those after the schedules in use are no part of
    /// it, and may be anything.
    pub fn as_octets(&self) -> &[u8; SIZE] {
        &self.octets
    }

    /// Hands it a frame. `fault` says where a frame that is refused broke.
    pub fn take(&mut self, frame: &[u8]) -> Result<(), Refusal> {
        let code = unsafe {
            raw::oneiralth_station_take(self.octets.as_mut_ptr(), self.octets.len(), frame.as_ptr(), frame.len())
        };
        number(code).map(|_| ())
    }

    /// Lets its clock go on by so many TU; 14 over 65,535, or past the clock's
    /// limit.
    pub fn advance(&mut self, units: u32) -> Result<(), Refusal> {
        let code = unsafe { raw::oneiralth_station_advance(self.octets.as_mut_ptr(), self.octets.len(), units) };
        number(code).map(|_| ())
    }

    /// Asks whether it may send for so many TU from now on.
    pub fn ask(&self, units: u32) -> Permission {
        asked(&self.octets, units).unwrap_or_else(|refusal| unreachable!("a station's question was refused with {refusal}"))
    }

    /// As `reply_to_tpc_request`, with its own address and its AP.
    pub fn reply_to_tpc_request(&self, frame: &[u8], report: TpcReport, out: &mut [u8]) -> Written {
        let (power, margin) = (report.power as u8, report.margin as u8);
        written(unsafe {
            raw::oneiralth_station_reply_to_tpc_request(
                self.octets.as_ptr(),
                self.octets.len(),
                frame.as_ptr(),
                frame.len(),
                power,
                margin,
                out.as_mut_ptr(),
                out.len(),
            )
        })
    }

    /// As `reply_to_measurement_request`, with its own address, its AP and its
    /// clock.
    pub fn reply_to_measurement_request(&self, frame: &[u8], index: usize, finding: Finding, out: &mut [u8]) -> Written {
        let (found, value, t) = finding.numbers();
        written(unsafe {
            raw::oneiralth_station_reply_to_measurement_request(
                self.octets.as_ptr(),
                self.octets.len(),
                frame.as_ptr(),
                frame.len(),
                index,
                found,
                value,
                t[0],
                t[1],
                t[2],
                t[3],
                t[4],
                t[5],
                t[6],
                t[7],
                out.as_mut_ptr(),
                out.len(),
            )
        })
    }

    /// The octets that count.
    fn record(&self) -> &[u8] {
        let schedules = usize::from(self.octets[places::STATION_COUNT]);
        &self.octets[..places::STATION_SCHEDULES + schedules * places::STATION_SCHEDULE_LENGTH]
    }
}

impl PartialEq for Station {
    fn eq(&self, other: &Station) -> bool {
        self.record() == other.record()
    }
}

impl Eq for Station {}

impl fmt::Debug for Station {
    fn fmt(&self, f: &mut fmt::Formatter<'_>) -> fmt::Result {
        f.debug_tuple("Station").field(&self.record()).finish()
    }
}
