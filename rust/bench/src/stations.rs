//! A station to advance and to ask, in its octets and as the twin's.

use crate::frames::{frame, AP, OWN};
use oneiralth::{Permission, Settings, Station};
use std::hint::black_box;

const INTERVAL: u16 = 65_535;
const CHANNEL: u8 = 36;

/// A beacon with one Quiet element, 255 TBTTs ahead: no advance of a benchmark
/// gets there, and no switch is pending that one could reach.
fn beacon() -> Vec<u8> {
    let fixed_fields = [0, 0, 0, 0, 0, 0, 0, 0, 255, 255, 1, 0];
    let quiet = [40, 6, 255, 0, 1, 0, 0, 0];
    frame(0x80, &[&fixed_fields[..], &quiet].concat())
}

fn record() -> Station {
    let settings = Settings { own: OWN, ap: AP, interval: INTERVAL };
    let mut station = Station::start(settings, CHANNEL).expect("settings that are right");
    station.take(&beacon()).expect("a beacon that is accepted");
    station
}

fn twin() -> twin::Station {
    let mut station = twin::Station::start(OWN, AP, INTERVAL, CHANNEL).expect("settings that are right");
    station.take(&beacon()).expect("a beacon that is accepted");
    station
}

pub fn record_advances() -> impl FnMut() -> bool {
    let mut station = record();
    move || station.advance(1).is_ok()
}

pub fn twin_advances() -> impl FnMut() -> bool {
    let mut station = twin();
    move || station.advance(black_box(1)) == 0
}

pub fn record_is_granted() -> impl FnMut() -> bool {
    let station = record();
    move || station.ask(1) == Permission::Granted
}

/// The compiler may see that nothing changes between two questions of the twin,
/// so it is kept from seeing that they are the same.
pub fn twin_is_granted() -> impl FnMut() -> bool {
    let station = twin();
    move || station.ask(black_box(1)) == 0
}
