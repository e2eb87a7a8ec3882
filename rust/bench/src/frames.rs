//! Frames to read, and the two readers.

use oneiralth::Settings;

pub const OWN: [u8; 6] = [2, 0, 0, 0, 0, 1];
pub const AP: [u8; 6] = [2, 0, 0, 0, 0, 9];
const INTERVAL: u16 = 100;

/// A frame from the AP to the station.
pub fn frame(subtype: u8, body: &[u8]) -> Vec<u8> {
    let mut frame = vec![subtype, 0, 0, 0];
    frame.extend_from_slice(&OWN);
    frame.extend_from_slice(&AP);
    frame.extend_from_slice(&AP);
    frame.extend_from_slice(&[0, 0]);
    frame.extend_from_slice(body);
    frame
}

/// A beacon as a busy AP sends it, with elements that are skipped and four
/// Quiet elements; a Measurement Request of three elements; an announcement;
/// and a beacon that is cut.
pub fn samples() -> Vec<Vec<u8>> {
    let mut beacon = vec![0; 8];
    beacon.extend_from_slice(&[100, 0, 1, 0]);
    beacon.extend_from_slice(&[0, 8, 1, 2, 3, 4, 5, 6, 7, 8]);
    beacon.extend_from_slice(&[1, 8, 2, 4, 11, 22, 12, 18, 24, 36]);
    beacon.extend_from_slice(&[32, 1, 3]);
    for count in 1..5 {
        beacon.extend_from_slice(&[40, 6, count, 2, 10, 0, 20, 0]);
    }
    beacon.extend_from_slice(&[221, 24]);
    beacon.extend_from_slice(&[0; 24]);
    let mut request = vec![0, 0, 7];
    for token in 1..4 {
        request.extend_from_slice(&[38, 14, token, 0, 0, 36, 0, 0, 0, 0, 0, 0, 0, 0, 10, 0]);
    }
    let cut = beacon[..beacon.len() - 1].to_vec();
    vec![
        frame(0x80, &beacon),
        frame(0xD0, &request),
        frame(0xD0, &[0, 4, 37, 3, 1, 44, 2]),
        frame(0x80, &cut),
    ]
}

pub fn proved_accepts(frame: &[u8]) -> bool {
    let settings = Settings { own: OWN, ap: AP, interval: INTERVAL };
    oneiralth::read_frame(frame, settings).is_ok()
}

pub fn twin_accepts(frame: &[u8]) -> bool {
    twin::read_frame(frame, OWN, AP, INTERVAL).is_ok()
}
