//! The header of a management frame (base standard; section "Octets").

use crate::answer::{ADDRESSES, FRAME_CONTROL, FRAME_LONG, FRAME_SHORT};
use crate::Address;

/// Octets of a header: control (1), flags (1), duration (2), three addresses,
/// sequence control (2).
pub(crate) const HEADER: usize = 24;
/// The longest frame that is read.
pub(crate) const FRAME_LIMIT: usize = 2336;

const DA: usize = 4;
const SA: usize = 10;
const BSSID: usize = 16;
const SEQUENCE: usize = 22;

/// To DS, From DS, More Fragments and Protected; the other flags are free.
const FORBIDDEN_FLAGS: u8 = 0b0100_0111;
/// The fragment number is the low half of the first sequence control octet.
const FRAGMENT: u8 = 0b0000_1111;
/// Octet 0 of an Action frame: version 0, type 0, subtype 13.
const ACTION_CONTROL: u8 = 13 << 4;

/// The address of frames to every station.
pub(crate) const ALL_ONES: Address = [0xFF; 6];

/// The group bit of an address, in its first octet.
const GROUP: u8 = 1;

/// Whether an address has its group bit set; otherwise it is an individual
/// one.
pub(crate) fn is_group(address: Address) -> bool {
    address[0] & GROUP != 0
}

/// Whose frames are read, which is what check 4 asks of SA and BSSID.
#[derive(Clone, Copy, Debug, PartialEq, Eq)]
pub(crate) enum Network {
    /// An infrastructure BSS: "SA or BSSID is not the AP" is 4.
    Infrastructure { ap: Address },
    /// An IBSS: frames "of its BSSID from any individual address" (02, Five),
    /// the station's own among them.
    Ibss { bssid: Address },
}

impl Network {
    /// The BSSID of its frames: in an infrastructure BSS the AP.
    pub(crate) fn bssid(self) -> Address {
        match self {
            Network::Infrastructure { ap } => ap,
            Network::Ibss { bssid } => bssid,
        }
    }

    /// Whether frames of this SA are read.
    fn hears(self, sender: Address) -> bool {
        match self {
            Network::Infrastructure { ap } => sender == ap,
            Network::Ibss { .. } => !is_group(sender),
        }
    }
}

/// The three subtypes of management frames that are read.
#[derive(Clone, Copy, Debug, PartialEq, Eq)]
pub(crate) enum Subtype {
    ProbeResponse,
    Beacon,
    Action,
}

/// What the checks 1 to 4 leave to know about a header.
#[derive(Clone, Copy, Debug, PartialEq, Eq)]
pub(crate) struct Header {
    pub(crate) subtype: Subtype,
    /// SA.
    pub(crate) sender: Address,
    /// DA is all ones.
    pub(crate) broadcast: bool,
}

/// The checks 1 to 4, in this order. The body of a frame that passes them
/// begins at `HEADER`.
pub(crate) fn read_header(frame: &[u8], own: Address, network: Network) -> Result<Header, u8> {
    if frame.len() < HEADER {
        return Err(FRAME_SHORT);
    }
    if frame.len() > FRAME_LIMIT {
        return Err(FRAME_LONG);
    }
    let subtype = read_control(frame)?;
    let broadcast = read_addresses(frame, own, network)?;
    Ok(Header {
        subtype,
        sender: address_at(frame, SA),
        broadcast,
    })
}

/// Check 3, on a frame of at least `HEADER` octets.
fn read_control(frame: &[u8]) -> Result<Subtype, u8> {
    let version_and_type = frame[0] & 0b1111;
    let fragment = frame[SEQUENCE] & FRAGMENT;
    if version_and_type != 0 || frame[1] & FORBIDDEN_FLAGS != 0 || fragment != 0 {
        return Err(FRAME_CONTROL);
    }
    match frame[0] >> 4 {
        5 => Ok(Subtype::ProbeResponse),
        8 => Ok(Subtype::Beacon),
        13 => Ok(Subtype::Action),
        _ => Err(FRAME_CONTROL),
    }
}

/// Check 4, on a frame of at least `HEADER` octets; answers whether DA is all ones.
fn read_addresses(frame: &[u8], own: Address, network: Network) -> Result<bool, u8> {
    let da = address_at(frame, DA);
    if !network.hears(address_at(frame, SA)) || address_at(frame, BSSID) != network.bssid() {
        return Err(ADDRESSES);
    }
    if da != own && da != ALL_ONES {
        return Err(ADDRESSES);
    }
    Ok(da == ALL_ONES)
}

/// DA, where a frame is not too short to have one.
pub(crate) fn receiver(frame: &[u8]) -> Option<Address> {
    if frame.len() < SA {
        return None;
    }
    Some(address_at(frame, DA))
}

fn address_at(frame: &[u8], at: usize) -> Address {
    let mut address = [0; 6];
    address.copy_from_slice(&frame[at..at + 6]);
    address
}

/// The header of a reply from the station to the sender of the frame: flags,
/// duration and sequence control are 0.
pub(crate) fn reply_header(own: Address, sender: Address, bssid: Address) -> [u8; HEADER] {
    let mut header = [0; HEADER];
    header[0] = ACTION_CONTROL;
    header[DA..DA + 6].copy_from_slice(&sender);
    header[SA..SA + 6].copy_from_slice(&own);
    header[BSSID..BSSID + 6].copy_from_slice(&bssid);
    header
}

#[cfg(test)]
mod tests {
    use super::*;
    use crate::sample::{header, sent_by, AP, CELL, OWN, PEER};

    const BSS: Network = Network::Infrastructure { ap: AP };
    const IBSS: Network = Network::Ibss { bssid: CELL };

    fn refusal(frame: &[u8]) -> u8 {
        read_header(frame, OWN, BSS).err().unwrap_or(0)
    }

    /// The refusal of a frame by a station of an IBSS.
    fn ibss_refusal(frame: &[u8]) -> u8 {
        read_header(frame, OWN, IBSS).err().unwrap_or(0)
    }

    #[test]
    fn length_on_both_sides() {
        let mut frame = header(13, OWN);
        assert_eq!(refusal(&frame[..23]), 1);
        assert_eq!(refusal(&[]), 1);
        assert_eq!(refusal(&frame), 0);
        frame.resize(2336, 0);
        assert_eq!(refusal(&frame), 0);
        frame.push(0);
        assert_eq!(refusal(&frame), 2);
        // 2 comes before 3.
        frame[0] = 0xFF;
        assert_eq!(refusal(&frame), 2);
    }

    #[test]
    fn every_first_octet() {
        for octet in 0..=255u8 {
            let mut frame = header(13, OWN);
            frame[0] = octet;
            let right = matches!(octet, 0x50 | 0x80 | 0xD0);
            assert_eq!(refusal(&frame), if right { 0 } else { 3 });
        }
    }

    #[test]
    fn every_flag() {
        for flags in 0..=255u8 {
            let mut frame = header(8, OWN);
            frame[1] = flags;
            let wrong =
                flags & 0x01 != 0 || flags & 0x02 != 0 || flags & 0x04 != 0 || flags & 0x40 != 0;
            assert_eq!(refusal(&frame), if wrong { 3 } else { 0 });
        }
    }

    #[test]
    fn every_sequence_control() {
        for octet in 0..=255u8 {
            let mut frame = header(5, OWN);
            frame[22] = octet;
            frame[23] = octet;
            assert_eq!(refusal(&frame), if octet & 0x0F == 0 { 0 } else { 3 });
        }
    }

    #[test]
    fn addresses() {
        for at in 10..22usize {
            let mut frame = header(8, OWN);
            frame[at] ^= 0x80;
            assert_eq!(refusal(&frame), 4);
            // 3 comes before 4.
            frame[1] = 1;
            assert_eq!(refusal(&frame), 3);
        }
        for at in 4..10usize {
            let mut frame = header(8, OWN);
            frame[at] ^= 0x80;
            assert_eq!(refusal(&frame), 4);
        }
        assert_eq!(refusal(&header(8, [0xFF; 6])), 0);
        let mut almost = [0xFF; 6];
        almost[0] = 0xFE;
        assert_eq!(refusal(&header(8, almost)), 4);
        let to_all = header(8, [0xFF; 6]);
        assert!(read_header(&to_all, OWN, BSS).unwrap().broadcast);
        assert!(!read_header(&header(8, OWN), OWN, BSS).unwrap().broadcast);
        assert_eq!(read_header(&to_all, OWN, BSS).unwrap().sender, AP);
    }

    #[test]
    fn the_receiver_of_a_short_frame() {
        let frame = header(13, OWN);
        assert_eq!(receiver(&frame), Some(OWN));
        assert_eq!(receiver(&frame[..10]), Some(OWN));
        for length in 0..10 {
            assert_eq!(receiver(&frame[..length]), None);
        }
    }

    #[test]
    fn any_individual_sender_in_an_ibss() {
        // Every first octet of SA: only the group bit matters.
        for first in 0..=255u8 {
            let mut sender = PEER;
            sender[0] = first;
            let frame = sent_by(sender, &header(8, OWN));
            let expected = if first & 1 == 0 { 0 } else { 4 };
            assert_eq!(ibss_refusal(&frame), expected);
        }
        for sender in [PEER, OWN, CELL, AP, [0; 6]] {
            let frame = sent_by(sender, &header(8, OWN));
            assert_eq!(read_header(&frame, OWN, IBSS).unwrap().sender, sender);
        }
        assert_eq!(ibss_refusal(&sent_by([0xFF; 6], &header(8, OWN))), 4);
    }

    #[test]
    fn bssid_and_da_in_an_ibss() {
        for at in (4..10usize).chain(16..22) {
            let mut frame = sent_by(PEER, &header(13, OWN));
            frame[at] ^= 0x80;
            assert_eq!(ibss_refusal(&frame), 4);
            // 3 comes before 4.
            frame[1] = 1;
            assert_eq!(ibss_refusal(&frame), 3);
        }
        let to_all = sent_by(PEER, &header(13, [0xFF; 6]));
        assert!(read_header(&to_all, OWN, IBSS).unwrap().broadcast);
        let to_own = sent_by(PEER, &header(13, OWN));
        assert!(!read_header(&to_own, OWN, IBSS).unwrap().broadcast);
        assert_eq!(ibss_refusal(&to_own[..23]), 1);
        let long = [&to_own[..], &[0; 2313]].concat();
        assert_eq!(ibss_refusal(&long[..2336]), 0);
        assert_eq!(ibss_refusal(&long), 2);
        // A frame of the AP's own BSS is none of the IBSS's, and the reverse.
        assert_eq!(ibss_refusal(&header(8, OWN)), 4);
        assert_eq!(refusal(&to_own), 4);
    }
}
