//! Frames of an IBSS.

use crate::builder::element;
use crate::rng::Rng;
use crate::scenes::frames::{header, Body, Sent};
use twin::Address;

pub const OWN: Address = member(1);
pub const BSSID: Address = member(9);

/// The address of a member that the scenes name by its last octet.
pub const fn member(last: u8) -> Address {
    [2, 0, 0, 0, 0, last]
}

/// As the verbs send it, by a member, to the station.
pub fn sent_by(sender: u8, body: &Body) -> Sent {
    let header = header(body.kind, OWN, member(sender), BSSID);
    body.sent(&sender.to_string(), header)
}

/// Element 41, now and then with a fault of its own.
pub fn dfs(rng: &mut Rng, owner: Address) -> Vec<u8> {
    let recovery = rng.pick(&[1, 1, 2, 2, 3, 3, 4, 6, 10, 30, 254, 255]);
    let mut contents = owner.to_vec();
    contents.push(recovery);
    for _ in 0..rng.below(4) {
        contents.extend([rng.octet(), rng.octet()]);
    }
    match rng.below(40) {
        0 => contents.truncate(6),
        1 => contents.push(36),
        2 => contents[6] = 0,
        3 => contents[0] |= 1,
        4 => contents.clear(),
        _ => {}
    }
    element(41, &contents)
}
