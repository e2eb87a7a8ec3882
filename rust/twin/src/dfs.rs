//! The IBSS DFS element, ID 41 (02, Five; 802.11h 7.3.2.24): "length 7 + 2n:
//! owner address, recovery interval, then n pairs of channel and map, not
//! judged".

use crate::answer::{ELEMENT_LENGTH, IMPOSSIBLE, VALUE};
use crate::element::{element_octets, IBSS_DFS};
use crate::header::is_group;
use crate::octets::lay;
use crate::Address;

/// Owner (6) and recovery interval (1), in front of the pairs.
const HEAD: usize = 7;
/// Channel and map.
const PAIR: usize = 2;
/// The most contents that an element's length octet can say.
const CONTENTS_LIMIT: usize = 255;
/// The most pairs that fit an element: 124.
const PAIR_LIMIT: usize = (CONTENTS_LIMIT - HEAD) / PAIR;

/// An IBSS DFS element.
#[derive(Clone, Debug, PartialEq, Eq)]
pub struct IbssDfs {
    /// The DFS owner's address, an individual one.
    pub owner: Address,
    /// The recovery interval, in beacon intervals; not 0.
    pub recovery: u8,
    /// The pairs, in their order; at most 124.
    pub pairs: Vec<ChannelMap>,
}

/// What a station found on one channel. Neither octet is judged.
#[derive(Clone, Copy, Debug, PartialEq, Eq)]
pub struct ChannelMap {
    /// The channel; over 200 too.
    pub channel: u8,
    /// The map, all eight bits as they were sent.
    pub map: u8,
}

impl IbssDfs {
    /// The pair of this index; 16 past the last.
    pub fn pair(&self, index: usize) -> Result<ChannelMap, u8> {
        self.pairs.get(index).copied().ok_or(IMPOSSIBLE)
    }

    /// "9 for interval 0 or an owner with its group bit set."
    fn is_allowed(&self) -> bool {
        self.recovery != 0 && !is_group(self.owner)
    }
}

/// Reads the contents of an IBSS DFS element.
pub fn read_ibss_dfs(contents: &[u8]) -> Result<IbssDfs, u8> {
    if !is_length(contents.len()) {
        return Err(ELEMENT_LENGTH);
    }
    let (head, pairs) = contents.split_at(HEAD);
    let mut owner = [0; 6];
    owner.copy_from_slice(&head[..6]);
    let dfs = IbssDfs {
        owner,
        recovery: head[6],
        pairs: pairs.chunks_exact(PAIR).map(read_pair).collect(),
    };
    if dfs.is_allowed() {
        Ok(dfs)
    } else {
        Err(VALUE)
    }
}

/// Whether a length is 7 + 2n, and one that an element can have.
fn is_length(length: usize) -> bool {
    length >= HEAD && (length - HEAD) % PAIR == 0 && length <= CONTENTS_LIMIT
}

/// A pair from its two octets.
fn read_pair(octets: &[u8]) -> ChannelMap {
    ChannelMap {
        channel: octets[0],
        map: octets[1],
    }
}

/// Writes an IBSS DFS element to the front of `out`: 9 octets and two for each
/// pair. What the reader would refuse, or over 124 pairs: 16.
pub fn write_ibss_dfs(dfs: &IbssDfs, out: &mut [u8]) -> Result<usize, u8> {
    if !dfs.is_allowed() || dfs.pairs.len() > PAIR_LIMIT {
        return Err(IMPOSSIBLE);
    }
    let mut contents = dfs.owner.to_vec();
    contents.push(dfs.recovery);
    for pair in &dfs.pairs {
        contents.extend_from_slice(&[pair.channel, pair.map]);
    }
    lay(&element_octets(IBSS_DFS, &contents), out)
}

#[cfg(test)]
mod tests {
    use super::*;
    use crate::sample::{dfs, Dice, OTHER, PEER};

    /// An element with this many pairs, all of them different.
    fn with_pairs(count: usize) -> IbssDfs {
        let pair = |index: usize| ChannelMap {
            channel: 255 - index as u8,
            map: index as u8,
        };
        IbssDfs {
            owner: PEER,
            recovery: 3,
            pairs: (0..count).map(pair).collect(),
        }
    }

    #[test]
    fn read_in_octets() {
        let contents = [4, 0x41, 0x42, 0x43, 0x44, 0x45, 9, 36, 0b0_1000, 201, 0xFF];
        let read = read_ibss_dfs(&contents).unwrap();
        assert_eq!((read.owner, read.recovery), (PEER, 9));
        assert_eq!(read.pairs.len(), 2);
        assert_eq!(
            read.pair(0),
            Ok(ChannelMap {
                channel: 36,
                map: 8
            })
        );
        // Not judged: a channel over 200, reserved bits, unmeasured with all.
        assert_eq!(
            read.pair(1),
            Ok(ChannelMap {
                channel: 201,
                map: 255
            })
        );
        assert_eq!(read.pair(2), Err(16));
        assert_eq!(read.pair(usize::MAX), Err(16));
        let none = read_ibss_dfs(&contents[..7]).unwrap();
        assert_eq!((none.owner, none.recovery), (PEER, 9));
        assert_eq!(none.pair(0), Err(16));
    }

    #[test]
    fn every_length() {
        for length in 0..=300usize {
            let mut contents = vec![2; length];
            let right = length >= 7 && length % 2 == 1 && length <= 255;
            match read_ibss_dfs(&contents) {
                Ok(read) => {
                    assert!(right);
                    assert_eq!(read.pairs.len(), (length - 7) / 2);
                }
                Err(number) => assert_eq!((number, right), (8, false)),
            }
            // The length is judged before the values.
            contents.fill(1);
            assert_eq!(
                read_ibss_dfs(&contents).err(),
                Some(if right { 9 } else { 8 })
            );
        }
    }

    #[test]
    fn every_recovery_interval_and_group_bit() {
        for recovery in 0..=255u8 {
            for first in 0..=255u8 {
                let mut owner = OTHER;
                owner[0] = first;
                let octets = dfs(owner, recovery, &[1, 2]);
                let read = read_ibss_dfs(&octets[2..]);
                let record = IbssDfs {
                    owner,
                    recovery,
                    pairs: vec![ChannelMap { channel: 1, map: 2 }],
                };
                let mut out = [0xEE; 12];
                let written = write_ibss_dfs(&record, &mut out);
                if recovery != 0 && first & 1 == 0 {
                    assert_eq!(read, Ok(record));
                    assert_eq!(written, Ok(11));
                    assert_eq!(out[..11], octets[..]);
                    assert_eq!(out[11], 0xEE);
                } else {
                    assert_eq!(read, Err(9));
                    assert_eq!(written, Err(16));
                    assert_eq!(out, [0xEE; 12]);
                }
            }
        }
    }

    #[test]
    fn the_group_bit_of_the_first_octet_alone() {
        let owner = [0xFE, 0xFF, 0xFF, 0xFF, 0xFF, 0xFF];
        let read = read_ibss_dfs(&dfs(owner, 1, &[])[2..]);
        assert_eq!(read.map(|read| read.owner), Ok(owner));
        assert_eq!(read_ibss_dfs(&dfs([0xFF; 6], 1, &[])[2..]), Err(9));
        // No address at all is an individual one.
        assert!(read_ibss_dfs(&dfs([0; 6], 1, &[])[2..]).is_ok());
    }

    #[test]
    fn pairs_that_fit_and_one_more() {
        for count in [0, 1, 2, 123, 124] {
            let record = with_pairs(count);
            let mut out = [0xEE; 258];
            let length = 9 + 2 * count;
            assert_eq!(write_ibss_dfs(&record, &mut out), Ok(length));
            assert_eq!(out[..2], [41, 7 + 2 * count as u8]);
            assert!(out[length..].iter().all(|&octet| octet == 0xEE));
            assert_eq!(read_ibss_dfs(&out[2..length]), Ok(record.clone()));
            for index in 0..count {
                let expected = Ok(record.pairs[index]);
                assert_eq!(record.pair(index), expected);
            }
            assert_eq!(record.pair(count), Err(16));
        }
        for count in [125, 126, 128, 252, 300] {
            let mut out = [0xEE; 700];
            assert_eq!(write_ibss_dfs(&with_pairs(count), &mut out), Err(16));
            assert_eq!(out, [0xEE; 700]);
        }
    }

    #[test]
    fn room_on_both_sides() {
        for count in [0, 1, 124] {
            let record = with_pairs(count);
            let length = 9 + 2 * count;
            assert_eq!(write_ibss_dfs(&record, &mut vec![0; length]), Ok(length));
            let mut short = vec![0xEE; length - 1];
            assert_eq!(write_ibss_dfs(&record, &mut short), Err(13));
            assert!(short.iter().all(|&octet| octet == 0xEE));
            assert_eq!(write_ibss_dfs(&record, &mut []), Err(13));
        }
        // 16 before 13.
        assert_eq!(write_ibss_dfs(&with_pairs(125), &mut []), Err(16));
        let no_interval = IbssDfs {
            recovery: 0,
            ..with_pairs(1)
        };
        assert_eq!(write_ibss_dfs(&no_interval, &mut []), Err(16));
    }

    #[test]
    fn what_is_read_is_written_again() {
        let mut dice = Dice(41);
        let mut accepted = 0;
        for _ in 0..5000 {
            let length = [7, 8, 9, 11, 27, 255][dice.roll(6) as usize];
            let contents: Vec<u8> = (0..length).map(|_| dice.roll(256) as u8).collect();
            if let Ok(read) = read_ibss_dfs(&contents) {
                let mut out = [0; 257];
                let written = write_ibss_dfs(&read, &mut out).unwrap();
                assert_eq!(out[..written], element_octets(41, &contents)[..]);
                accepted += 1;
            }
        }
        assert!(accepted > 1000, "{}", accepted);
    }
}
