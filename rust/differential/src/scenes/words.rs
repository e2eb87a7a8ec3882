//! Answers in the words of the scenes.

use twin::{PendingSwitch, Refusal};

/// So many octets one after the other that are alike, or more, are told as one
/// of them and how many they are, as in `0*312`.
const RUN: usize = 8;

pub fn octets(octets: &[u8]) -> String {
    let mut words = Vec::new();
    let mut rest = octets;
    while let Some(octet) = rest.first() {
        let times = rest.iter().take_while(|&next| next == octet).count();
        if times < RUN {
            words.extend(vec![octet.to_string(); times]);
        } else {
            words.push(format!("{octet}*{times}"));
        }
        rest = &rest[times..];
    }
    words.join(" ")
}

pub fn constraint_told(constraint: Option<u8>) -> String {
    constraint.map_or("none".to_string(), |decibels| decibels.to_string())
}

pub fn pending_told(pending: Option<PendingSwitch>) -> String {
    match pending {
        None => "0".to_string(),
        Some(switch) => format!("{} {} {}", switch.moment, switch.mode, switch.channel),
    }
}

pub fn told(answer: Result<(), Refusal>) -> String {
    match answer {
        Ok(()) => "0".to_string(),
        Err(Refusal {
            number,
            offset: None,
        }) => number.to_string(),
        Err(Refusal {
            number,
            offset: Some(offset),
        }) => format!("{number} {offset}"),
    }
}
