//! Reads frames, one in hexadecimal on each line of standard input, and writes
//! the fields of each on a line: names and values, several values with commas
//! between. The station is 02:00:00:00:00:01, its AP 02:00:00:00:00:09, B 100.

use oneiralth::{Asks, Frame, Notice, Received, Says, Settings};
use std::fmt::Display;
use std::io::{self, BufRead};

const SETTINGS: Settings = Settings {
    own: [2, 0, 0, 0, 0, 1],
    ap: [2, 0, 0, 0, 0, 9],
    interval: 100,
};

/// The fields of one frame, in the order in which they are told.
#[derive(Default)]
struct Fields(Vec<(&'static str, Vec<String>)>);

impl Fields {
    /// One value more of a field.
    fn tell(&mut self, name: &'static str, value: impl Display) {
        let value = value.to_string();
        match self.0.iter_mut().find(|field| field.0 == name) {
            Some(field) => field.1.push(value),
            None => self.0.push((name, vec![value])),
        }
    }

    fn line(&self) -> String {
        let told: Vec<String> = self.0.iter().map(|(name, values)| format!("{}={}", name, values.join(","))).collect();
        told.join(" ")
    }
}

fn octets(text: &str) -> Vec<u8> {
    (0..text.len() / 2)
        .map(|i| u8::from_str_radix(&text[2 * i..2 * i + 2], 16).expect("hexadecimal digits"))
        .collect()
}

fn notice(told: &mut Fields, frame: &[u8], notice: &Notice) {
    told.tell("timestamp", notice.timestamp);
    told.tell("capability", notice.capability);
    if let Some(constraint) = notice.constraint {
        told.tell("constraint", constraint);
    }
    if let Some(report) = notice.report {
        told.tell("power", report.power);
        told.tell("margin", report.margin);
    }
    if let Some(switch) = notice.switch {
        switched(told, switch);
    }
    for index in 0..notice.quiets {
        let quiet = oneiralth::read_quiet(frame, SETTINGS, index).expect("an element of an accepted frame");
        told.tell("quiet_count", quiet.count);
        told.tell("quiet_period", quiet.period);
        told.tell("quiet_duration", quiet.duration);
        told.tell("quiet_offset", quiet.offset);
    }
}

fn switched(told: &mut Fields, switch: oneiralth::Switch) {
    told.tell("mode", switch.mode);
    told.tell("channel", switch.channel);
    told.tell("count", switch.count);
}

fn span(told: &mut Fields, channel: u8, start: u64, duration: u16) {
    told.tell("measured_channel", channel);
    told.tell("start", start);
    told.tell("duration", duration);
}

fn requests(told: &mut Fields, frame: &[u8], count: usize) {
    for index in 0..count {
        let request = oneiralth::read_request(frame, SETTINGS, index).expect("an element of an accepted frame");
        told.tell("element_token", request.token);
        told.tell("type", request.kind);
        match request.asks {
            Asks::Enable { request, report } => {
                told.tell("enable", 1);
                told.tell("request_bit", u8::from(request));
                told.tell("report_bit", u8::from(report));
            }
            Asks::Measure { channel, start, duration } => {
                told.tell("enable", 0);
                span(told, channel, start, duration);
            }
            Asks::Uninterpreted => told.tell("uninterpreted", request.token),
        }
    }
}

fn reports(told: &mut Fields, frame: &[u8], count: usize) {
    for index in 0..count {
        let report = oneiralth::read_report(frame, SETTINGS, index).expect("an element of an accepted frame");
        told.tell("element_token", report.token);
        told.tell("type", report.kind);
        told.tell("late", u8::from(report.says == Says::Late));
        told.tell("incapable", u8::from(report.says == Says::Incapable));
        told.tell("refused", u8::from(report.says == Says::Refused));
        match report.says {
            Says::Late | Says::Incapable | Says::Refused => {}
            Says::Basic { channel, start, duration, map } => {
                span(told, channel, start, duration);
                told.tell("map", map);
            }
            Says::Cca { channel, start, duration, busy } => {
                span(told, channel, start, duration);
                told.tell("busy", busy);
            }
            Says::Rpi { channel, start, duration, densities } => {
                span(told, channel, start, duration);
                for density in densities {
                    told.tell("densities", density);
                }
            }
            Says::Uninterpreted => told.tell("uninterpreted", report.token),
        }
    }
}

fn fields(frame: &[u8], received: &Received) -> Fields {
    let mut told = Fields::default();
    told.tell("broadcast", u8::from(received.broadcast));
    match &received.frame {
        Frame::Beacon(said) => {
            told.tell("kind", "beacon");
            notice(&mut told, frame, said);
        }
        Frame::ProbeResponse(said) => {
            told.tell("kind", "probe_response");
            notice(&mut told, frame, said);
        }
        Frame::MeasurementRequest { token, count } => {
            told.tell("kind", "measurement_request");
            told.tell("token", token);
            requests(&mut told, frame, *count);
        }
        Frame::MeasurementReport { token, count } => {
            told.tell("kind", "measurement_report");
            told.tell("token", token);
            reports(&mut told, frame, *count);
        }
        Frame::TpcRequest { token } => {
            told.tell("kind", "tpc_request");
            told.tell("token", token);
        }
        Frame::TpcReport { token, report } => {
            told.tell("kind", "tpc_report");
            told.tell("token", token);
            told.tell("power", report.power);
            told.tell("margin", report.margin);
        }
        Frame::ChannelSwitch(switch) => {
            told.tell("kind", "channel_switch");
            switched(&mut told, *switch);
        }
    }
    told
}

fn main() -> io::Result<()> {
    for line in io::stdin().lock().lines() {
        let frame = octets(line?.trim());
        match oneiralth::read_frame(&frame, SETTINGS) {
            Ok(received) => println!("{}", fields(&frame, &received).line()),
            Err(refusal) => println!("refused={}", refusal),
        }
    }
    Ok(())
}
