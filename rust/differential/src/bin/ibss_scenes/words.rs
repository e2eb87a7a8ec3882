//! Frames that were read, in the words of the scenes.

use crate::scenes::words::octets;
use twin::{Frame, IbssReceived, Notice, Switch};

pub fn received_told(received: &IbssReceived) -> String {
    let to_all = if received.broadcast { " to all" } else { "" };
    let mut words = format!("0{to_all} from {}", octets(&received.sender));
    words += &match &received.frame {
        Frame::Beacon(notice) => format!(" beacon{}", notice_told(notice)),
        Frame::ProbeResponse(notice) => format!(" probe response{}", notice_told(notice)),
        Frame::MeasurementRequest { token, requests } => {
            format!(" measurement request {token} {}", requests.len())
        }
        Frame::MeasurementReport { token, reports } => {
            format!(" measurement report {token} {}", reports.len())
        }
        Frame::TpcRequest { token } => format!(" tpc request {token}"),
        Frame::TpcReport {
            token,
            power,
            margin,
        } => format!(
            " tpc report {token} report {} {}",
            *power as u8, *margin as u8
        ),
        Frame::ChannelSwitch(switch) => switch_told(switch),
    };
    if let Some(dfs) = &received.dfs {
        words += &format!(
            " dfs {} {} {}",
            octets(&dfs.owner),
            dfs.recovery,
            dfs.pairs.len()
        );
    }
    if let Frame::Beacon(notice) | Frame::ProbeResponse(notice) = &received.frame {
        for quiet in &notice.quiets {
            words += &format!(
                " quiet {} {} {} {}",
                quiet.count, quiet.period, quiet.duration, quiet.offset
            );
        }
    }
    words
}

fn notice_told(notice: &Notice) -> String {
    let mut words = format!(" {} {}", notice.timestamp, notice.capability);
    if let Some(decibels) = notice.constraint {
        words += &format!(" constraint {decibels}");
    }
    if let Some((power, margin)) = notice.tpc_report {
        words += &format!(" report {} {}", power as u8, margin as u8);
    }
    if let Some(switch) = &notice.switch {
        words += &switch_told(switch);
    }
    words
}

fn switch_told(switch: &Switch) -> String {
    format!(
        " switch {} {} {}",
        switch.mode, switch.channel, switch.count
    )
}
