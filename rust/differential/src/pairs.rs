//! The twin's records as the library's. Both were read off the same document
//! by different people, so the types differ; here each field gets its
//! namesake, so that one `==` compares everything.

use oneiralth as library;

pub fn switch(given: twin::Switch) -> library::Switch {
    library::Switch {
        mode: given.mode,
        channel: given.channel,
        count: given.count,
    }
}

pub fn quiet(given: twin::Quiet) -> library::Quiet {
    library::Quiet {
        count: given.count,
        period: given.period,
        duration: given.duration,
        offset: given.offset,
    }
}

/// Power and margin.
pub fn tpc((power, margin): (i8, i8)) -> library::TpcReport {
    library::TpcReport { power, margin }
}

pub fn request(given: twin::Request) -> library::Request {
    let asks = match given.asks {
        twin::Asks::Enable { request, report } => library::Asks::Enable { request, report },
        twin::Asks::Measure {
            channel,
            start,
            duration,
        } => library::Asks::Measure {
            channel,
            start,
            duration,
        },
        twin::Asks::Uninterpreted => library::Asks::Uninterpreted,
    };
    library::Request {
        token: given.token,
        kind: given.kind,
        asks,
    }
}

pub fn report(given: twin::Report) -> library::Report {
    let says = match given.says {
        twin::Says::Late => library::Says::Late,
        twin::Says::Incapable => library::Says::Incapable,
        twin::Says::Refused => library::Says::Refused,
        twin::Says::Basic {
            channel,
            start,
            duration,
            map,
        } => library::Says::Basic {
            channel,
            start,
            duration,
            map,
        },
        twin::Says::Cca {
            channel,
            start,
            duration,
            busy,
        } => library::Says::Cca {
            channel,
            start,
            duration,
            busy,
        },
        twin::Says::Rpi {
            channel,
            start,
            duration,
            densities,
        } => library::Says::Rpi {
            channel,
            start,
            duration,
            densities,
        },
        twin::Says::Uninterpreted => library::Says::Uninterpreted,
    };
    library::Report {
        token: given.token,
        kind: given.kind,
        says,
    }
}

fn notice(given: &twin::Notice) -> library::Notice {
    library::Notice {
        timestamp: given.timestamp,
        capability: given.capability,
        constraint: given.constraint,
        report: given.tpc_report.map(tpc),
        switch: given.switch.map(switch),
        quiets: given.quiets.len(),
    }
}

/// The library counts Quiet and measurement elements where the twin keeps them;
/// they are compared one by one through their index.
pub fn received(given: &twin::Received) -> library::Received {
    let frame = match &given.frame {
        twin::Frame::Beacon(said) => library::Frame::Beacon(notice(said)),
        twin::Frame::ProbeResponse(said) => library::Frame::ProbeResponse(notice(said)),
        twin::Frame::MeasurementRequest { token, requests } => library::Frame::MeasurementRequest {
            token: *token,
            count: requests.len(),
        },
        twin::Frame::MeasurementReport { token, reports } => library::Frame::MeasurementReport {
            token: *token,
            count: reports.len(),
        },
        twin::Frame::TpcRequest { token } => library::Frame::TpcRequest { token: *token },
        twin::Frame::TpcReport {
            token,
            power,
            margin,
        } => library::Frame::TpcReport {
            token: *token,
            report: tpc((*power, *margin)),
        },
        twin::Frame::ChannelSwitch(said) => library::Frame::ChannelSwitch(switch(*said)),
    };
    library::Received {
        broadcast: given.broadcast,
        frame,
    }
}

pub fn pair(given: twin::ChannelMap) -> library::ChannelMap {
    library::ChannelMap {
        channel: given.channel,
        map: given.map,
    }
}

/// The library counts the pairs of element 41, too.
pub fn ibss_received(given: &twin::IbssReceived) -> library::IbssReceived {
    let received = twin::Received {
        broadcast: given.broadcast,
        frame: given.frame.clone(),
    };
    library::IbssReceived {
        received: self::received(&received),
        sender: given.sender,
        dfs: given.dfs.as_ref().map(|dfs| library::IbssDfs {
            owner: dfs.owner,
            recovery: dfs.recovery,
            pairs: dfs.pairs.len(),
        }),
    }
}

/// The number and the place of a refused frame.
pub fn fault(given: &twin::Refusal) -> library::Fault {
    library::Fault {
        refusal: given.number,
        offset: given.offset,
    }
}

pub fn finding(given: twin::Finding) -> library::Finding {
    match given {
        twin::Finding::Refused => library::Finding::Refused,
        twin::Finding::Map(map) => library::Finding::Map(map),
        twin::Finding::Busy(busy) => library::Finding::Busy(busy),
        twin::Finding::Times(times) => library::Finding::Times(times),
    }
}
