//! The library's functions as they are exported. A slice is passed as a
//! pointer and a length, which is what the two words of a Rust slice are.

extern "C" {
    pub fn oneiralth_read_frame(
        frame: *const u8,
        frame_length: usize,
        own: u64,
        ap: u64,
        interval: u16,
        out: *mut u8,
        out_length: usize,
    ) -> u64;
    pub fn oneiralth_fault_offset(
        frame: *const u8,
        frame_length: usize,
        own: u64,
        ap: u64,
        interval: u16,
    ) -> u64;
    pub fn oneiralth_read_quiet(
        frame: *const u8,
        frame_length: usize,
        own: u64,
        ap: u64,
        interval: u16,
        index: usize,
        out: *mut u8,
        out_length: usize,
    ) -> u64;
    pub fn oneiralth_read_request(
        frame: *const u8,
        frame_length: usize,
        own: u64,
        ap: u64,
        interval: u16,
        index: usize,
        out: *mut u8,
        out_length: usize,
    ) -> u64;
    pub fn oneiralth_read_report(
        frame: *const u8,
        frame_length: usize,
        own: u64,
        ap: u64,
        interval: u16,
        index: usize,
        out: *mut u8,
        out_length: usize,
    ) -> u64;
    pub fn oneiralth_read_ibss_frame(
        frame: *const u8,
        frame_length: usize,
        own: u64,
        bssid: u64,
        interval: u16,
        out: *mut u8,
        out_length: usize,
    ) -> u64;
    pub fn oneiralth_ibss_fault_offset(
        frame: *const u8,
        frame_length: usize,
        own: u64,
        bssid: u64,
        interval: u16,
    ) -> u64;
    pub fn oneiralth_read_ibss_quiet(
        frame: *const u8,
        frame_length: usize,
        own: u64,
        bssid: u64,
        interval: u16,
        index: usize,
        out: *mut u8,
        out_length: usize,
    ) -> u64;
    pub fn oneiralth_read_dfs_pair(
        frame: *const u8,
        frame_length: usize,
        own: u64,
        bssid: u64,
        interval: u16,
        index: usize,
        out: *mut u8,
        out_length: usize,
    ) -> u64;
    pub fn oneiralth_write_power_constraint(decibels: u8, out: *mut u8, out_length: usize) -> u64;
    pub fn oneiralth_write_tpc_request(out: *mut u8, out_length: usize) -> u64;
    pub fn oneiralth_write_tpc_report(power: u8, margin: u8, out: *mut u8, out_length: usize) -> u64;
    pub fn oneiralth_write_channel_switch(
        mode: u8,
        channel: u8,
        count: u8,
        out: *mut u8,
        out_length: usize,
    ) -> u64;
    pub fn oneiralth_write_quiet(
        count: u8,
        period: u8,
        duration: u16,
        offset: u16,
        interval: u16,
        out: *mut u8,
        out_length: usize,
    ) -> u64;
    pub fn oneiralth_write_ibss_dfs(
        owner: u64,
        recovery: u8,
        pairs: *const u8,
        pairs_length: usize,
        out: *mut u8,
        out_length: usize,
    ) -> u64;
    pub fn oneiralth_write_request(
        token: u8,
        kind: u8,
        asks: u8,
        request: bool,
        report: bool,
        channel: u8,
        start: u64,
        duration: u16,
        out: *mut u8,
        out_length: usize,
    ) -> u64;
    pub fn oneiralth_write_report(
        token: u8,
        kind: u8,
        says: u8,
        value: u8,
        channel: u8,
        start: u64,
        duration: u16,
        densities: u64,
        out: *mut u8,
        out_length: usize,
    ) -> u64;
    pub fn oneiralth_write_tpc_request_body(token: u8, out: *mut u8, out_length: usize) -> u64;
    pub fn oneiralth_write_tpc_report_body(
        token: u8,
        power: u8,
        margin: u8,
        out: *mut u8,
        out_length: usize,
    ) -> u64;
    pub fn oneiralth_write_channel_switch_body(
        mode: u8,
        channel: u8,
        count: u8,
        out: *mut u8,
        out_length: usize,
    ) -> u64;
    pub fn oneiralth_append_request(
        buffer: *mut u8,
        buffer_length: usize,
        used: usize,
        dialog: u8,
        token: u8,
        kind: u8,
        asks: u8,
        request: bool,
        report: bool,
        channel: u8,
        start: u64,
        duration: u16,
    ) -> u64;
    pub fn oneiralth_append_report(
        buffer: *mut u8,
        buffer_length: usize,
        used: usize,
        dialog: u8,
        token: u8,
        kind: u8,
        says: u8,
        value: u8,
        channel: u8,
        start: u64,
        duration: u16,
        densities: u64,
    ) -> u64;
    pub fn oneiralth_reply_to_tpc_request(
        frame: *const u8,
        frame_length: usize,
        own: u64,
        ap: u64,
        power: u8,
        margin: u8,
        out: *mut u8,
        out_length: usize,
    ) -> u64;
    pub fn oneiralth_reply_to_measurement_request(
        frame: *const u8,
        frame_length: usize,
        own: u64,
        ap: u64,
        clock: u32,
        index: usize,
        found: u8,
        value: u32,
        t0: u32,
        t1: u32,
        t2: u32,
        t3: u32,
        t4: u32,
        t5: u32,
        t6: u32,
        t7: u32,
        out: *mut u8,
        out_length: usize,
    ) -> u64;
    pub fn oneiralth_station_start(
        own: u64,
        ap: u64,
        interval: u16,
        channel: u8,
        station: *mut u8,
        station_length: usize,
    ) -> u64;
    pub fn oneiralth_station_take(
        station: *mut u8,
        station_length: usize,
        frame: *const u8,
        frame_length: usize,
    ) -> u64;
    pub fn oneiralth_station_advance(station: *mut u8, station_length: usize, units: u32) -> u64;
    pub fn oneiralth_station_ask(station: *const u8, station_length: usize, units: u32) -> u64;
    pub fn oneiralth_station_reply_to_tpc_request(
        station: *const u8,
        station_length: usize,
        frame: *const u8,
        frame_length: usize,
        power: u8,
        margin: u8,
        out: *mut u8,
        out_length: usize,
    ) -> u64;
    pub fn oneiralth_station_reply_to_measurement_request(
        station: *const u8,
        station_length: usize,
        frame: *const u8,
        frame_length: usize,
        index: usize,
        found: u8,
        value: u32,
        t0: u32,
        t1: u32,
        t2: u32,
        t3: u32,
        t4: u32,
        t5: u32,
        t6: u32,
        t7: u32,
        out: *mut u8,
        out_length: usize,
    ) -> u64;
    pub fn oneiralth_busy_fraction(busy: u32, duration: u16) -> u64;
    pub fn oneiralth_rpi_densities(
        t0: u32,
        t1: u32,
        t2: u32,
        t3: u32,
        t4: u32,
        t5: u32,
        t6: u32,
        t7: u32,
        duration: u16,
        out: *mut u8,
        out_length: usize,
    ) -> u64;
    pub fn oneiralth_centre(channel: u8) -> u64;
    pub fn oneiralth_list(
        capture: *const u8,
        capture_length: usize,
        out: *mut u8,
        out_length: usize,
    ) -> u64;
}
