/* The proved library for C on x86-64 (docs/BOUNDARY.md): frames, elements, action bodies, replies, a station and the evening list of IEEE Std 802.11h-2003,
 * under the scope document's rules. Link with crates/boundary/out/libboundary.a, which
 * `tools/build boundary` makes.
 *
 * Nothing is kept between calls; a station lives in octets that its caller keeps. Every function takes every input, always ends, and gives back a number
 * of 0 or more, or minus a refusal's number (-1 to -22, the scope document's table; -23 is given by no function yet). A refused call leaves every octet of
 * the buffer as it was; an accepted one leaves every octet past those that it says it wrote as it was, and of a station every octet after its record.
 *
 * An octet range is a pointer and a length; the length may be 0, the pointer is then any that is not null. What is lent for writing must not overlap
 * what is read. */
#ifndef ONEIRALTH_H
#define ONEIRALTH_H

#include <stdbool.h>
#include <stddef.h>
#include <stdint.h>

#ifdef __cplusplus
extern "C" {
#endif

/* The answers: 0, or minus a refusal's number (docs/ANSWERS.md). */
enum {
    ONEIRALTH_ACCEPTED = 0,
    ONEIRALTH_TOO_SHORT = -1, /* the frame is under 24 octets, or a fixed field of its body is missing */
    ONEIRALTH_TOO_LONG = -2, /* the frame is over 2,336 octets */
    ONEIRALTH_FOREIGN_HEADER = -3, /* version, type, subtype, a flag or the fragment number is none that is read */
    ONEIRALTH_FOREIGN_ADDRESS = -4, /* SA or BSSID is not the AP, or DA is neither the station nor all ones; in an IBSS SA may be any individual address */
    ONEIRALTH_FOREIGN_ACTION = -5, /* category not 0, or action over 4 */
    ONEIRALTH_ELEMENT_CUT = -6, /* an element runs past the frame's end */
    ONEIRALTH_ELEMENT_ABSENT = -7, /* the required element is absent */
    ONEIRALTH_WRONG_LENGTH = -8, /* the length of an element is wrong */
    ONEIRALTH_FORBIDDEN_VALUE = -9, /* a value that the rules forbid */
    ONEIRALTH_REPEATED = -10, /* a second 32, 35 or 37, in a beacon of an IBSS 41, or a measurement token used twice */
    ONEIRALTH_TOO_MANY_QUIETS = -11, /* a ninth Quiet element */
    ONEIRALTH_OTHER_INTERVAL = -12, /* the beacon's interval is not the station's */
    ONEIRALTH_BUFFER_SHORT = -13, /* the buffer is shorter than what is to be written */
    ONEIRALTH_PAST_CLOCK = -14, /* the clock would pass its limit, or the advance is over 65,535 */
    ONEIRALTH_BAD_START = -15, /* a station cannot be started so */
    ONEIRALTH_IMPOSSIBLE = -16, /* a record that cannot be written, impossible readings, an index past the last, a centre over channel 200, octets that hold no station */
    ONEIRALTH_BLOCK_DAMAGED = -17, /* a damaged block */
    ONEIRALTH_NO_REPLY_DUE = -18, /* no reply is due */
    ONEIRALTH_NO_STATION = -19, /* a capture record with no station started */
    ONEIRALTH_RECORD_MALFORMED = -20, /* a malformed capture record */
    ONEIRALTH_OTHER_ELEMENT = -21, /* another element stands where one is required */
    ONEIRALTH_LEFT_OVER = -22, /* octets are left over after the one element of an action frame */
    ONEIRALTH_FOREIGN_ANNOUNCEMENT = -23 /* in an IBSS, an announcement by any but a known DFS owner */
};

/* Where each field of a frame stands, and how many octets they are; numbers have their least significant octet first. */
enum {
    ONEIRALTH_FRAME_KIND = 0,
    ONEIRALTH_FRAME_TO_ALL = 1,     /* 1 if it was sent to all ones */
    ONEIRALTH_FRAME_TOKEN = 2,
    ONEIRALTH_FRAME_ELEMENTS = 3,   /* 8 octets: how many measurement elements */
    ONEIRALTH_FRAME_QUIETS = 11,    /* 8 octets: how many Quiet elements */
    ONEIRALTH_FRAME_TIMESTAMP = 19, /* 8 octets */
    ONEIRALTH_FRAME_CAPABILITY = 27, /* 2 octets */
    ONEIRALTH_FRAME_POWER = 29,     /* 1 if there is a Power Constraint, and its value */
    ONEIRALTH_FRAME_REPORT = 31,    /* 1 if there is a TPC Report, power, margin */
    ONEIRALTH_FRAME_SWITCH = 34,    /* 1 if there is a Channel Switch Announcement, mode, channel, count */
    ONEIRALTH_FRAME = 38
};

/* A frame of an IBSS: the fields above, and these after them. */
enum {
    ONEIRALTH_IBSS_FRAME_SENDER = 38,   /* 6 octets */
    ONEIRALTH_IBSS_FRAME_DFS = 44,      /* 1 if there is an element 41 */
    ONEIRALTH_IBSS_FRAME_OWNER = 45,    /* 6 octets: its owner */
    ONEIRALTH_IBSS_FRAME_RECOVERY = 51, /* its recovery interval */
    ONEIRALTH_IBSS_FRAME_PAIRS = 52,    /* 8 octets: how many pairs of channel and map it has */
    ONEIRALTH_IBSS_FRAME = 60
};

/* A pair of element 41. */
enum {
    ONEIRALTH_PAIR_CHANNEL = 0,
    ONEIRALTH_PAIR_MAP = 1,
    ONEIRALTH_PAIR = 2
};

/* A Quiet element. */
enum {
    ONEIRALTH_QUIET_COUNT = 0,
    ONEIRALTH_QUIET_PERIOD = 1,
    ONEIRALTH_QUIET_DURATION = 2, /* 2 octets */
    ONEIRALTH_QUIET_OFFSET = 4,   /* 2 octets */
    ONEIRALTH_QUIET = 6
};

/* A Measurement Request element. */
enum {
    ONEIRALTH_REQUEST_TOKEN = 0,
    ONEIRALTH_REQUEST_TYPE = 1,
    ONEIRALTH_REQUEST_ASKS = 2,
    ONEIRALTH_REQUEST_REQUEST = 3,
    ONEIRALTH_REQUEST_REPORT = 4,
    ONEIRALTH_REQUEST_CHANNEL = 5,
    ONEIRALTH_REQUEST_START = 6,     /* 8 octets */
    ONEIRALTH_REQUEST_DURATION = 14, /* 2 octets */
    ONEIRALTH_REQUEST = 16
};

/* A Measurement Report element. */
enum {
    ONEIRALTH_REPORT_TOKEN = 0,
    ONEIRALTH_REPORT_TYPE = 1,
    ONEIRALTH_REPORT_SAYS = 2,
    ONEIRALTH_REPORT_VALUE = 3, /* the map or the busy fraction */
    ONEIRALTH_REPORT_CHANNEL = 4,
    ONEIRALTH_REPORT_START = 5,      /* 8 octets */
    ONEIRALTH_REPORT_DURATION = 13,  /* 2 octets */
    ONEIRALTH_REPORT_DENSITIES = 15, /* 8 octets */
    ONEIRALTH_REPORT = 23
};

/* A station in its caller's octets. What is absent is zeros; what stands after the schedules in use is neither looked at nor changed. */
enum {
    ONEIRALTH_STATION_VERSION = 0,    /* 1 */
    ONEIRALTH_STATION_CHANNEL = 1,
    ONEIRALTH_STATION_INTERVAL = 2,   /* 2 octets */
    ONEIRALTH_STATION_CLOCK = 4,      /* 4 octets */
    ONEIRALTH_STATION_OWN = 8,        /* 6 octets: its own address */
    ONEIRALTH_STATION_AP = 14,        /* 6 octets */
    ONEIRALTH_STATION_POWER = 20,     /* 1 if there is a Power Constraint, and its value */
    ONEIRALTH_STATION_SWITCH = 22,    /* 1 if a switch is pending, mode, channel, moment (8) */
    ONEIRALTH_STATION_UNTIL = 33,     /* 8 octets: until when what had begun of replaced quiet schedules runs on */
    ONEIRALTH_STATION_COUNT = 41,     /* how many quiet schedules are in use, at most 8 */
    ONEIRALTH_STATION_SCHEDULES = 42, /* 18 octets for each: start (8), period (8), duration (2) */
    ONEIRALTH_STATION_SCHEDULE = 18,
    ONEIRALTH_STATION_SIZE = 336      /* so many octets a caller sets aside, of any alignment */
};

/* The answers to a question of a station. */
enum {
    ONEIRALTH_ASK_GRANTED,
    ONEIRALTH_ASK_SWITCH_SILENCES, /* a switch of mode 1 is pending */
    ONEIRALTH_ASK_QUIET_NOW,       /* the first unit is quiet */
    ONEIRALTH_ASK_QUIET_LATER,     /* a later unit before the pending switch, if any, is quiet */
    ONEIRALTH_ASK_SWITCH_BEFORE,   /* the switch lies before the end of the units */
    ONEIRALTH_ASK_WRONG_LENGTH     /* no units, or more than 65,535 */
};

/* The kinds of a frame, at ONEIRALTH_FRAME_KIND. */
enum {
    ONEIRALTH_BEACON,
    ONEIRALTH_PROBE_RESPONSE,
    ONEIRALTH_MEASUREMENT_REQUEST,
    ONEIRALTH_MEASUREMENT_REPORT,
    ONEIRALTH_TPC_REQUEST,
    ONEIRALTH_TPC_REPORT,
    ONEIRALTH_CHANNEL_SWITCH
};

/* What a Measurement Request element asks, and what a Measurement Report element says. */
enum { ONEIRALTH_ASKS_ENABLE, ONEIRALTH_ASKS_MEASURE, ONEIRALTH_ASKS_UNINTERPRETED };
enum {
    ONEIRALTH_SAYS_LATE,
    ONEIRALTH_SAYS_INCAPABLE,
    ONEIRALTH_SAYS_REFUSED,
    ONEIRALTH_SAYS_BASIC,
    ONEIRALTH_SAYS_CCA,
    ONEIRALTH_SAYS_RPI,
    ONEIRALTH_SAYS_UNINTERPRETED
};

/* What the caller of a reply has found. */
enum { ONEIRALTH_FOUND_REFUSED, ONEIRALTH_FOUND_MAP, ONEIRALTH_FOUND_BUSY, ONEIRALTH_FOUND_TIMES };

/* An address as the functions take it: its six octets, the first of them the least significant. */
static inline uint64_t oneiralth_address(const uint8_t octets[6]) {
    uint64_t number = 0;
    for (int i = 5; i >= 0; i--) number = number << 8 | octets[i];
    return number;
}

/* ---- reading: the fields are put at fixed places from the front of `out` on */

int64_t oneiralth_read_frame(const uint8_t *frame, size_t frame_length, uint64_t own, uint64_t ap, uint16_t interval, uint8_t *out, size_t out_length);
/* Where a frame that is refused broke: how many octets stand before the one at fault. A refusal with no octet at fault (-1 to -4) is given again, and a
 * frame that is accepted gives ONEIRALTH_IMPOSSIBLE. */
int64_t oneiralth_fault_offset(const uint8_t *frame, size_t frame_length, uint64_t own, uint64_t ap, uint16_t interval);
/* A Quiet element and a measurement element are read by their index from 0; ONEIRALTH_IMPOSSIBLE where there is none. */
int64_t oneiralth_read_quiet(const uint8_t *frame, size_t frame_length, uint64_t own, uint64_t ap, uint16_t interval, size_t index, uint8_t *out,
                             size_t out_length);
int64_t oneiralth_read_request(const uint8_t *frame, size_t frame_length, uint64_t own, uint64_t ap, uint16_t interval, size_t index, uint8_t *out,
                               size_t out_length);
int64_t oneiralth_read_report(const uint8_t *frame, size_t frame_length, uint64_t own, uint64_t ap, uint16_t interval, size_t index, uint8_t *out,
                              size_t out_length);

/* ---- reading as a station of an IBSS does: from any individual address, with element 41 of a beacon */

int64_t oneiralth_read_ibss_frame(const uint8_t *frame, size_t frame_length, uint64_t own, uint64_t bssid, uint16_t interval, uint8_t *out,
                                  size_t out_length);
/* As oneiralth_fault_offset. */
int64_t oneiralth_ibss_fault_offset(const uint8_t *frame, size_t frame_length, uint64_t own, uint64_t bssid, uint16_t interval);
/* By the index from 0; ONEIRALTH_IMPOSSIBLE where there is none. */
int64_t oneiralth_read_ibss_quiet(const uint8_t *frame, size_t frame_length, uint64_t own, uint64_t bssid, uint16_t interval, size_t index, uint8_t *out,
                                  size_t out_length);
int64_t oneiralth_read_dfs_pair(const uint8_t *frame, size_t frame_length, uint64_t own, uint64_t bssid, uint16_t interval, size_t index, uint8_t *out,
                                size_t out_length);

/* ---- elements, written from the front of `out` on; power and margin are the octets of signed numbers */

int64_t oneiralth_write_power_constraint(uint8_t decibels, uint8_t *out, size_t out_length);
int64_t oneiralth_write_tpc_request(uint8_t *out, size_t out_length);
int64_t oneiralth_write_tpc_report(uint8_t power, uint8_t margin, uint8_t *out, size_t out_length);
int64_t oneiralth_write_channel_switch(uint8_t mode, uint8_t channel, uint8_t count, uint8_t *out, size_t out_length);
int64_t oneiralth_write_quiet(uint8_t count, uint8_t period, uint16_t duration, uint16_t offset, uint16_t interval, uint8_t *out, size_t out_length);
/* Element 41; the pairs are their octets, channel and map in turn, at most 248 of them. */
int64_t oneiralth_write_ibss_dfs(uint64_t owner, uint8_t recovery, const uint8_t *pairs, size_t pairs_length, uint8_t *out, size_t out_length);
int64_t oneiralth_write_request(uint8_t token, uint8_t kind, uint8_t asks, bool request, bool report, uint8_t channel, uint64_t start, uint16_t duration,
                                uint8_t *out, size_t out_length);
/* `value` is the map or the busy fraction; the densities are eight octets, the first of them the least significant. */
int64_t oneiralth_write_report(uint8_t token, uint8_t kind, uint8_t says, uint8_t value, uint8_t channel, uint64_t start, uint16_t duration,
                               uint64_t densities, uint8_t *out, size_t out_length);

/* ---- action bodies; those of measurements are written element by element after the first `used` octets of the buffer */

int64_t oneiralth_write_tpc_request_body(uint8_t token, uint8_t *out, size_t out_length);
int64_t oneiralth_write_tpc_report_body(uint8_t token, uint8_t power, uint8_t margin, uint8_t *out, size_t out_length);
int64_t oneiralth_write_channel_switch_body(uint8_t mode, uint8_t channel, uint8_t count, uint8_t *out, size_t out_length);
int64_t oneiralth_append_request(uint8_t *buffer, size_t buffer_length, size_t used, uint8_t dialog, uint8_t token, uint8_t kind, uint8_t asks,
                                 bool request, bool report, uint8_t channel, uint64_t start, uint16_t duration);
int64_t oneiralth_append_report(uint8_t *buffer, size_t buffer_length, size_t used, uint8_t dialog, uint8_t token, uint8_t kind, uint8_t says,
                                uint8_t value, uint8_t channel, uint64_t start, uint16_t duration, uint64_t densities);

/* ---- replies, each a whole frame; the clock is in TU, the times are in microseconds. An action frame to the station alone whose
 * body is broken gets that body back as an error return, its category's top bit set, from either function and whatever else it is handed. So a reply may be
 * as long as a frame: 2,336 octets always suffice. */

int64_t oneiralth_reply_to_tpc_request(const uint8_t *frame, size_t frame_length, uint64_t own, uint64_t ap, uint8_t power, uint8_t margin, uint8_t *out,
                                       size_t out_length);
int64_t oneiralth_reply_to_measurement_request(const uint8_t *frame, size_t frame_length, uint64_t own, uint64_t ap, uint32_t clock, size_t index,
                                               uint8_t found, uint32_t value, uint32_t t0, uint32_t t1, uint32_t t2, uint32_t t3, uint32_t t4,
                                               uint32_t t5, uint32_t t6, uint32_t t7, uint8_t *out, size_t out_length);

/* ---- a station, in ONEIRALTH_STATION_SIZE octets that its caller keeps, and changed there. Octets that hold none, since none was started in them, they were
 * spoilt or they are too few, give ONEIRALTH_IMPOSSIBLE, and stay as they are. No call may interrupt another on the same station. */

/* ONEIRALTH_STATION_SIZE as the library has it. */
int64_t oneiralth_station_size(void);
/* Starts a station at clock 0, whatever the octets held: ONEIRALTH_BAD_START, or ONEIRALTH_BUFFER_SHORT where they are too few. */
int64_t oneiralth_station_start(uint64_t own, uint64_t ap, uint16_t interval, uint8_t channel, uint8_t *station, size_t station_length);
/* Hands a frame to the station; 0, or the frame's refusal. */
int64_t oneiralth_station_take(uint8_t *station, size_t station_length, const uint8_t *frame, size_t frame_length);
/* Lets the clock go on by so many TU; 0, or ONEIRALTH_PAST_CLOCK. */
int64_t oneiralth_station_advance(uint8_t *station, size_t station_length, uint32_t units);
/* Asks whether the station may send for so many TU from now on: ONEIRALTH_ASK_GRANTED or what stands against it. */
int64_t oneiralth_station_ask(const uint8_t *station, size_t station_length, uint32_t units);
/* As oneiralth_reply_to_tpc_request and oneiralth_reply_to_measurement_request above, with the station's own address, AP and clock. */
int64_t oneiralth_station_reply_to_tpc_request(const uint8_t *station, size_t station_length, const uint8_t *frame, size_t frame_length, uint8_t power,
                                               uint8_t margin, uint8_t *out, size_t out_length);
int64_t oneiralth_station_reply_to_measurement_request(const uint8_t *station, size_t station_length, const uint8_t *frame, size_t frame_length,
                                                       size_t index, uint8_t found, uint32_t value, uint32_t t0, uint32_t t1, uint32_t t2, uint32_t t3,
                                                       uint32_t t4, uint32_t t5, uint32_t t6, uint32_t t7, uint8_t *out, size_t out_length);

/* ---- numbers */

int64_t oneiralth_busy_fraction(uint32_t busy, uint16_t duration);
int64_t oneiralth_rpi_densities(uint32_t t0, uint32_t t1, uint32_t t2, uint32_t t3, uint32_t t4, uint32_t t5, uint32_t t6, uint32_t t7,
                                uint16_t duration, uint8_t *out, size_t out_length);
int64_t oneiralth_centre(uint8_t channel);

/* ---- the evening list of a whole capture in memory */

int64_t oneiralth_list(const uint8_t *capture, size_t capture_length, uint8_t *out, size_t out_length);

#ifdef __cplusplus
}
#endif

#endif
