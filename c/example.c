/* Reads an announcement, a beacon and a beacon of an IBSS, replies to a TPC Request, steps a station as a probe's interrupt routine does and makes the list of a capture of one
 * block, each by the proved library. Writes what came out. */
#include "oneiralth.h"

#include <stdio.h>
#include <string.h>

static const uint8_t OWN[6] = {2, 0, 0, 0, 0, 1};
static const uint8_t AP[6] = {2, 0, 0, 0, 0, 9};

/* An action frame from the AP to the station; gives its length. */
static size_t action(const uint8_t *body, size_t length, uint8_t *frame) {
    memset(frame, 0, 24);
    frame[0] = 0xD0;
    memcpy(frame + 4, OWN, 6);
    memcpy(frame + 10, AP, 6);
    memcpy(frame + 16, AP, 6);
    memcpy(frame + 24, body, length);
    return 24 + length;
}

static void show_announcement(void) {
    const uint8_t body[] = {0, 4, 37, 3, 1, 44, 2};
    uint8_t frame[64], fields[ONEIRALTH_FRAME];
    size_t length = action(body, sizeof body, frame);
    int64_t answer = oneiralth_read_frame(frame, length, oneiralth_address(OWN), oneiralth_address(AP), 100, fields, sizeof fields);
    const uint8_t *announcement = fields + ONEIRALTH_FRAME_SWITCH;
    printf("announcement: answer %d, kind %d, mode %d, channel %d, count %d\n", (int)answer, fields[ONEIRALTH_FRAME_KIND], announcement[1], announcement[2],
           announcement[3]);
    answer = oneiralth_read_frame(frame, length - 1, oneiralth_address(OWN), oneiralth_address(AP), 100, fields, sizeof fields);
    int64_t offset = oneiralth_fault_offset(frame, length - 1, oneiralth_address(OWN), oneiralth_address(AP), 100);
    if (answer == ONEIRALTH_ELEMENT_CUT) printf("cut by an octet: the element at octet %d runs past the end, answer %d\n", (int)offset, (int)answer);
}

/* A beacon with two Quiet elements, each read by its index. */
static void show_quiets(void) {
    const uint8_t body[] = {0, 0, 0, 0, 0, 0, 0, 0, 100, 0, 0, 0, 40, 6, 1, 0, 10, 0, 20, 0, 40, 6, 2, 4, 5, 0, 99, 0};
    uint8_t frame[64], fields[ONEIRALTH_FRAME], quiet[ONEIRALTH_QUIET];
    size_t length = action(body, sizeof body, frame);
    frame[0] = 0x80;
    oneiralth_read_frame(frame, length, oneiralth_address(OWN), oneiralth_address(AP), 100, fields, sizeof fields);
    int many = fields[ONEIRALTH_FRAME_QUIETS];
    printf("beacon: %d quiet elements\n", many);
    for (int i = 0; i <= many; i++) {
        int64_t answer = oneiralth_read_quiet(frame, length, oneiralth_address(OWN), oneiralth_address(AP), 100, (size_t)i, quiet, sizeof quiet);
        if (answer == ONEIRALTH_IMPOSSIBLE) printf("quiet %d: there is none\n", i);
        else printf("quiet %d: count %d, offset %d\n", i, quiet[ONEIRALTH_QUIET_COUNT], quiet[ONEIRALTH_QUIET_OFFSET]);
    }
}

/* A beacon of an IBSS whose element 41 has two pairs: who sent it, whom it names, and the pairs by their index. AP is the BSSID here. */
static void show_ibss_beacon(void) {
    const uint8_t sender[6] = {2, 0, 0, 0, 0, 5}, owner[6] = {2, 0, 0, 0, 0, 7}, pairs[] = {36, 8, 44, 16};
    uint8_t body[64] = {0, 0, 0, 0, 0, 0, 0, 0, 100, 0, 0, 0};
    uint8_t frame[128], fields[ONEIRALTH_IBSS_FRAME], pair[ONEIRALTH_PAIR];
    int64_t many = oneiralth_write_ibss_dfs(oneiralth_address(owner), 3, pairs, sizeof pairs, body + 12, sizeof body - 12);
    size_t length = action(body, 12 + (size_t)many, frame);
    frame[0] = 0x80;
    memcpy(frame + 10, sender, 6);
    int64_t answer = oneiralth_read_ibss_frame(frame, length, oneiralth_address(OWN), oneiralth_address(AP), 100, fields, sizeof fields);
    printf("IBSS beacon: answer %d, sender %d, element 41 %d, owner %d, recovery %d, pairs %d\n", (int)answer, fields[ONEIRALTH_IBSS_FRAME_SENDER + 5],
           fields[ONEIRALTH_IBSS_FRAME_DFS], fields[ONEIRALTH_IBSS_FRAME_OWNER + 5], fields[ONEIRALTH_IBSS_FRAME_RECOVERY], fields[ONEIRALTH_IBSS_FRAME_PAIRS]);
    for (int i = 0; i <= fields[ONEIRALTH_IBSS_FRAME_PAIRS]; i++) {
        answer = oneiralth_read_dfs_pair(frame, length, oneiralth_address(OWN), oneiralth_address(AP), 100, (size_t)i, pair, sizeof pair);
        if (answer == ONEIRALTH_IMPOSSIBLE) printf("pair %d: there is none\n", i);
        else printf("pair %d: channel %d, map %d\n", i, pair[ONEIRALTH_PAIR_CHANNEL], pair[ONEIRALTH_PAIR_MAP]);
    }
    answer = oneiralth_read_ibss_frame(frame, length - 1, oneiralth_address(OWN), oneiralth_address(AP), 100, fields, sizeof fields);
    printf("cut by an octet: the element at octet %d runs past the end, answer %d\n",
           (int)oneiralth_ibss_fault_offset(frame, length - 1, oneiralth_address(OWN), oneiralth_address(AP), 100), (int)answer);
}

static void show_reply(void) {
    const uint8_t body[] = {0, 2, 7, 34, 0};
    uint8_t frame[64], reply[64];
    size_t length = action(body, sizeof body, frame);
    int64_t answer = oneiralth_reply_to_tpc_request(frame, length, oneiralth_address(OWN), oneiralth_address(AP), (uint8_t)-3, 5, reply, sizeof reply);
    printf("reply: %d octets, body", (int)answer);
    for (int i = 24; i < answer; i++) printf(" %d", reply[i]);
    printf("\nreply in 30 octets: answer %d\n",
           (int)oneiralth_reply_to_tpc_request(frame, length, oneiralth_address(OWN), oneiralth_address(AP), 0, 0, reply, 30));
}

/* The probe's station, at one address for as long as the probe runs. */
static uint8_t station[ONEIRALTH_STATION_SIZE];

/* The probe's interrupt routine, once per TU: the clock goes on where it lies, and the answer says whether the unit that begins may be used. */
static int64_t on_time_unit(void) {
    int64_t answer = oneiralth_station_advance(station, sizeof station, 1);
    if (answer < 0) return answer;
    return oneiralth_station_ask(station, sizeof station, 1);
}

/* A beacon with one Quiet element: 10 TU, from 20 after the next TBTT on. A probe holds its interrupt off while the station takes a frame. */
static int64_t take_quiet_beacon(void) {
    uint8_t body[20] = {0, 0, 0, 0, 0, 0, 0, 0, 100, 0, 0, 0};
    uint8_t frame[64];
    int64_t many = oneiralth_write_quiet(1, 0, 10, 20, 100, body + 12, sizeof body - 12);
    size_t length = action(body, 12 + (size_t)many, frame);
    frame[0] = 0x80;
    return oneiralth_station_take(station, sizeof station, frame, length);
}

/* The beacon comes at 50, so the next TBTT is at 100 and it is quiet from 120 to 129. */
static void show_station(void) {
    printf("station not started: answer %d\n", (int)on_time_unit());
    int64_t started = oneiralth_station_start(oneiralth_address(OWN), oneiralth_address(AP), 100, 36, station, sizeof station);
    int64_t advanced = oneiralth_station_advance(station, sizeof station, 50);
    printf("station: start %d, advance %d, beacon %d\n", (int)started, (int)advanced, (int)take_quiet_beacon());
    int64_t latest = -1;
    for (int moment = 51; moment <= 150; moment++) {
        int64_t answer = on_time_unit();
        if (answer != latest) printf("from %d on: answer %d\n", moment, (int)answer);
        latest = answer;
    }
}

static void show_list(void) {
    uint8_t block[512] = {18, 0, 4, 15, 0, 2, 0, 0, 0, 0, 1, 2, 0, 0, 0, 0, 9, 36, 100, 0};
    uint8_t list[128];
    unsigned sum = 1;
    for (int i = 0; i < 510; i++) sum += block[i];
    block[510] = sum & 255;
    block[511] = sum >> 8 & 255;
    int64_t answer = oneiralth_list(block, sizeof block, list, sizeof list);
    printf("list: %d octets\n%.*s", (int)answer, (int)answer, (const char *)list);
    printf("list in 10 octets: answer %d\n", (int)oneiralth_list(block, sizeof block, list, 10));
}

int main(void) {
    show_announcement();
    show_quiets();
    show_ibss_beacon();
    show_reply();
    show_station();
    show_list();
    printf("centre of 36: %d, of 201: %d\n", (int)oneiralth_centre(36), (int)oneiralth_centre(201));
    return 0;
}
