/* The model of a relay's rounds and their saves, of the server's, and of windows. */
#include "model.h"

#include <string.h>

/* ---- what relays and the server share ---- */

/* 1, 2, 9, and 8 where the cluster is not known. */
static uint64_t check_counts(const uint32_t *counts, bool known) {
    if (!counts_fit(counts[0], counts[1], 0)) return 1;
    if (!is_prime(counts[2])) return 2;
    if (counts[3] < 1 || counts[3] > 64) return 9;
    return known ? 0 : 8;
}

static bool row_fits(const uint32_t *counts, const uint32_t *sums) {
    return all_below(counts[2], sums, counts[3]) && all_below(1, sums + counts[3], 64 - counts[3]);
}

static uint64_t check_frame(const uint32_t *counts, size_t senders, bool rounds_fit, uint16_t reported, size_t sender, const uint32_t *block,
                            size_t block_len) {
    if (sender < 1 || sender > senders) return 8;
    if (!rounds_fit) return 14;
    if (block_len != counts[3]) return 4;
    if (!all_below(counts[2], block, block_len)) return 3;
    if (reported >> (sender - 1) & 1) return 11;
    return 0;
}

static void add_frame(const uint32_t *counts, uint16_t *reported, uint32_t *sums, size_t sender, const uint32_t *block) {
    *reported = (uint16_t)(*reported + (1u << (sender - 1)));
    for (size_t p = 0; p < counts[3]; p++) sums[p] = (uint32_t)(((uint64_t)sums[p] + block[p]) % counts[2]);
}

static bool is_full(uint16_t reported, size_t senders) {
    return reported == (1u << senders) - 1;
}

/* ---- a relay ---- */

static bool is_cluster(const uint32_t *counts) {
    return counts[4] >= 1 && counts[4] <= counts[0];
}

/* 8 and 3 of both rounds. */
static uint64_t check_contents(const uint32_t *counts, uint16_t reported, const uint32_t *sums, uint16_t ahead, const uint32_t *held) {
    if (reported >> counts[1] != 0 || ahead >> counts[1] != 0) return 8;
    if (!row_fits(counts, sums) || !row_fits(counts, held)) return 3;
    return 0;
}

static uint64_t check_relay(const uint32_t *counts, uint16_t reported, const uint32_t *sums, uint16_t ahead, const uint32_t *held) {
    uint64_t answer = check_counts(counts, is_cluster(counts));
    return answer != 0 ? answer : check_contents(counts, reported, sums, ahead, held);
}

uint64_t model_relay_open(const uint32_t counts[KORTYGHAI_RELAY_COUNTS], uint16_t *reported, uint32_t sums[KORTYGHAI_MAX_LENGTH],
                          uint16_t *ahead, uint32_t held[KORTYGHAI_MAX_LENGTH]) {
    uint64_t answer = check_counts(counts, is_cluster(counts));
    if (answer != 0) return answer;
    *reported = *ahead = 0;
    memset(sums, 0, 64 * sizeof *sums);
    memset(held, 0, 64 * sizeof *held);
    return 0;
}

uint64_t model_relay_count(const uint32_t counts[KORTYGHAI_RELAY_COUNTS], uint32_t number, uint16_t *reported,
                           uint32_t sums[KORTYGHAI_MAX_LENGTH], uint16_t *ahead, uint32_t held[KORTYGHAI_MAX_LENGTH], size_t sender,
                           uint32_t said, const uint32_t *block, size_t block_len) {
    uint64_t answer = check_relay(counts, *reported, sums, *ahead, held);
    bool early = (uint64_t)said == (uint64_t)number + 1;
    if (answer != 0) return answer;
    answer = check_frame(counts, counts[1], early || said == number, early ? *ahead : *reported, sender, block, block_len);
    if (answer != 0) return answer;
    add_frame(counts, early ? ahead : reported, early ? held : sums, sender, block);
    return 0;
}

uint64_t model_relay_advance(const uint32_t counts[KORTYGHAI_RELAY_COUNTS], uint32_t *number, uint16_t *reported,
                             uint32_t sums[KORTYGHAI_MAX_LENGTH], uint16_t *ahead, uint32_t held[KORTYGHAI_MAX_LENGTH]) {
    uint64_t answer = check_relay(counts, *reported, sums, *ahead, held);
    if (answer != 0) return answer;
    if (*number == 4294967295u) return 14;
    if (!is_full(*reported, counts[1])) return 12;
    ++*number;
    *reported = *ahead;
    *ahead = 0;
    memcpy(sums, held, 64 * sizeof *sums);
    memset(held, 0, 64 * sizeof *held);
    return 0;
}

uint64_t model_relay_give(const uint32_t counts[KORTYGHAI_RELAY_COUNTS], uint32_t number, uint16_t reported,
                          const uint32_t sums[KORTYGHAI_MAX_LENGTH], uint16_t ahead, const uint32_t held[KORTYGHAI_MAX_LENGTH], uint32_t *out,
                          size_t out_len) {
    uint64_t answer = check_relay(counts, reported, sums, ahead, held);
    (void)number;
    if (answer != 0) return answer;
    if (!is_full(reported, counts[1])) return 12;
    if (out_len != counts[3]) return 4;
    memcpy(out, sums, out_len * sizeof *out);
    return 0;
}

/* ---- saves ---- */

uint64_t model_relay_save(const uint32_t counts[KORTYGHAI_RELAY_COUNTS], uint32_t number, uint16_t reported,
                          const uint32_t sums[KORTYGHAI_MAX_LENGTH], uint16_t ahead, const uint32_t held[KORTYGHAI_MAX_LENGTH], uint8_t *out,
                          size_t out_len, size_t *used) {
    uint64_t answer = check_relay(counts, reported, sums, ahead, held);
    size_t length = counts[3], size = 20 + 8 * length;
    uint8_t *save;
    if (answer != 0) return answer;
    if (*used > out_len || out_len - *used < size) return 4;
    save = out + *used;
    save[0] = (uint8_t)counts[0];
    save[1] = (uint8_t)counts[1];
    save[2] = (uint8_t)counts[4];
    save[3] = (uint8_t)length;
    write_low_first(save + 4, 4, counts[2]);
    write_low_first(save + 8, 4, number);
    write_low_first(save + 12, 2, reported);
    write_low_first(save + 14, 2, ahead);
    for (size_t p = 0; p < length; p++) write_low_first(save + 16 + 4 * p, 4, sums[p]);
    for (size_t p = 0; p < length; p++) write_low_first(save + 16 + 4 * length + 4 * p, 4, held[p]);
    write_low_first(save + size - 4, 2, size);
    save[size - 2] = 0x4B;
    save[size - 1] = 0x52;
    *used += size;
    return 0;
}

/* The distance of the save that ends at a place; 0 where there is none. */
static size_t distance_at(const uint8_t *saved, size_t end) {
    size_t distance;
    if (end < 4 || saved[end - 2] != 0x4B || saved[end - 1] != 0x52) return 0;
    distance = read_low_first(saved + end - 4, 2);
    return distance < 20 || distance > end ? 0 : distance;
}

static void read_row(const uint8_t *bytes, size_t length, uint32_t *row) {
    memset(row, 0, 64 * sizeof *row);
    for (size_t p = 0; p < length; p++) row[p] = (uint32_t)read_low_first(bytes + 4 * p, 4);
}

/* 1, 9, 4, 2, 8 of the counts in a save. */
static uint64_t check_saved(const uint32_t *counts, size_t distance) {
    if (!counts_fit(counts[0], counts[1], 0)) return 1;
    if (counts[3] < 1 || counts[3] > 64) return 9;
    if (distance != 20 + 8 * (size_t)counts[3]) return 4;
    if (!is_prime(counts[2])) return 2;
    return is_cluster(counts) ? 0 : 8;
}

static uint64_t read_save(const uint8_t *save, size_t distance, struct kortyghai_relay *relay) {
    uint32_t counts[KORTYGHAI_RELAY_COUNTS] = {save[0], save[1], (uint32_t)read_low_first(save + 4, 4), save[3], save[2]};
    uint64_t answer = check_saved(counts, distance);
    if (answer != 0) return answer;
    memcpy(relay->counts, counts, sizeof counts);
    relay->number = (uint32_t)read_low_first(save + 8, 4);
    relay->reported = (uint16_t)read_low_first(save + 12, 2);
    relay->ahead = (uint16_t)read_low_first(save + 14, 2);
    read_row(save + 16, counts[3], relay->sums);
    read_row(save + 16 + 4 * counts[3], counts[3], relay->held);
    return check_contents(counts, relay->reported, relay->sums, relay->ahead, relay->held);
}

uint64_t model_relay_restore(const uint8_t *saved, size_t saved_len, size_t steps, uint32_t counts[KORTYGHAI_RELAY_COUNTS], uint32_t *number,
                             uint16_t *reported, uint32_t sums[KORTYGHAI_MAX_LENGTH], uint16_t *ahead, uint32_t held[KORTYGHAI_MAX_LENGTH]) {
    struct kortyghai_relay relay;
    size_t end = saved_len, distance = distance_at(saved, end);
    uint64_t answer;
    for (; steps > 0 && distance > 0; steps--) {
        end -= distance;
        distance = distance_at(saved, end);
    }
    if (distance == 0) return 5;
    answer = read_save(saved + end - distance, distance, &relay);
    if (answer != 0) return answer;
    memcpy(counts, relay.counts, sizeof relay.counts);
    memcpy(sums, relay.sums, sizeof relay.sums);
    memcpy(held, relay.held, sizeof relay.held);
    *number = relay.number;
    *reported = relay.reported;
    *ahead = relay.ahead;
    return 0;
}

/* ---- the server ---- */

static uint64_t check_server(const uint32_t *counts, uint16_t reported, const uint32_t *sums) {
    uint64_t answer = check_counts(counts, true);
    if (answer != 0) return answer;
    if (reported >> counts[0] != 0) return 8;
    return row_fits(counts, sums) ? 0 : 3;
}

uint64_t model_server_open(const uint32_t counts[KORTYGHAI_SERVER_COUNTS], uint16_t *reported, uint32_t sums[KORTYGHAI_MAX_LENGTH]) {
    uint64_t answer = check_counts(counts, true);
    if (answer != 0) return answer;
    *reported = 0;
    memset(sums, 0, 64 * sizeof *sums);
    return 0;
}

uint64_t model_server_count(const uint32_t counts[KORTYGHAI_SERVER_COUNTS], uint32_t number, uint16_t *reported,
                            uint32_t sums[KORTYGHAI_MAX_LENGTH], size_t sender, uint32_t said, const uint32_t *block, size_t block_len) {
    uint64_t answer = check_server(counts, *reported, sums);
    if (answer != 0) return answer;
    answer = check_frame(counts, counts[0], said == number, *reported, sender, block, block_len);
    if (answer != 0) return answer;
    add_frame(counts, reported, sums, sender, block);
    return 0;
}

uint64_t model_server_give(const uint32_t counts[KORTYGHAI_SERVER_COUNTS], uint32_t number, uint16_t reported,
                           const uint32_t sums[KORTYGHAI_MAX_LENGTH], uint32_t *out, size_t out_len) {
    uint64_t answer = check_server(counts, reported, sums);
    (void)number;
    if (answer != 0) return answer;
    if (!is_full(reported, counts[0])) return 12;
    if (out_len != counts[3]) return 4;
    memcpy(out, sums, out_len * sizeof *out);
    return 0;
}

/* ---- windows ---- */

static int64_t sum_of(const int32_t *totals, size_t n) {
    int64_t sum = 0;
    for (size_t i = 0; i < n; i++) sum += totals[i];
    return sum;
}

static bool is_window(size_t span, size_t held, int64_t sum, const int32_t *totals) {
    if (span < 1 || span > 96 || held > span) return false;
    for (size_t i = held; i < 96; i++)
        if (totals[i] != 0) return false;
    return sum_of(totals, held) == sum;
}

uint64_t model_window_open(size_t span, size_t *held, int64_t *sum, int32_t totals[KORTYGHAI_MAX_SPAN]) {
    if (span < 1 || span > 96) return 17;
    *held = 0;
    *sum = 0;
    memset(totals, 0, 96 * sizeof *totals);
    return 0;
}

uint64_t model_window_push(size_t span, size_t *held, int64_t *sum, int32_t totals[KORTYGHAI_MAX_SPAN], int32_t total) {
    if (!is_window(span, *held, *sum, totals)) return 17;
    if (*held == span) memmove(totals, totals + 1, --*held * sizeof *totals);
    totals[(*held)++] = total;
    *sum = sum_of(totals, *held);
    return 0;
}

uint64_t model_window_sum(size_t span, size_t held, int64_t sum, const int32_t totals[KORTYGHAI_MAX_SPAN], int64_t *out) {
    if (!is_window(span, held, sum, totals)) return 17;
    *out = sum_of(totals, held);
    return 0;
}

uint64_t model_window_largest(size_t span, size_t held, int64_t sum, const int32_t totals[KORTYGHAI_MAX_SPAN], int32_t *out) {
    int32_t largest;
    if (!is_window(span, held, sum, totals)) return 17;
    if (held == 0) return 12;
    largest = totals[0];
    for (size_t i = 1; i < held; i++)
        if (totals[i] > largest) largest = totals[i];
    *out = largest;
    return 0;
}
