/*
 * Worked out by hand, with no model: the small pool of the scope paper (2 clusters of 2 users, coalitions of at most 1, q 5), the same with
 * the largest prime of 32 bits, records of both kinds, a round, a save, a stock, a window, a cyclic network of two and a run on paper.
 */
#include "harness.h"

#define MOST_Q KORTYGHAI_MAX_Q

static int is(uint64_t answer, unsigned number, unsigned first, unsigned second) {
    return kortyghai_number(answer) == number && kortyghai_first(answer) == first && kortyghai_second(answer) == second && answer >> 48 == 0;
}

static int same(const uint32_t *a, const uint32_t *b, size_t n) {
    return memcmp(a, b, n * sizeof *a) == 0;
}

static const struct kortyghai_key_table SMALL = {{{2, 2, 1, 3, 5}}, {1, 0, 0, 1, 2, 4, 1, 4, 1, 2, 4, 0}};

/* Modulo the largest prime 65,536 times 65,536 is 5, so the powers are easily followed. */
static const struct kortyghai_key_table WIDE = {
    {{2, 2, 1, 3, MOST_Q}}, {1, 0, 0, 1, 65536, 5, 1, 5, 25, MOST_Q - 3, MOST_Q - 65541, MOST_Q - 30}};

static const uint8_t SMALL_RECORD[34] = {0x02, 0x02, 0x01, 0x03, 0x05, 0x00, 0x01, 0x00, 0x00, 0x00, 0x00, 0x00,
                                         0x01, 0x00, 0x02, 0x00, 0x04, 0x00, 0x01, 0x00, 0x04, 0x00, 0x01, 0x00,
                                         0x02, 0x00, 0x04, 0x00, 0x00, 0x00, 0x22, 0x00, 0x4B, 0x50};

static const uint8_t WIDE_RECORD[60] = {
    0x02, 0x02, 0x01, 0x03, 0xFB, 0xFF, 0xFF, 0xFF,
    0x01, 0x00, 0x00, 0x00, 0x00, 0x00, 0x00, 0x00, 0x00, 0x00, 0x00, 0x00,
    0x01, 0x00, 0x00, 0x00, 0x00, 0x00, 0x01, 0x00, 0x05, 0x00, 0x00, 0x00,
    0x01, 0x00, 0x00, 0x00, 0x05, 0x00, 0x00, 0x00, 0x19, 0x00, 0x00, 0x00,
    0xF8, 0xFF, 0xFF, 0xFF, 0xF6, 0xFF, 0xFE, 0xFF, 0xDD, 0xFF, 0xFF, 0xFF,
    0x3C, 0x00, 0x4B, 0x51};

static void vets(void) {
    struct kortyghai_key_table t = SMALL;
    uint32_t looked = 77, pairs = 0;
    CHECK(is(kty_vet(&SMALL), 0, 0, 0));
    CHECK(is(kty_vet(&WIDE), 0, 0, 0));
    /* "For U 2, V 2, T 1 that is 15." */
    CHECK(is(kty_count_pairs(&SMALL.plan, &pairs), 0, 0, 0) && pairs == 15);
    CHECK(is(kty_vet_joint(&SMALL, 0, 0, &looked), 0, 0, 0) && looked == 15);
    /* with U 2 every pair leaks */
    CHECK(is(kty_vet_joint(&SMALL, 1, 2, &looked), 19, 0, 0) && looked == 0);
    CHECK(is(kty_vet_joint(&SMALL, 2, 1, &looked), 8, 0, 0) && looked == 0);
    t.plan.numbers[KORTYGHAI_PLAN_LIMIT] = 2;
    CHECK(is(kty_vet(&t), 7, 3, 2));
    /* coalitions 0, 1, 2 have three observers each, and 3 leaks to its second */
    CHECK(is(kty_vet_joint(&t, 0, 0, &looked), 7, 3, 2) && looked == 11);
    t = SMALL;
    t.symbols[11] = 1;
    CHECK(is(kty_vet(&t), 6, 3, 0));
    t.plan.numbers[KORTYGHAI_PLAN_Q] = 9;
    CHECK(is(kty_vet(&t), 2, 0, 0));
    t.plan.numbers[KORTYGHAI_PLAN_Q] = 3;
    CHECK(is(kty_vet(&t), 3, 0, 0));
    t.plan.numbers[KORTYGHAI_PLAN_CLUSTERS] = 9;
    CHECK(is(kty_vet(&t), 1, 0, 0));
    CHECK(is(kortyghai_vet(SMALL.plan.numbers, SMALL.symbols, 11), 4, 0, 0));
}

static void tiny_vets(void) {
    static const struct kortyghai_key_table zeros = {{{2, 1, 0, 1, 5}}, {0, 0}}, ones = {{{2, 1, 0, 1, 5}}, {1, 1}};
    static const struct kortyghai_key_table alone = {{{1, 1, 0, 1, 5}}, {0}};
    CHECK(is(kty_vet(&zeros), 7, 0, 1));
    CHECK(is(kty_vet(&ones), 6, 1, 0));
    CHECK(is(kty_vet(&alone), 7, 0, 1));
}

static void makes(void) {
    struct kortyghai_key_table t = {{{2, 2, 1, 99, 5}}, {0}}, refused;
    size_t rate = 0;
    CHECK(is(kty_rate(&t.plan, &rate), 0, 0, 0) && rate == 3);
    CHECK(is(kty_make_table(&t, 2), 0, 0, 0));
    CHECK(memcmp(&t, &SMALL, sizeof t) == 0);
    t.plan.numbers[KORTYGHAI_PLAN_Q] = MOST_Q;
    CHECK(is(kty_make_table(&t, 65536), 0, 0, 0) && memcmp(&t, &WIDE, sizeof t) == 0);
    CHECK(is(kty_make_table(&t, MOST_Q), 3, 0, 0));
    CHECK(is(kty_make_table(&t, 0), 7, 0, 1) && memcmp(&t, &WIDE, sizeof t) == 0);
    t.plan.numbers[KORTYGHAI_PLAN_LIMIT] = 2;
    refused = t;
    CHECK(is(kty_make_table(&t, 2), 10, 0, 0) && memcmp(&t, &refused, sizeof t) == 0);
    t.plan.numbers[KORTYGHAI_PLAN_Q] = 9;
    CHECK(is(kty_make_table(&t, 2), 2, 0, 0));
}

static void records(void) {
    static uint8_t many[KORTYGHAI_MAX_BYTES + 1];
    struct kortyghai_key_table t;
    uint8_t out[61];
    memset(&t, 0xA5, sizeof t);
    memset(out, 0xA5, sizeof out);
    CHECK(is(kty_read_record(&t, SMALL_RECORD, 34), 0, 0, 0) && memcmp(&t, &SMALL, sizeof t) == 0);
    CHECK(is(kty_read_record(&t, WIDE_RECORD, 60), 0, 0, 0) && memcmp(&t, &WIDE, sizeof t) == 0);
    CHECK(is(kty_read_record(&t, WIDE_RECORD, 59), 5, 0, 0) && memcmp(&t, &WIDE, sizeof t) == 0);
    CHECK(kty_record_size(&SMALL.plan) == 34 && kty_record_size(&WIDE.plan) == 60);
    CHECK(is(kty_write_record(&WIDE, out, 60), 0, 0, 0) && memcmp(out, WIDE_RECORD, 60) == 0 && out[60] == 0xA5);
    CHECK(is(kty_write_record(&SMALL, out, 35), 4, 0, 0) && memcmp(out, WIDE_RECORD, 60) == 0);
    CHECK(is(kty_write_record(&SMALL, out, 34), 0, 0, 0) && memcmp(out, SMALL_RECORD, 34) == 0);
    CHECK(is(kortyghai_vet_record(SMALL_RECORD, 34), 0, 0, 0));
    out[2] = 2;
    CHECK(is(kortyghai_vet_record(out, 34), 7, 3, 2));
    memcpy(many + sizeof many - 34, SMALL_RECORD, 34);
    CHECK(is(kortyghai_vet_record(many + 1, KORTYGHAI_MAX_BYTES), 0, 0, 0));
    CHECK(is(kortyghai_vet_record(many, KORTYGHAI_MAX_BYTES + 1), 4, 0, 0));
}

static void keys_and_uploads(void) {
    static const uint32_t source[3] = {1, 2, 3}, dealt[4] = {1, 2, 2, 0}, readings[4] = {3, 4, 0, 2}, sent[4] = {4, 1, 2, 2};
    static const uint32_t wide_source[3] = {MOST_Q - 1, 65536, 4000000000u};
    static const uint32_t wide_dealt[4] = {MOST_Q - 1, 2820130840u, 1216079986, 258756466};
    uint32_t keys[4], uploads[4], back[4];
    CHECK(is(kty_derive_keys(&SMALL, 1, source, 3, keys, 4), 0, 0, 0) && same(keys, dealt, 4));
    CHECK(is(kty_derive_keys(&SMALL, 65, source, 3, keys, 4), 9, 0, 0));
    CHECK(is(kty_upload(&SMALL.plan, 4, readings, keys, uploads), 0, 0, 0) && same(uploads, sent, 4));
    CHECK(is(kty_unmask(&SMALL.plan, 4, uploads, keys, back), 0, 0, 0) && same(back, readings, 4));
    CHECK(is(kty_upload(&SMALL.plan, 65, readings, keys, uploads), 9, 0, 0));
    CHECK(is(kty_derive_keys(&WIDE, 1, wide_source, 3, keys, 4), 0, 0, 0) && same(keys, wide_dealt, 4));
}

/* "With q 65,521 and 16 meters m may be 2,047 and not 2,048." A total of q - 1 is shown as -1. */
static void caps(void) {
    static const struct kortyghai_plan plan = {{8, 2, 0, 1, 65521}};
    static const int32_t readings[3] = {-2047, 2047, 0};
    static const uint32_t key[3] = {65520, 0, 1}, sent[3] = {63473, 2047, 1}, totals[3] = {65520, 32760, 32761};
    uint32_t out[3];
    int32_t shown[3];
    CHECK(is(kty_signed_upload(&plan, 2047, 3, readings, key, out), 0, 0, 0) && same(out, sent, 3));
    CHECK(is(kty_signed_unmask(&plan, 2047, 3, out, key, shown), 0, 0, 0) && memcmp(shown, readings, sizeof shown) == 0);
    CHECK(is(kty_signed_upload(&plan, 2048, 3, readings, key, out), 16, 0, 0));
    CHECK(is(kty_signed_upload(&plan, 2046, 3, readings, key, out), 15, 0, 0));
    CHECK(is(kty_show_totals(&plan, 2047, 3, totals, shown), 0, 0, 0) && shown[0] == -1 && shown[1] == 32760 && shown[2] == -32760);
}

/* Cluster 1 of the small pool in round 9: uploads 4 and 1 sum to 0. Then a frame of round 10 that came early, a save, and coming back. */
static void rounds(void) {
    static const uint32_t first[1] = {4}, second[1] = {1};
    struct kortyghai_relay relay = {{0}, 0, {0}, {0}, 0, 0}, saved;
    uint32_t sum[1] = {77};
    uint8_t bytes[60];
    size_t used = 2;
    CHECK(is(kty_relay_count(&relay, 1, 9, first, 1), 1, 0, 0));
    CHECK(is(kty_relay_open(&relay, &SMALL.plan, 1, 3, 9), 8, 0, 0) && relay.counts[0] == 0);
    CHECK(is(kty_relay_open(&relay, &SMALL.plan, 1, 1, 9), 0, 0, 0));
    CHECK(is(kty_relay_count(&relay, 1, 9, first, 1), 0, 0, 0) && relay.reported == 1 && relay.sums[0] == 4);
    CHECK(is(kty_relay_count(&relay, 1, 9, second, 1), 11, 0, 0));
    CHECK(is(kty_relay_count(&relay, 1, 10, second, 1), 0, 0, 0) && relay.ahead == 1 && relay.held[0] == 1);
    CHECK(is(kty_relay_count(&relay, 2, 8, second, 1), 14, 0, 0));
    CHECK(is(kty_relay_give(&relay, sum, 1), 12, 0, 0) && is(kty_relay_advance(&relay), 12, 0, 0));
    CHECK(is(kty_relay_save(&relay, bytes, 29, &used), 4, 0, 0) && used == 2);
    CHECK(is(kty_relay_save(&relay, bytes, 60, &used), 0, 0, 0) && used == 2 + kty_save_size(1));
    saved = relay;
    CHECK(is(kty_relay_count(&relay, 2, 9, second, 1), 0, 0, 0) && relay.sums[0] == 0);
    CHECK(is(kty_relay_give(&relay, sum, 1), 0, 0, 0) && sum[0] == 0);
    CHECK(is(kty_relay_advance(&relay), 0, 0, 0) && relay.number == 10 && relay.reported == 1 && relay.sums[0] == 1 && relay.ahead == 0);
    CHECK(is(kty_relay_restore(&relay, bytes, used, 1), 5, 0, 0));
    CHECK(is(kty_relay_restore(&relay, bytes, used, 0), 0, 0, 0) && memcmp(&relay, &saved, sizeof saved) == 0);
}

static void server_and_window(void) {
    static const uint32_t sums[2][1] = {{0}, {4}};
    struct kortyghai_server server = {{0}, 0, {0}, 0, 0};
    struct kortyghai_window window = {0, 0, 0, {0}};
    uint32_t total[1] = {77};
    int64_t sum = 77;
    int32_t largest = 77;
    CHECK(is(kty_server_open(&server, &SMALL.plan, 1, 9), 0, 0, 0));
    CHECK(is(kty_server_count(&server, 2, 9, sums[1], 1), 0, 0, 0) && is(kty_server_give(&server, total, 1), 12, 0, 0));
    CHECK(is(kty_server_count(&server, 1, 10, sums[0], 1), 14, 0, 0) && is(kty_server_count(&server, 1, 9, sums[0], 1), 0, 0, 0));
    CHECK(is(kty_server_give(&server, total, 1), 0, 0, 0) && total[0] == 4);
    CHECK(is(kty_window_push(&window, 4), 17, 0, 0) && is(kty_window_open(&window, 97), 17, 0, 0) && is(kty_window_open(&window, 2), 0, 0, 0));
    CHECK(is(kty_window_largest(&window, &largest), 12, 0, 0) && largest == 77);
    CHECK(is(kty_window_sum(&window, &sum), 0, 0, 0) && sum == 0);
    CHECK(is(kty_window_push(&window, 9), 0, 0, 0) && is(kty_window_push(&window, -3), 0, 0, 0) && is(kty_window_push(&window, -5), 0, 0, 0));
    CHECK(is(kty_window_sum(&window, &sum), 0, 0, 0) && sum == -8);
    CHECK(is(kty_window_largest(&window, &largest), 0, 0, 0) && largest == -3);
}

/* Two pools on ten symbols: pool 1 is sure of four, so that pool 2 gets six and no more. */
static void stock(void) {
    static const uint32_t stream[10] = {1, 2, 3, 4, 5, 6, 7, 8, 9, 10};
    static const size_t shares[2] = {4, 0}, most[2] = {4, 9};
    struct kortyghai_stock s = {0, {0}, {0}, {0}};
    struct kortyghai_stream alone = {stream, 10, 7};
    uint32_t out[10] = {0};
    CHECK(is(kty_stock_draw(&s, stream, 10, 1, 1, out), 1, 0, 0));
    CHECK(is(kty_stock_open(&s, 2, shares, most, stream, 3), 21, 0, 0) && s.pools == 0);
    CHECK(is(kty_stock_open(&s, 2, shares, most, stream, 10), 0, 0, 0) && s.pools == 2);
    CHECK(is(kty_stock_draw(&s, stream, 10, 2, 7, out), 13, 0, 0) && is(kty_stock_draw(&s, stream, 10, 2, 10, out), 20, 0, 0));
    CHECK(is(kty_stock_draw(&s, stream, 10, 2, 6, out), 0, 0, 0) && same(out, stream, 6) && s.drawn[1] == 6);
    CHECK(is(kty_stock_draw(&s, stream, 10, 1, 4, out), 0, 0, 0) && same(out, stream + 6, 4));
    CHECK(is(kty_stock_draw(&s, stream, 9, 1, 1, out), 21, 0, 0) && is(kty_stock_draw(&s, stream, 10, 3, 1, out), 8, 0, 0));
    CHECK(is(kty_draw(&alone, 4, out), 13, 0, 0) && is(kty_draw(&alone, 3, out), 0, 0, 0) && out[0] == 8 && alone.position == 10);
}

/* Two users, each on its own relay, keys that cancel: each upload is the reading plus the key, and the sums add up to the total. */
static void network(void) {
    static const struct kortyghai_network net = {{{2, 1, 1, 1, 5}}, {1, 4}, {1, 1, 1, 1}};
    static const uint32_t three[1] = {3}, four[1] = {4}, uploads[1] = {1};
    uint32_t sums[2], total[1] = {77};
    CHECK(is(kty_network_vet(&net), 0, 0, 0));
    CHECK(is(kty_network_upload(&net, 1, 1, three, 3, &sums[0]), 0, 0, 0) && sums[0] == 1);
    CHECK(is(kty_network_upload(&net, 2, 2, four, 2, &sums[1]), 0, 0, 0) && sums[1] == 1);
    CHECK(is(kty_network_upload(&net, 2, 1, four, 2, &sums[1]), 8, 0, 0));
    CHECK(is(kty_network_sum(&net.ring, uploads, &sums[0]), 0, 0, 0) && sums[0] == 1);
    CHECK(is(kty_network_decode(&net, 1, sums, total), 23, 0, 0) && is(kty_network_decode(&net, 4, sums, total), 8, 0, 0) && total[0] == 77);
    CHECK(is(kty_network_decode(&net, 3, sums, total), 0, 0, 0) && total[0] == 2);
}

/* The small pool's shape modulo 31, on paper: the first value from state 1 is 16,838, and two rounds are followed by hand. */
static void paper(void) {
    static uint8_t bytes[KORTYGHAI_PAPER_HEAD + 34] = {
        0x03, 0x00, 0x00, 0x00, 0x02, 0x00, 0x00, 0x00, 0x02, 0x02, 0x01, 0x03, 0x1F, 0x00, 0x01, 0x00, 0x00, 0x00, 0x00, 0x00, 0x01,
        0x00, 0x03, 0x00, 0x09, 0x00, 0x01, 0x00, 0x09, 0x00, 0x13, 0x00, 0x1C, 0x00, 0x13, 0x00, 0x03, 0x00, 0x22, 0x00, 0x4B, 0x50};
    static uint8_t many[KORTYGHAI_MAX_BYTES + 1];
    struct kortyghai_paper run, before;
    uint8_t line[KORTYGHAI_MAX_LINE];
    size_t length = 77;
    memset(&run, 0, sizeof run);
    CHECK(is(kty_paper_line(&run, line, &length), 18, 0, 0) && length == 77);
    CHECK(is(kty_paper_open(&run, bytes, 7), 4, 0, 0) && is(kty_paper_open(&run, bytes, 8), 5, 0, 0));
    CHECK(is(kty_paper_open(&run, bytes, sizeof bytes), 0, 0, 0) && run.numbers[KORTYGHAI_PAPER_CAP] == 3);
    CHECK(run.numbers[KORTYGHAI_PAPER_ROUNDS] == 2 && run.numbers[KORTYGHAI_PAPER_NUMBER] == 1 && run.numbers[KORTYGHAI_PAPER_STATE] == 1);
    CHECK(run.table.plan.numbers[KORTYGHAI_PLAN_Q] == 31 && run.table.symbols[0] == 1 && run.table.symbols[11] == 3 && run.table.symbols[12] == 0);
    memset(line, 0xA5, sizeof line);
    CHECK(is(kty_paper_line(&run, line, &length), 0, 0, 0) && length == 13 && memcmp(line, "1 2 24 11 11\n\0", 14) == 0 && line[55] == 0);
    CHECK(is(kty_paper_line(&run, line, &length), 0, 0, 0) && length == 10 && memcmp(line, "2 3 6 8 8\n\0\0\0", 13) == 0);
    before = run;
    CHECK(is(kty_paper_line(&run, line, &length), 18, 0, 0) && length == 10 && memcmp(&run, &before, sizeof run) == 0);
    bytes[0] = 4; /* 2 x 4 x 4 is not below 31 */
    CHECK(is(kty_paper_open(&run, bytes, sizeof bytes), 16, 0, 0) && memcmp(&run, &before, sizeof run) == 0);
    bytes[10] = 2; /* T: the cap comes before the vet's 7 */
    CHECK(is(kty_paper_open(&run, bytes, sizeof bytes), 16, 0, 0));
    bytes[0] = 3;
    CHECK(is(kty_paper_open(&run, bytes, sizeof bytes), 7, 3, 2) && memcmp(&run, &before, sizeof run) == 0);
    bytes[10] = 1;
    memcpy(many, bytes, 8);
    memcpy(many + KORTYGHAI_MAX_BYTES - 34, bytes + 8, 34);
    CHECK(is(kty_paper_open(&run, many, KORTYGHAI_MAX_BYTES), 0, 0, 0) && run.numbers[KORTYGHAI_PAPER_NUMBER] == 1);
    memcpy(many + 1 + KORTYGHAI_MAX_BYTES - 34, bytes + 8, 34);
    CHECK(is(kty_paper_open(&run, many, KORTYGHAI_MAX_BYTES + 1), 4, 0, 0));
}

/* Structs of nothing but zeros are refused. */
static void zeros(void) {
    static const struct kortyghai_key_table table;
    static const struct kortyghai_network net;
    static struct kortyghai_relay relay;
    static struct kortyghai_server server;
    static struct kortyghai_window window;
    static uint32_t out[16];
    uint8_t bytes[100];
    size_t used = 0;
    CHECK(is(kty_vet(&table), 1, 0, 0) && is(kty_write_record(&table, bytes, 10), 1, 0, 0) && is(kty_derive_keys(&table, 1, out, 0, out, 0), 1, 0, 0));
    CHECK(is(kty_count_pairs(&table.plan, out), 1, 0, 0) && is(kty_upload(&table.plan, 1, out, out + 1, out + 2), 2, 0, 0));
    CHECK(is(kty_relay_advance(&relay), 1, 0, 0) && is(kty_relay_give(&relay, out, 0), 1, 0, 0) && is(kty_relay_save(&relay, bytes, 100, &used), 1, 0, 0));
    CHECK(is(kty_server_count(&server, 1, 0, out, 0), 1, 0, 0) && is(kty_server_give(&server, out, 0), 1, 0, 0));
    CHECK(is(kty_window_push(&window, 1), 17, 0, 0));
    CHECK(is(kty_network_vet(&net), 1, 0, 0) && is(kty_network_sum(&net.ring, out, out + 1), 1, 0, 0));
    CHECK(is(kty_network_decode(&net, 0, out, out + 8), 1, 0, 0));
}

static void texts(void) {
    CHECK(strcmp(kortyghai_refusal_text(0), "nothing is wrong") == 0);
    CHECK(strcmp(kortyghai_refusal_text(23), "the sums that have arrived don't give all totals") == 0);
    CHECK(strcmp(kortyghai_refusal_text(24), "no such number") == 0);
    for (unsigned n = 0; n < KORTYGHAI_REFUSALS; n++) CHECK(strlen(kortyghai_refusal_text(n)) > 10);
}

void worked_by_hand(void) {
    vets();
    tiny_vets();
    makes();
    records();
    keys_and_uploads();
    caps();
    rounds();
    server_and_window();
    stock();
    network();
    paper();
    zeros();
    texts();
}
