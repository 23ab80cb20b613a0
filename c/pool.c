/*
 * A whole pool, from its plan to the rolling hour, for whoever reads Kortyghai for the first time. Run it: it prints what happens.
 *
 * Six households in three streets. Each street is a cluster and has a relay (a gateway on a pole). Each household is a user (a meter)
 * and reads its load in watts for the two half hours of a round, negative where its roof feeds in. The server (the duty desk) wants the
 * total. Nobody is to learn a single household's load: no relay, and not the server, also not together with one household that tells all
 * it knows.
 *
 *     planner   makes a key table, has it vetted, and writes it as a record
 *     dealer    draws a fresh source key for each round and deals each user its key
 *     user      masks its readings by its key and sends them as a frame
 *     relay     adds the frames of its cluster; it may be saved, cut off and brought back, and may hear the next round early
 *     server    adds the relays' sums, shows the total and keeps a window over the last ones
 *
 * What is sent is plain symbols: the radio, the clock and the random generator are yours. Kortyghai itself asks for no library; this
 * example prints, and stops at a refusal that it didn't expect.
 */
#include "kortyghai.h"

#include <inttypes.h>
#include <stdbool.h>
#include <stdio.h>
#include <stdlib.h>

enum {
    CLUSTERS = 3,
    SIZE = 2,
    USERS = CLUSTERS * SIZE,
    LIMIT = 1,      /* a coalition has at most one household */
    LENGTH = 2,     /* a block has two positions: the two half hours */
    ROUNDS = 4,
    SPAN = 3,       /* the window covers three totals */
    STORE = 2 * KORTYGHAI_MAX_SAVE
};

/* 2 x 6 x 20,000 is below q, so that totals never wrap. */
static const uint32_t Q = KORTYGHAI_MAX_Q, GENERATOR = 2, CAP = 20000;

/* No refusal is expected here. A real program looks at the number: a late frame is ignored, a leaking plan is never used. */
static void must(const char *what, uint64_t answer) {
    if (answer == 0) return;
    fprintf(stderr, "%s: refused by %u (%s), details %u and %u\n", what, kortyghai_number(answer),
            kortyghai_refusal_text(kortyghai_number(answer)), kortyghai_first(answer), kortyghai_second(answer));
    exit(EXIT_FAILURE);
}

/* A refusal that the example shows on purpose. */
static void say(const char *what, uint64_t answer) {
    printf("  %s: %u, %s\n", what, kortyghai_number(answer), kortyghai_refusal_text(kortyghai_number(answer)));
}

/* ---- planner ---- */

static void make_plan(struct kortyghai_key_table *table) {
    uint32_t *plan = table->plan.numbers, pairs = 0, looked = 0;
    plan[KORTYGHAI_PLAN_CLUSTERS] = CLUSTERS;
    plan[KORTYGHAI_PLAN_SIZE] = SIZE;
    plan[KORTYGHAI_PLAN_LIMIT] = LIMIT;
    plan[KORTYGHAI_PLAN_Q] = Q;
    /* R and the table are the maker's; another generator is tried where this one's table leaks */
    must("make", kty_make_table(table, GENERATOR));
    must("count pairs", kty_count_pairs(&table->plan, &pairs));
    must("vet", kty_vet_joint(table, 0, 0, &looked));
    printf("planner: %u clusters of %u, rate %" PRIu32 ": accepted after %" PRIu32 " of %" PRIu32 " pairs\n", CLUSTERS, SIZE,
           plan[KORTYGHAI_PLAN_RATE], looked, pairs);
}

/* The same table promised against coalitions of four leaks; the vet says to whom. */
static void promise_too_much(const struct kortyghai_key_table *table) {
    struct kortyghai_key_table greedy = *table;
    uint64_t answer;
    greedy.plan.numbers[KORTYGHAI_PLAN_LIMIT] = 4;
    answer = kty_vet(&greedy);
    say("the same table for coalitions of four", answer);
    printf("  to coalition %u with observer %u\n", kortyghai_first(answer), kortyghai_second(answer));
}

/* The record goes to everyone who needs the plan. Whoever reads it vets it again: reading alone does not. */
static void pass_on(const struct kortyghai_key_table *table, struct kortyghai_key_table *received) {
    static uint8_t record[KORTYGHAI_MAX_RECORD];
    size_t size = kty_record_size(&table->plan);
    must("write", kty_write_record(table, record, size));
    must("read", kty_read_record(received, record, size));
    must("vet what was read", kty_vet(received));
    printf("planner: a record of %zu bytes, read and vetted again\n", size);
    record[size - 1] ^= 1;
    say("the same record with its last byte damaged", kty_read_record(received, record, size));
}

/* ---- dealer ---- */

/*
 * Only for this example: a real pool draws each source symbol evenly from 0 to q - 1 by a good random generator, fresh for each round,
 * and deals it once. This one is neither even nor secret.
 */
static void draw_badly(uint32_t *symbols, size_t n) {
    static uint64_t state = 29;
    for (size_t i = 0; i < n; i++) {
        state = state * 6364136223846793005u + 1442695040888963407u;
        symbols[i] = (uint32_t)((state >> 32) % Q);
    }
}

/*
 * The key stream is there for all rounds; its position says how much of it is used up. A draw gives at most 64 symbols: a longer source key
 * takes several.
 */
static void deal(const struct kortyghai_key_table *table, struct kortyghai_stream *stream, uint32_t keys[USERS * LENGTH]) {
    uint32_t source[KORTYGHAI_MAX_RATE * LENGTH];
    size_t symbols = table->plan.numbers[KORTYGHAI_PLAN_RATE] * (size_t)LENGTH;
    must("draw", kty_draw(stream, symbols, source));
    must("derive keys", kty_derive_keys(table, LENGTH, source, symbols, keys, (size_t)USERS * LENGTH));
}

/* ---- users ---- */

/* Household i in a round: some load, and every third household feeds in. */
static void read_meter(size_t i, uint32_t round, int32_t readings[LENGTH]) {
    for (size_t p = 0; p < LENGTH; p++) {
        int32_t load = (int32_t)(300 + 40 * i + 7 * p * i + 11 * (round - 1));
        readings[p] = i % 3 == 2 ? -3 * load : load;
    }
}

static void mask(const struct kortyghai_plan *plan, size_t i, uint32_t round, const uint32_t *keys, uint32_t upload[LENGTH]) {
    int32_t readings[LENGTH];
    read_meter(i, round, readings);
    must("upload", kty_signed_upload(plan, CAP, LENGTH, readings, keys + i * LENGTH, upload));
}

/* ---- relays ---- */

struct street {
    struct kortyghai_relay relay;
    uint8_t saves[STORE];
    size_t used;
};

static void open_streets(const struct kortyghai_plan *plan, struct street streets[CLUSTERS]) {
    for (uint32_t u = 0; u < CLUSTERS; u++) {
        must("open a relay", kty_relay_open(&streets[u].relay, plan, LENGTH, u + 1, 1));
        streets[u].used = 0;
    }
}

/* User i's frame arrives at its relay: sender, round number and block. */
static uint64_t deliver(struct street streets[CLUSTERS], size_t i, uint32_t round, const uint32_t upload[LENGTH]) {
    return kty_relay_count(&streets[i / SIZE].relay, i % SIZE + 1, round, upload, LENGTH);
}

/* A power cut: the relay saves its round, loses it, and comes back. */
static void cut_power(struct street *street) {
    static const struct kortyghai_relay nothing;
    must("save", kty_relay_save(&street->relay, street->saves, STORE, &street->used));
    street->relay = nothing;
    say("a frame for a relay that has lost its round", kty_relay_count(&street->relay, 1, 1, street->relay.sums, LENGTH));
    must("restore", kty_relay_restore(&street->relay, street->saves, street->used, 0));
    printf("  back from a save of %zu bytes, in round %" PRIu32 "\n", street->used, street->relay.number);
    street->used = 0;
}

/* ---- server ---- */

/* The relays send their sums, the last one first, and move on; the total as symbols. */
static void collect(const struct kortyghai_plan *plan, struct street streets[CLUSTERS], uint32_t round, uint32_t total[LENGTH]) {
    struct kortyghai_server server;
    uint32_t sums[LENGTH];
    must("open the server", kty_server_open(&server, plan, LENGTH, round));
    for (size_t u = CLUSTERS; u > 0; u--) {
        must("give sums", kty_relay_give(&streets[u - 1].relay, sums, LENGTH));
        must("count sums", kty_server_count(&server, u, round, sums, LENGTH));
        must("move on", kty_relay_advance(&streets[u - 1].relay));
    }
    must("give the total", kty_server_give(&server, total, LENGTH));
}

static void show(const struct kortyghai_plan *plan, uint32_t round, const uint32_t *total, struct kortyghai_window *window) {
    int32_t shown[LENGTH], largest, truth = 0, readings[LENGTH];
    int64_t sum;
    must("show", kty_show_totals(plan, CAP, LENGTH, total, shown));
    for (size_t i = 0; i < USERS; i++) {
        read_meter(i, round, readings);
        truth += readings[0];
    }
    must("push", kty_window_push(window, shown[0]));
    must("sum", kty_window_sum(window, &sum));
    must("largest", kty_window_largest(window, &largest));
    printf("server: round %" PRIu32 ": %" PRId32 " and %" PRId32 " W (true first sum: %" PRId32 "); last %zu rounds: sum %" PRId64
           ", largest %" PRId32 "\n", round, shown[0], shown[1], truth, window->held, sum, largest);
    if (truth != shown[0]) exit(EXIT_FAILURE);
}

/* ---- the rounds ---- */

/*
 * Frames come in mixed order. Household 0 is fast: its frame of the next round comes before household 5's of this one. Its keys are those of
 * the next round, so that both are dealt by then.
 */
static void run_round(const struct kortyghai_key_table *table, struct street streets[CLUSTERS], uint32_t round, const uint32_t *keys,
                      const uint32_t *next_keys) {
    static const size_t order[USERS] = {3, 0, 4, 1, 2, 5};
    uint32_t upload[LENGTH];
    for (size_t n = 0; n < USERS; n++) {
        size_t i = order[n];
        if (n == USERS - 1 && next_keys != NULL) {
            mask(&table->plan, 0, round + 1, next_keys, upload);
            must("early frame", deliver(streets, 0, round + 1, upload));
        }
        mask(&table->plan, i, round, keys, upload);
        if (i == 0 && round > 1) {
            say("household 0 sends again what the relay has held since the round before", deliver(streets, i, round, upload));
            continue;
        }
        must("frame", deliver(streets, i, round, upload));
        if (round == 1 && n == 2) {
            say("a frame that comes twice", deliver(streets, i, round, upload));
            cut_power(&streets[i / SIZE]);
        }
    }
}

int main(void) {
    static struct kortyghai_key_table made, table;
    static struct street streets[CLUSTERS];
    static uint32_t symbols[ROUNDS * KORTYGHAI_MAX_RATE * LENGTH], keys[2][USERS * LENGTH];
    struct kortyghai_stream stream = {symbols, sizeof symbols / sizeof *symbols, 0};
    struct kortyghai_window window;
    uint32_t total[LENGTH];
    printf("kortyghai %s\n", KORTYGHAI_VERSION);
    make_plan(&made);
    promise_too_much(&made);
    pass_on(&made, &table);
    draw_badly(symbols, stream.count);
    open_streets(&table.plan, streets);
    must("open the window", kty_window_open(&window, SPAN));
    deal(&table, &stream, keys[1]);
    for (uint32_t round = 1; round <= ROUNDS; round++) {
        bool last = round == ROUNDS;
        if (!last) deal(&table, &stream, keys[(round + 1) % 2]);
        run_round(&table, streets, round, keys[round % 2], last ? NULL : keys[(round + 1) % 2]);
        collect(&table.plan, streets, round, total);
        show(&table.plan, round, total, &window);
    }
    return EXIT_SUCCESS;
}
