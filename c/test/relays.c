/* Relays' rounds and their saves: any state, any frame, whole days, and damaged saves. */
#include "harness.h"

enum { ROOM = 66, SAVES = 1400 };

struct relay_call {
    uint32_t mark0;
    struct kortyghai_relay relay;
    uint32_t mark1;
    size_t sender, block_len, out_len;
    uint32_t said, block[ROOM], mark2, out[ROOM], mark3;
};

static void some_row(uint32_t q, size_t length, uint32_t *row) {
    memset(row, 0, KORTYGHAI_MAX_LENGTH * sizeof *row);
    some_symbols(q, row, length);
}

static uint32_t some_round(void) {
    static const uint32_t numbers[] = {0, 1, 9, 4294967293u, 4294967294u, 4294967295u};
    return once_in(3) ? (uint32_t)draw_number() : numbers[below(6)];
}

static uint16_t some_roll(uint32_t size) {
    return (uint16_t)(once_in(3) ? (1u << size) - 1 : below((size_t)1 << size));
}

static uint32_t some_block_length(void) {
    return (uint32_t)(once_in(3) ? between(1, 64) : once_in(5) ? 64 : between(1, 4));
}

static void some_relay(struct kortyghai_relay *r) {
    some_shape(&r->counts[0], &r->counts[1], 16);
    r->counts[2] = some_prime();
    r->counts[3] = some_block_length();
    r->counts[4] = (uint32_t)between(1, r->counts[0]);
    r->number = some_round();
    r->reported = some_roll(r->counts[1]);
    r->ahead = some_roll(r->counts[1]);
    some_row(r->counts[2], r->counts[3], r->sums);
    some_row(r->counts[2], r->counts[3], r->held);
}

static void damage_row(const uint32_t *counts, uint32_t *row) {
    size_t p = below(64);
    row[p] = p < counts[3] ? counts[2] + (uint32_t)below(2) : 1;
}

static void damage_relay(struct kortyghai_relay *r) {
    switch (below(9)) {
    case 0: r->counts[0] = wrong_count(8); break;
    case 1: r->counts[1] = wrong_count(8); break;
    case 2: r->counts[2] = no_prime(); break;
    case 3: r->counts[3] = wrong_count(64); break;
    case 4: r->counts[4] = wrong_count(r->counts[0]); break;
    case 5: r->reported = (uint16_t)draw_number(); break;
    case 6: r->ahead = (uint16_t)(1u << below(16)); break;
    case 7: damage_row(r->counts, r->sums); break;
    default: damage_row(r->counts, r->held); break;
    }
}

static void some_frame(struct relay_call *x) {
    const uint32_t *counts = x->relay.counts;
    size_t length = counts[3] <= 64 ? counts[3] : 64;
    x->sender = between(1, counts[1] >= 1 && counts[1] <= 8 ? counts[1] : 8);
    x->said = x->relay.number + (uint32_t)below(2);
    x->block_len = length;
    some_symbols(counts[2], x->block, length);
    x->out_len = length;
}

static void damage_frame(struct relay_call *x) {
    static const size_t senders[] = {0, 9, 17, SIZE_MAX, (size_t)1 << 32 | 1};
    size_t length = x->block_len;
    switch (below(5)) {
    case 0: x->sender = once_in(2) ? x->relay.counts[1] + 1 : senders[below(5)]; break;
    case 1: x->said = once_in(2) ? x->relay.number - 1 : x->relay.number + 2; break;
    case 2: x->block_len = wrong_length(length, ROOM); break;
    case 3: x->out_len = wrong_length(length, ROOM); break;
    default: x->block[length > 0 ? below(length) : 0] = x->relay.counts[2] + (uint32_t)below(3); break;
    }
}

static void count(struct relay_call *x) {
    if (once_in(2))
        BOTH(RELAY_COUNT, struct relay_call, x, relay_count, c->relay.counts, c->relay.number, &c->relay.reported, c->relay.sums,
             &c->relay.ahead, c->relay.held, c->sender, c->said, c->block, c->block_len);
    else
        TYPED(RELAY_COUNT, struct relay_call, x, relay_count, kty_relay_count(&c->relay, c->sender, c->said, c->block, c->block_len),
              c->relay.counts, c->relay.number, &c->relay.reported, c->relay.sums, &c->relay.ahead, c->relay.held, c->sender, c->said,
              c->block, c->block_len);
}

static void advance(struct relay_call *x) {
    if (once_in(2))
        BOTH(RELAY_ADVANCE, struct relay_call, x, relay_advance, c->relay.counts, &c->relay.number, &c->relay.reported, c->relay.sums,
             &c->relay.ahead, c->relay.held);
    else
        TYPED(RELAY_ADVANCE, struct relay_call, x, relay_advance, kty_relay_advance(&c->relay), c->relay.counts, &c->relay.number,
              &c->relay.reported, c->relay.sums, &c->relay.ahead, c->relay.held);
}

static void give(struct relay_call *x) {
    if (once_in(2))
        BOTH(RELAY_GIVE, struct relay_call, x, relay_give, c->relay.counts, c->relay.number, c->relay.reported, c->relay.sums, c->relay.ahead,
             c->relay.held, c->out, c->out_len);
    else
        TYPED(RELAY_GIVE, struct relay_call, x, relay_give, kty_relay_give(&c->relay, c->out, c->out_len), c->relay.counts, c->relay.number,
              c->relay.reported, c->relay.sums, c->relay.ahead, c->relay.held, c->out, c->out_len);
}

static void open(struct relay_call *x) {
    BOTH(RELAY_OPEN, struct relay_call, x, relay_open, c->relay.counts, &c->relay.reported, c->relay.sums, &c->relay.ahead, c->relay.held);
}

/* A state and a frame, none to three damages, and one of the four calls. */
void try_relay(void) {
    struct relay_call x;
    size_t damages = below(4);
    MARK(&x);
    some_relay(&x.relay);
    some_frame(&x);
    for (; damages > 0; damages--) {
        if (once_in(2)) damage_relay(&x.relay);
        else damage_frame(&x);
    }
    switch (below(6)) {
    case 0: open(&x); break;
    case 1: advance(&x); break;
    case 2: give(&x); break;
    default: count(&x); break;
    }
}

/* An opening over a struct leaves just that relay, or the struct as it was. */
static void open_over_struct(struct relay_call *x, const struct kortyghai_plan *plan, uint32_t length, uint32_t cluster, uint32_t number) {
    struct kortyghai_relay before = x->relay, wanted = before;
    uint32_t counts[] = {plan->numbers[0], plan->numbers[1], plan->numbers[4], length, cluster};
    uint64_t answer = kty_relay_open(&x->relay, plan, length, cluster, number);
    uint64_t expected = model_relay_open(counts, &wanted.reported, wanted.sums, &wanted.ahead, wanted.held);
    if (expected == 0) {
        memcpy(wanted.counts, counts, sizeof counts);
        wanted.number = number;
    }
    judge(RELAY_OPEN, answer, expected, &x->relay, &wanted, &before, sizeof before);
}

/* Rounds one after the other from an opening: frames for this round and the next in any order, repeated and damaged ones between them. */
void try_relay_day(void) {
    struct relay_call x;
    struct kortyghai_plan plan = {{0, 0, 0, 1, some_prime()}};
    MARK(&x);
    some_shape(&plan.numbers[0], &plan.numbers[1], 16);
    open_over_struct(&x, &plan, (uint32_t)between(1, 3), (uint32_t)between(0, plan.numbers[0] + 1), some_round());
    if (last_answer != 0) return;
    for (size_t step = 0; step < 60; step++) {
        some_frame(&x);
        if (once_in(8)) damage_frame(&x);
        count(&x);
        if (once_in(6)) give(&x);
        if (once_in(4)) advance(&x);
    }
}

/* ---- saves ---- */

struct save_call {
    uint32_t mark0;
    struct kortyghai_relay relay;
    uint32_t mark1;
    size_t used, room, steps;
    uint8_t bytes[SAVES], mark2[8];
};

static void save(struct save_call *x) {
    if (once_in(2))
        BOTH(RELAY_SAVE, struct save_call, x, relay_save, c->relay.counts, c->relay.number, c->relay.reported, c->relay.sums, c->relay.ahead,
             c->relay.held, c->bytes, c->room, &c->used);
    else
        TYPED(RELAY_SAVE, struct save_call, x, relay_save, kty_relay_save(&c->relay, c->bytes, c->room, &c->used), c->relay.counts,
              c->relay.number, c->relay.reported, c->relay.sums, c->relay.ahead, c->relay.held, c->bytes, c->room, &c->used);
}

static void restore(struct save_call *x) {
    if (once_in(2))
        BOTH(RELAY_RESTORE, struct save_call, x, relay_restore, c->bytes, c->used, c->steps, c->relay.counts, &c->relay.number,
             &c->relay.reported, c->relay.sums, &c->relay.ahead, c->relay.held);
    else
        TYPED(RELAY_RESTORE, struct save_call, x, relay_restore, kty_relay_restore(&c->relay, c->bytes, c->used, c->steps), c->bytes, c->used,
              c->steps, c->relay.counts, &c->relay.number, &c->relay.reported, c->relay.sums, &c->relay.ahead, c->relay.held);
}

/* A byte of the last save that decides: a count, a byte of q or of a roll, or one of the trailer. */
static void spoil_last(struct save_call *x) {
    static const uint8_t values[] = {0, 1, 2, 8, 9, 20, 64, 65, 255};
    size_t distance = x->used >= 4 ? read_low_first(x->bytes + x->used - 4, 2) : 0;
    uint8_t value = once_in(2) ? values[below(9)] : (uint8_t)draw_number();
    if (distance < 20 || distance > x->used || once_in(4)) {
        x->bytes[x->used - 1 - below(x->used < 4 ? x->used : 4)] = value;
        return;
    }
    x->bytes[x->used - distance + (once_in(2) ? below(4) : below(16))] = value;
}

static void damage_saved(struct save_call *x) {
    if (x->used == 0) return;
    switch (below(5)) {
    case 0: x->bytes[below(x->used)] = (uint8_t)draw_number(); break;
    case 1: x->used -= below(x->used < 20 ? x->used : 20); break;
    default: spoil_last(x); break;
    }
}

/* Saves of several relays into one buffer, some refused; then any of them is asked for, whole or damaged. */
void try_save(void) {
    struct save_call x;
    MARK(&x);
    x.used = once_in(3) ? below(30) : 0;
    x.room = between(SAVES / 2, SAVES);
    for (size_t saves = between(1, 4); saves > 0; saves--) {
        some_relay(&x.relay);
        if (once_in(2)) x.relay.counts[3] = (uint32_t)between(1, 8);
        some_row(x.relay.counts[2], x.relay.counts[3], x.relay.sums);
        some_row(x.relay.counts[2], x.relay.counts[3], x.relay.held);
        if (once_in(6)) damage_relay(&x.relay);
        save(&x);
    }
    if (once_in(10)) {
        struct save_call full = x;
        full.used = once_in(2) ? SIZE_MAX - below(600) : x.room - below(200);
        save(&full);
    }
    for (size_t reads = 4; reads > 0; reads--) {
        struct save_call damaged = x;
        damaged.steps = once_in(10) ? SIZE_MAX - below(2) : once_in(2) ? 0 : below(5);
        for (size_t damages = below(3); damages > 0; damages--) damage_saved(&damaged);
        restore(&damaged);
    }
}
