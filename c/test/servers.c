/* The server's round, and windows. */
#include "harness.h"

enum { ROOM = 66 };

struct server_call {
    uint32_t mark0;
    struct kortyghai_server server;
    uint32_t mark1;
    size_t sender, block_len, out_len;
    uint32_t said, block[ROOM], mark2, out[ROOM], mark3;
};

static void some_server(struct server_call *x) {
    struct kortyghai_server *s = &x->server;
    some_shape(&s->counts[0], &s->counts[1], 16);
    s->counts[2] = some_prime();
    s->counts[3] = (uint32_t)(once_in(3) ? between(1, 64) : between(1, 3));
    s->number = (uint32_t)draw_number();
    s->reported = (uint16_t)(once_in(3) ? (1u << s->counts[0]) - 1 : below((size_t)1 << s->counts[0]));
    memset(s->sums, 0, sizeof s->sums);
    some_symbols(s->counts[2], s->sums, s->counts[3]);
}

static void some_sums(struct server_call *x) {
    x->sender = between(1, x->server.counts[0]);
    x->said = x->server.number;
    x->block_len = x->out_len = x->server.counts[3];
    some_symbols(x->server.counts[2], x->block, x->block_len);
}

static void damage_server(struct kortyghai_server *s) {
    size_t p = below(64);
    switch (below(6)) {
    case 0: s->counts[0] = wrong_count(8); break;
    case 1: s->counts[1] = wrong_count(8); break;
    case 2: s->counts[2] = no_prime(); break;
    case 3: s->counts[3] = wrong_count(64); break;
    case 4: s->reported = (uint16_t)draw_number(); break;
    default: s->sums[p] = p < s->counts[3] ? s->counts[2] + (uint32_t)below(2) : 1; break;
    }
}

static void damage_sums(struct server_call *x) {
    static const size_t senders[] = {0, 9, SIZE_MAX, (size_t)1 << 32 | 1};
    switch (below(5)) {
    case 0: x->sender = once_in(2) ? x->server.counts[0] + 1 : senders[below(4)]; break;
    case 1: x->said += once_in(2) ? 1 : (uint32_t)draw_number(); break;
    case 2: x->block_len = wrong_length(x->block_len, ROOM); break;
    case 3: x->out_len = wrong_length(x->out_len, ROOM); break;
    default: x->block[x->block_len > 0 ? below(x->block_len) : 0] = x->server.counts[2]; break;
    }
}

static void count(struct server_call *x) {
    if (once_in(2))
        BOTH(SERVER_COUNT, struct server_call, x, server_count, c->server.counts, c->server.number, &c->server.reported, c->server.sums,
             c->sender, c->said, c->block, c->block_len);
    else
        TYPED(SERVER_COUNT, struct server_call, x, server_count, kty_server_count(&c->server, c->sender, c->said, c->block, c->block_len),
              c->server.counts, c->server.number, &c->server.reported, c->server.sums, c->sender, c->said, c->block, c->block_len);
}

static void give(struct server_call *x) {
    if (once_in(2))
        BOTH(SERVER_GIVE, struct server_call, x, server_give, c->server.counts, c->server.number, c->server.reported, c->server.sums, c->out,
             c->out_len);
    else
        TYPED(SERVER_GIVE, struct server_call, x, server_give, kty_server_give(&c->server, c->out, c->out_len), c->server.counts,
              c->server.number, c->server.reported, c->server.sums, c->out, c->out_len);
}

static void open_over_struct(struct server_call *x, const struct kortyghai_plan *plan, uint32_t length, uint32_t number) {
    struct kortyghai_server before = x->server, wanted = before;
    uint32_t counts[] = {plan->numbers[0], plan->numbers[1], plan->numbers[4], length};
    uint64_t answer = kty_server_open(&x->server, plan, length, number);
    uint64_t expected = model_server_open(counts, &wanted.reported, wanted.sums);
    if (expected == 0) {
        memcpy(wanted.counts, counts, sizeof counts);
        wanted.number = number;
    }
    judge(SERVER_OPEN, answer, expected, &x->server, &wanted, &before, sizeof before);
}

/* A round from an opening, the relays in any order, and the total. */
static void one_round(struct server_call *x) {
    struct kortyghai_plan plan = {{0, 0, 0, 1, some_prime()}};
    some_shape(&plan.numbers[0], &plan.numbers[1], 16);
    open_over_struct(x, &plan, (uint32_t)between(0, 66), (uint32_t)draw_number());
    if (last_answer != 0) return;
    for (size_t step = 0; step < 20; step++) {
        some_sums(x);
        if (once_in(8)) damage_sums(x);
        count(x);
    }
    give(x);
}

void try_server(void) {
    struct server_call x;
    MARK(&x);
    some_server(&x);
    some_sums(&x);
    for (size_t damages = below(4); damages > 0; damages--) {
        if (once_in(2)) damage_server(&x.server);
        else damage_sums(&x);
    }
    switch (below(8)) {
    case 0: BOTH(SERVER_OPEN, struct server_call, &x, server_open, c->server.counts, &c->server.reported, c->server.sums); break;
    case 1: give(&x); break;
    case 2: one_round(&x); break;
    default: count(&x); break;
    }
}

/* ---- windows ---- */

struct window_call {
    uint32_t mark0;
    struct kortyghai_window window;
    int64_t sum;
    int32_t total, largest, mark1;
};

static int32_t some_total(void) {
    static const int32_t ends[] = {0, 1, -1, INT32_MAX, INT32_MIN};
    return once_in(3) ? ends[below(5)] : (int32_t)(uint32_t)draw_number();
}

static void damage_window(struct kortyghai_window *w) {
    switch (below(6)) {
    case 0: w->span = once_in(2) ? 0 : 97; break;
    case 1: w->span = once_in(2) ? (size_t)draw_number() : w->held - 1; break;
    case 2: w->held = once_in(2) ? (size_t)draw_number() : w->held + 1; break;
    case 3: w->sum += once_in(2) ? 1 : (int64_t)1 << 32; break;
    case 4: w->sum = once_in(2) ? INT64_MAX : INT64_MIN; break;
    default: w->totals[below(96)] ^= 1; break;
    }
}

static void push(struct window_call *x) {
    if (once_in(2))
        BOTH(WINDOW_PUSH, struct window_call, x, window_push, c->window.span, &c->window.held, &c->window.sum, c->window.totals, c->total);
    else
        TYPED(WINDOW_PUSH, struct window_call, x, window_push, kty_window_push(&c->window, c->total), c->window.span, &c->window.held,
              &c->window.sum, c->window.totals, c->total);
}

static void ask(struct window_call *x) {
    TYPED(WINDOW_SUM, struct window_call, x, window_sum, kty_window_sum(&c->window, &c->sum), c->window.span, c->window.held, c->window.sum,
          c->window.totals, &c->sum);
    TYPED(WINDOW_LARGEST, struct window_call, x, window_largest, kty_window_largest(&c->window, &c->largest), c->window.span, c->window.held,
          c->window.sum, c->window.totals, &c->largest);
    BOTH(WINDOW_SUM, struct window_call, x, window_sum, c->window.span, c->window.held, c->window.sum, c->window.totals, &c->sum);
    BOTH(WINDOW_LARGEST, struct window_call, x, window_largest, c->window.span, c->window.held, c->window.sum, c->window.totals, &c->largest);
}

/* An opening, a run of totals, and at any time a damaged window. */
void try_window(void) {
    struct window_call x;
    size_t span = once_in(6) ? below(200) : once_in(3) ? 96 : between(1, 8);
    MARK(&x);
    x.window.span = span;
    if (once_in(2))
        BOTH(WINDOW_OPEN, struct window_call, &x, window_open, span, &c->window.held, &c->window.sum, c->window.totals);
    else
        TYPED(WINDOW_OPEN, struct window_call, &x, window_open, kty_window_open(&c->window, span), span, &c->window.held, &c->window.sum,
              c->window.totals);
    for (size_t totals = below(once_in(4) ? 120 : 16); totals > 0; totals--) {
        x.total = some_total();
        push(&x);
        if (once_in(12)) {
            struct window_call damaged = x;
            damage_window(&damaged.window);
            push(&damaged);
            ask(&damaged);
        }
    }
    ask(&x);
}
