/* Keys, key streams and stocks. */
#include "harness.h"

enum { ROOM = 66, STREAM = 400, SOURCE = 16 * 6, KEYS = 16 * 6 };

/* ---- keys ---- */

struct key_call {
    uint32_t mark0;
    struct kortyghai_key_table table;
    size_t table_len, length, source_len, keys_len;
    uint32_t source[SOURCE], mark1, keys[KEYS], mark2;
};

static void some_keys(struct key_call *x) {
    uint32_t *plan = x->table.plan.numbers;
    size_t rate = 0;
    do {
        some_shape(&plan[0], &plan[1], 6);
        plan[2] = (uint32_t)below(2);
    } while (model_rate(plan[0], plan[1], plan[2], &rate) != 0);
    x->table_len = plan[0] * plan[1] * rate;
    do plan[4] = some_prime();
    while (plan[4] < 65521 || model_make_table(plan, 2 + some_symbol(plan[4] - 2), x->table.symbols, x->table_len) != 0);
    x->length = between(1, 4);
    x->source_len = rate * x->length;
    x->keys_len = plan[0] * plan[1] * x->length;
    some_symbols(plan[4], x->source, x->source_len);
}

static void damage_keys(struct key_call *x) {
    switch (below(9)) {
    case 0: x->table.plan.numbers[below(4)] = wrong_count(16); break;
    case 1: x->table.plan.numbers[4] = once_in(2) ? no_prime() : some_prime(); break;
    case 2: x->table.symbols[below(x->table_len)] = some_symbol(x->table.plan.numbers[4]); break;
    case 3: x->length = once_in(2) ? 0 : 65; break;
    case 4: x->source_len = wrong_length(x->source_len, SOURCE); break;
    case 5: x->keys_len = wrong_length(x->keys_len, KEYS); break;
    case 6: x->table.plan.numbers[2] = (uint32_t)below(7); break;
    case 7: memset(x->table.symbols, 0, sizeof x->table.symbols); break;
    default: x->source[below(x->source_len > 0 ? x->source_len : 1)] = x->table.plan.numbers[4]; break;
    }
}

void try_keys(void) {
    struct key_call x;
    MARK(&x);
    some_keys(&x);
    if (once_in(2)) damage_keys(&x);
    if (once_in(6)) damage_keys(&x);
    if (x.table_len != kty_symbols(&x.table.plan) || once_in(2))
        BOTH(DERIVE_KEYS, struct key_call, &x, derive_keys, c->table.plan.numbers, c->table.symbols, c->table_len, c->length, c->source,
             c->source_len, c->keys, c->keys_len);
    else
        TYPED(DERIVE_KEYS, struct key_call, &x, derive_keys, kty_derive_keys(&c->table, c->length, c->source, c->source_len, c->keys,
              c->keys_len), c->table.plan.numbers, c->table.symbols, c->table_len, c->length, c->source, c->source_len, c->keys, c->keys_len);
}

/* ---- streams ---- */

struct stream_call {
    uint32_t mark0, symbols[STREAM], mark1;
    size_t count, position, length, out_len;
    uint32_t out[ROOM], mark2;
};

/* Over a struct that leads to these symbols. */
static uint64_t draw_over_struct(struct stream_call *c) {
    struct kortyghai_stream stream = {c->symbols, c->count, c->position};
    uint64_t answer = kty_draw(&stream, c->length, c->out);
    c->position = stream.position;
    return answer;
}

static void draw(struct stream_call *x) {
    if (x->out_len != x->length || once_in(2))
        BOTH(DRAW, struct stream_call, x, draw, c->symbols, c->count, &c->position, c->length, c->out, c->out_len);
    else
        TYPED(DRAW, struct stream_call, x, draw, draw_over_struct(c), c->symbols, c->count, &c->position, c->length, c->out, c->out_len);
}

static size_t some_draw(void) {
    return once_in(6) ? below(ROOM) : between(1, 20);
}

/* Draws until the stream is used up, some of them wrong. */
void try_stream(void) {
    struct stream_call x;
    MARK(&x);
    x.count = below(STREAM + 1);
    x.position = once_in(4) ? below(STREAM + 4) : 0;
    if (once_in(20)) x.position = SIZE_MAX - below(70);
    for (size_t i = 0; i < STREAM; i++) x.symbols[i] = (uint32_t)draw_number();
    for (size_t draws = 12; draws > 0; draws--) {
        x.length = some_draw();
        x.out_len = once_in(10) ? wrong_length(x.length, ROOM) : x.length;
        if (once_in(30)) x.length = SIZE_MAX - below(3);
        draw(&x);
    }
}

/* ---- stocks ---- */

struct stock_call {
    uint32_t mark0, symbols[STREAM], mark1;
    struct kortyghai_stock stock;
    size_t shares[9], most[9], shares_len, most_len;
    size_t count, pool, length, out_len;
    uint32_t out[ROOM], mark2;
};

static void open_stock(struct stock_call *x, size_t pools) {
    size_t count = pools <= 8 ? pools : 0;
    if (x->shares_len != count || x->most_len != count || once_in(2)) {
        BOTH(STOCK_OPEN, struct stock_call, x, stock_open, pools, c->shares, c->shares_len, c->most, c->most_len, c->symbols, c->count,
             c->stock.reserves, c->stock.limits, c->stock.drawn);
        if (last_answer == 0) x->stock.pools = pools;
        return;
    }
    x->stock.pools = pools;
    TYPED(STOCK_OPEN, struct stock_call, x, stock_open, kty_stock_open(&c->stock, pools, c->shares, c->most, c->symbols, c->count), pools,
          c->shares, c->shares_len, c->most, c->most_len, c->symbols, c->count, c->stock.reserves, c->stock.limits, c->stock.drawn);
}

static void damage_stock(struct kortyghai_stock *s) {
    static const size_t large[] = {SIZE_MAX, SIZE_MAX - 1, (size_t)1 << 63, (size_t)1 << 32, 401};
    size_t i = below(8), to = once_in(2) ? large[below(5)] : below(60);
    switch (below(5)) {
    case 0: s->pools = once_in(2) ? 0 : between(1, 10); break;
    case 1: s->reserves[i] = to; break;
    case 2: s->limits[i] = to; break;
    case 3: s->drawn[i] = to; break;
    default: s->limits[i] = s->drawn[i] = to; break;
    }
}

static void draw_stock(struct stock_call *x) {
    if (x->out_len != x->length || once_in(2))
        BOTH(STOCK_DRAW, struct stock_call, x, stock_draw, c->stock.pools, c->stock.reserves, c->stock.limits, c->stock.drawn, c->symbols,
             c->count, c->pool, c->length, c->out, c->out_len);
    else
        TYPED(STOCK_DRAW, struct stock_call, x, stock_draw, kty_stock_draw(&c->stock, c->symbols, c->count, c->pool, c->length, c->out),
              c->stock.pools, c->stock.reserves, c->stock.limits, c->stock.drawn, c->symbols, c->count, c->pool, c->length, c->out,
              c->out_len);
}

static void some_stock(struct stock_call *x, size_t pools) {
    x->count = between(20, STREAM);
    for (size_t i = 0; i < STREAM; i++) x->symbols[i] = (uint32_t)draw_number();
    for (size_t i = 0; i < 9; i++) {
        x->shares[i] = below(x->count / 8 + 2);
        x->most[i] = once_in(5) ? SIZE_MAX - below(2) : x->shares[i] + below(80);
        if (once_in(30)) x->shares[i] = once_in(2) ? x->most[i] + 1 : SIZE_MAX;
    }
    x->shares_len = once_in(20) ? below(10) : pools <= 8 ? pools : 0;
    x->most_len = once_in(20) ? below(10) : pools <= 8 ? pools : 0;
}

/* An opening and draws for its pools until the stream is used up; some draws are wrong, some stocks damaged. */
void try_stock(void) {
    struct stock_call x;
    size_t pools = once_in(10) ? below(11) : between(1, 8);
    MARK(&x);
    some_stock(&x, pools);
    open_stock(&x, pools);
    if (last_answer != 0) return;
    for (size_t draws = 24; draws > 0; draws--) {
        x.pool = once_in(12) ? below(10) : between(1, pools);
        x.length = some_draw();
        x.out_len = once_in(12) ? wrong_length(x.length, ROOM) : x.length;
        draw_stock(&x);
        if (once_in(8)) {
            struct stock_call damaged = x;
            damage_stock(&damaged.stock);
            draw_stock(&damaged);
        }
    }
}
