/* Cyclic networks: by chance, and some that hide and decode by construction. */
#include "harness.h"

enum { K, D, N, R, Q, ROOM = 10 };

struct ring_call {
    uint32_t mark0;
    struct kortyghai_network network;
    uint32_t more[4];
    size_t table_len, weights_len, reading_len, uploads_len, sums_len, out_len, user, relay;
    uint32_t reading[ROOM], mark1, uploads[ROOM], mark2, sums[ROOM], mark3, key, symbol, out[ROOM], mark4;
    uint16_t reported;
};

static uint32_t minus(uint32_t q, uint32_t a, uint32_t b) {
    return (uint32_t)(((uint64_t)a + q - b) % q);
}

/*
 * Solves rows x unknowns = wanted, n rows and d unknowns, of which the last d - n are free and drawn; false where the first n columns
 * depend on each other.
 */
static bool solve(uint32_t q, size_t n, size_t d, const uint32_t rows[4][8], const uint32_t *wanted, uint32_t *x) {
    uint32_t m[4][5];
    for (size_t l = n; l < d; l++) x[l] = some_symbol(q);
    for (size_t i = 0; i < n; i++) {
        memcpy(m[i], rows[i], n * sizeof **m);
        m[i][n] = wanted[i];
        for (size_t l = n; l < d; l++) m[i][n] = minus(q, m[i][n], times(q, rows[i][l], x[l]));
    }
    for (size_t k = 0; k < n; k++) {
        uint32_t inverse = power(q, m[k][k], (uint64_t)q - 2);
        if (m[k][k] == 0) return false;
        for (size_t c = 0; c <= n; c++) m[k][c] = times(q, m[k][c], inverse);
        for (size_t i = 0; i < n; i++) {
            uint32_t factor = m[i][k];
            for (size_t c = 0; c <= n && i != k; c++) m[i][c] = minus(q, m[i][c], times(q, factor, m[k][c]));
        }
    }
    for (size_t k = 0; k < n; k++) x[k] = m[k][n];
    return true;
}

/* The coefficients of one user, so that combination s of its relays' sums has its reading's symbol s alone, and not its key. */
static bool hide_user(const uint32_t *c, const uint32_t by[4][8], size_t k, uint32_t *weights) {
    uint32_t rows[4][8], wanted[4], x[8];
    for (size_t s = 0; s < c[N]; s++)
        for (size_t l = 0; l < c[D]; l++) rows[s][l] = by[s][(k + c[K] - l) % c[K]];
    for (size_t part = 0; part <= c[N]; part++) {
        for (size_t s = 0; s < c[N]; s++) wanted[s] = s == part;
        if (!solve(c[Q], c[N], c[D], (const uint32_t(*)[8])rows, wanted, x)) return false;
        for (size_t l = 0; l < c[D]; l++) weights[(k * c[D] + l) * (c[N] + 1) + part] = x[l];
    }
    return true;
}

static bool hide_all(const uint32_t *c, uint32_t *weights) {
    uint32_t by[4][8];
    for (size_t s = 0; s < 4; s++)
        for (size_t j = 0; j < 8; j++) by[s][j] = (uint32_t)(draw_number() % c[Q]);
    for (size_t k = 0; k < c[K]; k++)
        if (!hide_user(c, (const uint32_t(*)[8])by, k, weights)) return false;
    return true;
}

static void some_network(struct ring_call *x) {
    uint32_t *c = x->network.ring.numbers;
    c[K] = (uint32_t)between(2, 8);
    c[D] = (uint32_t)between(1, c[K]);
    c[N] = (uint32_t)between(1, 4);
    c[R] = (uint32_t)(once_in(2) ? between(1, 16) : between(c[K], 16));
    c[Q] = once_in(2) ? 4294967291u : some_prime();
    x->table_len = c[K] * c[R];
    x->weights_len = c[K] * c[D] * (c[N] + 1);
    some_symbols(c[Q], x->network.table, x->table_len);
    some_symbols(c[Q], x->network.weights, x->weights_len);
    if (c[D] > c[N] && !once_in(4)) hide_all(c, x->network.weights);
    x->reading_len = x->out_len = c[N];
    x->uploads_len = c[D];
    x->sums_len = c[K];
    x->user = between(1, c[K]);
    x->relay = between(1, c[K]);
    x->key = some_symbol(c[Q]);
    x->reported = (uint16_t)(once_in(2) ? (1u << c[K]) - 1 : below((size_t)1 << c[K]));
    some_symbols(c[Q], x->reading, c[N]);
    some_symbols(c[Q], x->uploads, c[D]);
    some_symbols(c[Q], x->sums, c[K]);
}

static void damage_network(struct ring_call *x) {
    uint32_t *c = x->network.ring.numbers;
    size_t *lengths[] = {&x->reading_len, &x->uploads_len, &x->sums_len, &x->out_len};
    size_t which = below(4);
    switch (below(9)) {
    case 0: c[below(4)] = wrong_count(8); break;
    case 1: c[Q] = no_prime(); break;
    case 2: *lengths[which] = wrong_length(*lengths[which], ROOM); break;
    case 3: x->table_len = wrong_length(x->table_len, 128); break;
    case 4: x->weights_len = wrong_length(x->weights_len, 324); break;
    case 5: x->network.table[below(16)] = c[Q] + (uint32_t)below(2); break;
    case 6: x->network.weights[below(4)] = c[Q] + (uint32_t)below(2); break;
    case 7: x->reading[below(4)] = x->uploads[below(8)] = x->sums[below(8)] = x->key = c[Q]; break;
    default: x->reported = (uint16_t)draw_number(); x->user = below(10); x->relay = once_in(3) ? SIZE_MAX : below(10); break;
    }
}

static void call_entries(struct ring_call *x) {
    BOTH(NETWORK_VET, struct ring_call, x, network_vet, c->network.ring.numbers, c->network.table, c->table_len, c->network.weights,
         c->weights_len);
    BOTH(NETWORK_UPLOAD, struct ring_call, x, network_upload, c->network.ring.numbers, c->network.weights, c->weights_len, c->user, c->relay,
         c->reading, c->reading_len, c->key, &c->symbol);
    BOTH(NETWORK_SUM, struct ring_call, x, network_sum, c->network.ring.numbers, c->uploads, c->uploads_len, &c->symbol);
    BOTH(NETWORK_DECODE, struct ring_call, x, network_decode, c->network.ring.numbers, c->network.table, c->table_len, c->network.weights,
         c->weights_len, c->reported, c->sums, c->sums_len, c->out, c->out_len);
}

/* The lengths are those that the ring says, or 0 where no ring has such. */
static void set_lengths(struct ring_call *x) {
    const uint32_t *c = x->network.ring.numbers;
    x->table_len = kty_ring_symbols(&x->network.ring);
    x->weights_len = kty_ring_weights(&x->network.ring);
    x->reading_len = x->out_len = kty_room(c[N], 4);
    x->uploads_len = kty_room(c[D], 8);
    x->sums_len = kty_room(c[K], 8);
}

static void call_structs(struct ring_call *x) {
    set_lengths(x);
    TYPED(NETWORK_VET, struct ring_call, x, network_vet, kty_network_vet(&c->network), c->network.ring.numbers, c->network.table,
          c->table_len, c->network.weights, c->weights_len);
    TYPED(NETWORK_UPLOAD, struct ring_call, x, network_upload, kty_network_upload(&c->network, c->user, c->relay, c->reading, c->key,
          &c->symbol), c->network.ring.numbers, c->network.weights, c->weights_len, c->user, c->relay, c->reading, c->reading_len, c->key,
          &c->symbol);
    TYPED(NETWORK_SUM, struct ring_call, x, network_sum, kty_network_sum(&c->network.ring, c->uploads, &c->symbol), c->network.ring.numbers,
          c->uploads, c->uploads_len, &c->symbol);
    TYPED(NETWORK_DECODE, struct ring_call, x, network_decode, kty_network_decode(&c->network, c->reported, c->sums, c->out),
          c->network.ring.numbers, c->network.table, c->table_len, c->network.weights, c->weights_len, c->reported, c->sums, c->sums_len,
          c->out, c->out_len);
}

void try_network(void) {
    struct ring_call x;
    MARK(&x);
    some_network(&x);
    for (size_t damages = once_in(2) ? 0 : below(3); damages > 0; damages--) damage_network(&x);
    if (once_in(2)) call_entries(&x);
    else call_structs(&x);
}
