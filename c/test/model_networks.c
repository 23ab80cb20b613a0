/* The model of cyclic networks. Users, relays and links count from 0 here. */
#include "model.h"

#include <string.h>

enum { K, D, N, R, Q };

static uint64_t check_ring(const uint32_t *c, bool lengths, const uint32_t *table, size_t table_len, const uint32_t *weights, size_t weights_len) {
    if (c[K] < 2 || c[K] > 8 || c[R] < 1 || c[R] > 16) return 1;
    if (c[D] < 1 || c[D] > c[K] || c[N] < 1 || c[N] > 4) return 22;
    if (!lengths) return 4;
    if (!is_prime(c[Q])) return 2;
    if (!all_below(c[Q], table, table_len) || !all_below(c[Q], weights, weights_len)) return 3;
    return 0;
}

/* Only asked of rings whose counts fit: in others no length is. */
static size_t table_size(const uint32_t *c) {
    return c[K] <= 8 && c[R] <= 16 ? c[K] * c[R] : 0;
}

static size_t weight_count(const uint32_t *c) {
    return c[K] <= 8 && c[D] <= 8 && c[N] <= 4 ? c[K] * c[D] * (c[N] + 1) : 0;
}

static uint32_t weight(const uint32_t *c, const uint32_t *weights, size_t user, size_t link, size_t part) {
    return weights[(user * c[D] + link) * (c[N] + 1) + part];
}

/* The row of what user k sends on link l, added to what stands there: over all readings, and then over the source symbols. */
static void add_upload(const uint32_t *c, const uint32_t *table, const uint32_t *weights, size_t k, size_t l, uint32_t *row) {
    uint32_t on_key = weight(c, weights, k, l, c[N]);
    for (size_t s = 0; s < c[N]; s++) {
        size_t place = k * c[N] + s;
        row[place] = (uint32_t)(((uint64_t)row[place] + weight(c, weights, k, l, s)) % c[Q]);
    }
    for (size_t r = 0; r < c[R]; r++) {
        size_t place = c[K] * c[N] + r;
        row[place] = (uint32_t)(((uint64_t)row[place] + times(c[Q], on_key, table[k * c[R] + r])) % c[Q]);
    }
}

static void start_rows(const uint32_t *c, struct matrix *m) {
    memset(m, 0, sizeof *m);
    m->q = c[Q];
    m->columns = c[K] * c[N] + c[R];
}

/* The sum that relay j sends: on link l it hears user j + l, around. */
static void relay_row(const uint32_t *c, const uint32_t *table, const uint32_t *weights, size_t j, uint32_t *row) {
    memset(row, 0, KORTYGHAI_MAX_COLUMNS * sizeof *row);
    for (size_t l = 0; l < c[D]; l++) add_upload(c, table, weights, (j + l) % c[K], l, row);
}

static void total_row(const uint32_t *c, size_t s, uint32_t *row) {
    memset(row, 0, KORTYGHAI_MAX_COLUMNS * sizeof *row);
    for (size_t k = 0; k < c[K]; k++) row[k * c[N] + s] = 1;
}

/* The same rows in the columns of the source symbols alone. */
static size_t source_rank(const uint32_t *c, const struct matrix *m) {
    struct matrix part = *m;
    part.columns = c[R];
    for (size_t i = 0; i < m->rows; i++) memcpy(part.at[i], m->at[i] + c[K] * c[N], c[R] * sizeof(uint32_t));
    return rank_of(&part);
}

/* Nothing leaks where the readings change nothing that the source symbols could not change as well. */
static bool relay_leaks(const uint32_t *c, const uint32_t *table, const uint32_t *weights, size_t j) {
    struct matrix m;
    size_t by_source;
    start_rows(c, &m);
    for (size_t l = 0; l < c[D]; l++) add_upload(c, table, weights, (j + l) % c[K], l, m.at[m.rows++]);
    by_source = source_rank(c, &m);
    return rank_of(&m) != by_source;
}

static bool server_leaks(const uint32_t *c, const uint32_t *table, const uint32_t *weights) {
    struct matrix m;
    size_t by_source;
    start_rows(c, &m);
    for (size_t j = 0; j < c[K]; j++) relay_row(c, table, weights, j, m.at[m.rows++]);
    by_source = source_rank(c, &m);
    for (size_t s = 0; s < c[N]; s++) total_row(c, s, m.at[m.rows++]);
    return rank_of(&m) != by_source + c[N];
}

uint64_t model_network_vet(const uint32_t counts[KORTYGHAI_RING_NUMBERS], const uint32_t *table, size_t table_len, const uint32_t *weights,
                           size_t weights_len) {
    bool lengths = table_len == table_size(counts) && weights_len == weight_count(counts);
    uint64_t answer = check_ring(counts, lengths, table, table_len, weights, weights_len);
    if (answer != 0) return answer;
    for (unsigned j = 0; j < counts[K]; j++)
        if (relay_leaks(counts, table, weights, j)) return answer_of(7, 0, j + 1);
    return server_leaks(counts, table, weights) ? answer_of(7, 0, 0) : 0;
}

uint64_t model_network_upload(const uint32_t counts[KORTYGHAI_RING_NUMBERS], const uint32_t *weights, size_t weights_len, size_t user,
                              size_t relay, const uint32_t *reading, size_t reading_len, uint32_t key, uint32_t *out) {
    bool lengths = weights_len == weight_count(counts) && reading_len == counts[N];
    uint64_t answer = check_ring(counts, lengths, reading, lengths ? reading_len : 0, weights, weights_len), sum;
    size_t link;
    if (answer != 0) return answer;
    if (key >= counts[Q]) return 3;
    if (user < 1 || user > counts[K] || relay < 1 || relay > counts[K]) return 8;
    for (link = 0; (relay - 1 + link) % counts[K] != user - 1; link++);
    if (link >= counts[D]) return 8;
    sum = times(counts[Q], weight(counts, weights, user - 1, link, counts[N]), key);
    for (size_t s = 0; s < counts[N]; s++) sum += times(counts[Q], weight(counts, weights, user - 1, link, s), reading[s]);
    *out = (uint32_t)(sum % counts[Q]);
    return 0;
}

uint64_t model_network_sum(const uint32_t counts[KORTYGHAI_RING_NUMBERS], const uint32_t *uploads, size_t uploads_len, uint32_t *out) {
    bool lengths = uploads_len == counts[D];
    uint64_t answer = check_ring(counts, lengths, uploads, lengths ? uploads_len : 0, NULL, 0), sum = 0;
    if (answer != 0) return answer;
    for (size_t l = 0; l < counts[D]; l++) sum += uploads[l];
    *out = (uint32_t)(sum % counts[Q]);
    return 0;
}

/*
 * The arrived sums that don't depend on lower ones, each as a column: its row over readings and source symbols from above, so that a
 * solution of the rows is a combination of the sums. The last column is what is wanted.
 */
struct sums {
    size_t n, relay[8];
    struct matrix rows;
};

static void keep_free(const uint32_t *c, const uint32_t *table, const uint32_t *weights, uint16_t reported, struct sums *kept) {
    start_rows(c, &kept->rows);
    kept->n = 0;
    for (size_t j = 0; j < c[K]; j++) {
        struct matrix with;
        if (!(reported >> j & 1)) continue;
        relay_row(c, table, weights, j, kept->rows.at[kept->n]);
        kept->rows.rows = kept->n + 1;
        with = kept->rows;
        if (rank_of(&with) == kept->n + 1) kept->relay[kept->n++] = j;
    }
    kept->rows.rows = kept->n;
}

/* Clears a column above and below its pivot, and makes that 1. */
static void clear_column(struct matrix *m, size_t r, size_t c) {
    uint32_t inverse = power(m->q, m->at[r][c], (uint64_t)m->q - 2);
    for (size_t k = 0; k < m->columns; k++) m->at[r][k] = times(m->q, m->at[r][k], inverse);
    for (size_t i = 0; i < m->rows; i++) {
        uint32_t factor = m->at[i][c];
        if (i == r) continue;
        for (size_t k = 0; k < m->columns; k++)
            m->at[i][k] = (uint32_t)(((uint64_t)m->at[i][k] + m->q - times(m->q, factor, m->at[r][k])) % m->q);
    }
}

/* The coefficients of the kept sums that give total symbol s, if there are any. */
static bool solve(const uint32_t *c, const struct sums *kept, size_t s, uint32_t *coefficients) {
    struct matrix m;
    uint32_t wanted[KORTYGHAI_MAX_COLUMNS];
    start_rows(c, &m);
    m.rows = m.columns;
    m.columns = kept->n + 1;
    total_row(c, s, wanted);
    for (size_t i = 0; i < m.rows; i++) {
        for (size_t k = 0; k < kept->n; k++) m.at[i][k] = kept->rows.at[k][i];
        m.at[i][kept->n] = wanted[i];
    }
    for (size_t k = 0; k < kept->n; k++) {
        size_t r = k;
        while (m.at[r][k] == 0) r++;
        for (size_t x = 0; x < m.columns; x++) {
            uint32_t other = m.at[r][x];
            m.at[r][x] = m.at[k][x];
            m.at[k][x] = other;
        }
        clear_column(&m, k, k);
        coefficients[k] = 0;
    }
    for (size_t i = kept->n; i < m.rows; i++)
        if (m.at[i][kept->n] != 0) return false;
    for (size_t k = 0; k < kept->n; k++) coefficients[k] = m.at[k][kept->n];
    return true;
}

static bool arrived_below(const uint32_t *c, uint16_t reported, const uint32_t *sums) {
    for (size_t j = 0; j < c[K]; j++)
        if ((reported >> j & 1) && sums[j] >= c[Q]) return false;
    return true;
}

uint64_t model_network_decode(const uint32_t counts[KORTYGHAI_RING_NUMBERS], const uint32_t *table, size_t table_len, const uint32_t *weights,
                              size_t weights_len, uint16_t reported, const uint32_t *sums, size_t sums_len, uint32_t *out, size_t out_len) {
    bool lengths = table_len == table_size(counts) && weights_len == weight_count(counts) && sums_len == counts[K] && out_len == counts[N];
    uint64_t answer = check_ring(counts, lengths, table, table_len, weights, weights_len);
    uint32_t totals[KORTYGHAI_MAX_PARTS], coefficients[KORTYGHAI_MAX_RING];
    struct sums kept;
    if (answer != 0) return answer;
    if (!arrived_below(counts, reported, sums)) return 3;
    if (reported >> counts[K] != 0) return 8;
    keep_free(counts, table, weights, reported, &kept);
    for (size_t s = 0; s < counts[N]; s++) {
        uint64_t sum = 0;
        if (!solve(counts, &kept, s, coefficients)) return 23;
        for (size_t k = 0; k < kept.n; k++) sum += times(counts[Q], coefficients[k], sums[kept.relay[k]]);
        totals[s] = (uint32_t)(sum % counts[Q]);
    }
    memcpy(out, totals, counts[N] * sizeof *out);
    return 0;
}
