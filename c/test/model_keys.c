/* The model of whoever deals keys, and of a user: keys, draws, stocks, uploads and signed ones. */
#include "model.h"

#include <string.h>

static bool length_fits(size_t length) {
    return length >= 1 && length <= 64;
}

/* ---- keys and draws ---- */

uint64_t model_derive_keys(const uint32_t plan[KORTYGHAI_PLAN_NUMBERS], const uint32_t *table, size_t table_len, size_t length,
                           const uint32_t *source, size_t source_len, uint32_t *keys, size_t keys_len) {
    uint64_t answer = model_vet(plan, table, table_len);
    size_t users, rate = plan[3];
    if (answer != 0) return answer;
    users = plan[0] * plan[1];
    if (!length_fits(length)) return 9;
    if (source_len != rate * length || keys_len != users * length) return 4;
    if (!all_below(plan[4], source, source_len)) return 3;
    for (size_t i = 0; i < users; i++)
        for (size_t p = 0; p < length; p++) {
            uint64_t key = 0;
            for (size_t k = 0; k < rate; k++) key += times(plan[4], table[i * rate + k], source[p * rate + k]);
            keys[i * length + p] = (uint32_t)(key % plan[4]);
        }
    return 0;
}

uint64_t model_draw(const uint32_t *stream, size_t stream_len, size_t *position, size_t length, uint32_t *out, size_t out_len) {
    if (!length_fits(length)) return 9;
    if (out_len != length) return 4;
    if (*position > stream_len || stream_len - *position < length) return 13;
    memcpy(out, stream + *position, length * sizeof *out);
    *position += length;
    return 0;
}

/* ---- stocks; sums stay at the end of their range instead of wrapping ---- */

static size_t plus(size_t a, size_t b) {
    return a > SIZE_MAX - b ? SIZE_MAX : a + b;
}

uint64_t model_stock_open(size_t pools, const size_t *shares, size_t shares_len, const size_t *most, size_t most_len, const uint32_t *stream,
                          size_t stream_len, size_t reserves[KORTYGHAI_MAX_POOLS], size_t limits[KORTYGHAI_MAX_POOLS],
                          size_t drawn[KORTYGHAI_MAX_POOLS]) {
    size_t together = 0;
    (void)stream;
    if (pools < 1 || pools > 8) return 1;
    if (shares_len != pools || most_len != pools) return 4;
    for (size_t i = 0; i < pools; i++) {
        if (shares[i] > most[i]) return 21;
        together = plus(together, shares[i]);
    }
    if (together > stream_len) return 21;
    for (size_t i = 0; i < 8; i++) {
        reserves[i] = i < pools ? shares[i] : 0;
        limits[i] = i < pools ? most[i] : 0;
        drawn[i] = 0;
    }
    return 0;
}

/* Could draws on a stream of this length leave it? */
static bool is_stock(size_t pools, const size_t *reserves, const size_t *limits, const size_t *drawn, size_t stream_len) {
    size_t kept = 0;
    for (size_t i = 0; i < 8; i++) {
        if (reserves[i] > limits[i] || drawn[i] > limits[i]) return false;
        if (i >= pools && limits[i] != 0) return false;
        kept = plus(kept, reserves[i] > drawn[i] ? reserves[i] : drawn[i]);
    }
    return kept <= stream_len;
}

uint64_t model_stock_draw(size_t pools, const size_t reserves[KORTYGHAI_MAX_POOLS], const size_t limits[KORTYGHAI_MAX_POOLS],
                          size_t drawn[KORTYGHAI_MAX_POOLS], const uint32_t *stream, size_t stream_len, size_t pool, size_t length,
                          uint32_t *out, size_t out_len) {
    size_t position = 0, owed = 0;
    if (pools < 1 || pools > 8) return 1;
    if (!is_stock(pools, reserves, limits, drawn, stream_len)) return 21;
    if (pool < 1 || pool > pools) return 8;
    if (!length_fits(length)) return 9;
    if (out_len != length) return 4;
    if (limits[pool - 1] - drawn[pool - 1] < length) return 20;
    for (size_t i = 0; i < pools; i++) {
        position += drawn[i];
        if (i != pool - 1 && reserves[i] > drawn[i]) owed += reserves[i] - drawn[i];
    }
    if (stream_len < position + length + owed) return 13;
    memcpy(out, stream + position, length * sizeof *out);
    drawn[pool - 1] += length;
    return 0;
}

/* ---- uploads ---- */

static uint64_t check_blocks(uint32_t q, size_t length, const uint32_t *a, size_t a_len, const uint32_t *b, size_t b_len, size_t out_len) {
    if (!is_prime(q)) return 2;
    if (!length_fits(length)) return 9;
    if (a_len != length || b_len != length || out_len != length) return 4;
    if (!all_below(q, a, length) || !all_below(q, b, length)) return 3;
    return 0;
}

uint64_t model_upload(uint32_t q, size_t length, const uint32_t *readings, size_t readings_len, const uint32_t *key, size_t key_len,
                      uint32_t *out, size_t out_len) {
    uint64_t answer = check_blocks(q, length, readings, readings_len, key, key_len, out_len);
    if (answer != 0) return answer;
    for (size_t p = 0; p < length; p++) out[p] = (uint32_t)(((uint64_t)readings[p] + key[p]) % q);
    return 0;
}

uint64_t model_unmask(uint32_t q, size_t length, const uint32_t *upload, size_t upload_len, const uint32_t *key, size_t key_len, uint32_t *out,
                      size_t out_len) {
    uint64_t answer = check_blocks(q, length, upload, upload_len, key, key_len, out_len);
    if (answer != 0) return answer;
    for (size_t p = 0; p < length; p++) out[p] = (uint32_t)(((uint64_t)upload[p] + q - key[p]) % q);
    return 0;
}

/* ---- signed ---- */

static uint64_t check_cap(const uint32_t *plan, uint32_t cap, size_t length) {
    if (!plan_fits(plan)) return 1;
    if (!is_prime(plan[4])) return 2;
    if (cap == 0 || 2 * (uint64_t)plan[0] * plan[1] * cap >= plan[4]) return 16;
    if (!length_fits(length)) return 9;
    return 0;
}

static int32_t shown(uint32_t q, uint32_t symbol) {
    int64_t t = symbol;
    return (int32_t)(2 * t < q ? t : t - q);
}

uint64_t model_signed_upload(const uint32_t plan[KORTYGHAI_PLAN_NUMBERS], uint32_t cap, size_t length, const int32_t *readings,
                             size_t readings_len, const uint32_t *key, size_t key_len, uint32_t *out, size_t out_len) {
    uint64_t answer = check_cap(plan, cap, length);
    int64_t q = plan[4];
    if (answer != 0) return answer;
    if (readings_len != length || key_len != length || out_len != length) return 4;
    for (size_t p = 0; p < length; p++)
        if (readings[p] > (int64_t)cap || readings[p] < -(int64_t)cap) return 15;
    if (!all_below(plan[4], key, length)) return 3;
    for (size_t p = 0; p < length; p++) out[p] = (uint32_t)((q + readings[p] + key[p]) % q);
    return 0;
}

uint64_t model_signed_unmask(const uint32_t plan[KORTYGHAI_PLAN_NUMBERS], uint32_t cap, size_t length, const uint32_t *upload,
                             size_t upload_len, const uint32_t *key, size_t key_len, int32_t *out, size_t out_len) {
    uint64_t answer = check_cap(plan, cap, length);
    uint32_t q = plan[4];
    if (answer != 0) return answer;
    if (upload_len != length || key_len != length || out_len != length) return 4;
    if (!all_below(q, upload, length) || !all_below(q, key, length)) return 3;
    for (size_t p = 0; p < length; p++) out[p] = shown(q, (uint32_t)(((uint64_t)upload[p] + q - key[p]) % q));
    return 0;
}

uint64_t model_show_totals(const uint32_t plan[KORTYGHAI_PLAN_NUMBERS], uint32_t cap, size_t length, const uint32_t *totals, size_t totals_len,
                           int32_t *out, size_t out_len) {
    uint64_t answer = check_cap(plan, cap, length);
    if (answer != 0) return answer;
    if (totals_len != length || out_len != length) return 4;
    if (!all_below(plan[4], totals, length)) return 3;
    for (size_t p = 0; p < length; p++) out[p] = shown(plan[4], totals[p]);
    return 0;
}
