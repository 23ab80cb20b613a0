/* What the models share: answers, primes, remainders, rank, bytes. */
#include "model.h"

uint64_t answer_of(unsigned number, unsigned first, unsigned second) {
    return number | (uint64_t)first << 16 | (uint64_t)second << 32;
}

static bool has_no_divisor(uint32_t q) {
    if (q < 2) return false;
    for (uint64_t d = 2; d * d <= q; d++)
        if (q % d == 0) return false;
    return true;
}

/* The last answers are kept, since the same primes come again and again. */
bool is_prime(uint32_t q) {
    static uint32_t asked[1024];
    static bool known[1024], told[1024];
    size_t place = q % 1024;
    if (!known[place] || asked[place] != q) {
        known[place] = true;
        asked[place] = q;
        told[place] = has_no_divisor(q);
    }
    return told[place];
}

bool all_below(uint64_t bound, const uint32_t *symbols, size_t n) {
    for (size_t i = 0; i < n; i++)
        if (symbols[i] >= bound) return false;
    return true;
}

bool counts_fit(uint64_t clusters, uint64_t size, uint64_t limit) {
    if (clusters < 1 || clusters > 8 || size < 1 || size > 8) return false;
    return clusters * size <= 16 && limit <= clusters * size;
}

bool plan_fits(const uint32_t *plan) {
    return counts_fit(plan[0], plan[1], plan[2]) && plan[3] >= 1 && plan[3] <= 16;
}

uint32_t times(uint32_t q, uint32_t a, uint32_t b) {
    return (uint32_t)((uint64_t)a * b % q);
}

uint32_t power(uint32_t q, uint32_t base, uint64_t exponent) {
    uint32_t result = 1 % q;
    for (; exponent > 0; exponent /= 2) {
        if (exponent % 2 == 1) result = times(q, result, base);
        base = times(q, base, base);
    }
    return result;
}

uint64_t read_low_first(const uint8_t *bytes, size_t width) {
    uint64_t number = 0;
    for (size_t i = width; i > 0; i--) number = number * 256 + bytes[i - 1];
    return number;
}

void write_low_first(uint8_t *bytes, size_t width, uint64_t number) {
    for (size_t i = 0; i < width; i++, number /= 256) bytes[i] = (uint8_t)(number % 256);
}

static void swap_rows(struct matrix *m, size_t a, size_t b) {
    for (size_t c = 0; c < m->columns; c++) {
        uint32_t kept = m->at[a][c];
        m->at[a][c] = m->at[b][c];
        m->at[b][c] = kept;
    }
}

/* Clears column c in the rows below row r. */
static void clear_below(struct matrix *m, size_t r, size_t c) {
    uint32_t inverse = power(m->q, m->at[r][c], (uint64_t)m->q - 2);
    for (size_t i = r + 1; i < m->rows; i++) {
        uint32_t factor = times(m->q, m->at[i][c], inverse);
        for (size_t k = c; k < m->columns; k++)
            m->at[i][k] = (uint32_t)(((uint64_t)m->at[i][k] + m->q - times(m->q, factor, m->at[r][k])) % m->q);
    }
}

size_t rank_of(struct matrix *m) {
    size_t rank = 0;
    for (size_t c = 0; c < m->columns && rank < m->rows; c++) {
        size_t r = rank;
        while (r < m->rows && m->at[r][c] == 0) r++;
        if (r == m->rows) continue;
        swap_rows(m, rank, r);
        clear_below(m, rank, c);
        rank++;
    }
    return rank;
}
