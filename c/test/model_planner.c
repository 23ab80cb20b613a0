/* The model of the planner: the vet, its length, the table maker and plan records. */
#include "model.h"

#include <string.h>

/* ---- leaks: what the observer sees beside the coalition's keys has to be free of them, and of the rest as far as it may be ---- */

static bool is_member(uint32_t coalition, size_t user) {
    return coalition >> user & 1;
}

static size_t ones(uint32_t coalition) {
    size_t n = 0;
    for (; coalition > 0; coalition /= 2) n += coalition % 2;
    return n;
}

/* The rows of the coalition's members. */
static void start_with_members(struct matrix *m, const uint32_t *plan, const uint32_t *table, uint32_t coalition) {
    m->q = plan[4];
    m->columns = plan[3];
    m->rows = 0;
    for (size_t i = 0; i < plan[0] * plan[1]; i++)
        if (is_member(coalition, i)) memcpy(m->at[m->rows++], table + i * plan[3], plan[3] * sizeof *table);
}

/* Adds, for each user of a cluster who is no member, the row; how many there are. */
static size_t add_users(struct matrix *m, const uint32_t *plan, const uint32_t *table, uint32_t coalition, size_t cluster) {
    size_t before = m->rows;
    for (size_t i = cluster * plan[1]; i < (cluster + 1) * plan[1]; i++)
        if (!is_member(coalition, i)) memcpy(m->at[m->rows++], table + i * plan[3], plan[3] * sizeof *table);
    return m->rows - before;
}

/* Adds the sum of these rows instead, if there are any; how many sums. */
static size_t add_sum(struct matrix *m, const uint32_t *plan, const uint32_t *table, uint32_t coalition, size_t cluster) {
    size_t start = m->rows, some = add_users(m, plan, table, coalition, cluster);
    if (some == 0) return 0;
    for (size_t c = 0; c < m->columns; c++) {
        uint64_t sum = 0;
        for (size_t r = start; r < start + some; r++) sum += m->at[r][c];
        m->at[start][c] = (uint32_t)(sum % m->q);
    }
    m->rows = start + 1;
    return 1;
}

/* Are the rows from here on as free of those before as they can be: so many more for the rank? */
static bool is_free(struct matrix *m, size_t members, size_t more) {
    struct matrix before = *m;
    before.rows = members;
    return rank_of(m) == rank_of(&before) + more;
}

static bool pair_leaks(const uint32_t *plan, const uint32_t *table, uint32_t coalition, size_t observer) {
    struct matrix m;
    size_t members, sums = 0;
    start_with_members(&m, plan, table, coalition);
    members = m.rows;
    if (observer > 0) {
        size_t hidden = add_users(&m, plan, table, coalition, observer - 1);
        return !is_free(&m, members, hidden);
    }
    for (size_t u = 0; u < plan[0]; u++) sums += add_sum(&m, plan, table, coalition, u);
    /* the server knows the total: one sum follows from the others */
    return sums > 0 && !is_free(&m, members, sums - 1);
}

static bool joint_leaks(const uint32_t *plan, const uint32_t *table, uint32_t coalition, size_t first, size_t second) {
    struct matrix m;
    size_t members, hidden;
    start_with_members(&m, plan, table, coalition);
    members = m.rows;
    hidden = add_users(&m, plan, table, coalition, first - 1);
    hidden += add_users(&m, plan, table, coalition, second - 1);
    return !is_free(&m, members, hidden);
}

/* 7 with its first pair, or 0; how many pairs were looked at. */
static uint64_t walk(const uint32_t *plan, const uint32_t *table, uint32_t *looked) {
    *looked = 0;
    for (uint32_t g = 0; g < 1u << plan[0] * plan[1]; g++) {
        if (ones(g) > plan[2]) continue;
        for (size_t i = 1; i <= plan[0] + 1; i++) {
            size_t observer = i <= plan[0] ? i : 0;
            ++*looked;
            if (pair_leaks(plan, table, g, observer)) return answer_of(7, g, (unsigned)observer);
        }
    }
    return 0;
}

static uint64_t joint_walk(const uint32_t *plan, const uint32_t *table, size_t first, size_t second) {
    for (uint32_t g = 0; g < 1u << plan[0] * plan[1]; g++)
        if (ones(g) <= plan[2] && joint_leaks(plan, table, g, first, second)) return answer_of(19, g, 0);
    return 0;
}

/* ---- the vet ---- */

static uint64_t check_table(const uint32_t *plan, const uint32_t *table, size_t table_len) {
    if (!plan_fits(plan)) return 1;
    if (table_len != (size_t)plan[0] * plan[1] * plan[3]) return 4;
    if (!is_prime(plan[4])) return 2;
    if (!all_below(plan[4], table, table_len)) return 3;
    return 0;
}

static uint64_t check_columns(const uint32_t *plan, const uint32_t *table) {
    for (unsigned k = 0; k < plan[3]; k++) {
        uint64_t sum = 0;
        for (size_t i = 0; i < plan[0] * plan[1]; i++) sum += table[i * plan[3] + k];
        if (sum % plan[4] != 0) return answer_of(6, k + 1, 0);
    }
    return 0;
}

uint64_t model_vet_joint(const uint32_t plan[KORTYGHAI_PLAN_NUMBERS], const uint32_t *table, size_t table_len, size_t first, size_t second,
                         uint32_t *looked) {
    bool pair = first != 0 || second != 0;
    uint64_t answer = check_table(plan, table, table_len);
    *looked = 0;
    if (answer != 0) return answer;
    if (pair && !(1 <= first && first < second && second <= plan[0])) return 8;
    answer = check_columns(plan, table);
    if (answer != 0) return answer;
    answer = walk(plan, table, looked);
    if (answer != 0 || !pair) return answer;
    answer = joint_walk(plan, table, first, second);
    if (answer != 0) *looked = 0;
    return answer;
}

uint64_t model_vet(const uint32_t plan[KORTYGHAI_PLAN_NUMBERS], const uint32_t *table, size_t table_len) {
    uint32_t looked;
    return model_vet_joint(plan, table, table_len, 0, 0, &looked);
}

uint64_t model_count_pairs(size_t clusters, size_t size, size_t limit, uint32_t *out) {
    uint32_t sets = 0;
    if (!counts_fit(clusters, size, limit)) return 1;
    for (uint32_t g = 0; g < 1u << clusters * size; g++) sets += ones(g) <= limit;
    *out = (uint32_t)(clusters + 1) * sets;
    return 0;
}

/* ---- the table maker ---- */

static size_t larger(size_t a, size_t b) {
    return a > b ? a : b;
}

static size_t smaller(size_t a, size_t b) {
    return a < b ? a : b;
}

uint64_t model_check_prime(uint32_t q) {
    return is_prime(q) ? 0 : 2;
}

uint64_t model_rate(size_t clusters, size_t size, size_t limit, size_t *out) {
    if (!counts_fit(clusters, size, limit)) return 1;
    if (limit >= (clusters - 1) * size) return 10;
    *out = larger(size + limit, smaller(clusters + limit - 1, clusters * size - 1));
    return 0;
}

static void fill_table(const uint32_t *plan, uint32_t generator, uint32_t *table) {
    uint32_t q = plan[4];
    size_t rate = plan[3], last = plan[0] * plan[1] - 1;
    for (size_t k = 0; k < rate; k++) {
        uint64_t sum = 0;
        for (size_t i = 0; i < last; i++) {
            table[i * rate + k] = i == 0 ? k == 0 : power(q, power(q, generator, i), k);
            sum += table[i * rate + k];
        }
        table[last * rate + k] = (uint32_t)((q - sum % q) % q);
    }
}

uint64_t model_make_table(uint32_t plan[KORTYGHAI_PLAN_NUMBERS], uint32_t generator, uint32_t *table, size_t table_len) {
    uint32_t made[KORTYGHAI_MAX_TABLE], asked[KORTYGHAI_PLAN_NUMBERS], looked;
    size_t rate = 0;
    uint64_t answer = model_rate(plan[0], plan[1], plan[2], &rate);
    if (answer == 1) return 1;
    if (!is_prime(plan[4])) return 2;
    if (generator >= plan[4]) return 3;
    if (answer != 0) return answer;
    if (table_len != plan[0] * plan[1] * rate) return 4;
    memcpy(asked, plan, sizeof asked);
    asked[3] = (uint32_t)rate;
    fill_table(asked, generator, made);
    answer = walk(asked, made, &looked);
    if (answer != 0) return answer;
    memcpy(table, made, table_len * sizeof *table);
    plan[3] = asked[3];
    return 0;
}

/* ---- plan records ---- */

uint64_t model_write_record(const uint32_t plan[KORTYGHAI_PLAN_NUMBERS], const uint32_t *table, size_t table_len, uint8_t *out, size_t out_len) {
    uint64_t answer = check_table(plan, table, table_len);
    size_t width = plan[4] < 65536 ? 2 : 4, size;
    if (answer != 0) return answer;
    size = 8 + width + width * table_len;
    if (out_len != size) return 4;
    for (size_t i = 0; i < 4; i++) out[i] = (uint8_t)plan[i];
    write_low_first(out + 4, width, plan[4]);
    for (size_t i = 0; i < table_len; i++) write_low_first(out + 4 + width + width * i, width, table[i]);
    write_low_first(out + size - 4, 2, size);
    out[size - 2] = 0x4B;
    out[size - 1] = width == 2 ? 0x50 : 0x51;
    return 0;
}

/* Where the record starts, and how wide its numbers are; 5 where there is none. */
static uint64_t find_record(const uint8_t *bytes, size_t n, const uint8_t **record, size_t *width, size_t *distance) {
    if (n < 4 || bytes[n - 2] != 0x4B) return 5;
    if (bytes[n - 1] != 0x50 && bytes[n - 1] != 0x51) return 5;
    *width = bytes[n - 1] == 0x50 ? 2 : 4;
    *distance = read_low_first(bytes + n - 4, 2);
    if (*distance < 8 + *width || *distance > n) return 5;
    *record = bytes + n - *distance;
    return 0;
}

uint64_t model_read_record(const uint8_t *bytes, size_t bytes_len, uint32_t plan[KORTYGHAI_PLAN_NUMBERS], uint32_t *table, size_t table_len) {
    const uint8_t *record;
    size_t width, distance, symbols;
    uint32_t found[KORTYGHAI_PLAN_NUMBERS], read[KORTYGHAI_MAX_TABLE] = {0};
    if (find_record(bytes, bytes_len, &record, &width, &distance) != 0) return 5;
    for (size_t i = 0; i < 4; i++) found[i] = record[i];
    found[4] = (uint32_t)read_low_first(record + 4, width);
    if (!plan_fits(found)) return 1;
    symbols = found[0] * found[1] * found[3];
    if (distance != 8 + width + width * symbols || table_len != KORTYGHAI_MAX_TABLE) return 4;
    if (!is_prime(found[4]) || (width == 4 && found[4] < 65536)) return 2;
    for (size_t i = 0; i < symbols; i++) read[i] = (uint32_t)read_low_first(record + 4 + width + width * i, width);
    if (!all_below(found[4], read, symbols)) return 3;
    memcpy(plan, found, sizeof found);
    memcpy(table, read, sizeof read);
    return 0;
}

uint64_t model_vet_record(const uint8_t *bytes, size_t bytes_len) {
    uint32_t plan[KORTYGHAI_PLAN_NUMBERS], table[KORTYGHAI_MAX_TABLE];
    uint64_t answer;
    if (bytes_len > KORTYGHAI_MAX_BYTES) return 4;
    answer = model_read_record(bytes, bytes_len, plan, table, KORTYGHAI_MAX_TABLE);
    if (answer != 0) return answer;
    return model_vet(plan, table, plan[0] * plan[1] * plan[3]);
}
