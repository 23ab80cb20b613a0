/* The model of a pool on paper: the generator, what a round draws, and its line. */
#include "model.h"

#include <stdio.h>
#include <string.h>

static bool rounds_fit(uint64_t rounds) {
    return rounds >= 1 && rounds <= 10000;
}

static bool cap_fits(const uint32_t *plan, uint64_t cap) {
    return cap != 0 && 2 * cap * plan[0] * plan[1] < plan[4];
}

uint64_t model_paper_open(const uint8_t *bytes, size_t bytes_len, uint32_t plan[KORTYGHAI_PLAN_NUMBERS], uint32_t table[KORTYGHAI_MAX_TABLE],
                          uint32_t run[KORTYGHAI_PAPER_NUMBERS]) {
    uint32_t numbers[KORTYGHAI_PLAN_NUMBERS], symbols[KORTYGHAI_MAX_TABLE], cap, rounds;
    uint64_t answer;
    if (bytes_len > 65535 || bytes_len < 8) return 4;
    cap = (uint32_t)read_low_first(bytes, 4);
    rounds = (uint32_t)read_low_first(bytes + 4, 4);
    if (!rounds_fit(rounds)) return 18;
    answer = model_read_record(bytes + 8, bytes_len - 8, numbers, symbols, 256);
    if (answer != 0) return answer;
    if (!cap_fits(numbers, cap)) return 16;
    answer = model_vet(numbers, symbols, numbers[0] * numbers[1] * numbers[3]);
    if (answer != 0) return answer;
    memcpy(plan, numbers, sizeof numbers);
    memcpy(table, symbols, sizeof symbols);
    run[0] = cap;
    run[1] = rounds;
    run[2] = run[3] = 1;
    return 0;
}

static uint32_t next_value(uint32_t *state) {
    *state = *state * 1103515245u + 12345u;
    return *state / 65536 % 32768;
}

/* One sender after the other is struck off those who still owe: the last one's index. */
static size_t last_to_send(size_t users, uint32_t *state) {
    bool sent[KORTYGHAI_MAX_USERS] = {false};
    size_t last = 0;
    for (size_t owing = users; owing > 0; owing--) {
        size_t place = next_value(state) % owing;
        for (last = 0; sent[last] || place > 0; last++) place -= !sent[last];
        sent[last] = true;
    }
    return last;
}

/* A user's key from the source symbols, by its row. */
static uint64_t key_of(const uint32_t *plan, const uint32_t *row, const uint32_t *source) {
    uint64_t key = 0;
    for (size_t k = 0; k < plan[3]; k++) key += times(plan[4], row[k], source[k]);
    return key % plan[4];
}

uint64_t model_paper_line(const uint32_t plan[KORTYGHAI_PLAN_NUMBERS], const uint32_t table[KORTYGHAI_MAX_TABLE],
                          uint32_t run[KORTYGHAI_PAPER_NUMBERS], uint8_t line[KORTYGHAI_MAX_LINE], size_t *length) {
    uint32_t source[KORTYGHAI_MAX_RATE], q = plan[4];
    uint64_t first = 0, sum = 0, total = 0;
    size_t users = (size_t)plan[0] * plan[1];
    char text[100];
    if (!rounds_fit(run[1]) || run[2] < 1 || run[2] > run[1]) return 18;
    if (!plan_fits(plan)) return 1;
    if (!is_prime(q)) return 2;
    if (!all_below(q, table, users * plan[3])) return 3;
    if (!cap_fits(plan, run[0])) return 16;
    for (size_t k = 0; k < plan[3]; k++) source[k] = next_value(&run[3]) % q;
    for (size_t i = 0; i < users; i++) {
        uint64_t reading = next_value(&run[3]) % (run[0] + 1), upload = reading + key_of(plan, table + i * plan[3], source);
        sum += reading;
        total += upload;
        if (i < plan[1]) first += upload;
    }
    total %= q;
    sprintf(text, "%u %zu %llu %llu %lld\n", run[2], last_to_send(users, &run[3]), (unsigned long long)(first % q), (unsigned long long)sum,
            2 * total < q ? (long long)total : (long long)total - q);
    run[2]++;
    *length = strlen(text);
    memset(line, 0, KORTYGHAI_MAX_LINE);
    memcpy(line, text, *length);
    return 0;
}
