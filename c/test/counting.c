/*
 * The vet of the tiniest plans against literal counts, with no rank at all: a pair leaks where two sets of readings that agree on the
 * coalition's members and, for the server, on the total, are shown by unequal numbers of source keys.
 */
#include "harness.h"

enum { MOST_USERS = 4, VIEWS = 6561 };

struct tiny {
    uint32_t plan[KORTYGHAI_PLAN_NUMBERS];
    uint32_t table[KORTYGHAI_MAX_TABLE];
    size_t users;
};

/* Number n in base q, from the low digit on. */
static void digits(uint32_t q, size_t n, uint32_t *out, size_t count) {
    for (size_t i = 0; i < count; i++, n /= q) out[i] = (uint32_t)(n % q);
}

static size_t to_the(size_t q, size_t n) {
    size_t result = 1;
    for (; n > 0; n--) result *= q;
    return result;
}

/* The view as one number: the relay's uploads or the server's sums, and the members' keys; their readings agree in any case. */
static size_t view(const struct tiny *t, uint32_t coalition, size_t observer, const uint32_t *readings, const uint32_t *source) {
    uint32_t q = t->plan[4], keys[MOST_USERS], sums[8] = {0};
    size_t seen = 0;
    for (size_t i = 0; i < t->users; i++) {
        size_t cluster = i / t->plan[1];
        keys[i] = 0;
        for (size_t k = 0; k < t->plan[3]; k++) keys[i] = (keys[i] + t->table[i * t->plan[3] + k] * source[k]) % q;
        sums[cluster] = (sums[cluster] + keys[i] + readings[i]) % q;
        if (observer == cluster + 1) seen = seen * q + (keys[i] + readings[i]) % q;
        if (coalition >> i & 1) seen = seen * q + keys[i];
    }
    for (size_t u = 0; u < t->plan[0] && observer == 0; u++) seen = seen * q + sums[u];
    return seen;
}

static void count_views(const struct tiny *t, uint32_t coalition, size_t observer, const uint32_t *readings, uint16_t *counts) {
    uint32_t source[2];
    memset(counts, 0, VIEWS * sizeof *counts);
    for (size_t n = 0; n < to_the(t->plan[4], t->plan[3]); n++) {
        digits(t->plan[4], n, source, t->plan[3]);
        counts[view(t, coalition, observer, readings, source)]++;
    }
}

static bool agree(const struct tiny *t, uint32_t coalition, size_t observer, const uint32_t *a, const uint32_t *b) {
    uint32_t totals[2] = {0, 0};
    for (size_t i = 0; i < t->users; i++) {
        if ((coalition >> i & 1) && a[i] != b[i]) return false;
        totals[0] += a[i];
        totals[1] += b[i];
    }
    return observer != 0 || totals[0] % t->plan[4] == totals[1] % t->plan[4];
}

static bool leaks(const struct tiny *t, uint32_t coalition, size_t observer) {
    static uint16_t first[VIEWS], second[VIEWS];
    size_t all = to_the(t->plan[4], t->users);
    uint32_t a[MOST_USERS], b[MOST_USERS];
    for (size_t i = 0; i < all; i++) {
        digits(t->plan[4], i, a, t->users);
        count_views(t, coalition, observer, a, first);
        for (size_t j = 0; j < i; j++) {
            digits(t->plan[4], j, b, t->users);
            if (!agree(t, coalition, observer, a, b)) continue;
            count_views(t, coalition, observer, b, second);
            if (memcmp(first, second, sizeof first) != 0) return true;
        }
    }
    return false;
}

static uint64_t first_leak(const struct tiny *t) {
    for (uint32_t g = 0; g < 1u << t->users; g++) {
        size_t members = 0;
        for (size_t i = 0; i < t->users; i++) members += g >> i & 1;
        for (size_t w = 1; w <= t->plan[0] + 1 && members <= t->plan[2]; w++) {
            size_t observer = w <= t->plan[0] ? w : 0;
            if (leaks(t, g, observer)) return answer_of(7, g, (unsigned)observer);
        }
    }
    return 0;
}

/* Every table of two or three users modulo 2, of two modulo 3, that sums to zero. */
static void count_tables(uint32_t clusters, uint32_t size, uint32_t rate, uint32_t q) {
    struct tiny t = {{clusters, size, 0, rate, q}, {0}, clusters * size};
    size_t free_symbols = (t.users - 1) * rate;
    for (size_t n = 0; n < to_the(q, free_symbols); n++) {
        digits(q, n, t.table, free_symbols);
        for (size_t k = 0; k < rate; k++) {
            uint32_t sum = 0;
            for (size_t i = 0; i + 1 < t.users; i++) sum += t.table[i * rate + k];
            t.table[free_symbols + k] = (q - sum % q) % q;
        }
        for (t.plan[2] = 0; t.plan[2] <= t.users; t.plan[2]++) {
            uint64_t wanted = first_leak(&t);
            check(kortyghai_vet(t.plan, t.table, t.users * rate) == wanted, "the vet's pair is the first that counts show", __LINE__);
            check(model_vet(t.plan, t.table, t.users * rate) == wanted, "so is the model's", __LINE__);
        }
    }
}

void count_tiny_plans(void) {
    count_tables(1, 1, 1, 2);
    count_tables(2, 1, 1, 3);
    count_tables(2, 1, 2, 2);
    count_tables(1, 2, 2, 2);
    count_tables(3, 1, 1, 2);
    count_tables(3, 1, 2, 2);
    count_tables(1, 3, 2, 2);
    count_tables(3, 1, 1, 3);
    count_tables(2, 2, 2, 2);
}
