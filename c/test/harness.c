#include "harness.h"

#include <stdio.h>

/* ---- numbers drawn from a seed: splitmix64 ---- */

static uint64_t state;

void seed_numbers(uint64_t seed) {
    state = seed;
}

uint64_t draw_number(void) {
    uint64_t z = state += 0x9E3779B97F4A7C15u;
    z = (z ^ z >> 30) * 0xBF58476D1CE4E5B9u;
    z = (z ^ z >> 27) * 0x94D049BB133111EBu;
    return z ^ z >> 31;
}

size_t below(size_t n) {
    return (size_t)(draw_number() % n);
}

size_t between(size_t low, size_t high) {
    return low + below(high - low + 1);
}

bool once_in(size_t n) {
    return below(n) == 0;
}

uint32_t some_prime(void) {
    static const uint32_t primes[] = {2, 3, 5, 5, 7, 11, 101, 251, 65521, 65521, 65537, 1048573, 2147483647, 4294967279u, 4294967291u, 4294967291u};
    return primes[below(sizeof primes / sizeof *primes)];
}

/* Among them 65,541, whose low 16 bits are a prime, squares, and two that pass Fermat's test with 2. */
uint32_t no_prime(void) {
    static const uint32_t numbers[] = {0, 1, 4, 9, 15, 65535, 65536, 65541, 4293001441u, 12327121, 3215031751u, 4294967293u, 4294967295u};
    return numbers[below(sizeof numbers / sizeof *numbers)];
}

uint32_t some_symbol(uint32_t q) {
    if (q == 0) return 0;
    switch (below(6)) {
    case 0: return 0;
    case 1: return 1 % q;
    case 2: return q - 1;
    default: return (uint32_t)(draw_number() % q);
    }
}

void some_symbols(uint32_t q, uint32_t *out, size_t n) {
    for (size_t i = 0; i < n; i++) out[i] = some_symbol(q);
}

uint32_t wrong_count(uint32_t right) {
    switch (below(4)) {
    case 0: return 0;
    case 1: return right + 1;
    case 2: return (uint32_t)between(9, 70);
    default: return (uint32_t)draw_number();
    }
}

size_t wrong_length(size_t right, size_t room) {
    switch (below(3)) {
    case 0: return right > 0 && right <= room ? right - 1 : 0;
    case 1: return right < room ? right + 1 : room;
    default: return below(room + 1);
    }
}

void some_shape(uint32_t *clusters, uint32_t *size, size_t most) {
    do {
        *clusters = (uint32_t)between(1, 8);
        *size = (uint32_t)between(1, 8);
    } while (*clusters * *size > most);
}

/* ---- answers ---- */

static const char *const names[ENTRIES] = {
    "check_prime", "vet", "vet_joint", "count_pairs", "rate", "make_table", "vet_record", "read_record", "write_record", "derive_keys", "draw", "stock_open",
    "stock_draw", "upload", "unmask", "signed_upload", "signed_unmask", "show_totals", "relay_open", "relay_count", "relay_advance",
    "relay_give", "relay_save", "relay_restore", "server_open", "server_count", "server_give", "window_open", "window_push", "window_sum",
    "window_largest", "network_vet", "network_upload", "network_sum", "network_decode", "paper_open", "paper_line"};

uint64_t last_answer;

static uint64_t given[ENTRIES][KORTYGHAI_REFUSALS];
static uint64_t calls, refused, wrong, checks, wrong_checks;

uint64_t calls_refused(void) {
    return refused;
}

static void complain(enum entry entry, const char *what, uint64_t got, uint64_t wanted) {
    wrong++;
    if (wrong > 20) return;
    printf("%s: %s: got %u %u %u, wanted %u %u %u\n", names[entry], what, kortyghai_number(got), kortyghai_first(got), kortyghai_second(got),
           kortyghai_number(wanted), kortyghai_first(wanted), kortyghai_second(wanted));
}

void judge(enum entry entry, uint64_t got, uint64_t wanted, const void *got_bytes, const void *wanted_bytes, const void *before, size_t n) {
    calls++;
    refused += wanted != 0;
    last_answer = got;
    if (kortyghai_number(wanted) < KORTYGHAI_REFUSALS) given[entry][kortyghai_number(wanted)]++;
    if (got != wanted)
        complain(entry, "another answer", got, wanted);
    else if (memcmp(got_bytes, wanted_bytes, n) != 0)
        complain(entry, "other bytes", got, wanted);
    else if (got != 0 && entry != VET_JOINT && memcmp(got_bytes, before, n) != 0)
        complain(entry, "refused, and bytes changed", got, wanted);
}

void check(bool so, const char *words, int line) {
    checks++;
    if (so) return;
    wrong_checks++;
    printf("line %d: not so: %s\n", line, words);
}

bool report(void) {
    size_t untried = 0;
    for (size_t e = 0; e < ENTRIES; e++) {
        uint64_t sum = 0;
        for (size_t n = 0; n < KORTYGHAI_REFUSALS; n++) sum += given[e][n];
        untried += sum == 0;
        printf("%-15s %9llu calls;", names[e], (unsigned long long)sum);
        for (size_t n = 0; n < KORTYGHAI_REFUSALS; n++)
            if (given[e][n] > 0) printf(" %zu: %llu", n, (unsigned long long)given[e][n]);
        printf("\n");
    }
    printf("%llu facts without a model, %llu wrong\n", (unsigned long long)checks, (unsigned long long)wrong_checks);
    printf("%llu calls, %llu of them refused; %zu entries untried, %llu differ\n", (unsigned long long)calls, (unsigned long long)refused,
           untried, (unsigned long long)wrong);
    return wrong == 0 && wrong_checks == 0 && untried == 0;
}
