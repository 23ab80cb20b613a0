/*
 * Numbers drawn from a seed, and the comparison of a call with its model. All memory that is lent to a call stands in one struct, with
 * marks between its members: model and entry are each given a copy, and afterwards the answers and all bytes of the copies must be
 * equal. Where the call is refused they must also be those from before.
 */
#ifndef HARNESS_H
#define HARNESS_H

#include "model.h"

#include <string.h>

/* ---- numbers drawn from a seed ---- */

void seed_numbers(uint64_t seed);
uint64_t draw_number(void);
size_t below(size_t n);                     /* from 0 to n - 1 */
size_t between(size_t low, size_t high);    /* from low to high */
bool once_in(size_t n);
uint32_t some_prime(void);                  /* small, at the ends of 16 and 32 bits, between */
uint32_t no_prime(void);
uint32_t some_symbol(uint32_t q);           /* often 0, 1 or q - 1 */
void some_symbols(uint32_t q, uint32_t *out, size_t n);
uint32_t wrong_count(uint32_t right);       /* 0, one more, or far too many */
size_t wrong_length(size_t right, size_t room);
void some_shape(uint32_t *clusters, uint32_t *size, size_t most);

/* ---- answers ---- */

enum entry {
    CHECK_PRIME, VET, VET_JOINT, COUNT_PAIRS, RATE, MAKE_TABLE, VET_RECORD, READ_RECORD, WRITE_RECORD, DERIVE_KEYS, DRAW, STOCK_OPEN, STOCK_DRAW, UPLOAD,
    UNMASK, SIGNED_UPLOAD, SIGNED_UNMASK, SHOW_TOTALS, RELAY_OPEN, RELAY_COUNT, RELAY_ADVANCE, RELAY_GIVE, RELAY_SAVE, RELAY_RESTORE,
    SERVER_OPEN, SERVER_COUNT, SERVER_GIVE, WINDOW_OPEN, WINDOW_PUSH, WINDOW_SUM, WINDOW_LARGEST, NETWORK_VET, NETWORK_UPLOAD, NETWORK_SUM,
    NETWORK_DECODE, PAPER_OPEN, PAPER_LINE, ENTRIES
};

extern uint64_t last_answer;

void judge(enum entry entry, uint64_t got, uint64_t wanted, const void *got_bytes, const void *wanted_bytes, const void *before, size_t n);
uint64_t calls_refused(void);
/* Prints how often each entry gave each number; true where nothing differed and no entry went untried. */
bool report(void);

/* Something that has to be so, with no model: worked out by hand, or counted. */
void check(bool so, const char *words, int line);
#define CHECK(what) check(what, #what, __LINE__)

/*
 * Calls model_NAME and kortyghai_NAME on copies of *at, whose type is given; the arguments speak of the copy as c. *at becomes what the
 * entry left.
 */
#define BOTH(entry, type, at, name, ...) TYPED(entry, type, at, name, kortyghai_##name(__VA_ARGS__), __VA_ARGS__)

/* The same with a call over a struct in the entry's place. */
#define TYPED(entry, type, at, name, call, ...)                                     \
    do {                                                                            \
        type got_copy = *(at), wanted_copy = *(at), *c = &wanted_copy;              \
        uint64_t wanted = model_##name(__VA_ARGS__), got;                           \
        c = &got_copy;                                                              \
        got = call;                                                                 \
        judge(entry, got, wanted, &got_copy, &wanted_copy, at, sizeof *(at));       \
        memcpy(at, &got_copy, sizeof got_copy);                                     \
    } while (0)

/* Before a struct is filled. */
#define MARK(at) memset(at, 0xA5, sizeof *(at))

/* ---- the tests: each makes some calls, good, damaged and hostile ---- */

void try_planner(void);
void try_large_plan(void);
void try_record(void);
void try_keys(void);
void try_stream(void);
void try_stock(void);
void try_user(void);
void try_relay(void);
void try_relay_day(void);
void try_save(void);
void try_server(void);
void try_window(void);
void try_network(void);
void try_paper(void);

void count_tiny_plans(void);
void worked_by_hand(void);

#endif
