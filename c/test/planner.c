/* The vet, the table maker and plan records. */
#include "harness.h"

enum { ROOM = 260, BYTES = 1100 };

struct plan_call {
    uint32_t mark0;
    struct kortyghai_key_table table;
    uint32_t more[ROOM - KORTYGHAI_MAX_TABLE]; /* so that a longer table can be lent */
    size_t table_len, first, second, rate;
    uint32_t generator, looked, pairs, mark1;
};

static size_t users_of(const uint32_t *plan) {
    return plan[0] * plan[1];
}

/* The last row makes the table sum to zero. */
static void close_table(const uint32_t *plan, uint32_t *table) {
    size_t last = users_of(plan) - 1;
    for (size_t k = 0; k < plan[3]; k++) {
        uint64_t sum = 0;
        for (size_t i = 0; i < last; i++) sum += table[i * plan[3] + k];
        table[last * plan[3] + k] = (uint32_t)((plan[4] - sum % plan[4]) % plan[4]);
    }
}

/* A made table, or one by chance that sums to zero, some with a row repeated. */
static void some_table(uint32_t *plan, uint32_t *table) {
    size_t rate = 0;
    if (!once_in(3) && model_rate(plan[0], plan[1], plan[2], &rate) == 0) {
        uint32_t generator = plan[4] > 2 ? 2 + some_symbol(plan[4] - 2) : 1;
        if (model_make_table(plan, generator, table, users_of(plan) * rate) == 0) return;
    }
    some_symbols(plan[4], table, users_of(plan) * plan[3]);
    if (once_in(3)) memcpy(table + below(users_of(plan)) * plan[3], table, plan[3] * sizeof *table);
    close_table(plan, table);
}

static void some_plan(struct plan_call *x, size_t users) {
    uint32_t *plan = x->table.plan.numbers;
    some_shape(&plan[0], &plan[1], users);
    plan[2] = (uint32_t)(once_in(4) && users <= 6 ? below(users_of(plan) + 1) : below(2));
    plan[3] = (uint32_t)between(1, 16);
    plan[4] = some_prime();
    some_table(plan, x->table.symbols);
    x->table_len = users_of(plan) * plan[3];
    x->first = x->second = 0;
    if (once_in(2)) {
        x->first = below(plan[0] + 1);
        x->second = x->first > 0 && x->first < plan[0] && !once_in(4) ? between(x->first + 1, plan[0]) : below(plan[0] + 2);
    }
}

static void damage_plan(struct plan_call *x) {
    uint32_t *plan = x->table.plan.numbers;
    size_t place = x->table_len > 0 ? below(x->table_len) : 0;
    switch (below(7)) {
    case 0: plan[below(4)] = wrong_count(16); break;
    case 1: plan[2] = (uint32_t)(users_of(plan) + 1); break;
    case 2: plan[4] = no_prime(); break;
    case 3: plan[4] = some_prime(); break;
    case 4: x->table_len = wrong_length(x->table_len, ROOM); break;
    case 5: x->table.symbols[place] = plan[4] + (uint32_t)below(2); break;
    default: x->table.symbols[place] = some_symbol(plan[4]); break;
    }
}

static void vet(struct plan_call *x) {
    bool right = x->table_len == kty_symbols(&x->table.plan);
    if (!right || once_in(2))
        BOTH(VET, struct plan_call, x, vet, c->table.plan.numbers, c->table.symbols, c->table_len);
    else
        TYPED(VET, struct plan_call, x, vet, kty_vet(&c->table), c->table.plan.numbers, c->table.symbols, c->table_len);
    if (!right || once_in(2))
        BOTH(VET_JOINT, struct plan_call, x, vet_joint, c->table.plan.numbers, c->table.symbols, c->table_len, c->first, c->second,
             &c->looked);
    else
        TYPED(VET_JOINT, struct plan_call, x, vet_joint, kty_vet_joint(&c->table, c->first, c->second, &c->looked), c->table.plan.numbers,
              c->table.symbols, c->table_len, c->first, c->second, &c->looked);
}

static void check_prime(struct plan_call *x) {
    struct plan_call other = *x;
    if (once_in(2)) other.table.plan.numbers[4] = (uint32_t)draw_number();
    BOTH(CHECK_PRIME, struct plan_call, &other, check_prime, c->table.plan.numbers[4]);
}

static void count_pairs(struct plan_call *x) {
    const uint32_t *plan = x->table.plan.numbers;
    size_t u = plan[0], v = plan[1], t = plan[2];
    TYPED(COUNT_PAIRS, struct plan_call, x, count_pairs, kty_count_pairs(&c->table.plan, &c->pairs), u, v, t, &c->pairs);
    TYPED(RATE, struct plan_call, x, rate, kty_rate(&c->table.plan, &c->rate), u, v, t, &c->rate);
    if (once_in(2)) u += (size_t)1 << 32;
    BOTH(COUNT_PAIRS, struct plan_call, x, count_pairs, u, v, t, &c->pairs);
    BOTH(RATE, struct plan_call, x, rate, u, v, t, &c->rate);
}

static void make_table(struct plan_call *x) {
    uint32_t *plan = x->table.plan.numbers;
    size_t rate = 0;
    x->generator = once_in(8) ? plan[4] : some_symbol(plan[4]);
    plan[3] = (uint32_t)draw_number();
    if (once_in(2)) {
        x->table_len = model_rate(plan[0], plan[1], plan[2], &rate) == 0 ? users_of(plan) * rate : 0;
        TYPED(MAKE_TABLE, struct plan_call, x, make_table, kty_make_table(&c->table, c->generator), c->table.plan.numbers, c->generator,
              c->table.symbols, c->table_len);
        return;
    }
    if (model_rate(plan[0], plan[1], plan[2], &rate) == 0 && !once_in(4)) x->table_len = users_of(plan) * rate;
    BOTH(MAKE_TABLE, struct plan_call, x, make_table, c->table.plan.numbers, c->generator, c->table.symbols, c->table_len);
}

static void try_plan(size_t users) {
    struct plan_call x;
    MARK(&x);
    some_plan(&x, users);
    if (once_in(2)) damage_plan(&x);
    if (once_in(6)) damage_plan(&x);
    vet(&x);
    check_prime(&x);
    count_pairs(&x);
    make_table(&x);
}

void try_planner(void) {
    try_plan(6);
}

void try_large_plan(void) {
    try_plan(16);
}

/* ---- plan records ---- */

struct record_call {
    uint32_t mark0;
    struct kortyghai_key_table table;
    uint32_t more[ROOM - KORTYGHAI_MAX_TABLE];
    size_t table_len, start, n;
    uint8_t bytes[BYTES], mark1[8];
};

static void damage_record(struct record_call *x) {
    size_t last = x->n < 14 ? x->n : 14;
    if (x->n == 0) return;
    switch (below(6)) {
    case 0: x->bytes[below(x->n)] = (uint8_t)draw_number(); break;
    case 1: x->bytes[x->n - 1 - below(4 < last ? 4 : last)] = (uint8_t)draw_number(); break;
    case 2: x->bytes[x->start + below(8)] ^= (uint8_t)(1u << below(8)); break;
    case 3: x->n -= below(last); break;
    case 4: x->bytes[x->n - 1] ^= 1; break;
    default: x->bytes[x->n - last + below(last)] ^= (uint8_t)(1u << below(8)); break;
    }
}

static void write_record(struct record_call *x) {
    bool right = x->table_len == kty_symbols(&x->table.plan);
    if (!right || once_in(2))
        BOTH(WRITE_RECORD, struct record_call, x, write_record, c->table.plan.numbers, c->table.symbols, c->table_len, c->bytes + c->start,
             c->n - c->start);
    else
        TYPED(WRITE_RECORD, struct record_call, x, write_record, kty_write_record(&c->table, c->bytes + c->start, c->n - c->start),
              c->table.plan.numbers, c->table.symbols, c->table_len, c->bytes + c->start, c->n - c->start);
}

static void read_record(struct record_call *x) {
    BOTH(VET_RECORD, struct record_call, x, vet_record, c->bytes, c->n);
    if (once_in(2))
        TYPED(READ_RECORD, struct record_call, x, read_record, kty_read_record(&c->table, c->bytes, c->n), c->bytes, c->n,
              c->table.plan.numbers, c->table.symbols, 256);
    else
        BOTH(READ_RECORD, struct record_call, x, read_record, c->bytes, c->n, c->table.plan.numbers, c->table.symbols,
             x->table_len < 254 ? 256 : x->table_len);
}

/* A plan with q below 65,536 in the form of a wide record. */
static void write_widely(struct record_call *x) {
    uint8_t *record = x->bytes + x->start;
    size_t symbols = kty_symbols(&x->table.plan), size = 12 + 4 * symbols;
    for (size_t i = 0; i < 4; i++) record[i] = (uint8_t)x->table.plan.numbers[i];
    write_low_first(record + 4, 4, x->table.plan.numbers[4]);
    for (size_t i = 0; i < symbols; i++) write_low_first(record + 8 + 4 * i, 4, x->table.symbols[i]);
    write_low_first(record + size - 4, 2, size);
    record[size - 2] = 0x4B;
    record[size - 1] = 0x51;
    x->n = x->start + size;
}

/* A record after some bytes, written and read; then damaged and read again. */
void try_record(void) {
    struct record_call x;
    struct plan_call made;
    MARK(&x);
    MARK(&made);
    some_plan(&made, 4);
    x.start = once_in(2) ? 0 : below(40);
    x.n = x.start + kty_record_size(&made.table.plan);
    if (once_in(4)) damage_plan(&made);
    if (once_in(10)) x.n += below(5);
    x.table = made.table;
    x.table_len = made.table_len;
    write_record(&x);
    if (once_in(8)) write_widely(&x);
    if (once_in(8)) x.table_len = between(254, 258);
    read_record(&x);
    for (size_t damages = between(1, 3); damages > 0; damages--) {
        damage_record(&x);
        read_record(&x);
    }
}
