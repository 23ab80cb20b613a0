/* A pool on paper: runs from bytes, line by line; damaged bytes; and runs that no bytes give. */
#include "harness.h"

enum { BYTES = 560 };

struct paper_call {
    uint32_t mark0;
    struct kortyghai_paper paper;
    uint32_t mark1;
    uint8_t line[KORTYGHAI_MAX_LINE], mark2[8];
    size_t length, start, n;
    uint8_t bytes[BYTES], mark3[8];
};

/* Of a plan that is damaged already, some number. */
static uint32_t largest_cap(const uint32_t *plan) {
    uint64_t users = (uint64_t)plan[0] * plan[1];
    return users == 0 ? 1 : (uint32_t)((plan[4] - 1) / (2 * users));
}

/* A made table, and a cap that its prime has room for. */
static void some_paper(struct kortyghai_paper *paper) {
    uint32_t *plan = paper->table.plan.numbers;
    size_t rate = 0;
    memset(paper->table.symbols, 0, sizeof paper->table.symbols);
    do {
        do {
            some_shape(&plan[0], &plan[1], 6);
            plan[2] = (uint32_t)below(2);
        } while (model_rate(plan[0], plan[1], plan[2], &rate) != 0);
        plan[4] = some_prime();
    } while (plan[4] < 11 || model_make_table(plan, 2 + some_symbol(plan[4] - 2), paper->table.symbols, plan[0] * plan[1] * rate) != 0);
    paper->numbers[KORTYGHAI_PAPER_CAP] = once_in(3) ? largest_cap(plan) : 1 + some_symbol(largest_cap(plan));
    paper->numbers[KORTYGHAI_PAPER_ROUNDS] = (uint32_t)(once_in(4) ? between(9999, 10000) : between(1, 9));
    paper->numbers[KORTYGHAI_PAPER_NUMBER] = (uint32_t)between(1, paper->numbers[KORTYGHAI_PAPER_ROUNDS]);
    paper->numbers[KORTYGHAI_PAPER_STATE] = (uint32_t)draw_number();
}

/* Its bytes: cap, rounds, some others, the record. */
static void write_bytes(struct paper_call *x) {
    size_t size = kty_record_size(&x->paper.table.plan);
    x->start = 8 + (once_in(2) ? 0 : below(20));
    x->n = x->start + size;
    write_low_first(x->bytes, 4, x->paper.numbers[KORTYGHAI_PAPER_CAP]);
    write_low_first(x->bytes + 4, 4, x->paper.numbers[KORTYGHAI_PAPER_ROUNDS]);
    CHECK(kty_write_record(&x->paper.table, x->bytes + x->start, size) == 0);
}

static void damage_bytes(struct paper_call *x) {
    static const uint32_t rounds[] = {0, 10001, 65536 + 9, 4294967295u}, caps[] = {0, 4294967295u, 2147483648u, 65536};
    if (x->n < x->start + 11) return;
    switch (below(10)) {
    case 0: write_low_first(x->bytes, 4, once_in(2) ? caps[below(4)] : largest_cap(x->paper.table.plan.numbers) + 1); break;
    case 1: write_low_first(x->bytes + 4, 4, rounds[below(4)]); break;
    case 2: x->bytes[x->n - 1 - below(4)] ^= (uint8_t)(1u << below(8)); break;
    case 3: x->bytes[x->start + below(8)] ^= (uint8_t)(1u << below(8)); break;
    case 4: x->bytes[below(x->n)] = (uint8_t)draw_number(); break;
    case 5: x->bytes[x->start + 6 + below(x->n - x->start - 10)] ^= 1; break;
    case 6: x->n = between(8, x->n); break;
    case 7:
    case 8: x->bytes[x->start + 2] = (uint8_t)below(7); break; /* another T, so that the table may leak */
    default: x->n = below(12); break;
    }
}

static void damage_run(struct kortyghai_paper *paper) {
    uint32_t *plan = paper->table.plan.numbers, *numbers = paper->numbers;
    switch (below(10)) {
    case 0: plan[below(4)] = wrong_count(16); break;
    case 1: plan[4] = no_prime(); break;
    case 2: paper->table.symbols[below(16)] = plan[4] + (uint32_t)below(2); break;
    case 3: paper->table.symbols[below(KORTYGHAI_MAX_TABLE)] = some_symbol(plan[4]); break; /* no zero-sum table, and so what */
    case 8: paper->table.symbols[below(KORTYGHAI_MAX_TABLE)] = (uint32_t)draw_number(); break; /* past the table too */
    case 4: numbers[KORTYGHAI_PAPER_CAP] = once_in(2) ? 0 : largest_cap(plan) + 1; break;
    case 5: numbers[KORTYGHAI_PAPER_ROUNDS] = once_in(2) ? 0 : 10001; break;
    case 6: numbers[KORTYGHAI_PAPER_NUMBER] = once_in(2) ? 0 : numbers[KORTYGHAI_PAPER_ROUNDS] + 1; break;
    case 7: numbers[below(KORTYGHAI_PAPER_NUMBERS)] = (uint32_t)draw_number(); break;
    default: plan[2] = (uint32_t)below(18); break;
    }
}

static void open_run(struct paper_call *x) {
    if (once_in(2))
        BOTH(PAPER_OPEN, struct paper_call, x, paper_open, c->bytes, c->n, c->paper.table.plan.numbers, c->paper.table.symbols, c->paper.numbers);
    else
        TYPED(PAPER_OPEN, struct paper_call, x, paper_open, kty_paper_open(&c->paper, c->bytes, c->n), c->bytes, c->n, c->paper.table.plan.numbers,
              c->paper.table.symbols, c->paper.numbers);
}

static void next_line(struct paper_call *x) {
    if (once_in(2))
        BOTH(PAPER_LINE, struct paper_call, x, paper_line, c->paper.table.plan.numbers, c->paper.table.symbols, c->paper.numbers, c->line,
             &c->length);
    else
        TYPED(PAPER_LINE, struct paper_call, x, paper_line, kty_paper_line(&c->paper, c->line, &c->length), c->paper.table.plan.numbers,
              c->paper.table.symbols, c->paper.numbers, c->line, &c->length);
}

/* To a line past the last one, or the first twelve. */
static void go_on(struct paper_call *x) {
    for (size_t i = 0; i < 12; i++) {
        next_line(x);
        if (last_answer != 0) break;
    }
}

void try_paper(void) {
    struct paper_call x;
    MARK(&x);
    some_paper(&x.paper);
    write_bytes(&x);
    if (once_in(2)) damage_bytes(&x);
    if (once_in(6)) damage_bytes(&x);
    open_run(&x);
    for (size_t damages = once_in(2) ? 0 : between(1, 2); damages > 0; damages--) damage_run(&x.paper);
    go_on(&x);
}
