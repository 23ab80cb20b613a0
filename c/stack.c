/*
 * How much stack each entry takes: it runs on a painted stack of its own, and the deepest byte that it wrote to is looked for. Each is run
 * on its largest inputs, accepted ones and ones refused late. Printed is a table for c/README.md.
 */
#define _XOPEN_SOURCE 700

#include "kortyghai.h"

#include <stdio.h>
#include <string.h>
#include <ucontext.h>

enum { DEPTH = 256 * 1024, ALIGNMENT = 64 };

static _Alignas(ALIGNMENT) unsigned char stack[DEPTH];
static ucontext_t home, there;
static void (*job)(void);

/* ---- inputs ---- */

static struct kortyghai_key_table tables[4], leaking[4], made; /* those that leak are the same with coalitions of any size */
static struct kortyghai_relay relay;
static struct kortyghai_server server;
static struct kortyghai_window window;
static struct kortyghai_stock stock;
static struct kortyghai_network networks[2]; /* one by chance, and one that hides and decodes */
static uint8_t records[4][KORTYGHAI_MAX_RECORD], saves[4 * KORTYGHAI_MAX_SAVE];
static uint32_t symbols[KORTYGHAI_MAX_RATE * KORTYGHAI_MAX_LENGTH], block[KORTYGHAI_MAX_LENGTH], out[KORTYGHAI_MAX_USERS * KORTYGHAI_MAX_LENGTH];
static int32_t readings[KORTYGHAI_MAX_LENGTH], shown[KORTYGHAI_MAX_LENGTH];
static size_t used, rate, many[KORTYGHAI_MAX_POOLS] = {9, 9, 9, 9, 9, 9, 9, 9};
static uint32_t looked, symbol;
static int64_t sum;
static uint8_t runs[4][KORTYGHAI_PAPER_HEAD + KORTYGHAI_MAX_RECORD], line[KORTYGHAI_MAX_LINE];
static struct kortyghai_paper paper, papers[4];
static uint64_t answers; /* all answers together, so that no call can be left out */

static const struct kortyghai_plan plans[4] = {
    {{8, 2, 3, 0, KORTYGHAI_MAX_Q}}, {{4, 4, 2, 0, KORTYGHAI_MAX_Q}}, {{2, 8, 7, 0, KORTYGHAI_MAX_Q}}, {{8, 2, 13, 0, 65521}}};

/* In the second each user has a relay of its own and a source symbol of its own, and the last one's key cancels the others. */
static void fill_networks(void) {
    static const uint32_t numbers[2][KORTYGHAI_RING_NUMBERS] = {{8, 8, 4, 16, KORTYGHAI_MAX_Q}, {8, 1, 1, 16, KORTYGHAI_MAX_Q}};
    for (size_t n = 0; n < 2; n++) memcpy(networks[n].ring.numbers, numbers[n], sizeof numbers[n]);
    for (uint32_t i = 0; i < KORTYGHAI_MAX_RING_TABLE; i++) networks[0].table[i] = i * i * 977 + 5;
    for (uint32_t i = 0; i < KORTYGHAI_MAX_WEIGHTS; i++) networks[0].weights[i] = i * i * 31 + 7 * i + 1;
    for (size_t k = 0; k < 7; k++) {
        networks[1].table[k * 16 + k] = 1;
        networks[1].table[7 * 16 + k] = KORTYGHAI_MAX_Q - 1;
    }
    for (size_t i = 0; i < 16; i++) networks[1].weights[i] = 1;
    if (kty_network_vet(&networks[1]) != 0 || kty_network_decode(&networks[1], 255, block, out) != 0) printf("no network\n");
}

static void fill(void) {
    for (size_t i = 0; i < 4; i++) {
        tables[i].plan = plans[i];
        if (kty_make_table(&tables[i], 3) != 0) printf("no table %zu\n", i);
        leaking[i] = tables[i];
        leaking[i].plan.numbers[KORTYGHAI_PLAN_LIMIT] = KORTYGHAI_MAX_USERS;
        if (kortyghai_number(kty_vet(&leaking[i])) != KORTYGHAI_LEAKS) printf("no leak %zu\n", i);
        kty_write_record(&tables[i], records[i], kty_record_size(&tables[i].plan));
        runs[i][0] = 9; /* the cap */
        runs[i][4] = 9; /* the rounds */
        memcpy(runs[i] + KORTYGHAI_PAPER_HEAD, records[i], sizeof records[i]);
        if (kty_paper_open(&papers[i], runs[i], KORTYGHAI_PAPER_HEAD + kty_record_size(&tables[i].plan)) != 0) printf("no run %zu\n", i);
    }
    kty_relay_open(&relay, &tables[2].plan, KORTYGHAI_MAX_LENGTH, 1, 1);
    kty_server_open(&server, &tables[0].plan, KORTYGHAI_MAX_LENGTH, 1);
    kty_window_open(&window, KORTYGHAI_MAX_SPAN);
    kty_stock_open(&stock, KORTYGHAI_MAX_POOLS, many, many, symbols, sizeof symbols / sizeof *symbols);
    fill_networks();
    for (uint32_t i = 0; i < KORTYGHAI_MAX_LENGTH; i++) block[i] = i;
}

/* ---- one job for each entry ---- */

static void nothing(void) {
}

static void vet(void) {
    for (size_t i = 0; i < 4; i++) answers += kty_vet(&tables[i]) + kty_vet(&leaking[i]);
}

static void vet_joint(void) {
    for (size_t i = 0; i < 4; i++) answers += kty_vet_joint(&tables[i], 1, 2, &looked) + kty_vet_joint(&leaking[i], 1, 2, &looked);
}

static void check_prime(void) {
    answers += kortyghai_check_prime(KORTYGHAI_MAX_Q) + kortyghai_check_prime(65521) + kortyghai_check_prime(3215031751u);
}

static void count_pairs(void) {
    for (size_t i = 0; i < 4; i++) answers += kty_count_pairs(&plans[i], &looked);
}

static void find_rate(void) {
    for (size_t i = 0; i < 4; i++) answers += kty_rate(&plans[i], &rate);
}

/* The powers of 1 are all the same, and so the table that they give leaks. */
static void make_table(void) {
    for (size_t i = 0; i < 4; i++) {
        made = tables[i];
        answers += kty_make_table(&made, 3) + kty_make_table(&made, 1);
    }
}

static void vet_record(void) {
    for (size_t i = 0; i < 4; i++) answers += kortyghai_vet_record(records[i], kty_record_size(&tables[i].plan));
}

static void read_record(void) {
    for (size_t i = 0; i < 4; i++) answers += kty_read_record(&tables[i], records[i], kty_record_size(&tables[i].plan));
}

static void write_record(void) {
    for (size_t i = 0; i < 4; i++) answers += kty_write_record(&tables[i], records[i], kty_record_size(&tables[i].plan));
}

static void derive_keys(void) {
    for (size_t i = 0; i < 8; i++) {
        const struct kortyghai_key_table *table = i < 4 ? &tables[i] : &leaking[i - 4];
        size_t length = KORTYGHAI_MAX_LENGTH;
        answers += kty_derive_keys(table, length, symbols, table->plan.numbers[KORTYGHAI_PLAN_RATE] * length, out,
                                   kty_users(&table->plan) * length);
    }
}

static void draw(void) {
    struct kortyghai_stream stream = {symbols, sizeof symbols / sizeof *symbols, 0};
    answers += kty_draw(&stream, KORTYGHAI_MAX_LENGTH, out);
}

static void stock_open(void) {
    answers += kty_stock_open(&stock, KORTYGHAI_MAX_POOLS, many, many, symbols, sizeof symbols / sizeof *symbols);
}

static void stock_draw(void) {
    answers += kty_stock_draw(&stock, symbols, sizeof symbols / sizeof *symbols, 8, 9, out);
    answers += kty_stock_draw(&stock, symbols, sizeof symbols / sizeof *symbols, 8, 9, out);
}

static void upload(void) {
    answers += kty_upload(&tables[0].plan, KORTYGHAI_MAX_LENGTH, block, symbols, out);
}

static void unmask(void) {
    answers += kty_unmask(&tables[0].plan, KORTYGHAI_MAX_LENGTH, block, symbols, out);
}

static void signed_upload(void) {
    answers += kty_signed_upload(&tables[0].plan, 1000, KORTYGHAI_MAX_LENGTH, readings, symbols, out);
}

static void signed_unmask(void) {
    answers += kty_signed_unmask(&tables[0].plan, 1000, KORTYGHAI_MAX_LENGTH, block, symbols, shown);
}

static void show_totals(void) {
    answers += kty_show_totals(&tables[0].plan, 1000, KORTYGHAI_MAX_LENGTH, block, shown);
}

static void relay_open(void) {
    answers += kty_relay_open(&relay, &tables[2].plan, KORTYGHAI_MAX_LENGTH, 1, 1);
}

static void relay_count(void) {
    for (size_t v = 1; v <= 8; v++) answers += kty_relay_count(&relay, v, relay.number, block, KORTYGHAI_MAX_LENGTH);
    for (size_t v = 1; v <= 8; v++) answers += kty_relay_count(&relay, v, relay.number + 1, block, KORTYGHAI_MAX_LENGTH);
}

static void relay_give(void) {
    answers += kty_relay_give(&relay, out, KORTYGHAI_MAX_LENGTH);
}

static void relay_advance(void) {
    for (size_t i = 0; i < 3; i++) answers += kty_relay_advance(&relay);
}

static void relay_save(void) {
    used = 0;
    for (size_t i = 0; i < 5; i++) answers += kty_relay_save(&relay, saves, sizeof saves, &used);
}

static void relay_restore(void) {
    for (size_t i = 0; i < 5; i++) answers += kty_relay_restore(&relay, saves, used, i);
}

static void server_open(void) {
    answers += kty_server_open(&server, &tables[0].plan, KORTYGHAI_MAX_LENGTH, 1);
}

static void server_count(void) {
    for (size_t u = 0; u <= 9; u++) answers += kty_server_count(&server, u, server.number, block, KORTYGHAI_MAX_LENGTH);
}

static void server_give(void) {
    answers += kty_server_give(&server, out, KORTYGHAI_MAX_LENGTH);
}

static void window_open(void) {
    answers += kty_window_open(&window, KORTYGHAI_MAX_SPAN);
}

static void window_push(void) {
    for (int32_t i = 0; i < 200; i++) answers += kty_window_push(&window, 7 - i);
}

static void window_sum(void) {
    answers += kty_window_sum(&window, &sum);
}

static void window_largest(void) {
    answers += kty_window_largest(&window, shown);
}

static void network_vet(void) {
    for (size_t n = 0; n < 2; n++) answers += kty_network_vet(&networks[n]);
}

static void network_upload(void) {
    answers += kty_network_upload(&networks[0], 8, 1, block, 5, &symbol);
}

static void network_sum(void) {
    answers += kty_network_sum(&networks[0].ring, block, &symbol);
}

static void network_decode(void) {
    for (size_t n = 0; n < 2; n++) answers += kty_network_decode(&networks[n], 255, block, out);
}

static void paper_open(void) {
    for (size_t i = 0; i < 4; i++) answers += kty_paper_open(&paper, runs[i], KORTYGHAI_PAPER_HEAD + kty_record_size(&tables[i].plan));
}

static void paper_line(void) {
    for (size_t i = 0; i < 4; i++) answers += kty_paper_line(&papers[i], line, &used);
}

/* ---- measuring ---- */

static void run_job(void) {
    job();
}

/* How far down the stack is written to, by a paint that it may by chance have written itself. */
static size_t depth_with(unsigned char paint, void (*measured)(void)) {
    size_t untouched = 0;
    memset(stack, paint, sizeof stack);
    getcontext(&there);
    there.uc_stack.ss_sp = stack;
    there.uc_stack.ss_size = sizeof stack;
    there.uc_link = &home;
    job = measured;
    makecontext(&there, run_job, 0);
    swapcontext(&home, &there);
    while (untouched < sizeof stack && stack[untouched] == paint) untouched++;
    return sizeof stack - untouched;
}

/* The first run is not counted: it may be the one in which memcpy is looked up. */
static size_t depth_of(void (*measured)(void)) {
    size_t first, second;
    measured();
    first = depth_with(0xA5, measured);
    second = depth_with(0x5A, measured);
    return first > second ? first : second;
}

struct entry {
    const char *name;
    void (*run)(void);
};

static const struct entry entries[] = {
    {"kty_vet", vet}, {"kty_vet_joint", vet_joint}, {"kortyghai_check_prime", check_prime}, {"kty_count_pairs", count_pairs},
    {"kty_rate", find_rate}, {"kty_make_table", make_table}, {"kortyghai_vet_record", vet_record}, {"kty_read_record", read_record},
    {"kty_write_record", write_record}, {"kty_derive_keys", derive_keys}, {"kty_draw", draw}, {"kty_stock_open", stock_open},
    {"kty_stock_draw", stock_draw}, {"kty_upload", upload}, {"kty_unmask", unmask}, {"kty_signed_upload", signed_upload},
    {"kty_signed_unmask", signed_unmask}, {"kty_relay_open", relay_open}, {"kty_relay_count", relay_count}, {"kty_relay_give", relay_give},
    {"kty_relay_save", relay_save}, {"kty_relay_restore", relay_restore}, {"kty_relay_advance", relay_advance},
    {"kty_server_open", server_open}, {"kty_server_count", server_count}, {"kty_server_give", server_give},
    {"kty_show_totals", show_totals}, {"kty_window_open", window_open}, {"kty_window_push", window_push}, {"kty_window_sum", window_sum},
    {"kty_window_largest", window_largest}, {"kty_network_vet", network_vet}, {"kty_network_upload", network_upload},
    {"kty_network_sum", network_sum}, {"kty_network_decode", network_decode}, {"kty_paper_open", paper_open},
    {"kty_paper_line", paper_line}};

int main(void) {
    size_t around;
    fill();
    around = depth_of(nothing);
    printf("| call | bytes of stack |\n|---|---|\n");
    for (size_t i = 0; i < sizeof entries / sizeof *entries; i++)
        printf("| `%s` | %zu |\n", entries[i].name, depth_of(entries[i].run) - around);
    return 0;
}
