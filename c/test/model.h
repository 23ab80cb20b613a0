/*
 * A second implementation of every entry, written from the papers' rules alone and in the plainest way: model_NAME answers, and
 * leaves all lent memory, as kortyghai_NAME has to. It adds whole numbers and takes remainders, looks for divisors one by one,
 * eliminates each coalition's rows anew, and works windows and stocks out afresh.
 */
#ifndef MODEL_H
#define MODEL_H

#include "../kortyghai.h"

#include <stdbool.h>

/* ---- what the models share ---- */

uint64_t answer_of(unsigned number, unsigned first, unsigned second);
bool is_prime(uint32_t q);
bool all_below(uint64_t bound, const uint32_t *symbols, size_t n);
bool counts_fit(uint64_t clusters, uint64_t size, uint64_t limit);
bool plan_fits(const uint32_t *plan);
uint32_t times(uint32_t q, uint32_t a, uint32_t b);
uint32_t power(uint32_t q, uint32_t base, uint64_t exponent);
uint64_t read_low_first(const uint8_t *bytes, size_t width);
void write_low_first(uint8_t *bytes, size_t width, uint64_t number);

/* A matrix of at most 48 rows and columns, and the rank of its rows. Its numbers are changed. */
struct matrix {
    uint32_t q;
    size_t rows, columns;
    uint32_t at[KORTYGHAI_MAX_COLUMNS][KORTYGHAI_MAX_COLUMNS];
};

size_t rank_of(struct matrix *m);

/* ---- the entries ---- */

uint64_t model_vet(const uint32_t plan[KORTYGHAI_PLAN_NUMBERS], const uint32_t *table, size_t table_len);
uint64_t model_vet_joint(const uint32_t plan[KORTYGHAI_PLAN_NUMBERS], const uint32_t *table, size_t table_len, size_t first, size_t second,
                         uint32_t *looked);
uint64_t model_count_pairs(size_t clusters, size_t size, size_t limit, uint32_t *out);
uint64_t model_check_prime(uint32_t q);
uint64_t model_rate(size_t clusters, size_t size, size_t limit, size_t *out);
uint64_t model_make_table(uint32_t plan[KORTYGHAI_PLAN_NUMBERS], uint32_t generator, uint32_t *table, size_t table_len);
uint64_t model_vet_record(const uint8_t *bytes, size_t bytes_len);
uint64_t model_read_record(const uint8_t *bytes, size_t bytes_len, uint32_t plan[KORTYGHAI_PLAN_NUMBERS], uint32_t *table, size_t table_len);
uint64_t model_write_record(const uint32_t plan[KORTYGHAI_PLAN_NUMBERS], const uint32_t *table, size_t table_len, uint8_t *out, size_t out_len);
uint64_t model_derive_keys(const uint32_t plan[KORTYGHAI_PLAN_NUMBERS], const uint32_t *table, size_t table_len, size_t length,
                           const uint32_t *source, size_t source_len, uint32_t *keys, size_t keys_len);
uint64_t model_draw(const uint32_t *stream, size_t stream_len, size_t *position, size_t length, uint32_t *out, size_t out_len);
uint64_t model_stock_open(size_t pools, const size_t *shares, size_t shares_len, const size_t *most, size_t most_len, const uint32_t *stream,
                          size_t stream_len, size_t reserves[KORTYGHAI_MAX_POOLS], size_t limits[KORTYGHAI_MAX_POOLS],
                          size_t drawn[KORTYGHAI_MAX_POOLS]);
uint64_t model_stock_draw(size_t pools, const size_t reserves[KORTYGHAI_MAX_POOLS], const size_t limits[KORTYGHAI_MAX_POOLS],
                          size_t drawn[KORTYGHAI_MAX_POOLS], const uint32_t *stream, size_t stream_len, size_t pool, size_t length,
                          uint32_t *out, size_t out_len);
uint64_t model_upload(uint32_t q, size_t length, const uint32_t *readings, size_t readings_len, const uint32_t *key, size_t key_len,
                      uint32_t *out, size_t out_len);
uint64_t model_unmask(uint32_t q, size_t length, const uint32_t *upload, size_t upload_len, const uint32_t *key, size_t key_len, uint32_t *out,
                      size_t out_len);
uint64_t model_signed_upload(const uint32_t plan[KORTYGHAI_PLAN_NUMBERS], uint32_t cap, size_t length, const int32_t *readings,
                             size_t readings_len, const uint32_t *key, size_t key_len, uint32_t *out, size_t out_len);
uint64_t model_signed_unmask(const uint32_t plan[KORTYGHAI_PLAN_NUMBERS], uint32_t cap, size_t length, const uint32_t *upload,
                             size_t upload_len, const uint32_t *key, size_t key_len, int32_t *out, size_t out_len);
uint64_t model_show_totals(const uint32_t plan[KORTYGHAI_PLAN_NUMBERS], uint32_t cap, size_t length, const uint32_t *totals, size_t totals_len,
                           int32_t *out, size_t out_len);
uint64_t model_relay_open(const uint32_t counts[KORTYGHAI_RELAY_COUNTS], uint16_t *reported, uint32_t sums[KORTYGHAI_MAX_LENGTH],
                          uint16_t *ahead, uint32_t held[KORTYGHAI_MAX_LENGTH]);
uint64_t model_relay_count(const uint32_t counts[KORTYGHAI_RELAY_COUNTS], uint32_t number, uint16_t *reported,
                           uint32_t sums[KORTYGHAI_MAX_LENGTH], uint16_t *ahead, uint32_t held[KORTYGHAI_MAX_LENGTH], size_t sender,
                           uint32_t said, const uint32_t *block, size_t block_len);
uint64_t model_relay_advance(const uint32_t counts[KORTYGHAI_RELAY_COUNTS], uint32_t *number, uint16_t *reported,
                             uint32_t sums[KORTYGHAI_MAX_LENGTH], uint16_t *ahead, uint32_t held[KORTYGHAI_MAX_LENGTH]);
uint64_t model_relay_give(const uint32_t counts[KORTYGHAI_RELAY_COUNTS], uint32_t number, uint16_t reported,
                          const uint32_t sums[KORTYGHAI_MAX_LENGTH], uint16_t ahead, const uint32_t held[KORTYGHAI_MAX_LENGTH], uint32_t *out,
                          size_t out_len);
uint64_t model_relay_save(const uint32_t counts[KORTYGHAI_RELAY_COUNTS], uint32_t number, uint16_t reported,
                          const uint32_t sums[KORTYGHAI_MAX_LENGTH], uint16_t ahead, const uint32_t held[KORTYGHAI_MAX_LENGTH], uint8_t *out,
                          size_t out_len, size_t *used);
uint64_t model_relay_restore(const uint8_t *saved, size_t saved_len, size_t steps, uint32_t counts[KORTYGHAI_RELAY_COUNTS], uint32_t *number,
                             uint16_t *reported, uint32_t sums[KORTYGHAI_MAX_LENGTH], uint16_t *ahead, uint32_t held[KORTYGHAI_MAX_LENGTH]);
uint64_t model_server_open(const uint32_t counts[KORTYGHAI_SERVER_COUNTS], uint16_t *reported, uint32_t sums[KORTYGHAI_MAX_LENGTH]);
uint64_t model_server_count(const uint32_t counts[KORTYGHAI_SERVER_COUNTS], uint32_t number, uint16_t *reported,
                            uint32_t sums[KORTYGHAI_MAX_LENGTH], size_t sender, uint32_t said, const uint32_t *block, size_t block_len);
uint64_t model_server_give(const uint32_t counts[KORTYGHAI_SERVER_COUNTS], uint32_t number, uint16_t reported,
                           const uint32_t sums[KORTYGHAI_MAX_LENGTH], uint32_t *out, size_t out_len);
uint64_t model_window_open(size_t span, size_t *held, int64_t *sum, int32_t totals[KORTYGHAI_MAX_SPAN]);
uint64_t model_window_push(size_t span, size_t *held, int64_t *sum, int32_t totals[KORTYGHAI_MAX_SPAN], int32_t total);
uint64_t model_window_sum(size_t span, size_t held, int64_t sum, const int32_t totals[KORTYGHAI_MAX_SPAN], int64_t *out);
uint64_t model_window_largest(size_t span, size_t held, int64_t sum, const int32_t totals[KORTYGHAI_MAX_SPAN], int32_t *out);
uint64_t model_network_vet(const uint32_t counts[KORTYGHAI_RING_NUMBERS], const uint32_t *table, size_t table_len, const uint32_t *weights,
                           size_t weights_len);
uint64_t model_network_upload(const uint32_t counts[KORTYGHAI_RING_NUMBERS], const uint32_t *weights, size_t weights_len, size_t user,
                              size_t relay, const uint32_t *reading, size_t reading_len, uint32_t key, uint32_t *out);
uint64_t model_network_sum(const uint32_t counts[KORTYGHAI_RING_NUMBERS], const uint32_t *uploads, size_t uploads_len, uint32_t *out);
uint64_t model_network_decode(const uint32_t counts[KORTYGHAI_RING_NUMBERS], const uint32_t *table, size_t table_len, const uint32_t *weights,
                              size_t weights_len, uint16_t reported, const uint32_t *sums, size_t sums_len, uint32_t *out, size_t out_len);
uint64_t model_paper_open(const uint8_t *bytes, size_t bytes_len, uint32_t plan[KORTYGHAI_PLAN_NUMBERS], uint32_t table[KORTYGHAI_MAX_TABLE],
                          uint32_t run[KORTYGHAI_PAPER_NUMBERS]);
uint64_t model_paper_line(const uint32_t plan[KORTYGHAI_PLAN_NUMBERS], const uint32_t table[KORTYGHAI_MAX_TABLE],
                          uint32_t run[KORTYGHAI_PAPER_NUMBERS], uint8_t line[KORTYGHAI_MAX_LINE], size_t *length);

#endif
