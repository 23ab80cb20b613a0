/*
 * Kortyghai for callers in C: the secure-aggregation core of a power pool, every function of it proved to meet its
 * contract.
 *
 * Users (meters) mask their readings by keys, relays (gateways) add what the users of their cluster send, and the server
 * (desk) adds the relays' sums and learns the total and nothing else. c/pool.c is a whole pool to run and to read;
 * c/README.md has the commands, and the stack that each call takes.
 *
 * TWO LEVELS. The archive has the entries kortyghai_NAME, which take numbers, addresses and lengths alone. Over them this
 * header has structs, one for each kind of state, and functions kty_NAME that take the structs. kty_NAME is kortyghai_NAME
 * with the parts of the struct passed in their places: it adds no rule, and what is said of the entry holds of it. Most
 * callers need kty_NAME alone.
 *
 * ANSWERS. A call answers one number of 64 bits: the number of the refusal, which is 0 where nothing is refused, and two
 * details. kortyghai_number, kortyghai_first and kortyghai_second take them out, and kortyghai_refusal_text has words for
 * the number. Every input is answered: there is nothing that may not be passed but wrong addresses, as said next. A refused
 * call leaves all lent memory as it was (one report excepted: `looked` of kortyghai_vet_joint).
 *
 * WHAT THE CALLER ANSWERS FOR. A run is passed as its address and its length, which is counted in bytes or numbers; behind
 * the address there are so many. An array of a stated length and a single number are passed as an address alone. No address
 * is null, also where a length is 0. What a call writes to overlaps nothing else that is passed to it. Nothing is kept
 * between calls and nothing is allocated; calls from several threads at once don't disturb each other as long as none
 * writes to what another has.
 *
 * WHAT IT NEEDS. memcpy, memmove and memset, and no other function or library; and stack: 2 KB for a user's calls, 6 KB for
 * a relay's and the server's, 30 KB for those that vet, 56 KB for those that deal keys or make tables (c/README.md has each
 * call). It is code for x86-64.
 *
 * SOURCE KEYS. Secrecy is proved for source keys whose symbols are drawn evenly from 0 to q - 1, each with equal chance and
 * apart from all others. Draw them fresh from a good random generator, without the bias that a remainder modulo q leaves,
 * and use each once, for one block: two blocks under one key show their difference. The archive has no random generator and
 * cannot tell.
 *
 * TOTALS WRAP. All sums are modulo q: a total of readings is right where it is below q. Of signed readings it is right
 * where each is from -cap to cap and 2 x U x V x cap is below q; the calls that take a cap refuse every other cap by 16,
 * and readings outside it by 15. The largest cap of 16 users is 2,047 at q 65,521, and 134,217,727 at q 4,294,967,291.
 *
 * TIME. kortyghai_derive_keys and kortyghai_make_table judge the plan as the vet does, at each call, and walk only where they
 * refuse it: of accepted plans with 16 users that takes 0.01 to 0.3 ms for T up to 2 and 1 to 20 ms for a larger T. The vets
 * themselves walk: some 100 to 150 ms of the largest plans, some 0.15 ms of 16 users with T of 1; so does kortyghai_paper_open.
 * docs/SPEED.md has tables, and kortyghai_count_pairs says beforehand how many pairs of coalition and observer there are.
 * Cyclic networks take tens of microseconds, all other calls a few at most. These times are of an older kit than today's.
 *
 * WHAT THE TIME TELLS. In kortyghai_upload, kortyghai_unmask, kortyghai_signed_upload, kortyghai_signed_unmask,
 * kortyghai_show_totals, kortyghai_derive_keys and the counting of frames, no jump, no division and no address depends on a
 * reading, a key, a source symbol or a sum that is accepted; a block that is refused by 15 shows by the time where its first
 * wrong reading stands. This was seen in the machine code of an older kit than today's and is not proved: docs/MACHINE-CODE.md
 * says what was looked at. All other calls are not constant-time, among them kortyghai_network_upload, which is given a
 * reading and a key.
 */
#ifndef KORTYGHAI_H
#define KORTYGHAI_H

#include <stddef.h>
#include <stdint.h>

#ifdef __cplusplus
extern "C" {
#define KORTYGHAI_STATIC_ASSERT(what, words) static_assert(what, words)
#else
#define KORTYGHAI_STATIC_ASSERT(what, words) _Static_assert(what, words)
#endif

/* The version of this header and of the archive that it goes with. */
#define KORTYGHAI_VERSION "0.3.0"
#define KORTYGHAI_VERSION_MAJOR 0
#define KORTYGHAI_VERSION_MINOR 3
#define KORTYGHAI_VERSION_PATCH 0

/* ==== bounds ==== */

#define KORTYGHAI_MAX_CLUSTERS 8       /* U, clusters, each with a relay, from 1 */
#define KORTYGHAI_MAX_SIZE 8           /* V, users of a cluster, from 1 */
#define KORTYGHAI_MAX_USERS 16         /* U x V; and T, the most users of a coalition, from 0 to U x V */
#define KORTYGHAI_MAX_RATE 16          /* R, source symbols of a position, from 1 */
#define KORTYGHAI_MAX_LENGTH 64        /* L, positions of a block, from 1; the sums of a round stand in 64 places */
#define KORTYGHAI_MAX_TABLE 256        /* symbols of a key table, U x V x R; the reader of records is lent exactly so many */
#define KORTYGHAI_MAX_RECORD 1036      /* bytes of a plan record */
#define KORTYGHAI_MAX_BYTES 65535      /* bytes that kortyghai_vet_record and kortyghai_paper_open take */
#define KORTYGHAI_SAVE_BYTES(length) (20 + 8 * (length)) /* bytes of a saved round with blocks of so many positions, as a constant */
#define KORTYGHAI_MAX_SAVE 532         /* the most bytes of a saved round */
#define KORTYGHAI_MAX_POOLS 8          /* pools of a stock, from 1 */
#define KORTYGHAI_MAX_SPAN 96          /* totals of a window, from 1 */
#define KORTYGHAI_MIN_RING 2           /* K, users and relays of a cyclic network, from 2 */
#define KORTYGHAI_MAX_RING 8
#define KORTYGHAI_MAX_PARTS 4          /* n, symbols of a reading in a cyclic network, from 1 */
#define KORTYGHAI_MAX_COLUMNS 48       /* K x n + R, the reading and source symbols of a cyclic network */
#define KORTYGHAI_MAX_RING_TABLE 128   /* K x R, the key table of a cyclic network */
#define KORTYGHAI_MAX_WEIGHTS 320      /* K x d x (n + 1), its coefficients */
#define KORTYGHAI_MAX_Q 4294967291u    /* the largest prime of 32 bits; q is a prime from 2 on */
#define KORTYGHAI_LAST_ROUND 4294967295u /* after this round there is no next */
#define KORTYGHAI_MAX_ROUNDS 10000     /* rounds of a run on paper, from 1 */
#define KORTYGHAI_PAPER_HEAD 8         /* bytes before the record: the cap and the number of rounds */
#define KORTYGHAI_MAX_LINE 56          /* bytes of a line that such a run writes */

/* ==== answers ==== */

/* The numbers. Both details are 0, but for 6, 7 and 19. */
enum kortyghai_refusal {
    KORTYGHAI_ACCEPTED = 0,
    KORTYGHAI_OUT_OF_BOUNDS = 1,     /* a count outside its bounds */
    KORTYGHAI_NOT_PRIME = 2,         /* q is no prime, or below 65,536 in a wide record */
    KORTYGHAI_NOT_A_SYMBOL = 3,      /* a symbol that is not below q, or a sum past position L that is not 0 */
    KORTYGHAI_WRONG_LENGTH = 4,      /* a buffer, table or record of the wrong length */
    KORTYGHAI_BAD_TRAILER = 5,       /* a record or save whose end is missing or wrong */
    KORTYGHAI_NOT_ZERO_SUM = 6,      /* the key table's rows don't sum to zero; first: the first such column, from 1 */
    KORTYGHAI_LEAKS = 7,             /* the plan leaks; first: the coalition, second: a relay's number, or 0 for the server */
    KORTYGHAI_UNKNOWN_NUMBER = 8,    /* no such user, relay or pool; two relays equal or reversed; in a ring, two not linked */
    KORTYGHAI_BAD_BLOCK_LENGTH = 9,  /* L outside 1 to 64 */
    KORTYGHAI_LIMIT_TOO_LARGE = 10,  /* the table maker is given T not less than (U - 1) x V */
    KORTYGHAI_ALREADY_REPORTED = 11, /* this sender has already reported in the frame's round */
    KORTYGHAI_NOT_FULL = 12,         /* sums or the next round wanted while a sender is owing; the largest of no totals */
    KORTYGHAI_STREAM_TOO_SHORT = 13, /* too few symbols left on the key stream */
    KORTYGHAI_OTHER_ROUND = 14,      /* the frame is of another round, or there is no next round */
    KORTYGHAI_OUTSIDE_CAP = 15,      /* a signed reading outside the cap */
    KORTYGHAI_BAD_CAP = 16,          /* the cap is 0, or 2 x U x V x cap is not below q */
    KORTYGHAI_BAD_WINDOW = 17,       /* a span outside 1 to 96, or a window that no run of totals leaves */
    KORTYGHAI_BAD_ROUND_COUNT = 18,  /* rounds of a run on paper outside 1 to 10,000, or its number is none of them */
    KORTYGHAI_JOINT_LEAKS = 19,      /* two relays under one lock leak; first: the coalition of least number */
    KORTYGHAI_PAST_LIMIT = 20,       /* a draw would pass its pool's limit */
    KORTYGHAI_BAD_STOCK = 21,        /* a reserve above its limit, reserves above the stream, or a stock that no draws leave */
    KORTYGHAI_BAD_PATTERN = 22,      /* of a cyclic network, d outside 1 to K or n outside 1 to 4 */
    KORTYGHAI_NOT_DECODABLE = 23,    /* some total symbol is no combination of the sums that have arrived */
    KORTYGHAI_REFUSALS = 24          /* how many numbers there are */
};

static inline unsigned kortyghai_number(uint64_t answer) {
    return (unsigned)(answer & 0xFFFF);
}

static inline unsigned kortyghai_first(uint64_t answer) {
    return (unsigned)(answer >> 16 & 0xFFFF);
}

static inline unsigned kortyghai_second(uint64_t answer) {
    return (unsigned)(answer >> 32 & 0xFFFF);
}

/* What has happened, in plain words, without the details; the words of Rust's Refusal::meaning, and the tool's. */
static inline const char *kortyghai_refusal_text(unsigned number) {
    static const char *const texts[KORTYGHAI_REFUSALS] = {
        "nothing is wrong",
        "a count is outside its bounds",
        "q is not a prime number, or is below 65,536 in a wide record",
        "a symbol is not below q",
        "a table, block, buffer or record has the wrong length",
        "the bytes don't end with a trailer that leads back to a record or save",
        "the key table's rows don't sum to zero",
        "the plan leaks",
        "there is no such user, relay, pool or pair of relays",
        "the block length is not from 1 to 64",
        "no table can meet this coalition limit",
        "this sender has already reported in the frame's round",
        "not everyone has reported yet, or a window has no total yet",
        "the key stream has too few symbols left",
        "the frame belongs to another round, or there is no next round",
        "a signed reading is outside the cap",
        "the cap is 0, or too large for q",
        "the window's span is not from 1 to 96, or the window is damaged",
        "the number of rounds is not from 1 to 10,000, or the run is over",
        "two relays under one lock leak",
        "the draw would pass the pool's limit",
        "a reserve is above its limit, the reserves are above the stream, or the stock is damaged",
        "the relays of a user are not 1 to K, or the symbols of a reading not 1 to 4",
        "the sums that have arrived don't give all totals",
    };
    return number < KORTYGHAI_REFUSALS ? texts[number] : "no such number";
}

/* ==== what is lent in one run ==== */

/* A plan: its five numbers, in this order. */
enum {
    KORTYGHAI_PLAN_CLUSTERS, /* U, from 1 to 8 */
    KORTYGHAI_PLAN_SIZE,     /* V, users of a cluster, from 1 to 8; U x V is at most 16 */
    KORTYGHAI_PLAN_LIMIT,    /* T, the most users of a coalition, from 0 to U x V */
    KORTYGHAI_PLAN_RATE,     /* R, source symbols of a position, from 1 to 16 */
    KORTYGHAI_PLAN_Q,        /* q, a prime from 2 to 4,294,967,291 */
    KORTYGHAI_PLAN_NUMBERS
};

/* A round of a relay, and of the server, which has no cluster. */
enum {
    KORTYGHAI_ROUND_CLUSTERS, /* U */
    KORTYGHAI_ROUND_SIZE,     /* V */
    KORTYGHAI_ROUND_Q,        /* q */
    KORTYGHAI_ROUND_LENGTH,   /* L, positions of a block, from 1 to 64 */
    KORTYGHAI_ROUND_CLUSTER,  /* of a relay alone: its own number, from 1 to U */
    KORTYGHAI_RELAY_COUNTS,
    KORTYGHAI_SERVER_COUNTS = KORTYGHAI_ROUND_CLUSTER
};

/* A cyclic network: K users and K relays, each user linked to d relays. */
enum {
    KORTYGHAI_RING_SIZE,  /* K, from 2 to 8 */
    KORTYGHAI_RING_LINKS, /* d, from 1 to K */
    KORTYGHAI_RING_PARTS, /* n, symbols of a reading, from 1 to 4 */
    KORTYGHAI_RING_RATE,  /* R, source symbols, from 1 to 16 */
    KORTYGHAI_RING_Q,     /* q, a prime */
    KORTYGHAI_RING_NUMBERS
};

/* A run on paper, beside its plan and its key table. */
enum {
    KORTYGHAI_PAPER_CAP,    /* the most that a reading is */
    KORTYGHAI_PAPER_ROUNDS, /* how many rounds there are, from 1 to 10,000 */
    KORTYGHAI_PAPER_NUMBER, /* the next round's, from 1 */
    KORTYGHAI_PAPER_STATE,  /* the generator's, before that round; any number will do */
    KORTYGHAI_PAPER_NUMBERS
};

/* ==== the entries ==== */

/*
 * THE PLANNER. A symbol is a whole number below q, in 32 bits. A key table has U x V rows of R symbols each, user by user
 * and cluster by cluster. User v of cluster u, both from 1, has index (u - 1) x V + v - 1, and a coalition is a number with
 * one bit for each user's index. An observer is a relay's number, or 0 for the server.
 */

/*
 * The vet: is the plan good, and does its table hide what it has to hide? Together with a coalition, a relay may learn
 * nothing of the readings of all other users, and the server nothing but their total.
 *
 *     plan    U, V, T, R and q
 *     table   exactly U x V x R symbols
 *
 * Refuses, the first that holds: 1, 4 (table), 2, 3, 6, 7. The first pair that leaks is named: coalitions in rising number,
 * and for each the relays from 1 to U and then the server. Writes nothing.
 */
uint64_t kortyghai_vet(const uint32_t plan[KORTYGHAI_PLAN_NUMBERS], const uint32_t *table, size_t table_len);

/*
 * The vet with a report, and with two relays under one lock, if there are such.
 *
 *     first, second   the two relays, the lower first; 0 and 0 for none
 *     looked          how many pairs of coalition and observer the vet looked at is put there, also where it refuses: all of them
 *                     where the plan is accepted, the place of the first that leaks, from 1, where it is refused by 7, else 0
 *                     (by 19 too); the coalitions that are tried with the two relays are not among them
 *
 * With two clusters every pair leaks. kortyghai_make_table takes the rate that single relays need. Its tables withstood a pair just
 * where R is at least 2 x V + T: so it was seen, and is not proved, at q 65,521 for every U, V and T that it takes, with one to
 * four generators each. So after 19 a table with more columns is wanted, and not another generator.
 *
 * Refuses, the first that holds: 1, 4 (table), 2, 3, 8 (the two are equal, reversed or outside the plan), 6, 7, 19.
 */
uint64_t kortyghai_vet_joint(const uint32_t plan[KORTYGHAI_PLAN_NUMBERS], const uint32_t *table, size_t table_len, size_t first,
                             size_t second, uint32_t *looked);

/*
 * Whether q may be a plan's prime.
 *
 * Refuses: 2.
 */
uint64_t kortyghai_check_prime(uint32_t q);

/*
 * How many pairs of coalition and observer the vet looks at before it accepts: (U + 1) times the number of sets of at most
 * T out of U x V users. out gets it.
 *
 * Refuses: 1 (U, V or T).
 */
uint64_t kortyghai_count_pairs(size_t clusters, size_t size, size_t limit, uint32_t *out);

/*
 * The rate R = max(V + T, min(U + T - 1, U x V - 1)) of the table that kortyghai_make_table makes. out gets it.
 *
 * Refuses, the first that holds: 1 (U, V or T), 10.
 */
uint64_t kortyghai_rate(size_t clusters, size_t size, size_t limit, size_t *out);

/*
 * The table maker: a key table of powers of a symbol, vetted.
 *
 *     plan        U, V, T and q; what stands in the place of R decides nothing, and R is put there
 *     generator   a symbol; one whose powers up to U x V - 1 all differ is a good choice; after 7, call again with another
 *     table       exactly U x V x R symbols, R as kortyghai_rate says: the key table is put there
 *
 * Refuses, the first that holds: 1 (U, V or T), 2, 3 (generator), 10, 4 (table), 7 (the table that the generator gives
 * leaks).
 */
uint64_t kortyghai_make_table(uint32_t plan[KORTYGHAI_PLAN_NUMBERS], uint32_t generator, uint32_t *table, size_t table_len);

/*
 * PLAN RECORDS. A plan as bytes: U, V, T and R in one byte each; q; the symbols of the table; the distance D from the first
 * byte to the end, in two bytes; two marks. Every number has its low byte first. q decides which of two kinds a plan has:
 *
 *     old    q below 65,536: q and each symbol in two bytes, D = 10 + 2 x U x V x R, marks 4B 50
 *     wide   q of 65,536 or more: in four bytes, D = 12 + 4 x U x V x R, marks 4B 51
 *
 * The vet's answer on the record at the end of the bytes; what stands before it doesn't matter. It is what the program
 * `vet` prints.
 *
 * Refuses, the first that holds: 4 (more than 65,535 bytes), then as the reader 5, 1, 4, 2, 3, then as the vet 6, 7.
 */
uint64_t kortyghai_vet_record(const uint8_t *bytes, size_t bytes_len);

/*
 * Reads the record at the end of the bytes, without vetting it.
 *
 *     plan    U, V, T, R and q are put there
 *     table   exactly 256 symbols: the key table is put there, and 0 past its U x V x R symbols
 *
 * Refuses, the first that holds: 5 (under four bytes, neither kind's marks, D under 10 of the old or 12 of the wide, or
 * beyond the bytes), 1, 4 (D is not that of the record's plan, or table has not 256 symbols), 2 (no prime, or below 65,536
 * in a wide one), 3.
 */
uint64_t kortyghai_read_record(const uint8_t *bytes, size_t bytes_len, uint32_t plan[KORTYGHAI_PLAN_NUMBERS], uint32_t *table,
                               size_t table_len);

/*
 * Writes the record of a plan and its table, without vetting them.
 *
 *     table   exactly U x V x R symbols
 *     out     exactly D bytes: the record is put there
 *
 * Refuses, the first that holds: 1, 4 (table), 2, 3, 4 (out).
 */
uint64_t kortyghai_write_record(const uint32_t plan[KORTYGHAI_PLAN_NUMBERS], const uint32_t *table, size_t table_len, uint8_t *out,
                                size_t out_len);

/*
 * WHOEVER DEALS KEYS.
 *
 * Each user's keys, for a plan that the vet accepts, which is judged at each call.
 *
 *     length   L, positions of a block, from 1 to 64
 *     source   the source key, exactly R x L symbols, position by position
 *     keys     exactly U x V x L symbols: the keys are put there, user by user in index order, L symbols each
 *
 * A copy of the source key stays behind in the stack memory below the caller: who clears `source` after use should clear
 * that too.
 *
 * Refuses, the first that holds: the vet's 1, 4, 2, 3, 6, 7, then 9, 4 (source or keys), 3 (source).
 */
uint64_t kortyghai_derive_keys(const uint32_t plan[KORTYGHAI_PLAN_NUMBERS], const uint32_t *table, size_t table_len, size_t length,
                               const uint32_t *source, size_t source_len, uint32_t *keys, size_t keys_len);

/*
 * A draw from a key stream, which is a run of symbols and a position: the next symbols, none of them twice.
 *
 *     position   how many were drawn before, 0 at first; L is added to it
 *     length     L, from 1 to 64
 *     out        exactly L symbols: those from the position on are put there
 *
 * Refuses, the first that holds: 9, 4 (out), 13 (fewer than L after the position).
 */
uint64_t kortyghai_draw(const uint32_t *stream, size_t stream_len, size_t *position, size_t length, uint32_t *out, size_t out_len);

/*
 * One key stream for several pools, each with a reserve that it is sure of and a limit, in symbols. A stock is handed over
 * in parts: how many pools it has, and eight reserves, limits and numbers of symbols drawn, of which those past the pools
 * are 0. Opens one:
 *
 *     pools                     from 1 to 8
 *     shares, most              the reserves and the limits, one for each pool
 *     stream                    the key stream; only its length decides here
 *     reserves, limits, drawn   eight places each: the stock is put there
 *
 * Refuses, the first that holds: 1 (pools), 4 (shares or most has not one for each pool), 21 (a reserve above its limit, or
 * the reserves together above the stream's length).
 */
uint64_t kortyghai_stock_open(size_t pools, const size_t *shares, size_t shares_len, const size_t *most, size_t most_len,
                              const uint32_t *stream, size_t stream_len, size_t reserves[KORTYGHAI_MAX_POOLS],
                              size_t limits[KORTYGHAI_MAX_POOLS], size_t drawn[KORTYGHAI_MAX_POOLS]);

/*
 * A draw for one pool, answered where it stays in the pool's limit and leaves for each other pool what that one has not yet
 * drawn of its reserve. What all pools have drawn is the position.
 *
 *     drawn    L is added to that of the pool
 *     stream   the same as at the opening
 *     pool     from 1
 *     length   L, from 1 to 64
 *     out      exactly L symbols: the next of the stream are put there
 *
 * Refuses, the first that holds: 1 (pools), 21 (a stock that no draws on such a stream leave), 8 (pool), 9, 4 (out), 20,
 * 13.
 */
uint64_t kortyghai_stock_draw(size_t pools, const size_t reserves[KORTYGHAI_MAX_POOLS], const size_t limits[KORTYGHAI_MAX_POOLS],
                              size_t drawn[KORTYGHAI_MAX_POOLS], const uint32_t *stream, size_t stream_len, size_t pool,
                              size_t length, uint32_t *out, size_t out_len);

/*
 * A USER.
 *
 * An upload: reading plus key, position by position, modulo q.
 *
 *     length          L, from 1 to 64
 *     readings, key   exactly L symbols each
 *     out             exactly L symbols: the upload is put there
 *
 * Refuses, the first that holds: 2, 9, 4, 3.
 */
uint64_t kortyghai_upload(uint32_t q, size_t length, const uint32_t *readings, size_t readings_len, const uint32_t *key,
                          size_t key_len, uint32_t *out, size_t out_len);

/* Takes a key off an upload, which gives the readings back. Buffers and refusals as above. */
uint64_t kortyghai_unmask(uint32_t q, size_t length, const uint32_t *upload, size_t upload_len, const uint32_t *key, size_t key_len,
                          uint32_t *out, size_t out_len);

/*
 * An upload of signed readings, of which a negative one w travels as q + w. The cap stands in no record: users and server of a
 * pool are told the same one.
 *
 *     plan       U, V, T, R and q, all of them in their bounds
 *     cap        the most that a reading is away from 0; 2 x U x V x cap is below q
 *     readings   exactly L numbers from -cap to cap
 *
 * Refuses, the first that holds: 1, 2, 16, 9, 4, 15, 3 (key).
 */
uint64_t kortyghai_signed_upload(const uint32_t plan[KORTYGHAI_PLAN_NUMBERS], uint32_t cap, size_t length, const int32_t *readings,
                                 size_t readings_len, const uint32_t *key, size_t key_len, uint32_t *out, size_t out_len);

/*
 * Takes a key off such an upload: a symbol t is shown as t where 2 x t is below q, else as t - q. What is shown is not held
 * to the cap.
 *
 * Refuses, the first that holds: 1, 2, 16, 9, 4, 3.
 */
uint64_t kortyghai_signed_unmask(const uint32_t plan[KORTYGHAI_PLAN_NUMBERS], uint32_t cap, size_t length, const uint32_t *upload,
                                 size_t upload_len, const uint32_t *key, size_t key_len, int32_t *out, size_t out_len);

/*
 * A RELAY. Its state is counts (U, V, q, L and its cluster), the number r of its round, and for round r and for r + 1 a
 * number with one bit for each user who has reported (user v has bit v - 1) and 64 sums, 0 past the first L:
 *
 *     reported, sums   of round r
 *     ahead, held      of round r + 1, whose frames may come early
 *
 * A state that breaks a bound is refused before all else, the first that holds: 1, 2, 9, 8 (cluster, or a bit that is no
 * user's), 3 (in sums or held).
 *
 * Opens a round: reported and ahead become 0, and so do all 64 sums and all 64 held ones. What stood in them decides
 * nothing. Any number will do for the round, which the caller keeps. A round that a user stays away from has no sums, since only
 * all keys together sum to zero: to give it up, open the next, for which users send again what was held.
 *
 * Refuses, the first that holds: 1, 2, 9, 8 (cluster).
 */
uint64_t kortyghai_relay_open(const uint32_t counts[KORTYGHAI_RELAY_COUNTS], uint16_t *reported, uint32_t sums[KORTYGHAI_MAX_LENGTH],
                              uint16_t *ahead, uint32_t held[KORTYGHAI_MAX_LENGTH]);

/*
 * Counts a frame into round r or, where it says so, into r + 1.
 *
 *     sender   the user's number v, from 1 to V
 *     said     the round number that the frame has
 *     block    exactly L symbols, the user's upload
 *
 * A frame that is late (14, said is below r) need not be sent again where the relay has come to r by moving on: it does so only
 * after every user has reported.
 *
 * Refuses, the first that holds: the state's 1, 2, 9, 8, 3, then 8 (sender), 14 (said is neither round's number), 4, 3, 11.
 */
uint64_t kortyghai_relay_count(const uint32_t counts[KORTYGHAI_RELAY_COUNTS], uint32_t number, uint16_t *reported,
                               uint32_t sums[KORTYGHAI_MAX_LENGTH], uint16_t *ahead, uint32_t held[KORTYGHAI_MAX_LENGTH],
                               size_t sender, uint32_t said, const uint32_t *block, size_t block_len);

/*
 * Moves on to round r + 1, once every user has reported in r: number becomes r + 1, reported and sums become what stood in
 * ahead and held, and these become 0. Ask for the sums before, and keep them until the server has counted them: it hears no
 * round but its own, and refuses those of a relay that is ahead by 14.
 *
 * Refuses, the first that holds: the state's 1, 2, 9, 8, 3, then 14 (r is 4,294,967,295), 12.
 */
uint64_t kortyghai_relay_advance(const uint32_t counts[KORTYGHAI_RELAY_COUNTS], uint32_t *number, uint16_t *reported,
                                 uint32_t sums[KORTYGHAI_MAX_LENGTH], uint16_t *ahead, uint32_t held[KORTYGHAI_MAX_LENGTH]);

/*
 * The sums of round r, once every user has reported in it. The state stays as it is.
 *
 *     out   exactly L symbols: the sums are put there
 *
 * Refuses, the first that holds: the state's 1, 2, 9, 8, 3, then 12, 4 (out).
 */
uint64_t kortyghai_relay_give(const uint32_t counts[KORTYGHAI_RELAY_COUNTS], uint32_t number, uint16_t reported,
                              const uint32_t sums[KORTYGHAI_MAX_LENGTH], uint16_t ahead, const uint32_t held[KORTYGHAI_MAX_LENGTH],
                              uint32_t *out, size_t out_len);

/*
 * Saves the state right after the used bytes of a buffer. A save has D = 20 + 8 x L bytes: U, V, cluster and L in one byte
 * each; q and r in four; reported and ahead in two; L sums and L held ones in four each; D in two; 4B 52. Low bytes come
 * first.
 *
 *     out    the buffer; the bytes before the used ones' end and after the save stay as they are
 *     used   how many bytes are used; D is added to it
 *
 * Refuses, the first that holds: the state's 1, 2, 9, 8, 3, then 4 (fewer than D bytes free).
 */
uint64_t kortyghai_relay_save(const uint32_t counts[KORTYGHAI_RELAY_COUNTS], uint32_t number, uint16_t reported,
                              const uint32_t sums[KORTYGHAI_MAX_LENGTH], uint16_t ahead, const uint32_t held[KORTYGHAI_MAX_LENGTH],
                              uint8_t *out, size_t out_len, size_t *used);

/*
 * Comes back from a save. Users then send again what they sent since, the same symbols under the same key. A round that was full
 * is full again: its sums are given a second time, and the server refuses them by 11, or by 14 where it has gone on.
 *
 * A save that was broken off has no marks at its end: 5, whatever the steps. Pass the bytes up to the end of the save before
 * it. There is no checksum: bytes that were damaged but break no bound come back as they are. U, V, q, L and the cluster are
 * the save's own: compare them with the plan in use.
 *
 *     saved   the used bytes alone, which end with the last save
 *     steps   how many saves back, 0 for the last
 *     others  the state is put there
 *
 * Refuses, the first that holds: 5 (at this save or one on the way: no room for a trailer, another mark, D under 20, or a
 * step beyond the first), 1, 9, 4 (D is not that of L), 2, 8, 3.
 */
uint64_t kortyghai_relay_restore(const uint8_t *saved, size_t saved_len, size_t steps, uint32_t counts[KORTYGHAI_RELAY_COUNTS],
                                 uint32_t *number, uint16_t *reported, uint32_t sums[KORTYGHAI_MAX_LENGTH], uint16_t *ahead,
                                 uint32_t held[KORTYGHAI_MAX_LENGTH]);

/*
 * THE SERVER. Its state is counts (U, V, q and L), the number of its round, one bit for each relay that has reported (relay
 * u has bit u - 1) and 64 sums, 0 past the first L. A state that breaks a bound is refused before all else, the first that
 * holds: 1, 2, 9, 8 (a bit that is no relay's), 3.
 *
 * Opens a round: reported and all 64 sums become 0. Refuses, the first that holds: 1, 2, 9.
 */
uint64_t kortyghai_server_open(const uint32_t counts[KORTYGHAI_SERVER_COUNTS], uint16_t *reported,
                               uint32_t sums[KORTYGHAI_MAX_LENGTH]);

/*
 * Counts a relay's sums into the round.
 *
 *     sender   the relay's number u, from 1 to U
 *     said     the round number that the frame has
 *     block    exactly L symbols
 *
 * Refuses, the first that holds: the state's 1, 2, 9, 8, 3, then 8 (sender), 14 (another round), 4, 3, 11.
 */
uint64_t kortyghai_server_count(const uint32_t counts[KORTYGHAI_SERVER_COUNTS], uint32_t number, uint16_t *reported,
                                uint32_t sums[KORTYGHAI_MAX_LENGTH], size_t sender, uint32_t said, const uint32_t *block,
                                size_t block_len);

/*
 * The total, once every relay has reported. out: exactly L symbols, which get it. The state stays as it is.
 *
 * Refuses, the first that holds: the state's 1, 2, 9, 8, 3, then 12, 4 (out).
 */
uint64_t kortyghai_server_give(const uint32_t counts[KORTYGHAI_SERVER_COUNTS], uint32_t number, uint16_t reported,
                               const uint32_t sums[KORTYGHAI_MAX_LENGTH], uint32_t *out, size_t out_len);

/*
 * Totals as signed numbers: t where 2 x t is below q, else t - q. Where all readings were inside the cap it is their true
 * sum.
 *
 *     totals   exactly L symbols
 *     out      exactly L numbers: what is shown is put there
 *
 * Refuses, the first that holds: 1, 2, 16, 9, 4, 3.
 */
uint64_t kortyghai_show_totals(const uint32_t plan[KORTYGHAI_PLAN_NUMBERS], uint32_t cap, size_t length, const uint32_t *totals,
                               size_t totals_len, int32_t *out, size_t out_len);

/*
 * A window over the last totals. Its state is its span, from 1 to 96; how many totals it holds; their sum; and 96 places
 * with the totals, oldest first, and 0 past them. Blocks of L positions need L windows. 17, before all else, where the span is
 * outside 1 to 96, or where no run of totals leaves such a state.
 *
 * Opens a window: held, sum and all 96 places become 0. Refuses: 17 (span).
 */
uint64_t kortyghai_window_open(size_t span, size_t *held, int64_t *sum, int32_t totals[KORTYGHAI_MAX_SPAN]);

/* One total more; the oldest goes where the window is full. Refuses: 17. */
uint64_t kortyghai_window_push(size_t span, size_t *held, int64_t *sum, int32_t totals[KORTYGHAI_MAX_SPAN], int32_t total);

/* The sum of the totals held, which is 0 of none, into out. Refuses: 17. */
uint64_t kortyghai_window_sum(size_t span, size_t held, int64_t sum, const int32_t totals[KORTYGHAI_MAX_SPAN], int64_t *out);

/* The largest of the totals held, into out. Refuses, the first that holds: 17, 12 (there is none). */
uint64_t kortyghai_window_largest(size_t span, size_t held, int64_t sum, const int32_t totals[KORTYGHAI_MAX_SPAN], int32_t *out);

/*
 * A CYCLIC NETWORK. User k, from 1 to K, is linked to the relays k, k - 1 and so on, d of them, wrapping from 1 to K.
 * counts: K, d, n, R and q. weights: user by user, and for its relays in that order, n coefficients for the reading and one
 * for the key; K x d x (n + 1) in all. table: K rows of R symbols, which need not sum to zero. A user's key is its row
 * times the R source symbols.
 *
 * The vet: each relay's uploads and the server's K sums, without a coalition. The server may learn all n totals.
 *
 * Refuses, the first that holds: 1, 22, 4 (table or weights), 2, 3, 7 (first: 0; second: the first relay that leaks, or 0).
 */
uint64_t kortyghai_network_vet(const uint32_t counts[KORTYGHAI_RING_NUMBERS], const uint32_t *table, size_t table_len,
                               const uint32_t *weights, size_t weights_len);

/*
 * What user `user` sends to relay `relay`, both from 1: the combination of its reading, exactly n symbols, and its key,
 * into out.
 *
 * Refuses, the first that holds: 1, 22, 4 (weights or reading), 2, 3, 8 (no such user or relay, or they are not linked).
 */
uint64_t kortyghai_network_upload(const uint32_t counts[KORTYGHAI_RING_NUMBERS], const uint32_t *weights, size_t weights_len,
                                  size_t user, size_t relay, const uint32_t *reading, size_t reading_len, uint32_t key,
                                  uint32_t *out);

/* A relay's sum of its uploads, exactly d symbols, into out. Refuses, the first that holds: 1, 22, 4, 2, 3. */
uint64_t kortyghai_network_sum(const uint32_t counts[KORTYGHAI_RING_NUMBERS], const uint32_t *uploads, size_t uploads_len,
                               uint32_t *out);

/*
 * The totals, at the server, from the relays that have arrived.
 *
 *     reported   relay j has bit j - 1
 *     sums       exactly K numbers; those of relays that have not arrived are not looked at
 *     out        exactly n symbols: the totals are put there
 *
 * Refuses, the first that holds: 1, 22, 4 (table, weights, sums or out), 2, 3, 8 (a bit outside K), 23.
 */
uint64_t kortyghai_network_decode(const uint32_t counts[KORTYGHAI_RING_NUMBERS], const uint32_t *table, size_t table_len,
                                  const uint32_t *weights, size_t weights_len, uint16_t reported, const uint32_t *sums,
                                  size_t sums_len, uint32_t *out, size_t out_len);

/*
 * A POOL ON PAPER: rounds of a plan with keys and readings from a small generator, to see the numbers before the first user
 * is there. It starts from state 1; the state becomes state x 1,103,515,245 + 12,345 modulo 2^32, and the value drawn is
 * state / 65,536 modulo 32,768. A round draws R source symbols, a value modulo q each; then the users' readings in index
 * order, a value modulo cap + 1 each; then who sends next, a value modulo the number of users still owing, counted from 0
 * in index order. Such keys hide nothing.
 *
 * Opens a run from the bytes that the program `simulate` reads: the cap in four bytes and the number of rounds in four, low
 * byte first, and then a plan record, before which other bytes may stand. It vets the plan, once.
 *
 *     plan    U, V, T, R and q are put there
 *     table   256 places: the key table is put there, and 0 past it
 *     run     the cap, the number of rounds, 1 for the next round and 1 for the generator's state are put there
 *
 * Refuses, the first that holds: 4 (more than 65,535 bytes, or under eight), 18, then as the reader of records 5, 1, 4, 2,
 * 3, then 16, then as the vet 6, 7.
 */
uint64_t kortyghai_paper_open(const uint8_t *bytes, size_t bytes_len, uint32_t plan[KORTYGHAI_PLAN_NUMBERS],
                              uint32_t table[KORTYGHAI_MAX_TABLE], uint32_t run[KORTYGHAI_PAPER_NUMBERS]);

/*
 * The next round and its line of text: the round's number, the index of the user who sends last, relay 1's sum, the sum of
 * the readings alone, and the total that the server shows, with single spaces and a line end. There is no 0 byte behind it
 * where all 56 places are used.
 *
 *     run      its round's number goes up by 1, and the generator's state goes on
 *     line     56 places: the text is put there, and 0 past it
 *     length   how many bytes it has is put there
 *
 * A run that is handed over may be anything; its table is not vetted again, and what stands past its U x V x R symbols decides
 * nothing. Refuses, the first that holds: 18 (rounds outside 1 to 10,000, or the number is none of them, as after the last
 * round), 1, 2, 3 (table), 16.
 */
uint64_t kortyghai_paper_line(const uint32_t plan[KORTYGHAI_PLAN_NUMBERS], const uint32_t table[KORTYGHAI_MAX_TABLE],
                              uint32_t run[KORTYGHAI_PAPER_NUMBERS], uint8_t line[KORTYGHAI_MAX_LINE], size_t *length);

/*
 * ==== structs, and the same functions over them ====
 *
 * The structs are C's own: the functions pass addresses of their members, so that the archive assumes nothing of their
 * layout. A struct filled with zeros is refused by every function but those that fill it (of a stream, whose address is the
 * caller's to set, nothing can be said). kortyghai_vet_record and kortyghai_check_prime take bytes or a number alone and have no
 * such function.
 */

struct kortyghai_plan {
    uint32_t numbers[KORTYGHAI_PLAN_NUMBERS]; /* KORTYGHAI_PLAN_CLUSTERS to KORTYGHAI_PLAN_Q */
};

/* A plan and its key table, whose first U x V x R symbols count. */
struct kortyghai_key_table {
    struct kortyghai_plan plan;
    uint32_t symbols[KORTYGHAI_MAX_TABLE];
};

/* A key stream that the caller keeps, and its position. */
struct kortyghai_stream {
    const uint32_t *symbols;
    size_t count;
    size_t position;
};

struct kortyghai_stock {
    size_t pools;
    size_t reserves[KORTYGHAI_MAX_POOLS];
    size_t limits[KORTYGHAI_MAX_POOLS];
    size_t drawn[KORTYGHAI_MAX_POOLS];
};

struct kortyghai_relay {
    uint32_t counts[KORTYGHAI_RELAY_COUNTS]; /* KORTYGHAI_ROUND_CLUSTERS to KORTYGHAI_ROUND_CLUSTER */
    uint32_t number;
    uint32_t sums[KORTYGHAI_MAX_LENGTH];
    uint32_t held[KORTYGHAI_MAX_LENGTH];
    uint16_t reported;
    uint16_t ahead;
};

struct kortyghai_server {
    uint32_t counts[KORTYGHAI_SERVER_COUNTS]; /* KORTYGHAI_ROUND_CLUSTERS to KORTYGHAI_ROUND_LENGTH */
    uint32_t number;
    uint32_t sums[KORTYGHAI_MAX_LENGTH];
    uint16_t reported;
    uint16_t unused;
};

struct kortyghai_window {
    size_t span;
    size_t held;
    int64_t sum;
    int32_t totals[KORTYGHAI_MAX_SPAN];
};

struct kortyghai_ring {
    uint32_t numbers[KORTYGHAI_RING_NUMBERS]; /* KORTYGHAI_RING_SIZE to KORTYGHAI_RING_Q */
};

/* A ring with its key table and its coefficients. */
struct kortyghai_network {
    struct kortyghai_ring ring;
    uint32_t table[KORTYGHAI_MAX_RING_TABLE];
    uint32_t weights[KORTYGHAI_MAX_WEIGHTS];
};

/* A run on paper: a plan and its key table with 0 past it, and where the run stands. */
struct kortyghai_paper {
    struct kortyghai_key_table table;
    uint32_t numbers[KORTYGHAI_PAPER_NUMBERS]; /* KORTYGHAI_PAPER_CAP to KORTYGHAI_PAPER_STATE */
};

KORTYGHAI_STATIC_ASSERT(sizeof(size_t) == 8, "the archive's lengths have 64 bits");
KORTYGHAI_STATIC_ASSERT(sizeof(void *) == 8, "the archive's addresses have 64 bits");
KORTYGHAI_STATIC_ASSERT(sizeof(struct kortyghai_plan) == 20, "five numbers");
KORTYGHAI_STATIC_ASSERT(sizeof(struct kortyghai_key_table) == 20 + 1024, "a plan and 256 symbols");
KORTYGHAI_STATIC_ASSERT(sizeof(struct kortyghai_stream) == 24, "an address, a length and a position");
KORTYGHAI_STATIC_ASSERT(sizeof(struct kortyghai_stock) == 8 + 3 * 64, "a count and three rows of eight");
KORTYGHAI_STATIC_ASSERT(sizeof(struct kortyghai_relay) == 20 + 4 + 2 * 256 + 4, "counts, number, two rows of sums, two rolls");
KORTYGHAI_STATIC_ASSERT(sizeof(struct kortyghai_server) == 16 + 4 + 256 + 4, "counts, number, a row of sums, a roll");
KORTYGHAI_STATIC_ASSERT(sizeof(struct kortyghai_window) == 24 + 384, "span, held, sum and 96 places");
KORTYGHAI_STATIC_ASSERT(sizeof(struct kortyghai_ring) == 20, "five numbers");
KORTYGHAI_STATIC_ASSERT(sizeof(struct kortyghai_network) == 20 + 512 + 1280, "a ring, its table and its coefficients");
KORTYGHAI_STATIC_ASSERT(sizeof(struct kortyghai_paper) == 20 + 1024 + 16, "a plan, 256 symbols and four numbers");

/* A length that a buffer of so many places has room for, and 0 for a longer one, which is refused before any length is looked at. */
static inline size_t kty_room(uint64_t wanted, size_t most) {
    return wanted <= most ? (size_t)wanted : 0;
}

/* U x V, and how many symbols the key table of a plan has; 0 where there are too many for any plan. */
static inline size_t kty_users(const struct kortyghai_plan *plan) {
    return kty_room((uint64_t)plan->numbers[KORTYGHAI_PLAN_CLUSTERS] * plan->numbers[KORTYGHAI_PLAN_SIZE], KORTYGHAI_MAX_USERS);
}

static inline size_t kty_symbols(const struct kortyghai_plan *plan) {
    return kty_room((uint64_t)kty_users(plan) * plan->numbers[KORTYGHAI_PLAN_RATE], KORTYGHAI_MAX_TABLE);
}

/* How many bytes the record of a plan has. */
static inline size_t kty_record_size(const struct kortyghai_plan *plan) {
    size_t width = plan->numbers[KORTYGHAI_PLAN_Q] < 65536 ? 2 : 4;
    return 8 + width + width * kty_symbols(plan);
}

/* How many bytes a save of a round with blocks of so many positions has. */
static inline size_t kty_save_size(size_t length) {
    return KORTYGHAI_SAVE_BYTES(kty_room(length, KORTYGHAI_MAX_LENGTH));
}

/* ---- the planner ---- */

static inline uint64_t kty_vet(const struct kortyghai_key_table *table) {
    return kortyghai_vet(table->plan.numbers, table->symbols, kty_symbols(&table->plan));
}

static inline uint64_t kty_vet_joint(const struct kortyghai_key_table *table, size_t first, size_t second, uint32_t *looked) {
    return kortyghai_vet_joint(table->plan.numbers, table->symbols, kty_symbols(&table->plan), first, second, looked);
}

static inline uint64_t kty_count_pairs(const struct kortyghai_plan *plan, uint32_t *out) {
    return kortyghai_count_pairs(plan->numbers[KORTYGHAI_PLAN_CLUSTERS], plan->numbers[KORTYGHAI_PLAN_SIZE],
                                 plan->numbers[KORTYGHAI_PLAN_LIMIT], out);
}

static inline uint64_t kty_rate(const struct kortyghai_plan *plan, size_t *out) {
    return kortyghai_rate(plan->numbers[KORTYGHAI_PLAN_CLUSTERS], plan->numbers[KORTYGHAI_PLAN_SIZE],
                          plan->numbers[KORTYGHAI_PLAN_LIMIT], out);
}

/*
 * Fill in U, V, T and q of the plan; the call puts R and the table there. Where no rate is to be had, the maker refuses the
 * counts themselves before it looks at the length.
 */
static inline uint64_t kty_make_table(struct kortyghai_key_table *table, uint32_t generator) {
    size_t rate = 0, symbols;
    if (kty_rate(&table->plan, &rate) != 0) rate = 0;
    symbols = kty_room((uint64_t)kty_users(&table->plan) * rate, KORTYGHAI_MAX_TABLE);
    return kortyghai_make_table(table->plan.numbers, generator, table->symbols, symbols);
}

static inline uint64_t kty_read_record(struct kortyghai_key_table *table, const uint8_t *bytes, size_t bytes_len) {
    return kortyghai_read_record(bytes, bytes_len, table->plan.numbers, table->symbols, KORTYGHAI_MAX_TABLE);
}

/* out_len is kty_record_size(&table->plan). */
static inline uint64_t kty_write_record(const struct kortyghai_key_table *table, uint8_t *out, size_t out_len) {
    return kortyghai_write_record(table->plan.numbers, table->symbols, kty_symbols(&table->plan), out, out_len);
}

/* ---- whoever deals keys ---- */

/* source_len is R x L, keys_len U x V x L. */
static inline uint64_t kty_derive_keys(const struct kortyghai_key_table *table, size_t length, const uint32_t *source,
                                       size_t source_len, uint32_t *keys, size_t keys_len) {
    return kortyghai_derive_keys(table->plan.numbers, table->symbols, kty_symbols(&table->plan), length, source, source_len, keys,
                                 keys_len);
}

/* out has room for so many symbols as are drawn. */
static inline uint64_t kty_draw(struct kortyghai_stream *stream, size_t length, uint32_t *out) {
    return kortyghai_draw(stream->symbols, stream->count, &stream->position, length, out, kty_room(length, KORTYGHAI_MAX_LENGTH));
}

/* shares and most have so many numbers as there are pools. */
static inline uint64_t kty_stock_open(struct kortyghai_stock *stock, size_t pools, const size_t *shares, const size_t *most,
                                      const uint32_t *stream, size_t stream_len) {
    size_t count = kty_room(pools, KORTYGHAI_MAX_POOLS);
    uint64_t answer = kortyghai_stock_open(pools, shares, count, most, count, stream, stream_len, stock->reserves, stock->limits,
                                           stock->drawn);
    if (answer == 0) stock->pools = pools;
    return answer;
}

static inline uint64_t kty_stock_draw(struct kortyghai_stock *stock, const uint32_t *stream, size_t stream_len, size_t pool,
                                      size_t length, uint32_t *out) {
    return kortyghai_stock_draw(stock->pools, stock->reserves, stock->limits, stock->drawn, stream, stream_len, pool, length, out,
                                kty_room(length, KORTYGHAI_MAX_LENGTH));
}

/* ---- a user: all blocks have so many positions as length says ---- */

static inline uint64_t kty_upload(const struct kortyghai_plan *plan, size_t length, const uint32_t *readings, const uint32_t *key,
                                  uint32_t *out) {
    size_t room = kty_room(length, KORTYGHAI_MAX_LENGTH);
    return kortyghai_upload(plan->numbers[KORTYGHAI_PLAN_Q], length, readings, room, key, room, out, room);
}

static inline uint64_t kty_unmask(const struct kortyghai_plan *plan, size_t length, const uint32_t *upload, const uint32_t *key,
                                  uint32_t *out) {
    size_t room = kty_room(length, KORTYGHAI_MAX_LENGTH);
    return kortyghai_unmask(plan->numbers[KORTYGHAI_PLAN_Q], length, upload, room, key, room, out, room);
}

static inline uint64_t kty_signed_upload(const struct kortyghai_plan *plan, uint32_t cap, size_t length, const int32_t *readings,
                                         const uint32_t *key, uint32_t *out) {
    size_t room = kty_room(length, KORTYGHAI_MAX_LENGTH);
    return kortyghai_signed_upload(plan->numbers, cap, length, readings, room, key, room, out, room);
}

static inline uint64_t kty_signed_unmask(const struct kortyghai_plan *plan, uint32_t cap, size_t length, const uint32_t *upload,
                                         const uint32_t *key, int32_t *out) {
    size_t room = kty_room(length, KORTYGHAI_MAX_LENGTH);
    return kortyghai_signed_unmask(plan->numbers, cap, length, upload, room, key, room, out, room);
}

static inline uint64_t kty_show_totals(const struct kortyghai_plan *plan, uint32_t cap, size_t length, const uint32_t *totals,
                                       int32_t *out) {
    size_t room = kty_room(length, KORTYGHAI_MAX_LENGTH);
    return kortyghai_show_totals(plan->numbers, cap, length, totals, room, out, room);
}

/* ---- a relay ---- */

/* Opens round `number` of the relay of a cluster. Of the plan, U, V and q are looked at. A refused call leaves the relay as it was. */
static inline uint64_t kty_relay_open(struct kortyghai_relay *relay, const struct kortyghai_plan *plan, uint32_t length,
                                      uint32_t cluster, uint32_t number) {
    uint64_t answer;
    uint32_t counts[KORTYGHAI_RELAY_COUNTS];
    int i;
    counts[KORTYGHAI_ROUND_CLUSTERS] = plan->numbers[KORTYGHAI_PLAN_CLUSTERS];
    counts[KORTYGHAI_ROUND_SIZE] = plan->numbers[KORTYGHAI_PLAN_SIZE];
    counts[KORTYGHAI_ROUND_Q] = plan->numbers[KORTYGHAI_PLAN_Q];
    counts[KORTYGHAI_ROUND_LENGTH] = length;
    counts[KORTYGHAI_ROUND_CLUSTER] = cluster;
    answer = kortyghai_relay_open(counts, &relay->reported, relay->sums, &relay->ahead, relay->held);
    if (answer != 0) return answer;
    for (i = 0; i < KORTYGHAI_RELAY_COUNTS; i++) relay->counts[i] = counts[i];
    relay->number = number;
    return answer;
}

static inline uint64_t kty_relay_count(struct kortyghai_relay *relay, size_t sender, uint32_t said, const uint32_t *block,
                                       size_t block_len) {
    return kortyghai_relay_count(relay->counts, relay->number, &relay->reported, relay->sums, &relay->ahead, relay->held, sender, said,
                                 block, block_len);
}

static inline uint64_t kty_relay_advance(struct kortyghai_relay *relay) {
    return kortyghai_relay_advance(relay->counts, &relay->number, &relay->reported, relay->sums, &relay->ahead, relay->held);
}

static inline uint64_t kty_relay_give(const struct kortyghai_relay *relay, uint32_t *out, size_t out_len) {
    return kortyghai_relay_give(relay->counts, relay->number, relay->reported, relay->sums, relay->ahead, relay->held, out, out_len);
}

static inline uint64_t kty_relay_save(const struct kortyghai_relay *relay, uint8_t *out, size_t out_len, size_t *used) {
    return kortyghai_relay_save(relay->counts, relay->number, relay->reported, relay->sums, relay->ahead, relay->held, out, out_len,
                                used);
}

static inline uint64_t kty_relay_restore(struct kortyghai_relay *relay, const uint8_t *saved, size_t saved_len, size_t steps) {
    return kortyghai_relay_restore(saved, saved_len, steps, relay->counts, &relay->number, &relay->reported, relay->sums,
                                   &relay->ahead, relay->held);
}

/* ---- the server ---- */

/* Opens round `number`. Of the plan, U, V and q are looked at. A refused call leaves the server as it was. */
static inline uint64_t kty_server_open(struct kortyghai_server *server, const struct kortyghai_plan *plan, uint32_t length,
                                       uint32_t number) {
    uint64_t answer;
    uint32_t counts[KORTYGHAI_SERVER_COUNTS];
    int i;
    counts[KORTYGHAI_ROUND_CLUSTERS] = plan->numbers[KORTYGHAI_PLAN_CLUSTERS];
    counts[KORTYGHAI_ROUND_SIZE] = plan->numbers[KORTYGHAI_PLAN_SIZE];
    counts[KORTYGHAI_ROUND_Q] = plan->numbers[KORTYGHAI_PLAN_Q];
    counts[KORTYGHAI_ROUND_LENGTH] = length;
    answer = kortyghai_server_open(counts, &server->reported, server->sums);
    if (answer != 0) return answer;
    for (i = 0; i < KORTYGHAI_SERVER_COUNTS; i++) server->counts[i] = counts[i];
    server->number = number;
    return answer;
}

static inline uint64_t kty_server_count(struct kortyghai_server *server, size_t sender, uint32_t said, const uint32_t *block,
                                        size_t block_len) {
    return kortyghai_server_count(server->counts, server->number, &server->reported, server->sums, sender, said, block, block_len);
}

static inline uint64_t kty_server_give(const struct kortyghai_server *server, uint32_t *out, size_t out_len) {
    return kortyghai_server_give(server->counts, server->number, server->reported, server->sums, out, out_len);
}

/* ---- a window ---- */

static inline uint64_t kty_window_open(struct kortyghai_window *window, size_t span) {
    uint64_t answer = kortyghai_window_open(span, &window->held, &window->sum, window->totals);
    if (answer == 0) window->span = span;
    return answer;
}

static inline uint64_t kty_window_push(struct kortyghai_window *window, int32_t total) {
    return kortyghai_window_push(window->span, &window->held, &window->sum, window->totals, total);
}

static inline uint64_t kty_window_sum(const struct kortyghai_window *window, int64_t *out) {
    return kortyghai_window_sum(window->span, window->held, window->sum, window->totals, out);
}

static inline uint64_t kty_window_largest(const struct kortyghai_window *window, int32_t *out) {
    return kortyghai_window_largest(window->span, window->held, window->sum, window->totals, out);
}

/* ---- a cyclic network ---- */

static inline size_t kty_ring_symbols(const struct kortyghai_ring *ring) {
    return kty_room((uint64_t)ring->numbers[KORTYGHAI_RING_SIZE] * ring->numbers[KORTYGHAI_RING_RATE], KORTYGHAI_MAX_RING_TABLE);
}

static inline size_t kty_ring_weights(const struct kortyghai_ring *ring) {
    size_t links = kty_room((uint64_t)ring->numbers[KORTYGHAI_RING_SIZE] * ring->numbers[KORTYGHAI_RING_LINKS],
                            KORTYGHAI_MAX_RING * KORTYGHAI_MAX_RING);
    return kty_room(links * ((uint64_t)ring->numbers[KORTYGHAI_RING_PARTS] + 1), KORTYGHAI_MAX_WEIGHTS);
}

static inline uint64_t kty_network_vet(const struct kortyghai_network *network) {
    return kortyghai_network_vet(network->ring.numbers, network->table, kty_ring_symbols(&network->ring), network->weights,
                                 kty_ring_weights(&network->ring));
}

/* reading has n symbols. */
static inline uint64_t kty_network_upload(const struct kortyghai_network *network, size_t user, size_t relay, const uint32_t *reading,
                                          uint32_t key, uint32_t *out) {
    size_t parts = kty_room(network->ring.numbers[KORTYGHAI_RING_PARTS], KORTYGHAI_MAX_PARTS);
    return kortyghai_network_upload(network->ring.numbers, network->weights, kty_ring_weights(&network->ring), user, relay, reading,
                                    parts, key, out);
}

/* uploads has d symbols. */
static inline uint64_t kty_network_sum(const struct kortyghai_ring *ring, const uint32_t *uploads, uint32_t *out) {
    return kortyghai_network_sum(ring->numbers, uploads, kty_room(ring->numbers[KORTYGHAI_RING_LINKS], KORTYGHAI_MAX_RING), out);
}

/* sums has K numbers, out n. */
static inline uint64_t kty_network_decode(const struct kortyghai_network *network, uint16_t reported, const uint32_t *sums,
                                          uint32_t *out) {
    const uint32_t *numbers = network->ring.numbers;
    return kortyghai_network_decode(numbers, network->table, kty_ring_symbols(&network->ring), network->weights,
                                    kty_ring_weights(&network->ring), reported, sums,
                                    kty_room(numbers[KORTYGHAI_RING_SIZE], KORTYGHAI_MAX_RING), out,
                                    kty_room(numbers[KORTYGHAI_RING_PARTS], KORTYGHAI_MAX_PARTS));
}

/* ---- a pool on paper ---- */

static inline uint64_t kty_paper_open(struct kortyghai_paper *paper, const uint8_t *bytes, size_t bytes_len) {
    return kortyghai_paper_open(bytes, bytes_len, paper->table.plan.numbers, paper->table.symbols, paper->numbers);
}

static inline uint64_t kty_paper_line(struct kortyghai_paper *paper, uint8_t line[KORTYGHAI_MAX_LINE], size_t *length) {
    return kortyghai_paper_line(paper->table.plan.numbers, paper->table.symbols, paper->numbers, line, length);
}

#ifdef __cplusplus
}
#endif

#endif
