/* Uploads, keys taken off, signed ones, and totals shown. */
#include "harness.h"

enum { ROOM = 66 };

struct block_call {
    uint32_t mark0;
    struct kortyghai_plan plan;
    uint32_t cap, mark1;
    size_t length, a_len, key_len, out_len;
    uint32_t a[ROOM], mark2, key[ROOM], mark3, out[ROOM], mark4;
    int32_t readings[ROOM], mark5, shown[ROOM], mark6;
};

/* Half the readings' caps are the largest that fits. */
static void some_blocks(struct block_call *x) {
    uint32_t *plan = x->plan.numbers, largest;
    some_shape(&plan[0], &plan[1], 16);
    plan[2] = (uint32_t)below(plan[0] * plan[1] + 1);
    plan[3] = (uint32_t)between(1, 16);
    plan[4] = some_prime();
    largest = (plan[4] - 1) / (2 * plan[0] * plan[1]);
    x->cap = once_in(2) || largest == 0 ? largest : (uint32_t)between(1, largest);
    x->length = once_in(3) ? between(1, 64) : between(1, 9);
    x->a_len = x->key_len = x->out_len = x->length;
    some_symbols(plan[4], x->a, x->length);
    some_symbols(plan[4], x->key, x->length);
    for (size_t p = 0; p < ROOM; p++) {
        int64_t reading = (int64_t)below(2 * (size_t)x->cap + 1) - x->cap;
        x->readings[p] = (int32_t)(once_in(4) ? (once_in(2) ? x->cap : -(int64_t)x->cap) : reading);
    }
}

static int32_t outside(uint32_t cap) {
    switch (below(4)) {
    case 0: return INT32_MIN;
    case 1: return INT32_MAX;
    case 2: return cap < INT32_MAX ? (int32_t)cap + 1 : INT32_MAX;
    default: return cap < INT32_MAX ? -(int32_t)cap - 1 : INT32_MIN;
    }
}

static void damage_blocks(struct block_call *x) {
    uint32_t *plan = x->plan.numbers;
    size_t place = x->length >= 1 && x->length <= 64 ? below(x->length) : 0;
    switch (below(10)) {
    case 0: plan[below(4)] = wrong_count(16); break;
    case 1: plan[4] = no_prime(); break;
    case 2: x->cap = once_in(2) ? x->cap + 1 : 0; break;
    case 3: x->cap = (uint32_t)draw_number(); break;
    case 4: x->length = once_in(2) ? 0 : once_in(2) ? 65 : SIZE_MAX; break;
    case 5: x->a_len = wrong_length(x->a_len, ROOM); break;
    case 6: x->key_len = wrong_length(x->key_len, ROOM); break;
    case 7: x->out_len = wrong_length(x->out_len, ROOM); break;
    case 8: x->readings[place] = outside(x->cap); break;
    default: *(once_in(2) ? &x->a[place] : &x->key[place]) = plan[4] + (uint32_t)below(2); break;
    }
}

static void plain(struct block_call *x) {
    BOTH(UPLOAD, struct block_call, x, upload, c->plan.numbers[4], c->length, c->a, c->a_len, c->key, c->key_len, c->out, c->out_len);
    BOTH(UNMASK, struct block_call, x, unmask, c->plan.numbers[4], c->length, c->a, c->a_len, c->key, c->key_len, c->out, c->out_len);
}

static void with_sign(struct block_call *x) {
    BOTH(SIGNED_UPLOAD, struct block_call, x, signed_upload, c->plan.numbers, c->cap, c->length, c->readings, c->a_len, c->key, c->key_len,
         c->out, c->out_len);
    BOTH(SIGNED_UNMASK, struct block_call, x, signed_unmask, c->plan.numbers, c->cap, c->length, c->a, c->a_len, c->key, c->key_len, c->shown,
         c->out_len);
    BOTH(SHOW_TOTALS, struct block_call, x, show_totals, c->plan.numbers, c->cap, c->length, c->a, c->a_len, c->shown, c->out_len);
}

/* The same calls over a plan, with one length for all blocks. */
static void over_struct(struct block_call *x) {
    x->a_len = x->key_len = x->out_len = x->length;
    TYPED(UPLOAD, struct block_call, x, upload, kty_upload(&c->plan, c->length, c->a, c->key, c->out), c->plan.numbers[4], c->length, c->a,
          c->a_len, c->key, c->key_len, c->out, c->out_len);
    TYPED(UNMASK, struct block_call, x, unmask, kty_unmask(&c->plan, c->length, c->a, c->key, c->out), c->plan.numbers[4], c->length, c->a,
          c->a_len, c->key, c->key_len, c->out, c->out_len);
    TYPED(SIGNED_UPLOAD, struct block_call, x, signed_upload, kty_signed_upload(&c->plan, c->cap, c->length, c->readings, c->key, c->out),
          c->plan.numbers, c->cap, c->length, c->readings, c->a_len, c->key, c->key_len, c->out, c->out_len);
    TYPED(SIGNED_UNMASK, struct block_call, x, signed_unmask, kty_signed_unmask(&c->plan, c->cap, c->length, c->a, c->key, c->shown),
          c->plan.numbers, c->cap, c->length, c->a, c->a_len, c->key, c->key_len, c->shown, c->out_len);
    TYPED(SHOW_TOTALS, struct block_call, x, show_totals, kty_show_totals(&c->plan, c->cap, c->length, c->a, c->shown), c->plan.numbers,
          c->cap, c->length, c->a, c->a_len, c->shown, c->out_len);
}

/* What is masked comes back. */
static void back_again(struct block_call *x) {
    struct block_call sent = *x;
    if (kty_signed_upload(&sent.plan, sent.cap, sent.length, sent.readings, sent.key, sent.out) != 0) return;
    memcpy(sent.a, sent.out, sizeof sent.a);
    BOTH(SIGNED_UNMASK, struct block_call, &sent, signed_unmask, c->plan.numbers, c->cap, c->length, c->a, c->length, c->key, c->length,
         c->shown, c->length);
    check(memcmp(sent.shown, sent.readings, sent.length * sizeof *sent.shown) == 0, "taking a key off gives the readings back", __LINE__);
}

void try_user(void) {
    struct block_call x;
    MARK(&x);
    some_blocks(&x);
    for (size_t damages = below(4); damages > 0; damages--) damage_blocks(&x);
    plain(&x);
    with_sign(&x);
    over_struct(&x);
    back_again(&x);
}
