/*
 * A relay's firmware (the papers' gateway), and a day to try it on.
 *
 *     gcc -std=c11 -O2 c/relay.c target/staticlib/libkortyghai.a -o c/build/relay && c/build/relay
 *
 * The first half is the firmware: no heap, no stdio, bytes of a radio in, bytes of a flash in and out. The second half is
 * its bench: three users, three rounds, early, late, repeated and damaged frames and two power cuts. The exit status is 0
 * where every answer and every sum is as worked out beforehand, and else 1.
 */
#include "kortyghai.h"

/* ==== the firmware ==== */

enum {
    LENGTH = 2,                         /* L, positions of a block */
    HEAD = 5,                           /* a frame: sender in one byte, round in four, .. */
    SYMBOL = 4,                         /* .. and so many bytes for each of L symbols; low bytes come first */
    FRAME = HEAD + LENGTH * SYMBOL,
    SAVE = KORTYGHAI_SAVE_BYTES(LENGTH),
    BANK = 4 * SAVE,                    /* of flash: a few saves, to be erased together */
    BANKS = 2                           /* so that one holds the last save while the other is erased */
};
static const uint8_t ERASED = 0xFF;

/* What a power cut leaves. */
struct flash {
    uint8_t bank[BANKS][BANK];
};

/* What a power cut takes: the round, and where the next save goes. */
struct device {
    struct kortyghai_relay relay;
    unsigned bank;
    size_t used;
};

/*
 * The way to the server: one frame, with the cluster as its sender and the sums as its symbols. Whoever sends it keeps it until
 * the server has counted it: a round that the relay has moved on from is gone here, and the server hears no round but its own.
 */
typedef void send_function(const uint8_t frame[FRAME]);

static uint32_t get_low_first(const uint8_t *bytes) {
    return bytes[0] | (uint32_t)bytes[1] << 8 | (uint32_t)bytes[2] << 16 | (uint32_t)bytes[3] << 24;
}

static void put_frame(uint8_t frame[FRAME], uint8_t sender, uint32_t round, const uint32_t symbols[LENGTH]) {
    frame[0] = sender;
    for (int i = 0; i < 4; i++) frame[1 + i] = (uint8_t)(round >> 8 * i);
    for (int i = 0; i < LENGTH * SYMBOL; i++) frame[HEAD + i] = (uint8_t)(symbols[i / SYMBOL] >> 8 * (i % SYMBOL));
}

/* Saves the round behind the last save. A bank without room answers 4: then the other one is erased and begun. */
static uint64_t save(struct device *device, struct flash *flash) {
    uint64_t answer = kty_relay_save(&device->relay, flash->bank[device->bank], BANK, &device->used);
    if (kortyghai_number(answer) != KORTYGHAI_WRONG_LENGTH) return answer;
    device->bank = 1 - device->bank;
    device->used = 0;
    for (size_t i = 0; i < BANK; i++) flash->bank[device->bank][i] = ERASED;
    return kty_relay_save(&device->relay, flash->bank[device->bank], BANK, &device->used);
}

/* Sends the sums of a round that is full and moves on; early frames can have filled the next one as well. */
static void settle(struct device *device, send_function *send) {
    uint32_t sums[LENGTH];
    uint8_t frame[FRAME];
    while (kty_relay_give(&device->relay, sums, LENGTH) == 0) {
        put_frame(frame, (uint8_t)device->relay.counts[KORTYGHAI_ROUND_CLUSTER], device->relay.number, sums);
        send(frame);
        if (kty_relay_advance(&device->relay) != 0) return; /* there is no round after 4,294,967,295 */
    }
}

/* A frame from the radio, and the number that its sender is answered. */
static unsigned on_frame(struct device *device, struct flash *flash, send_function *send, const uint8_t *bytes, size_t count) {
    uint32_t block[LENGTH] = {0};
    size_t symbols = count == FRAME ? LENGTH : 0; /* no block has 0 symbols: 4 is answered in its turn, after 8 and 14 */
    uint64_t answer;
    if (count < HEAD) return KORTYGHAI_WRONG_LENGTH;
    for (size_t i = 0; i < symbols; i++) block[i] = get_low_first(bytes + HEAD + SYMBOL * i);
    answer = kty_relay_count(&device->relay, bytes[0], get_low_first(bytes + 1), block, symbols);
    if (answer == 0) answer = save(device, flash); /* saved before it is answered: who has heard 0 need not send again */
    if (answer == 0) settle(device, send);
    return kortyghai_number(answer);
}

/* Takes the last save of a bank, where it is of this plan and cluster and later than what the device has; 1 where it was taken. */
static int come_back(struct device *device, const uint8_t bank[BANK]) {
    struct kortyghai_relay found = device->relay, next;
    size_t used = 0;
    /* a save that a power cut broke off has no mark at its end, and is refused by 5 */
    for (; used + SAVE <= BANK && kty_relay_restore(&next, bank, used + SAVE, 0) == 0; used += SAVE) found = next;
    for (int i = 0; i < KORTYGHAI_RELAY_COUNTS; i++)
        if (found.counts[i] != device->relay.counts[i]) return 0;
    /* within a round bits are only ever added */
    if (found.number < device->relay.number) return 0;
    if (found.number == device->relay.number && found.reported + found.ahead <= device->relay.reported + device->relay.ahead)
        return 0;
    device->relay = found;
    return 1;
}

/* Power on: round `first`, or the last save's. A round that was full is sent once more; the server answers that by 11 or 14. */
static unsigned boot(struct device *device, const struct flash *flash, const struct kortyghai_plan *plan, uint32_t cluster,
                     uint32_t first, send_function *send) {
    uint64_t answer = kty_relay_open(&device->relay, plan, LENGTH, cluster, first);
    if (answer != 0) return kortyghai_number(answer);
    device->bank = 0;
    device->used = BANK; /* half a save may stand behind the last: the next one begins the other bank */
    for (unsigned i = 0; i < BANKS; i++)
        if (come_back(device, flash->bank[i])) device->bank = i;
    settle(device, send);
    return KORTYGHAI_ACCEPTED;
}

/* ==== the bench ==== */

#include <stdio.h>
#include <string.h>

enum { USERS = 3, ROUNDS = 3, FIRST = 7, CLUSTER = 1, Q = 65521 };

static uint32_t heard[ROUNDS][LENGTH]; /* what the server hears */
static int wrong;

/* What a user sends is reading plus key, which to a relay is any symbol below q. */
static uint32_t upload_of(uint32_t round, uint32_t user, uint32_t position) {
    return (round * 1000003 + user * 10007 + position * 101) * 2654435761u % Q;
}

static void hear(const uint8_t frame[FRAME]) {
    uint32_t round = get_low_first(frame + 1), sums[LENGTH];
    for (int i = 0; i < LENGTH; i++) sums[i] = get_low_first(frame + HEAD + SYMBOL * i);
    printf("    relay %u sends the sums of round %u: %u %u\n", frame[0], round, sums[0], sums[1]);
    if (round < FIRST || round >= FIRST + ROUNDS) wrong++;
    else memcpy(heard[round - FIRST], sums, sizeof sums);
}

/* What happens on the way, or to the power, at a frame. */
enum mishap { NONE, DAMAGED, SHORTENED, CUT_IN_SAVE, CUT_AFTER };

static const struct event {
    uint8_t user;
    uint32_t round;
    enum mishap mishap;
    unsigned answer;
} day[] = {
    {1, 7, NONE, 0},        {2, 8, NONE, 0} /* early: held */,  {2, 7, NONE, 0},
    {1, 7, NONE, 11},       {1, 8, CUT_IN_SAVE, 0} /* lost */,  {1, 8, NONE, 0} /* sent again */,
    {2, 8, NONE, 11},       {3, 6, NONE, 14} /* late */,        {4, 7, NONE, 8},
    {3, 7, DAMAGED, 3},     {3, 7, SHORTENED, 4},               {3, 7, CUT_AFTER, 0} /* full, and sent twice */,
    {3, 7, NONE, 14},       {3, 8, NONE, 0} /* full */,         {1, 11, NONE, 14} /* too early */,
    {3, 9, NONE, 0},        {1, 9, NONE, 0},                    {2, 9, NONE, 0} /* full */,
};

static const struct kortyghai_plan plan = {{2, USERS, 1, 4, Q}}; /* U, V, T, R and q */
static struct flash flash;
static struct device device;

static void power_on(void) {
    memset(&device, 0, sizeof device); /* all that is not flash is gone */
    wrong += boot(&device, &flash, &plan, CLUSTER, FIRST, hear) != KORTYGHAI_ACCEPTED;
}

static void happen(const struct event *event) {
    uint32_t upload[LENGTH];
    uint8_t frame[FRAME];
    unsigned answer;
    for (uint32_t i = 0; i < LENGTH; i++) upload[i] = event->mishap == DAMAGED ? Q : upload_of(event->round, event->user, i);
    put_frame(frame, event->user, event->round, upload);
    answer = on_frame(&device, &flash, hear, frame, event->mishap == SHORTENED ? FRAME - 1 : FRAME);
    printf("user %u, round %2u: %2u, %s\n", event->user, event->round, answer, kortyghai_refusal_text(answer));
    wrong += answer != event->answer;
    if (event->mishap != CUT_IN_SAVE && event->mishap != CUT_AFTER) return;
    printf("    the power is cut%s, and comes back: user %u has heard no answer\n",
           event->mishap == CUT_IN_SAVE ? " amid the save" : "", event->user);
    if (event->mishap == CUT_IN_SAVE) memset(&flash.bank[device.bank][device.used - SAVE / 2], ERASED, SAVE / 2);
    power_on();
}

int main(void) {
    memset(&flash, ERASED, sizeof flash);
    memset(heard, ERASED, sizeof heard); /* no sum is so large */
    power_on();
    for (size_t i = 0; i < sizeof day / sizeof *day; i++) happen(&day[i]);
    for (uint32_t i = 0; i < ROUNDS * LENGTH; i++) {
        uint32_t sum = 0;
        for (uint32_t user = 1; user <= USERS; user++) sum += upload_of(FIRST + i / LENGTH, user, i % LENGTH);
        wrong += heard[i / LENGTH][i % LENGTH] != sum % Q;
    }
    printf("%d rounds of %d users through two power cuts: %d wrong\n", ROUNDS, USERS, wrong);
    return wrong != 0;
}
