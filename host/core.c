#include "core.h"

#include <stdio.h>
#include <stdlib.h>
#include <string.h>

/* A buffer and its size, as the calls take them. */
#define LENT(buffer) buffer, sizeof buffer

enum { NOBODY = -1, UNWATCH = 5, END = 7 };

static uint8_t core_nodes[HAABUVILK_NODES], core_copies[HAABUVILK_COPIES], core_watches[HAABUVILK_WATCHES];
static uint8_t core_transactions[HAABUVILK_TRANSACTIONS], core_domains[HAABUVILK_DOMAINS];
static uint8_t core_events[HAABUVILK_EVENTS], core_event_message[HAABUVILK_EVENT_MESSAGE];
static int core_watch_holder[HAABUVILK_WATCH_COUNT], core_transaction_holder[HAABUVILK_TRANSACTION_COUNT];

uint8_t core_reply[HAABUVILK_REPLY];
uint32_t core_reply_length, core_event_count;

uint32_t core_le32(const uint8_t *b) {
    return b[0] | (uint32_t)b[1] << 8 | (uint32_t)b[2] << 16 | (uint32_t)b[3] << 24;
}

void core_put_le32(uint8_t *bytes, uint32_t number) {
    for (int i = 0; i < 4; i++)
        bytes[i] = (uint8_t)(number >> 8 * i);
}

/* The store is not as it should be; nothing sensible can follow. */
static void broken(const char *what) {
    fprintf(stderr, "haabuvilkd: %s; stopping\n", what);
    exit(1);
}

void core_start(void) {
    if (haabuvilk_fresh(LENT(core_nodes), LENT(core_copies), LENT(core_watches), LENT(core_transactions),
                        LENT(core_domains)) != HAABUVILK_HANDLED)
        broken("the library has other table sizes than this program");
    for (int i = 0; i < HAABUVILK_WATCH_COUNT; i++)
        core_watch_holder[i] = NOBODY;
    for (int i = 0; i < HAABUVILK_TRANSACTION_COUNT; i++)
        core_transaction_holder[i] = NOBODY;
}

/* An entry that is in use and has no holder yet was made by `who`. */
static void note_holders(const uint8_t *table, size_t size, int *holder, int count, int who) {
    for (int i = 0; i < count; i++) {
        bool used = table[size * (size_t)i] & 0x80;
        if (!used)
            holder[i] = NOBODY;
        else if (holder[i] == NOBODY)
            holder[i] = who;
    }
}

static uint32_t request(int who, uint32_t domain, const uint8_t *message, size_t length) {
    int64_t page;
    uint32_t channel;
    uint32_t number = haabuvilk_request(
        LENT(core_nodes), LENT(core_copies), LENT(core_watches), LENT(core_transactions), LENT(core_domains), domain,
        message, length, LENT(core_reply), LENT(core_events), &core_reply_length, &core_event_count, &page, &channel);
    if (number == HAABUVILK_SIZE || number == HAABUVILK_UNSOUND)
        broken(number == HAABUVILK_SIZE ? "a buffer has the wrong size" : "the tables are not sound");
    note_holders(core_watches, HAABUVILK_WATCH, core_watch_holder, HAABUVILK_WATCH_COUNT, who);
    note_holders(core_transactions, HAABUVILK_TRANSACTION, core_transaction_holder, HAABUVILK_TRANSACTION_COUNT, who);
    return number;
}

uint32_t core_call(int who, uint32_t domain, uint8_t *message, size_t length) {
    uint32_t id = length < 16 ? 0 : core_le32(message + 8);
    bool foreign = id >= 1 && id <= HAABUVILK_TRANSACTION_COUNT && core_transaction_holder[id - 1] != NOBODY &&
                   core_transaction_holder[id - 1] != who;
    if (!foreign)
        return request(who, domain, message, length);
    /* Asked with an id that no transaction has, and answered with the one that was given. */
    core_put_le32(message + 8, UINT32_MAX);
    uint32_t number = request(who, domain, message, length);
    if (number == HAABUVILK_HANDLED)
        core_put_le32(core_reply + 8, id);
    return number;
}

void core_deliver(void (*send)(int who, const uint8_t *bytes, size_t length)) {
    for (uint32_t record = 0; record < core_event_count; record++) {
        const uint8_t *mask = core_events + HAABUVILK_RECORD * record;
        for (uint32_t watch = 0; watch < HAABUVILK_WATCH_COUNT; watch++) {
            uint32_t length;
            if (!(mask[watch / 8] & 0x80 >> watch % 8))
                continue;
            if (haabuvilk_event_message(LENT(core_watches), LENT(core_domains), LENT(core_events), core_event_count,
                                        record, watch, LENT(core_event_message), &length) != HAABUVILK_HANDLED)
                broken("a record has no message");
            send(core_watch_holder[watch], core_event_message, length);
        }
    }
}

/* Sends a request of the host's own for a connection that goes; the answer must be OK. */
static void settle(int who, uint32_t domain, uint32_t type, uint32_t id, const uint8_t *payload, uint32_t length) {
    uint8_t message[16 + HAABUVILK_WATCH] = {0};
    core_put_le32(message, type);
    core_put_le32(message + 8, id);
    core_put_le32(message + 12, length);
    memcpy(message + 16, payload, length);
    if (request(who, domain, message, 16 + length) != HAABUVILK_HANDLED || core_le32(core_reply) != type)
        broken("what a connection held cannot be dropped");
}

void core_forget(int who, uint32_t domain) {
    for (int i = 0; i < HAABUVILK_WATCH_COUNT; i++) {
        const uint8_t *watch = core_watches + HAABUVILK_WATCH * i;
        if (core_watch_holder[i] != who)
            continue;
        const uint8_t *lengths = watch + HAABUVILK_WATCH_LENGTHS;
        uint32_t path = (uint32_t)lengths[0] << 1 | lengths[1] >> 7, token = lengths[1] & 0x3f;
        uint8_t payload[HAABUVILK_WATCH] = {0};
        memcpy(payload, watch + HAABUVILK_WATCH_PATH, path);
        memcpy(payload + path + 1, watch + HAABUVILK_WATCH_TOKEN, token);
        settle(who, domain, UNWATCH, 0, payload, path + token + 2);
    }
    for (uint32_t i = 0; i < HAABUVILK_TRANSACTION_COUNT; i++)
        if (core_transaction_holder[i] == who)
            settle(who, domain, END, i + 1, (const uint8_t *)"F", 2);
}
