/* The store, and which connection holds which of its watches and transactions. */
#ifndef CORE_H
#define CORE_H

#include "haabuvilk.h"
#include <stdbool.h>

enum { MESSAGE_MAX = HAABUVILK_REPLY };

/* What the last call left. */
extern uint8_t core_reply[HAABUVILK_REPLY];
extern uint32_t core_reply_length, core_event_count;

uint32_t core_le32(const uint8_t *bytes);
void core_put_le32(uint8_t *bytes, uint32_t number);

/* Makes the store fresh. */
void core_start(void);

/* One message of the connection `who`, which speaks as `domain`; another connection's transaction is none to it. */
uint32_t core_call(int who, uint32_t domain, uint8_t *message, size_t length);

/* The event messages of the last call, in order, each to the connection that made the watch. */
void core_deliver(void (*send)(int who, const uint8_t *bytes, size_t length));

/* Drops the watches and ends the transactions that a connection made. */
void core_forget(int who, uint32_t domain);

#endif
