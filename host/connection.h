/* A client's connection: bytes gathered from it, and bytes waiting for it. */
#ifndef CONNECTION_H
#define CONNECTION_H

#include "core.h"

enum {
    /* More than one call can send to one connection: a reply and 128 records for each of 16 watches. */
    OUT_BOUND = 1 << 20,
    /* With this much waiting, a connection's next message is left where it is. */
    OUT_ENOUGH = 1 << 16
};

struct connection {
    int fd; /* -1: this place is free */
    int listener;
    uint32_t domain;
    unsigned number;
    const char *closing; /* why it is to be closed, or null */
    bool ended;          /* it sends nothing more */
    uint8_t in[MESSAGE_MAX];
    size_t gathered;
    uint8_t *out;
    size_t start, end, room;
};

size_t connection_waiting(const struct connection *c);

/* The size of the first message gathered if it is all there, or of its header where its len is too large; else 0. */
size_t connection_next(const struct connection *c);

/* Takes the first `size` gathered bytes away. */
void connection_take(struct connection *c, size_t size);

/* Gathers what has arrived. */
void connection_gather(struct connection *c);

/* Puts bytes behind those that wait; past the bound the connection is to be closed. */
void connection_put(struct connection *c, const uint8_t *bytes, size_t length);

/* Sends as much of what waits as the connection takes now. */
void connection_flush(struct connection *c);

#endif
