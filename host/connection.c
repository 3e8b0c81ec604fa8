#include "connection.h"

#include <errno.h>
#include <stdlib.h>
#include <string.h>
#include <sys/socket.h>

size_t connection_waiting(const struct connection *c) {
    return c->end - c->start;
}

size_t connection_next(const struct connection *c) {
    if (c->gathered < 16)
        return 0;
    uint32_t length = core_le32(c->in + 12);
    size_t size = length > MESSAGE_MAX - 16 ? 16 : 16 + length;
    return c->gathered < size ? 0 : size;
}

void connection_take(struct connection *c, size_t size) {
    c->gathered -= size;
    memmove(c->in, c->in + size, c->gathered);
}

void connection_gather(struct connection *c) {
    if (c->gathered == sizeof c->in)
        return;
    ssize_t got = recv(c->fd, c->in + c->gathered, sizeof c->in - c->gathered, 0);
    if (got > 0)
        c->gathered += (size_t)got;
    else if (got == 0)
        c->ended = true;
    else if (errno != EAGAIN && errno != EWOULDBLOCK && errno != EINTR)
        c->closing = "it cannot be read";
}

void connection_put(struct connection *c, const uint8_t *bytes, size_t length) {
    if (c->closing)
        return;
    if (connection_waiting(c) + length > OUT_BOUND) {
        c->closing = "it does not read what it is sent";
        return;
    }
    if (c->end + length > c->room && c->start > 0) {
        memmove(c->out, c->out + c->start, connection_waiting(c));
        c->end -= c->start;
        c->start = 0;
    }
    if (c->end + length > c->room) {
        size_t room = 2 * (c->end + length);
        uint8_t *more = realloc(c->out, room);
        if (!more) {
            c->closing = "there is no memory for what it is sent";
            return;
        }
        c->out = more;
        c->room = room;
    }
    memcpy(c->out + c->end, bytes, length);
    c->end += length;
}

void connection_flush(struct connection *c) {
    while (!c->closing && connection_waiting(c) > 0) {
        ssize_t sent = send(c->fd, c->out + c->start, connection_waiting(c), MSG_NOSIGNAL);
        if (sent < 0 && errno == EINTR)
            continue;
        if (sent < 0 && (errno == EAGAIN || errno == EWOULDBLOCK))
            return;
        if (sent < 0)
            c->closing = "it cannot be written to";
        else
            c->start += (size_t)sent;
    }
}
