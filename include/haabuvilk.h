/*
 * Haabuvilk: a xenstore core in lent tables.
 *
 * The caller owns all memory. Every call gets pointers and sizes in bytes; all sizes are exact, and a larger buffer is a wrong size too.
 * Only the message of a request may have any size. No two buffers or results of one call may overlap, none may be null, and no other
 * thread may touch them during the call. A call keeps no pointer and has no state of its own.
 *
 * Whatever the bytes in the buffers are, a call ends, touches nothing else, and answers one of the numbers below. On every number but 0
 * all results are 0 and no lent buffer is altered.
 */
#ifndef HAABUVILK_H
#define HAABUVILK_H

#include <stddef.h>
#include <stdint.h>

#ifdef __cplusplus
extern "C" {
#endif

/* The tables. They keep the whole state; saved and lent again they are the same store. */
#define HAABUVILK_NODES 13824        /* 128 slots of 108 bytes */
#define HAABUVILK_COPIES 41472       /* three like the node table, one for each transaction */
#define HAABUVILK_WATCHES 4832       /* 16 entries of 302 bytes */
#define HAABUVILK_TRANSACTIONS 6393  /* 3 entries of 2,131 bytes */
#define HAABUVILK_DOMAINS 24         /* 8 entries of 3 bytes */

/* The buffers that a call fills. */
#define HAABUVILK_REPLY 4112         /* a header of 16 bytes and a payload of at most 4,096 */
#define HAABUVILK_EVENTS 34304       /* 128 records of 268 bytes */
#define HAABUVILK_EVENT_MESSAGE 314

/* Within them: an entry's first bit (0x80 of its first byte) says that it is in use; a record's first two bytes are its mask. */
#define HAABUVILK_WATCH 302
#define HAABUVILK_WATCH_COUNT 16
#define HAABUVILK_WATCH_LENGTHS 4    /* two bytes: the length of the path in 9 bits, a zero, that of the token in 6 */
#define HAABUVILK_WATCH_PATH 6
#define HAABUVILK_WATCH_TOKEN 270
#define HAABUVILK_TRANSACTION 2131
#define HAABUVILK_TRANSACTION_COUNT 3
#define HAABUVILK_RECORD 268

/* What a call answers. Tables that fresh made and requests alone altered are sound; crates/rules/specs/Sound.antt says which others are. */
enum haabuvilk_number {
    HAABUVILK_HANDLED = 0,    /* done: the results and buffers are filled */
    HAABUVILK_SIZE = 1,       /* a lent buffer has the wrong size */
    HAABUVILK_UNSOUND = 2,    /* a table is not sound, of those that the call looks at (see each call) */
    HAABUVILK_STRANGER = 3,   /* the sender is neither 0 nor introduced */
    HAABUVILK_FRAME = 4,      /* the message has under 16 bytes, or not 16 and its len */
    HAABUVILK_TOO_LONG = 5,   /* its len is above 4,096: close the connection, what follows cannot be framed */
    HAABUVILK_NO_MESSAGE = 6  /* this record is not for this watch, or there is no such record or watch */
};

/* Fills the five tables with the fresh store, whatever they held. Answers 0 or 1. */
uint32_t haabuvilk_fresh(uint8_t *nodes, size_t nodes_size, uint8_t *copies, size_t copies_size,
                         uint8_t *watches, size_t watches_size, uint8_t *transactions, size_t transactions_size,
                         uint8_t *domains, size_t domains_size);

/*
 * One message from one sender. Answers 0 to 5, the first that applies of: 1, 2, 3, under 16 bytes (4), 5, another total than 16 + len (4).
 * Number 5 shows in the header alone, so a caller need not wait for the payload of such a message.
 * For number 2 it looks at the nodes, the watches, the transactions, the domains and the copy of each open transaction. The copy of a
 * closed transaction may hold anything.
 *
 * On 0: the reply to be sent back is the first `reply_length` bytes of `reply` (an error is a reply too), and the first `event_count`
 * records of `events` say which watches hear what; `page` and `channel` are those of an INTRODUCE that succeeded, else 0.
 * Bytes past the reply and past the records stay as they were.
 *
 * The records are in the order in which they are to be told: a node that was created comes before what was created in it. A node request
 * outside transactions has at most 8 records, a commit at most 64, RELEASE at most 128.
 */
uint32_t haabuvilk_request(uint8_t *nodes, size_t nodes_size, uint8_t *copies, size_t copies_size,
                           uint8_t *watches, size_t watches_size, uint8_t *transactions, size_t transactions_size,
                           uint8_t *domains, size_t domains_size,
                           uint32_t sender, const uint8_t *message, size_t message_size,
                           uint8_t *reply, size_t reply_size, uint8_t *events, size_t events_size,
                           uint32_t *reply_length, uint32_t *event_count, int64_t *page, uint32_t *channel);

/*
 * The event message of one record for one watch, 0 to 15, with the tables and records as the request left them: ask before the next
 * request. Answers 0, 1, 2 or 6, the first that applies of 1, 2, 6. For number 2 it looks at the watches and the domains alone; the
 * records may hold anything. On 0 the message is the first `message_length` bytes of `message`, and the bytes past it stay as they were.
 */
uint32_t haabuvilk_event_message(const uint8_t *watches, size_t watches_size, const uint8_t *domains, size_t domains_size,
                                 const uint8_t *events, size_t events_size, uint32_t event_count,
                                 uint32_t record, uint32_t watch,
                                 uint8_t *message, size_t message_size, uint32_t *message_length);

#ifdef __cplusplus
}
#endif

#endif
