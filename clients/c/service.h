/* The replicated key-value service for C: libservice_c.a.
 *
 * A node is one server without input and output. Its caller hands in what comes (frames of peers, bytes of clients, time, what is on
 * disk) by wachelpo_call, reads what that puts out by wachelpo_read, and does it, in its order.
 *
 * Memory. A node belongs to the library, and is valid until the program ends. wachelpo_close frees all but the node's own 4.4 KB, which
 * another service can have. The library allocates through liblibc_c.a of the Rattle kit (in its folder c/), which calls the program's
 * malloc, realloc and free: the three belong to one allocator, and align to 16 bytes.
 *
 * Threads. A node is given to one call at a time, on any thread, if each call happens before the next, as by a lock or by a thread's start
 * or end: nodes share nothing, and the library keeps nothing for a thread. Not from a signal handler, nor in the forked child of a process
 * with threads.
 *
 * What C can't notice, and a caller owes: a node is one that wachelpo_node has written; a pointer to bytes isn't null, also if there are
 * none; the bytes stay as they are during the call.
 */
#ifndef WACHELPO_SERVICE_H
#define WACHELPO_SERVICE_H

#include <stddef.h>
#include <stdint.h>

/* The version of this header. */
#define WACHELPO_SERVICE_VERSION 5

/* Inputs: what `first`, `second` and the bytes of a call are. A number of bytes is eight bytes, the lowest first. */
enum wachelpo_input {
    WACHELPO_SETTINGS = 1,   /* bytes: the settings, see below */
    WACHELPO_OPEN = 2,       /* bytes: the log, which may be empty: what no crash loses any more, so its file is synced before it is read.
                                Puts out OPENED */
    WACHELPO_PEER = 3,       /* bytes: a frame that a peer sent. The caller knows that a server of the cluster sent it */
    WACHELPO_TICK = 4,       /* first: moments since the last tick, second: a random number, bytes: the time in Unix milliseconds */
    WACHELPO_CONNECT = 5,    /* first: a client's number, greater than all before it */
    WACHELPO_CLIENT = 6,     /* first: a client, bytes: what it sent. Puts out TAKEN */
    WACHELPO_DISCONNECT = 7, /* first: a client that is gone */
    WACHELPO_WRITE = 8,      /* the disk is free: requests are proposed, and bytes for the log put out */
    WACHELPO_FLUSHED = 9,    /* first: the log is on disk up to here. What waits for nothing there leaves too: so it is also handed in
                                before WRITE and after it, with what was handed in last, or 0 */
    WACHELPO_INITIALIZE = 10, /* one server, once: begins the cluster */
    WACHELPO_MEMBERS = 11,   /* bytes: how many voters, each id, how many learners, each id */
    WACHELPO_STATUS = 12,    /* puts out STATUS */
    WACHELPO_BEGIN_LOG = 13, /* nothing is on its way to the disk: may put out NEW_LOG, once the log is long */
    WACHELPO_IDLE = 14,      /* nothing else is to be done: a little is that can wait. May put out MORE */
    WACHELPO_TAKE_OVER = 15, /* the new log is synced with all of its pieces and all that was put out for it, and nothing is on its way to
                                the disk: puts out TAKEN_OVER */
    WACHELPO_GIVE_UP_LOG = 16, /* the new log can't be written: the old one goes on alone */
    WACHELPO_LOG_PIECE = 17  /* between other inputs, until all bytes of the new log were put out: puts out LOG_PIECE */
};

/* Outputs: one behind another, each its kind (4 bytes), the number of bytes of its body (4), a number (8), and its body. */
enum wachelpo_output {
    WACHELPO_OUT_SEND = 1,   /* number: a peer, body: a frame for it */
    WACHELPO_OUT_APPEND = 2, /* body: bytes to append to the log and sync, number: where the log ends then, which FLUSHED names */
    WACHELPO_OUT_CLIENT = 3, /* number: a client, body: bytes for it */
    WACHELPO_OUT_CLOSE = 4,  /* number: a client, to be closed once all that is for it is sent */
    WACHELPO_OUT_TAKEN = 5,  /* number: how many bytes of CLIENT were taken; the others are handed in again once it was sent something */
    WACHELPO_OUT_STATUS = 6, /* body: id, role (0 learner, 1 follower, 3 leader), ?leader, term, ?last index (never told), ?committed index,
                                ?executed index, how many voters, each id, how many learners, each id, clients, requests that wait;
                                ? is 0 and 0, or 1 and the number. Role, leader, term and members are those of the entries that were
                                executed last */
    WACHELPO_OUT_ERROR = 7,  /* number: the code that the call returned, body: a text. Left out if there is no memory for that */
    WACHELPO_OUT_OPENED = 8, /* number: how many bytes of the log are kept: the others are cut off, and that is synced, first of all */
    WACHELPO_OUT_NEW_LOG = 9, /* a new log, for a file beside the old one, which goes on; number: where it ends. The library has its bytes */
    WACHELPO_OUT_MORE = 10,  /* more is left to be done by IDLE */
    WACHELPO_OUT_APPEND_NEXT = 11, /* right behind APPEND, body: bytes to append to the new log, behind all of its pieces */
    WACHELPO_OUT_TAKEN_OVER = 12, /* the new log takes the old one's place, durably, before anything more is written; number: where it ends.
                                Then it is FLUSHED up to there: which names places of the new log from then on */
    WACHELPO_OUT_LOG_PIECE = 13 /* body: the next bytes of the new log, 256 KiB at most; number: where they begin there */
};

/* What a call returns. */
enum wachelpo_code {
    WACHELPO_OK = 0,
    WACHELPO_OUT_OF_MEMORY = 1, /* the service, if one was open, is gone: open it again on its log */
    WACHELPO_BAD_SETTINGS = 2,
    WACHELPO_NOT_OPENED = 3,    /* the log is damaged, another's, or can't be started on */
    WACHELPO_BAD_INPUT = 4,     /* there is no such input, or its bytes are none */
    WACHELPO_MISPLACED = 5,     /* no service is open, or one is already */
    WACHELPO_NOT_CONNECTED = 6, /* the number isn't greater than all before, or too many clients are connected */
    WACHELPO_NOT_CHANGED = 7,   /* members are changed at the leader */
    WACHELPO_BAD_FRAME = 8,     /* close the connection of that peer */
    WACHELPO_BUSY = 9,          /* the frame counts as lost */
    WACHELPO_STOPPED = 10       /* the service is gone: open it again on its log */
};

/* Settings: numbers of eight bytes, the lowest first, and bytes behind their number, in this order. Times are in moments, which
 * are as long as the caller's ticks say: 0.1 ms, say, since a query that adds nothing to the log waits for one. Up to the entries that
 * are kept they are the same at each server and start of a cluster, but for the own id, hosts and ports.
 *
 *   2                                         the version of this form
 *   cluster, own id
 *   how many servers there are or may ever be; of each its id, and the host (bytes) and port at which clients reach it
 *   how many voters the cluster begins with, and each id
 *   election timeout, lease, most entries of a message, after how many entries a snapshot is built (0: never), how many of the entries
 *       that it covers are kept
 *   most jitter of an election timeout, between heartbeats, until a peer's answer, until a request's answer, entries that a new voter
 *       may lack, bytes after which a log is replaced
 *   bytes of a request's entry, bytes of those that wait, most requests that wait, bytes from which on a batch is full
 *   bytes of a frame, bytes that wait to be written, greatest jump of a term
 *   of a client: words of a request, bytes of a word, bytes that wait to be read, requests that wait, commands of a transaction
 *   0, or 1 and what clients must say (bytes)
 *   what INFO answers (bytes)
 *   most clients
 *
 * The entries of a message, each with as many bytes as a request's may have, are fewer than the bytes of a frame. */

/* The version of the library: WACHELPO_SERVICE_VERSION. */
uint32_t wachelpo_version(void);

/* Makes a node without a service, and writes where it is. Returns 0, or WACHELPO_OUT_OF_MEMORY. */
uint32_t wachelpo_node(void **node);

/* Hands an input to a node. Returns WACHELPO_OK, or why it is refused. What the call before put out is gone. */
uint32_t wachelpo_call(void *node, uint32_t input, uint64_t first, uint64_t second, const uint8_t *bytes, size_t len);

/* Reads the next bytes of what the last call put out, as many as there is room for. Returns how many: 0 at the end. */
size_t wachelpo_read(void *node, uint8_t *room, size_t len);

/* Closes the service of a node, if it has one. The node can be used again. Returns 0. */
uint32_t wachelpo_close(void *node);

#endif
