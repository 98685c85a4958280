/* mdp_handler.h: the order books of one CME MDP 3.0 channel, from C11 and from C++17.
 *
 * Open a handle with the channel's instruments, pass each datagram to it as it comes, and read the books that changed, or the lines that
 * `mdp_handler` prints. Every call answers a status, waits for nothing, and starts no thread.
 *
 * What the caller owes, which no proof and no call sees:
 *   1. A pointer that isn't NULL points to what it says, aligned for its type, for as long as the call lasts.
 *   2. Two arguments of a call never overlap, but for bytes that are only read.
 *   3. Bytes that are passed are not written during the call, and lent lines are never written.
 *   4. A handle is MDP_HANDLER_CLOSED at first, as a static one is by itself, and is then changed by these functions alone.
 *   5. A handle may be moved (the old one set to MDP_HANDLER_CLOSED); it is never copied.
 *   6. Calls with one handle don't overlap. Another thread may go on with it, behind a lock or a join. Two handles share nothing.
 *   7. An open handle is closed by mdp_handler_free, or its memory is lost.
 *   8. No call comes from a signal handler, or in the forked child of a process with threads.
 *   9. malloc, realloc and free belong together, and align to 16 bytes.
 *  10. Link libmdp_handler.a with liblibc_c.a, or link the shared library.
 *
 * Prices are in units of 10^-9. A slot is a security's place among the instruments, from 0. In C++ two of the structs need the word
 * `struct`, since functions have their names: mdp_best and mdp_state. */
#ifndef MDP_HANDLER_H
#define MDP_HANDLER_H

#include <stdbool.h>
#include <stddef.h>
#include <stdint.h>

#ifdef __cplusplus
extern "C" {
#endif

/* A handle: open, or closed. Its field is the library's own. */
struct mdp_handler {
    void *address;
};

#ifdef __cplusplus
#define MDP_HANDLER_CLOSED (mdp_handler{nullptr})
#else
#define MDP_HANDLER_CLOSED ((struct mdp_handler){NULL})
#endif

/* A status is one of the program's numbers, which its manual explains; from 81 on, what only a caller can do wrong. */
enum mdp_status {
    MDP_DONE = 0,          /* the call did what it says */
    MDP_FIRST_REFUSAL = 1, /* 1 to 18: the datagram is refused, and counts as one that never came */
    MDP_LAST_REFUSAL = 18,
    MDP_NO_LISTING = 21, /* a line is no `I` line */
    MDP_TOO_LONG = 23,   /* a datagram has more than 2,048 bytes */
    MDP_DUPLICATE_ID = 31,
    MDP_UNKNOWN_LEG = 32,
    MDP_TOO_MANY = 33,
    MDP_NONE_LISTED = 34,
    MDP_MEMORY = 41,       /* memory ran out, now or in an earlier call */
    MDP_CLOSED = 81,       /* the handle is closed */
    MDP_OPEN = 82,         /* the handle is open */
    MDP_OUT_OF_RANGE = 83, /* an argument is out of its range, or NULL where it may not be */
    MDP_TOO_SHORT = 84     /* an array has no room for all */
};

enum mdp_feed { MDP_FEED_A = 0, MDP_FEED_B = 1, MDP_FEED_S = 2 };
enum mdp_start { MDP_FROM_ONE = 0, MDP_JOIN = 1 };
enum mdp_book { MDP_DIRECT = 0, MDP_IMPLIED = 1, MDP_CONSOLIDATED = 2 };
enum mdp_side { MDP_BID = 0, MDP_OFFER = 1 };

/* What became of a packet. One that is no first copy changes no book, and adds no line. */
enum mdp_fate {
    MDP_FIRST = 0,      /* the first copy of its number */
    MDP_REPEAT = 1,     /* a packet of its number waits already */
    MDP_PAST = 2,       /* its number has passed */
    MDP_LATE = 3,       /* its number was given up */
    MDP_AFTER_CLOSE = 4 /* the channel was closed before */
};

/* The most levels that a side has: of the direct book 10, of the implied one 2, of the consolidated one 12. */
enum { MDP_MOST_LEVELS = 12 };

/* How a channel is followed. */
struct mdp_options {
    uint64_t size;     /* sizeof(struct mdp_options) */
    uint32_t window;   /* a packet so many numbers after the next one gives that one up, 1 to 65536 */
    uint32_t start;    /* MDP_FROM_ONE: packet 1 is the first; MDP_JOIN: join a channel that is under way */
    uint32_t lines;    /* 1 keeps the lines that mdp_handler prints; 0 keeps books alone */
    uint32_t reserved; /* 0 */
};

/* The options of the program: a window of 1024, from packet 1, with lines. */
#define MDP_OPTIONS {sizeof(struct mdp_options), 1024, MDP_FROM_ONE, 1, 0}

/* An instrument. An outright has leg1 and leg2 0; a calendar spread buys leg1 and sells leg2, both listed before it. */
struct mdp_instrument {
    int32_t id;        /* 1 to 2147483647 */
    int32_t leg1, leg2;
    uint8_t depth;     /* levels on a side of the direct book, 1 to 10; of a spread 10 */
    uint8_t length;    /* of the name, 1 to 20 */
    uint8_t name[20];  /* bytes from 33 to 126 */
    uint16_t reserved; /* 0 */
};

/* What became of a datagram that was taken in, and what it moved. */
struct mdp_became {
    uint32_t kind;     /* 1 a packet, 2 snapshots */
    uint32_t fate;     /* of a packet, an enum mdp_fate; else 0 */
    uint32_t has_loss; /* 1 where it made the receiver lost: packet loss_next is given up, since loss_highest came */
    uint32_t has_jump; /* 1 where recovery went on at jump_new in place of jump_old: every book was replaced */
    uint64_t news, older, unlisted, after_close; /* of snapshots, how many are the newest of their security, and so on */
    uint64_t loss_next, loss_highest;
    uint64_t jump_old, jump_new;
};

struct mdp_level {
    int64_t price;
    int64_t size; /* at a price of the consolidated book the sum of the sizes there */
};

/* The best level of each consolidated side. */
struct mdp_best {
    struct mdp_level bid, offer;
    uint32_t has_bid, has_offer;
    uint32_t is_faulty; /* 1 where the book is faulty, and has neither */
    uint32_t reserved;
};

/* Whether a book is faulty, and the first entry that had no place in it. */
struct mdp_book_fault {
    uint64_t message; /* in the packet, from 1 */
    uint32_t packet;
    uint32_t entry; /* in the message, from 1 */
    uint32_t is_faulty;
    uint32_t reserved;
};

/* Where the channel stands. */
struct mdp_state {
    uint64_t next;    /* the number of the packet that comes next, 1 to 4294967296 */
    uint64_t highest; /* the highest number that came, or next - 1, if that is greater */
    uint64_t waiting; /* how many packets wait for one before them */
    uint64_t stale;   /* the slot of the first security that a jump waits for, where has_stale is 1 */
    uint32_t is_lost; /* 1 where it has not joined, or packet `next` is given up */
    uint32_t has_stale;
};

/* Bytes that are lent. */
struct mdp_lent {
    const uint8_t *bytes; /* never NULL */
    size_t length;
};

/* ---- The library's own functions: no argument may be NULL, not even of an array of length 0. Call those below them. */

uint32_t mdp_open(struct mdp_handler *, const struct mdp_options *, const struct mdp_instrument *, size_t, uint64_t *place);
uint32_t mdp_open_text(struct mdp_handler *, const struct mdp_options *, const uint8_t *text, size_t, uint64_t *line);
void mdp_free(struct mdp_handler *);
uint32_t mdp_datagram(struct mdp_handler *, uint32_t feed, const uint8_t *bytes, size_t, struct mdp_became *);
uint32_t mdp_close(struct mdp_handler *);
uint32_t mdp_lines(struct mdp_handler *, struct mdp_lent *);
uint32_t mdp_clear_lines(struct mdp_handler *);
uint32_t mdp_changed(struct mdp_handler *, uint32_t *slots, size_t, uint64_t *count);
uint32_t mdp_is_current(struct mdp_handler *, uint32_t slot, bool *current);
uint32_t mdp_best(struct mdp_handler *, uint32_t slot, struct mdp_best *);
uint32_t mdp_levels(struct mdp_handler *, uint32_t slot, uint32_t book, uint32_t side, struct mdp_level *, size_t, uint64_t *count);
uint32_t mdp_fault(struct mdp_handler *, uint32_t slot, struct mdp_book_fault *);
uint32_t mdp_state(struct mdp_handler *, struct mdp_state *);

/* ---- What a caller calls. A closed handle is answered by MDP_CLOSED, and where nothing is written that is said. */

/* Opens a closed handle with `count` instruments, 1 to 512. Where one is refused `place` is told which, from 0; `place` may be NULL.
 * 0, 31 to 34, 41, 82 or 83; but at 0 the handle stays as it was. */
static inline uint32_t mdp_handler_open(struct mdp_handler *handler, const struct mdp_options *options,
                                        const struct mdp_instrument *instruments, size_t count, uint64_t *place) {
    struct mdp_instrument none = {0, 0, 0, 0, 0, {0}, 0};
    uint64_t unread = 0;
    if (!handler || !options || (!instruments && count)) return MDP_OUT_OF_RANGE;
    return mdp_open(handler, options, instruments ? instruments : &none, count, place ? place : &unread);
}

/* The same with a text of `I` lines, as those of a capture. `line` is told the number of the line, from 1. 0, 21, 31 to 34, 41, 82, 83. */
static inline uint32_t mdp_handler_open_text(struct mdp_handler *handler, const struct mdp_options *options, const void *text,
                                             size_t length, uint64_t *line) {
    const uint8_t none = 0;
    uint64_t unread = 0;
    if (!handler || !options || (!text && length)) return MDP_OUT_OF_RANGE;
    return mdp_open_text(handler, options, text ? (const uint8_t *)text : &none, length, line ? line : &unread);
}

/* Frees what a handle owns, and closes it. */
static inline void mdp_handler_free(struct mdp_handler *handler) {
    if (handler) mdp_free(handler);
}

/* Takes in a datagram of a feed, an enum mdp_feed, and tells at 0 what became of it; `became` may be NULL. 0, 1 to 18, 23, 41, 81 or 83:
 * but at 0 and 41 nothing changes. At 41 the handle has failed: it takes no more datagrams, and all else is answered as before. */
static inline uint32_t mdp_handler_datagram(struct mdp_handler *handler, uint32_t feed, const void *bytes, size_t length,
                                            struct mdp_became *became) {
    struct mdp_became unread;
    if (!handler || (!bytes && length)) return MDP_OUT_OF_RANGE;
    if (!bytes) bytes = "";
    return mdp_datagram(handler, feed, (const uint8_t *)bytes, length, became ? became : &unread);
}

/* Takes in that the channel was closed: no packet passes from now on, and no snapshot counts. 0, 41, 81 or 83. */
static inline uint32_t mdp_handler_close(struct mdp_handler *handler) {
    if (!handler) return MDP_OUT_OF_RANGE;
    return mdp_close(handler);
}

/* Lends the lines that are held, up to the next call with the handle; nothing is lent but at 0. 0, 81 or 83. */
static inline uint32_t mdp_handler_lines(struct mdp_handler *handler, struct mdp_lent *lines) {
    if (!handler || !lines) return MDP_OUT_OF_RANGE;
    lines->bytes = (const uint8_t *)"";
    lines->length = 0;
    return mdp_lines(handler, lines);
}

/* Lets the lines go, and the marks of what changed. 0, 81 or 83. */
static inline uint32_t mdp_handler_clear_lines(struct mdp_handler *handler) {
    if (!handler) return MDP_OUT_OF_RANGE;
    return mdp_clear_lines(handler);
}

/* Tells the slots whose books an event end printed since lines were let go last, ascending, and how many there are. 0, 81, 83; or 84
 * where `room` is less than that, and then the slots are not written. 512 suffice. */
static inline uint32_t mdp_handler_changed(struct mdp_handler *handler, uint32_t *slots, size_t room, uint64_t *count) {
    uint32_t none = 0;
    if (!handler || !count || (!slots && room)) return MDP_OUT_OF_RANGE;
    return mdp_changed(handler, slots ? slots : &none, room, count);
}

/* Tells whether the book at a slot is the complete feed's right before the packet that comes next. 0, 81 or 83. */
static inline uint32_t mdp_handler_is_current(struct mdp_handler *handler, uint32_t slot, bool *current) {
    if (!handler || !current) return MDP_OUT_OF_RANGE;
    return mdp_is_current(handler, slot, current);
}

/* Tells the best level of each consolidated side of the book at a slot. 0, 81 or 83. */
static inline uint32_t mdp_handler_best(struct mdp_handler *handler, uint32_t slot, struct mdp_best *best) {
    if (!handler || !best) return MDP_OUT_OF_RANGE;
    return mdp_best(handler, slot, best);
}

/* Copies the levels of a side of a book at a slot, the best first, and tells how many there are; a faulty book has none. `book` is an
 * enum mdp_book and `side` an enum mdp_side. 0, 81, 83; or 84 where `room` is less than that, and then no level is written. */
static inline uint32_t mdp_handler_levels(struct mdp_handler *handler, uint32_t slot, uint32_t book, uint32_t side,
                                          struct mdp_level *levels, size_t room, uint64_t *count) {
    struct mdp_level none = {0, 0};
    if (!handler || !count || (!levels && room)) return MDP_OUT_OF_RANGE;
    return mdp_levels(handler, slot, book, side, levels ? levels : &none, room, count);
}

/* Tells whether the book at a slot is faulty, and where it became so. 0, 81 or 83. */
static inline uint32_t mdp_handler_fault(struct mdp_handler *handler, uint32_t slot, struct mdp_book_fault *fault) {
    if (!handler || !fault) return MDP_OUT_OF_RANGE;
    return mdp_fault(handler, slot, fault);
}

/* Tells where the channel stands. 0, 81 or 83. */
static inline uint32_t mdp_handler_state(struct mdp_handler *handler, struct mdp_state *state) {
    if (!handler || !state) return MDP_OUT_OF_RANGE;
    return mdp_state(handler, state);
}

/* The name of a status: of 1 to 41 the program's word for it. Never NULL. */
static inline const char *mdp_handler_status_name(uint32_t status) {
    static const char *const refusals[] = {
        "Done", "TooShort", "NumberZero", "SizeCut", "SizeSmall", "SizePast", "Schema", "BlockShort", "BlockPast", "GroupCut",
        "GroupShort", "GroupPast", "Action", "EntryType", "Level", "Price", "Size", "ChannelReset", "SnapshotLevels"};
    if (status <= MDP_LAST_REFUSAL) return refusals[status];
    switch (status) {
        case MDP_NO_LISTING: return "LineForm";
        case MDP_TOO_LONG: return "TooLong";
        case MDP_DUPLICATE_ID: return "DuplicateId";
        case MDP_UNKNOWN_LEG: return "UnknownLeg";
        case MDP_TOO_MANY: return "TooMany";
        case MDP_NONE_LISTED: return "None";
        case MDP_MEMORY: return "Memory";
        case MDP_CLOSED: return "Closed";
        case MDP_OPEN: return "Open";
        case MDP_OUT_OF_RANGE: return "OutOfRange";
        case MDP_TOO_SHORT: return "ArrayTooShort";
        default: return "Unknown";
    }
}

#ifdef __cplusplus
}
#endif

#endif
