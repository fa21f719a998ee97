/* A record of lots in lent memory, whose calls are proved.
 *
 * The record holds 64 seats (0 to 63), a phase and the pending messages. Link
 * with libcewandog.a: embed/install puts it and this header under a prefix, with
 * a pkg-config file cewandog.pc that names both. It is for C99, C++11 and later.
 *
 * Every call answers 0 if it is accepted, else the refusal number, of which
 * lots_refusal_text is the term. A refused call changes no byte of the record.
 * Each comment lists the refusals that the call meets; if several apply, the first
 * in its list is given. Every output is written in each case, with 0 where the call
 * is refused.
 *
 * What the caller owes: `record` points to `length` bytes of any content, and is
 * not null even if `length` is 0; outputs are not null, and overlap neither the
 * record nor each other; nothing else writes these bytes during a call, and
 * nothing else reads them during a call that changes them. No function keeps a
 * pointer, allocates, or touches a byte outside the record and the outputs.
 *
 * Threads: calls on different records may run at once; on one record readings alone,
 * which are the calls that take a `const uint8_t *`.
 */
#ifndef LOTS_H
#define LOTS_H

#include <stddef.h>
#include <stdint.h>

#ifdef __cplusplus
extern "C" {
#endif

/* The version of this header and of the library that is installed with it. */
#define LOTS_VERSION_MAJOR 0
#define LOTS_VERSION_MINOR 1
#define LOTS_VERSION_PATCH 0
#define LOTS_VERSION "0.1.0"

/* The version of the layout. Records of one layout version have the same bytes for
 * the same meaning. A record does not hold this number: who stores records for a
 * later version of the library stores it beside them. */
#define LOTS_LAYOUT_VERSION 1

/* The bytes of a record. */
#define LOTS_RECORD_SIZE 20257

/* How many seats there are, from 0, and how many levels. */
#define LOTS_SEATS 64
#define LOTS_LEVELS 9

/* In the place of a seat: no contact, no link, no holder, no more lots. */
#define LOTS_NO_SEAT 255

/* The kinds of messages. No message has kind 0. */
enum lots_kind {
    LOTS_KIND_MEET = 1,  /* `to` learns of the lot `about` */
    LOTS_KIND_PROBE = 2, /* `to` looks whether it meets `about` one level up */
    LOTS_KIND_PULL = 3,  /* looks along `side` for a lot with the bit `about` at the level's place */
    LOTS_KIND_GOING = 4, /* `to` hears that its neighbour on `side` leaves */
    LOTS_KIND_SEEK = 5,  /* `to` is asked by `about` for the next staying lot */
    LOTS_KIND_FOUND = 6, /* `to` links to `about` */
    LOTS_KIND_NONE = 7   /* `to` has no neighbour on `side` any more */
};

/* The phases of a record. */
enum lots_phase {
    LOTS_PHASE_OPEN = 0,    /* lots may be reserved, join and leave */
    LOTS_PHASE_CLEARING = 1 /* the leaving lots are being taken out of the lists */
};

/* The states of a seat. */
enum lots_state {
    LOTS_STATE_FREE = 0,    /* no lot is there */
    LOTS_STATE_STAYING = 1, /* a lot is seated and stays */
    LOTS_STATE_LEAVING = 2, /* a lot is seated, marked as leaving, and goes on taking part */
    LOTS_STATE_RESERVED = 3 /* seat and number are kept for a lot that is not seated */
};

/* The sides of a lot. Where a message has no side, its side is 0. */
enum lots_side {
    LOTS_SIDE_LEFT = 0, /* smaller numbers */
    LOTS_SIDE_RIGHT = 1 /* larger numbers */
};

/* The refusal numbers. */
enum lots_refusal {
    LOTS_WRONG_SIZE = 1,       /* the memory is not LOTS_RECORD_SIZE bytes long */
    LOTS_UNSOUND = 2,          /* the bytes are no sound record */
    LOTS_NO_SUCH_SEAT = 3,     /* a seat above 63 */
    LOTS_SEAT_TAKEN = 4,       /* the seat to take is not free: a lot is seated or reserved there */
    LOTS_NUMBER_IN_USE = 5,    /* a seated or reserved lot has the number */
    LOTS_NO_CONTACT = 6,       /* no lot is seated on the contact's seat, or no contact while lots are seated */
    LOTS_IN_CLEARING = 7,      /* no lot joins, is reserved, is confirmed, leaves, crashes or is merged in clearing */
    LOTS_EMPTY_SEAT = 8,       /* no lot is seated there; to read a lot, none is reserved there either */
    LOTS_ALREADY_LEAVING = 9,  /* the lot is leaving */
    LOTS_NO_SUCH_MESSAGE = 10, /* the five numbers are no pending message */
    LOTS_MESSAGES_LEFT = 11,   /* no turn and no crash while messages are pending */
    LOTS_NO_SUCH_LEVEL = 12,   /* a level above 8 or a side above 1 */
    LOTS_UNSETTLED = 13,       /* no scan while messages are pending, in clearing, or if the check says no */
    LOTS_NOT_RESERVED = 14,    /* no lot is reserved on the seat to confirm or to give back */
    LOTS_SAME_LOT = 15         /* the lot to merge with another is that other */
};

/* Writes an empty record in LOTS_PHASE_OPEN over any bytes.
 * Refusals: 1 wrong size. */
uint8_t lots_open(uint8_t *record, size_t length);

/* Seats a lot, LOTS_STATE_STAYING and without links, and sends its contact a
 * LOTS_KIND_MEET about it at level 0. Any number and any vector are allowed; bit 0 of
 * the vector is the highest. Where no lot is seated, whether or not some are reserved,
 * the contact is LOTS_NO_SEAT, and nothing is sent. It is lots_reserve and
 * lots_confirm in one step.
 * Refusals: 1 wrong size, 2 unsound, 3 no such seat (also of the contact),
 * 7 clearing, 4 seat taken, 5 number in use, 6 no contact. */
uint8_t lots_join(uint8_t *record, size_t length, uint8_t seat, uint64_t number,
                  uint8_t vector, uint8_t contact);

/* Reserves a seat and a number for a lot, with its vector, and sends nothing. The
 * seat and the number are in use from now on, but the lot is not seated: it has no
 * links, is not counted and is no contact, to leave, to scan from and to read links
 * its seat is empty, and turns leave it alone. lots_read_lot shows it, with
 * LOTS_STATE_RESERVED.
 * Refusals: 1 wrong size, 2 unsound, 3 no such seat, 7 clearing, 4 seat taken,
 * 5 number in use. */
uint8_t lots_reserve(uint8_t *record, size_t length, uint8_t seat,
                     uint64_t number, uint8_t vector);

/* Seats the lot that is reserved on a seat, and does the rest of lots_join: the lot
 * is LOTS_STATE_STAYING, and its contact is sent a LOTS_KIND_MEET about it at level 0.
 * Where no lot is seated the contact is LOTS_NO_SEAT, and nothing is sent.
 * Refusals: 1 wrong size, 2 unsound, 3 no such seat (also of the contact),
 * 7 clearing, 14 not reserved, 6 no contact (also its own seat). */
uint8_t lots_confirm(uint8_t *record, size_t length, uint8_t seat,
                     uint8_t contact);

/* Frees the seat and the number of a reserved lot, in either phase and whatever is
 * pending: its bytes are those of a free seat again.
 * Refusals: 1 wrong size, 2 unsound, 3 no such seat, 14 not reserved. */
uint8_t lots_give_back(uint8_t *record, size_t length, uint8_t seat);

/* Marks a staying lot as leaving, LOTS_STATE_LEAVING. It goes on taking part until
 * turns clear it, but from now on it is the holder of no scan.
 * Refusals: 1 wrong size, 2 unsound, 3 no such seat, 7 clearing, 8 empty seat,
 * 9 already leaving. */
uint8_t lots_leave(uint8_t *record, size_t length, uint8_t seat);

/* Takes a pending message away and does its rule: of the lots it changes at most
 * the links of `to`, and it may send further messages. Any five numbers may be
 * given; `kind` is one of enum lots_kind in a message, `side` one of enum lots_side.
 * Refusals: 1 wrong size, 2 unsound, 10 no such message. */
uint8_t lots_deliver(uint8_t *record, size_t length, uint8_t kind, uint8_t to,
                     uint8_t about, uint8_t level, uint8_t side);

/* Delivers the smallest pending message, by its five numbers in order (kind, to,
 * about, level, side), again and again, those just sent included, until none is
 * pending or `limit` of them are delivered. `delivered` says how many: fewer than
 * `limit` only if none is left. A limit of 0 changes nothing, and nothing pending
 * is no reason to refuse.
 * Refusals: 1 wrong size, 2 unsound. */
uint8_t lots_bundle(uint8_t *record, size_t length, uint16_t limit,
                    uint16_t *delivered);

/* Goes from LOTS_PHASE_OPEN to LOTS_PHASE_CLEARING if a lot is leaving, when every
 * leaver sends LOTS_KIND_GOING to each of its links; and back to LOTS_PHASE_OPEN, when
 * the leavers' seats become free. Open and without leavers, nothing changes. Reserved
 * lots stay as they are.
 * Refusals: 1 wrong size, 2 unsound, 11 messages left. */
uint8_t lots_turn(uint8_t *record, size_t length);

/* Takes lots out that are gone without having left: `seats` is a set, whose lowest
 * bit is seat 0 and highest is seat 63. The named seats become free, and links to
 * them none. Then every link at levels 1 to 8 that is left, in components that lost
 * nobody too, sends LOTS_KIND_MEET at level 0, to each end about the other. Once all
 * messages are delivered, the lots that are still joined by links are one skip graph
 * again; those that are not are several, each for itself. Lots that are leaving may be
 * named.
 * The set 0 changes nothing, but meets 7 and 11 as any other.
 * Refusals: 1 wrong size, 2 unsound, 7 clearing, 8 empty seat (a named one is free or
 * reserved), 11 messages left. */
uint8_t lots_crash(uint8_t *record, size_t length, uint64_t seats);

/* Lets two components that stand in one record find each other: sends the lot on the
 * first seat a LOTS_KIND_MEET about the lot on the second at level 0, also while other
 * messages are pending, and changes nothing else. If that one is pending, nothing
 * changes. Once all messages are delivered, the lots of both components are one skip
 * graph; where the two are of one component already, its links end as they would have
 * without the call.
 * Lots that are leaving may be named.
 * Refusals: 1 wrong size, 2 unsound, 3 no such seat (of either), 7 clearing, 8 empty
 * seat (either is free or reserved), 15 same lot (the two seats are equal). */
uint8_t lots_merge(uint8_t *record, size_t length, uint8_t first, uint8_t second);

/* Looks up a scanned number from the seated lot on a seat of a settled record:
 * LOTS_PHASE_OPEN, nothing pending, and lots_check would say yes. `holder` is the seat of the
 * staying lot with the largest number not above the scanned one among the lots of its
 * component, those that links join to it directly or through others; LOTS_NO_SEAT if
 * no staying lot of these has such a number. A lot marked as leaving does not make a
 * scan wait and is never its holder: where the search comes to one, it goes on to the
 * left until a lot stays or none is left. The lot on `seat` may be a leaving one.
 * `hops` counts the lots that were stepped onto, leaving ones too.
 * Refusals: 1 wrong size, 2 unsound, 3 no such seat, 8 empty seat, 13 unsettled. */
uint8_t lots_find(const uint8_t *record, size_t length, uint8_t seat,
                  uint64_t number, uint8_t *holder, uint64_t *hops);

/* Whether every component is the skip graph of its own lots: `yes` is 1 or 0. Seated
 * lots, while clearing staying ones, that are joined by links among them, directly or
 * through others, are a component. There may be several, after a crash, or while a
 * newcomer has no link yet or a merge is not delivered: a pending message is no link.
 * While clearing, a staying lot's link to a leaver makes it no.
 * Refusals: 1 wrong size, 2 unsound. */
uint8_t lots_check(const uint8_t *record, size_t length, uint8_t *yes);

/* Reads the lot on a seat; `state` is LOTS_STATE_STAYING, LOTS_STATE_LEAVING or
 * LOTS_STATE_RESERVED.
 * Refusals: 1 wrong size, 2 unsound, 3 no such seat, 8 empty seat. */
uint8_t lots_read_lot(const uint8_t *record, size_t length, uint8_t seat,
                      uint8_t *state, uint64_t *number, uint8_t *vector);

/* Reads a link of the seated lot on a seat, at level 0 to 8, on LOTS_SIDE_LEFT or
 * LOTS_SIDE_RIGHT: the neighbour's seat, or LOTS_NO_SEAT.
 * Refusals: 1 wrong size, 2 unsound, 3 no such seat, 12 no such level, 8 empty
 * seat. */
uint8_t lots_read_link(const uint8_t *record, size_t length, uint8_t seat,
                       uint8_t level, uint8_t side, uint8_t *link);

/* Whether five numbers are a pending message: `pending` is 1 or 0.
 * Refusals: 1 wrong size, 2 unsound. */
uint8_t lots_read_message(const uint8_t *record, size_t length, uint8_t kind,
                          uint8_t to, uint8_t about, uint8_t level, uint8_t side,
                          uint8_t *pending);

/* Reads the smallest pending message, by its five numbers in order (kind, to,
 * about, level, side), that is not smaller than five given numbers; any five may
 * be given. `next_kind` is 0 if there is none, and so are the others. From five
 * zeros it is the smallest of all. lots_first_message and lots_following_message, below,
 * list what is pending by it.
 * Refusals: 1 wrong size, 2 unsound. */
uint8_t lots_next_message(const uint8_t *record, size_t length, uint8_t kind,
                          uint8_t to, uint8_t about, uint8_t level, uint8_t side,
                          uint8_t *next_kind, uint8_t *next_to,
                          uint8_t *next_about, uint8_t *next_level,
                          uint8_t *next_side);

/* Reads the count of seated lots, which leaves reserved ones out, the phase
 * (LOTS_PHASE_OPEN or LOTS_PHASE_CLEARING) and the count of pending messages.
 * Refusals: 1 wrong size, 2 unsound. */
uint8_t lots_read_counts(const uint8_t *record, size_t length, uint8_t *lots,
                         uint8_t *phase, uint32_t *pending);

/* The test that stands in front of every call but lots_open.
 * Refusals: 1 wrong size, 2 unsound. */
uint8_t lots_validate(const uint8_t *record, size_t length);

/* The rest is written here: words for the numbers, and how to go through lots and
 * through pending messages. Each step of these is one of the calls above, or a few of
 * them with their tests. */

/* The term of a refusal: "wrong size" to "same lot"; "accepted" for 0, "no such
 * refusal" for another number. */
static inline const char *lots_refusal_text(uint8_t n)
{
    switch (n) {
    case 0:
        return "accepted";
    case LOTS_WRONG_SIZE:
        return "wrong size";
    case LOTS_UNSOUND:
        return "unsound";
    case LOTS_NO_SUCH_SEAT:
        return "no such seat";
    case LOTS_SEAT_TAKEN:
        return "seat taken";
    case LOTS_NUMBER_IN_USE:
        return "number in use";
    case LOTS_NO_CONTACT:
        return "no contact";
    case LOTS_IN_CLEARING:
        return "clearing";
    case LOTS_EMPTY_SEAT:
        return "empty seat";
    case LOTS_ALREADY_LEAVING:
        return "already leaving";
    case LOTS_NO_SUCH_MESSAGE:
        return "no such message";
    case LOTS_MESSAGES_LEFT:
        return "messages left";
    case LOTS_NO_SUCH_LEVEL:
        return "no such level";
    case LOTS_UNSETTLED:
        return "unsettled";
    case LOTS_NOT_RESERVED:
        return "not reserved";
    case LOTS_SAME_LOT:
        return "same lot";
    default:
        return "no such refusal";
    }
}

/* The word of a kind: "MEET" to "NONE"; "no such kind" for another number. */
static inline const char *lots_kind_text(uint8_t kind)
{
    switch (kind) {
    case LOTS_KIND_MEET:
        return "MEET";
    case LOTS_KIND_PROBE:
        return "PROBE";
    case LOTS_KIND_PULL:
        return "PULL";
    case LOTS_KIND_GOING:
        return "GOING";
    case LOTS_KIND_SEEK:
        return "SEEK";
    case LOTS_KIND_FOUND:
        return "FOUND";
    case LOTS_KIND_NONE:
        return "NONE";
    default:
        return "no such kind";
    }
}

/* The word of a phase: "open" or "clearing"; "no such phase" for another number. */
static inline const char *lots_phase_text(uint8_t phase)
{
    switch (phase) {
    case LOTS_PHASE_OPEN:
        return "open";
    case LOTS_PHASE_CLEARING:
        return "clearing";
    default:
        return "no such phase";
    }
}

/* The word of a state: "free" to "reserved"; "no such state" for another number. */
static inline const char *lots_state_text(uint8_t state)
{
    switch (state) {
    case LOTS_STATE_FREE:
        return "free";
    case LOTS_STATE_STAYING:
        return "staying";
    case LOTS_STATE_LEAVING:
        return "leaving";
    case LOTS_STATE_RESERVED:
        return "reserved";
    default:
        return "no such state";
    }
}

/* The word of a side: "left" or "right"; "no such side" for another number. */
static inline const char *lots_side_text(uint8_t side)
{
    switch (side) {
    case LOTS_SIDE_LEFT:
        return "left";
    case LOTS_SIDE_RIGHT:
        return "right";
    default:
        return "no such side";
    }
}

/* A lot and its seat. */
struct lots_lot {
    uint8_t seat;   /* LOTS_NO_SEAT behind the last lot */
    uint8_t state;  /* of enum lots_state; LOTS_STATE_FREE behind the last lot */
    uint8_t vector;
    uint64_t number;
};

/* Reads the lot on the first taken seat that is not below `seat`, whether it is seated
 * or reserved: its state tells. If there is none, `lot` has LOTS_NO_SEAT and
 * LOTS_STATE_FREE, its other fields are 0, and the call is accepted. Any `seat` may be
 * given.
 * Refusals: 1 wrong size, 2 unsound. */
static inline uint8_t lots_next_taken(const uint8_t *record, size_t length,
                                      uint8_t seat, struct lots_lot *lot)
{
    uint8_t refusal = lots_read_lot(record, length, seat, &lot->state,
                                    &lot->number, &lot->vector);

    while (refusal == LOTS_EMPTY_SEAT)
        refusal = lots_read_lot(record, length, ++seat, &lot->state,
                                &lot->number, &lot->vector);
    switch (refusal) {
    case 0:
        lot->seat = seat;
        return 0;
    case LOTS_NO_SUCH_SEAT: /* behind the last seat */
        lot->seat = LOTS_NO_SEAT;
        return 0;
    default:
        lot->seat = 0;
        return refusal;
    }
}

/* Reads the seated lot, staying or leaving, on the first seat that is not below `seat`,
 * and passes over reserved ones; else as lots_next_taken. All seated lots, by seat:
 *
 *     for (refusal = lots_next_lot(record, length, 0, &lot); lot.state != LOTS_STATE_FREE;
 *          refusal = lots_next_lot(record, length, lot.seat + 1, &lot))
 *
 * Refusals: 1 wrong size, 2 unsound. */
static inline uint8_t lots_next_lot(const uint8_t *record, size_t length,
                                    uint8_t seat, struct lots_lot *lot)
{
    uint8_t refusal = lots_next_taken(record, length, seat, lot);

    while (lot->state == LOTS_STATE_RESERVED)
        refusal = lots_next_taken(record, length, ++lot->seat, lot);
    return refusal;
}

/* A message: five numbers. Any five may be given; only some are messages. */
struct lots_message {
    uint8_t kind;  /* of enum lots_kind; 0 behind the last message */
    uint8_t to;    /* the seat of the lot that it is delivered to */
    uint8_t about; /* a seat, the wanted bit of LOTS_KIND_PULL, or 0 */
    uint8_t level; /* of the links that it speaks of */
    uint8_t side;  /* of enum lots_side; 0 where the kind has none */
};

/* Reads the smallest pending message, by its five numbers in order. If there is none,
 * all five are 0, and the call is accepted.
 * Refusals: 1 wrong size, 2 unsound. */
static inline uint8_t lots_first_message(const uint8_t *record, size_t length,
                                         struct lots_message *message)
{
    return lots_next_message(record, length, 0, 0, 0, 0, 0, &message->kind,
                             &message->to, &message->about, &message->level,
                             &message->side);
}

/* Goes on from `message`, which may be any five numbers, to the smallest pending one
 * that is larger. If there is none, all five are 0, and the call is accepted. All
 * pending messages, ascending:
 *
 *     for (refusal = lots_first_message(record, length, &message); message.kind != 0;
 *          refusal = lots_following_message(record, length, &message))
 *
 * A delivery may send a smaller one. To deliver all, deliver the first until there is
 * none, or deliver by lots_bundle until it delivers fewer than its limit.
 * Refusals: 1 wrong size, 2 unsound. */
static inline uint8_t lots_following_message(const uint8_t *record, size_t length,
                                             struct lots_message *message)
{
    /* One more in the last of five digits. Behind the largest five all are 0. */
    if (++message->side == 0 && ++message->level == 0 && ++message->about == 0
        && ++message->to == 0 && ++message->kind == 0)
        return lots_validate(record, length);
    return lots_next_message(record, length, message->kind, message->to,
                             message->about, message->level, message->side,
                             &message->kind, &message->to, &message->about,
                             &message->level, &message->side);
}

/* lots_deliver of a message.
 * Refusals: 1 wrong size, 2 unsound, 10 no such message. */
static inline uint8_t lots_deliver_message(uint8_t *record, size_t length,
                                           struct lots_message message)
{
    return lots_deliver(record, length, message.kind, message.to, message.about,
                        message.level, message.side);
}

#ifdef __cplusplus
}
#endif

#endif
