/* tautrobin.h: one seat of a shared session, for C99 and C++.
 *
 * Up to 16 seats edit one thing together.  Every edit goes to every seat, the
 * sender's own included, over any network: packets may be lost, repeated or
 * overtaken.  An edit is ordinary or causal.  A causal edit is handed over
 * after everything its sender had seen, and before everything sent by those
 * who had seen it.  Ordinary edits do not wait for each other.
 *
 * There are four calls.  The library allocates nothing, keeps nothing between
 * calls and never looks into a body.  All memory is the caller's:
 *
 *   state    225 bytes that hold one seat; fill it with tautrobin_open
 *   shelf    0 to 32 slots of 268 bytes, in which packets wait for others
 *   packet   what goes over the network, at most 267 bytes
 *   body     the caller's own bytes within a packet, at most 200
 *
 *   uint8_t state[TAUTROBIN_STATE], shelf[8 * TAUTROBIN_SLOT];
 *   uint64_t got = tautrobin_open(2, 1, state, sizeof state, shelf, sizeof shelf);
 *   if (tautrobin_answer(got) != TAUTROBIN_DONE)
 *       puts(tautrobin_text(tautrobin_answer(got)));
 *
 * WHAT THE CALLER GUARANTEES.  No check inside a call can see these:
 *
 *   - Each pointer is valid for the length that stands beside it: readable,
 *     and writable unless it is const.  No alignment is needed.  With length 0
 *     the pointer is not followed and may be anything, NULL included.
 *   - The buffers of one call do not overlap.
 *   - One thread at a time works on a state and its shelf.  Calls on different
 *     states may run at the same time.
 *   - A state and its shelf stay together: the shelf that was opened with the
 *     state is lent to every later call on it.
 *
 * WHAT NEED NOT BE GUARANTEED.  The bytes themselves may come from anywhere.
 * A damaged or forged state, shelf or packet is refused; no content of a
 * buffer makes a call read or write outside the lengths given.
 *
 * ANSWERS.  A call answers one 64-bit number with four parts:
 *
 *   bits  0 to  7   the answer number     tautrobin_answer
 *   bits  8 to 15   sender                tautrobin_sender
 *   bits 16 to 31   sequence number       tautrobin_number
 *   bits 32 to 47   length                tautrobin_length
 *
 * The rest is 0 today; test the parts, not the whole.  Below 10 the call did
 * its work; from 10 up it is a refusal, and state, shelf and output hold the
 * bytes they held before.  Sender, number and length are reported with
 * TAUTROBIN_DONE by send, arrive and release.  In every other case, and by
 * open always, they are 0.
 *
 * When several answers apply, the first in the order named at the call is the
 * one that is given.
 */
#ifndef TAUTROBIN_H
#define TAUTROBIN_H

#include <stddef.h>
#include <stdint.h>

#ifdef __cplusplus
extern "C" {
#endif

/* Sizes, in bytes unless said otherwise. */
#define TAUTROBIN_SEATS_MAX   16  /* seats in a session, at least 1 */
#define TAUTROBIN_STATE      225  /* a state, exactly */
#define TAUTROBIN_SLOT       268  /* one slot of a shelf, exactly */
#define TAUTROBIN_SLOTS_MAX   32  /* slots on a shelf, at least 0 */
#define TAUTROBIN_BODY_MAX   200
#define TAUTROBIN_PACKET_MAX 267  /* 16 seats and the longest body */
#define TAUTROBIN_COUNT_MAX 65535 /* edits one seat can send */
#define TAUTROBIN_WINDOW      64  /* how far above the unbroken run is taken */

/* Kinds of edit.  Usual is for callers without a wish: it sends ordinary. */
enum {
    TAUTROBIN_ORDINARY = 0,
    TAUTROBIN_CAUSAL = 1,
    TAUTROBIN_USUAL = 2
};

/* Answer numbers. */
enum {
    TAUTROBIN_DONE = 0,          /* opened, sent or handed over */
    TAUTROBIN_SHELVED = 1,       /* arrive: the packet waits on the shelf */
    TAUTROBIN_NONE_READY = 2,    /* release: nothing to hand over, no change */

    TAUTROBIN_UNSOUND = 10,      /* state or shelf damaged, or a wrong length */
    TAUTROBIN_BODY_LONG = 11,    /* body over 200 bytes */
    TAUTROBIN_COUNT_SPENT = 12,  /* this seat has sent 65,535 edits */
    TAUTROBIN_OUT_SHORT = 13,    /* output too short for packet or body */
    TAUTROBIN_MALFORMED = 14,    /* not a packet */
    TAUTROBIN_OTHER_SEATS = 15,  /* packet of a session with another n */
    TAUTROBIN_NEVER_SENT = 16,   /* packet has seen more edits of this seat
                                    than this seat has sent */
    TAUTROBIN_REPEAT = 17,       /* edit handed over already, or on the shelf */
    TAUTROBIN_TOO_FAR = 18,      /* number over 64 above the unbroken run */
    TAUTROBIN_SHELF_FULL = 19,   /* must wait, and no slot is free */
    TAUTROBIN_BAD_SEAT = 20,     /* open: n not 1 to 16, own not 1 to n */
    TAUTROBIN_BAD_LINE = 21,     /* step-list program only; no call answers it */
    TAUTROBIN_BAD_KIND = 22,     /* kind is not one of the three */
    TAUTROBIN_BARRIER_HIGH = 23  /* handing over would leave an unsound state;
                                    no sound state leads there */
};

/* Parts of a call's answer. */
static inline unsigned tautrobin_answer(uint64_t got)
{
    return (unsigned)(got & 0xff);
}

/* Seat that sent the edit, 1 to n. */
static inline unsigned tautrobin_sender(uint64_t got)
{
    return (unsigned)(got >> 8 & 0xff);
}

/* The edit's sequence number at its sender, 1 to 65,535. */
static inline unsigned tautrobin_number(uint64_t got)
{
    return (unsigned)(got >> 16 & 0xffff);
}

/* Bytes of the packet (send) or of the body (arrive, release). */
static inline unsigned tautrobin_length(uint64_t got)
{
    return (unsigned)(got >> 32 & 0xffff);
}

/* Where the body starts in a packet of a session of n seats. */
static inline size_t tautrobin_body_at(unsigned n)
{
    return 3 + 4 * (size_t)n;
}

/* Opens a seat: seat `own` of a session of `n`, nothing sent or seen yet.
 *
 *   state   written; only its length is looked at, it must be 225
 *   shelf   zeroed; its length must be 268 times 0 to 32
 *
 * Answers 0 when opened.
 * Order: 20, 10 (either length), 0.
 * A refused open leaves both buffers as they were.
 */
uint64_t tautrobin_open(uint32_t n, uint32_t own,
                        uint8_t *state, size_t state_length,
                        uint8_t *shelf, size_t shelf_length);

/* Sends an edit: writes the packet that the caller then passes to every seat,
 * this one included (its own copy goes through tautrobin_arrive too).
 *
 *   state   225 bytes, rewritten on 0
 *   kind    TAUTROBIN_ORDINARY, TAUTROBIN_CAUSAL or TAUTROBIN_USUAL; all 32
 *           bits count
 *   body    read; 0 to 200 bytes
 *   out     the packet is put at its start, the rest stays untouched; it needs
 *           tautrobin_body_at(n) + body_length bytes, 267 are always enough
 *
 * Answers 0 with own number, the edit's number and the packet's length.
 * Order: 10 (state only; no shelf takes part), 22, 11, 12, 13, 0.
 */
uint64_t tautrobin_send(uint8_t *state, size_t state_length,
                        uint32_t kind,
                        const uint8_t *body, size_t body_length,
                        uint8_t *out, size_t out_length);

/* Takes a packet from the network.  It is handed over at once if all it waits
 * for has been; if not, a copy goes to the lowest free slot.
 *
 *   state   225 bytes, rewritten on 0, the same on 1
 *   shelf   one slot is filled on 1, unchanged on 0
 *   packet  read; its length is the whole packet and nothing more
 *
 * Answers 0 when handed over: sender, number and body length are reported, and
 * the body stands at packet + tautrobin_body_at(n).  Others may now be ready:
 * call tautrobin_release until it answers 2.  Answers 1 when shelved.
 * Order: 10 (state or shelf), 14, 15, 16, 17, 18; then, if the packet is
 * ready, 23, 0; if it is not, 19, 1.  So a full shelf never stops a ready
 * packet.
 */
uint64_t tautrobin_arrive(uint8_t *state, size_t state_length,
                          uint8_t *shelf, size_t shelf_length,
                          const uint8_t *packet, size_t packet_length);

/* Hands over one packet from the shelf: among the ready ones that of the
 * lowest sender, and of that sender's the lowest number.
 *
 *   state   225 bytes, rewritten on 0
 *   shelf   the slot is zeroed on 0
 *   out     the body is put at its start, the rest stays untouched; 200 bytes
 *           are always enough
 *
 * Answers 0 with sender, number and body length, or 2 when none is ready.
 * Order: 10 (state or shelf), 2, 13, 23, 0.
 * After 13 the same packet is still due: call again with a longer output.
 */
uint64_t tautrobin_release(uint8_t *state, size_t state_length,
                           uint8_t *shelf, size_t shelf_length,
                           uint8_t *out, size_t out_length);

/* A text for a log line.  Never NULL. */
static inline const char *tautrobin_text(unsigned answer)
{
    switch (answer) {
    case TAUTROBIN_DONE:         return "done";
    case TAUTROBIN_SHELVED:      return "put on the shelf";
    case TAUTROBIN_NONE_READY:   return "nothing on the shelf is ready";
    case TAUTROBIN_UNSOUND:      return "state or shelf is not sound";
    case TAUTROBIN_BODY_LONG:    return "body is over 200 bytes";
    case TAUTROBIN_COUNT_SPENT:  return "this seat has no sequence number left";
    case TAUTROBIN_OUT_SHORT:    return "output is too short";
    case TAUTROBIN_MALFORMED:    return "packet is not well formed";
    case TAUTROBIN_OTHER_SEATS:  return "packet is for another number of seats";
    case TAUTROBIN_NEVER_SENT:   return "packet knows edits this seat never sent";
    case TAUTROBIN_REPEAT:       return "edit was taken before";
    case TAUTROBIN_TOO_FAR:      return "edit is too far ahead of its sender's run";
    case TAUTROBIN_SHELF_FULL:   return "edit must wait and the shelf is full";
    case TAUTROBIN_BAD_SEAT:     return "number of seats or own seat out of range";
    case TAUTROBIN_BAD_LINE:     return "step cannot be read or names nothing";
    case TAUTROBIN_BAD_KIND:     return "kind is not ordinary, causal or usual";
    case TAUTROBIN_BARRIER_HIGH: return "handing over would leave an unsound state";
    default:                     return "no such answer";
    }
}

#ifdef __cplusplus
}
#endif

#endif
