/* busy.h: a busy evening of 16 seats, for speed.c.
 *
 * In each of 320 ticks a seat sends, one edit in four causal.  A packet reaches
 * each seat, the sender's own too, up to 60 ticks later, so that packets
 * overtake each other.  A seat that is handed an edit empties its shelf of what
 * has become ready; five slots are in use on average, and sixteen at most.
 */
#ifndef SPEED_BUSY_H
#define SPEED_BUSY_H

#include "tautrobin.h"
#include "chance.h"

#include <stddef.h>

enum { SEATS = 16, SLOTS = 32, BODY = 20, TICKS = 320, LATEST = 60 };

struct library {
    uint64_t (*open)(uint32_t, uint32_t, uint8_t *, size_t, uint8_t *, size_t);
    uint64_t (*send)(uint8_t *, size_t, uint32_t, const uint8_t *, size_t, uint8_t *, size_t);
    uint64_t (*arrive)(uint8_t *, size_t, uint8_t *, size_t, const uint8_t *, size_t);
    uint64_t (*release)(uint8_t *, size_t, uint8_t *, size_t, uint8_t *, size_t);
};

/* Seats from 0; edit t is sent in tick t. */
struct step {
    bool sends, causal;
    unsigned seat, edit;
};

static struct {
    unsigned steps;
    struct step step[TICKS * (1 + SEATS)];
    struct {
        uint8_t state[TAUTROBIN_STATE], shelf[SLOTS * TAUTROBIN_SLOT];
    } seat[SEATS];
    uint8_t packet[TICKS][3 + 4 * SEATS + BODY];
    uint8_t body[BODY], shown[BODY];
} busy;

static void plan_arrivals(unsigned tick, unsigned when[TICKS][SEATS])
{
    for (unsigned edit = 0; edit < TICKS; edit++)
        for (unsigned k = 0; k < SEATS; k++)
            if (when[edit][k] == tick)
                busy.step[busy.steps++] = (struct step){false, false, k, edit};
}

static void plan_evening(void)
{
    static unsigned when[TICKS][SEATS];
    start_chance(0);
    busy.steps = 0;
    for (unsigned t = 0; t < TICKS; t++)
        for (unsigned k = 0; k < SEATS; k++)
            when[t][k] = t + below(LATEST + 1);
    for (unsigned t = 0; t < TICKS + LATEST; t++) {
        bool causal = percent(25);
        unsigned sender = below(SEATS);
        if (t < TICKS)
            busy.step[busy.steps++] = (struct step){true, causal, sender, t};
        plan_arrivals(t, when);
    }
}

/* Answers 0 when every seat was handed every edit. */
static uint64_t play_evening(const struct library *l)
{
    unsigned handed = 0;
    for (unsigned k = 0; k < SEATS; k++)
        l->open(SEATS, k + 1, busy.seat[k].state, sizeof busy.seat[k].state,
                busy.seat[k].shelf, sizeof busy.seat[k].shelf);
    for (const struct step *s = busy.step; s != busy.step + busy.steps; s++) {
        uint8_t *state = busy.seat[s->seat].state, *shelf = busy.seat[s->seat].shelf;
        uint8_t *packet = busy.packet[s->edit];
        if (s->sends) {
            l->send(state, sizeof busy.seat->state, s->causal, busy.body, sizeof busy.body,
                    packet, sizeof *busy.packet);
            continue;
        }
        uint64_t got = l->arrive(state, sizeof busy.seat->state, shelf, sizeof busy.seat->shelf,
                                 packet, sizeof *busy.packet);
        for (; tautrobin_answer(got) == TAUTROBIN_DONE; handed++)
            got = l->release(state, sizeof busy.seat->state, shelf, sizeof busy.seat->shelf,
                             busy.shown, sizeof busy.shown);
    }
    return handed == TICKS * SEATS ? 0 : 1;
}

#endif
