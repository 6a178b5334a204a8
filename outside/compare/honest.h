/* honest.h: sessions of compare.c in which every packet was sent by a seat.
 *
 * The model beside them keeps sets of edits and no vectors.  An edit's `before`
 * is all that its sender had sent or been handed when sending it, and what was
 * before those; its `needs` are the edits of `before` where one of the two is
 * causal, and what those need.  From these sets alone it foretells every
 * answer of a session.
 */
#ifndef COMPARE_HONEST_H
#define COMPARE_HONEST_H

#include "loose.h"

enum { EDITS = 192, WORDS = EDITS / 64 };

struct set {
    uint64_t word[WORDS];
};

static bool holds(const struct set *a, unsigned m)
{
    return (a->word[m / 64] >> (m % 64) & 1) != 0;
}

static void put(struct set *a, unsigned m)
{
    a->word[m / 64] |= (uint64_t)1 << (m % 64);
}

static void put_all(struct set *a, const struct set *b)
{
    for (int i = 0; i < WORDS; i++)
        a->word[i] |= b->word[i];
}

static bool within(const struct set *a, const struct set *b)
{
    uint64_t out = 0;
    for (int i = 0; i < WORDS; i++)
        out |= a->word[i] & ~b->word[i];
    return out == 0;
}

struct sent {
    unsigned sender, number; /* sender from 0 */
    bool causal;
    unsigned body_length, length;
    uint8_t packet[TAUTROBIN_PACKET_MAX];
    struct set before, needs;
};

struct chair {
    uint8_t state[STATE], shelf[SLOTS * SLOT];
    unsigned slots;
    struct set seen, accepted, handed;
    struct set lost; /* edits whose packets do not come, or not yet */
};

static struct {
    unsigned n, edits, causal, loss, order;
    unsigned base[SEATS], count[SEATS]; /* counts before the session, and now */
    struct sent sent[EDITS];
    struct chair chair[SEATS];
} play;

static void sit(unsigned k)
{
    struct chair *c = &play.chair[k];
    empty_all();
    in.state.length = STATE;
    in.shelf.length = c->slots * SLOT;
    memcpy(in.state.bytes, c->state, STATE);
    memcpy(in.shelf.bytes, c->shelf, in.shelf.length);
}

static void rise(unsigned k)
{
    struct chair *c = &play.chair[k];
    memcpy(c->state, in.state.bytes, STATE);
    memcpy(c->shelf, in.shelf.bytes, in.shelf.length);
}

static void find_needs(struct sent *m)
{
    for (unsigned i = 0; i < play.edits; i++)
        if (holds(&m->before, i) && (m->causal || play.sent[i].causal)) {
            put(&m->needs, i);
            put_all(&m->needs, &play.sent[i].needs);
        }
}

static void note_sent(unsigned k, bool causal)
{
    struct sent *m = &play.sent[play.edits];
    memset(m, 0, sizeof *m);
    m->sender = k;
    m->number = ++play.count[k];
    m->causal = causal;
    m->body_length = (unsigned)in.given.length;
    m->length = (unsigned)tautrobin_body_at(play.n) + m->body_length;
    memcpy(m->packet, in.out.bytes, m->length);
    m->before = play.chair[k].seen;
    find_needs(m);
    put(&play.chair[k].seen, play.edits);
    for (unsigned i = 0; i < play.n; i++)
        if (percent(play.loss))
            put(&play.chair[i].lost, play.edits);
    play.edits++;
}

static unsigned foretell_send(unsigned k)
{
    if (in.kind > 2)
        return TAUTROBIN_BAD_KIND;
    if (in.given.length > BODY)
        return TAUTROBIN_BODY_LONG;
    if (play.count[k] == LAST)
        return TAUTROBIN_COUNT_SPENT;
    if (in.out.length < tautrobin_body_at(play.n) + in.given.length)
        return TAUTROBIN_OUT_SHORT;
    return TAUTROBIN_DONE;
}

static void play_send(unsigned k)
{
    if (play.edits == EDITS)
        return;
    sit(k);
    in.kind = percent(play.causal) ? 1 : percent(50) ? 0 : percent(90) ? 2 : some_kind();
    set_length(&in.given, percent(60) ? below(4) : some_body_length());
    fresh_out(percent(90) ? 300 : some_room(tautrobin_body_at(play.n) + in.given.length));
    unsigned told = foretell_send(k);
    uint64_t got = both(SEND);
    need(tautrobin_answer(got) == told, "model: send");
    if (told == TAUTROBIN_DONE) {
        note_sent(k, in.kind == 1);
        need(tautrobin_sender(got) == k + 1 && tautrobin_number(got) == play.count[k]
             && tautrobin_length(got) == play.sent[play.edits - 1].length,
             "model: report of a send");
    }
    rise(k);
}

static unsigned run_of(const struct chair *c, unsigned k)
{
    unsigned run = play.base[k];
    for (unsigned i = 0; i < play.edits; i++)
        if (play.sent[i].sender == k && play.sent[i].number == run + 1 && holds(&c->handed, i))
            run++;
    return run;
}

static bool is_waiting(const struct chair *c, unsigned m)
{
    return holds(&c->accepted, m) && !holds(&c->handed, m);
}

static unsigned waiting(const struct chair *c)
{
    unsigned count = 0;
    for (unsigned i = 0; i < play.edits; i++)
        count += is_waiting(c, i);
    return count;
}

static unsigned foretell_arrival(const struct chair *c, unsigned m)
{
    const struct sent *e = &play.sent[m];
    if (holds(&c->accepted, m))
        return TAUTROBIN_REPEAT;
    if (e->number > run_of(c, e->sender) + TAUTROBIN_WINDOW)
        return TAUTROBIN_TOO_FAR;
    if (within(&e->needs, &c->handed))
        return TAUTROBIN_DONE;
    return waiting(c) == c->slots ? TAUTROBIN_SHELF_FULL : TAUTROBIN_SHELVED;
}

/* Once only, and after all it needs. */
static void note_handed(struct chair *c, unsigned m, uint64_t got)
{
    const struct sent *e = &play.sent[m];
    need(!holds(&c->handed, m), "demand 3: handed over twice");
    need(within(&e->needs, &c->handed), "demand 3: handed over before what it needs");
    need(tautrobin_sender(got) == e->sender + 1 && tautrobin_number(got) == e->number
         && tautrobin_length(got) == e->body_length, "model: report of a hand-over");
    put(&c->handed, m);
    put(&c->seen, m);
    put_all(&c->seen, &e->before);
}

static void play_arrive(unsigned k, unsigned m)
{
    struct chair *c = &play.chair[k];
    sit(k);
    in.given.length = play.sent[m].length;
    memcpy(in.given.bytes, play.sent[m].packet, in.given.length);
    unsigned told = foretell_arrival(c, m);
    uint64_t got = both(ARRIVE);
    need(tautrobin_answer(got) == told, "model: arrival");
    if (told <= TAUTROBIN_SHELVED)
        put(&c->accepted, m);
    if (told == TAUTROBIN_DONE)
        note_handed(c, m, got);
    rise(k);
}

static bool comes_first(unsigned a, unsigned b)
{
    const struct sent *x = &play.sent[a], *y = &play.sent[b];
    return x->sender != y->sender ? x->sender < y->sender : x->number < y->number;
}

/* The edit that is due from the shelf, or EDITS. */
static unsigned foretell_due(const struct chair *c)
{
    unsigned due = EDITS;
    for (unsigned i = 0; i < play.edits; i++)
        if (is_waiting(c, i) && within(&play.sent[i].needs, &c->handed)
            && (due == EDITS || comes_first(i, due)))
            due = i;
    return due;
}

/* Nothing is ready: all that could be handed over has been, nothing else. */
static void check_rest(const struct chair *c)
{
    for (unsigned i = 0; i < play.edits; i++)
        need(holds(&c->handed, i)
             == (holds(&c->accepted, i) && within(&play.sent[i].needs, &c->accepted)),
             "demand 3: handed over is not what could be");
}

static bool play_release(unsigned k)
{
    struct chair *c = &play.chair[k];
    unsigned due = foretell_due(c), told = TAUTROBIN_NONE_READY;
    sit(k);
    fresh_out(percent(80) ? BODY : below(5));
    if (due != EDITS)
        told = in.out.length < play.sent[due].body_length ? TAUTROBIN_OUT_SHORT : TAUTROBIN_DONE;
    uint64_t got = both(RELEASE);
    need(tautrobin_answer(got) == told, "model: release");
    if (told == TAUTROBIN_DONE) {
        note_handed(c, due, got);
        need(memcmp(in.out.bytes, play.sent[due].packet + tautrobin_body_at(play.n),
                    play.sent[due].body_length) == 0, "model: body of a release");
    }
    if (told == TAUTROBIN_NONE_READY)
        check_rest(c);
    rise(k);
    return told != TAUTROBIN_NONE_READY;
}

static void play_all_releases(unsigned k)
{
    while (play_release(k))
        ;
}

/* A session that has run for long and in which all have seen everything. */
static void age_seat(unsigned k, const struct seat *old)
{
    struct seat s = *old;
    s.own = k + 1;
    write_state(&s);
    memcpy(play.chair[k].state, in.state.bytes, STATE);
}

static void age_session(void)
{
    struct seat s;
    unsigned style = 1 + below(3);
    memset(&s, 0, sizeof s);
    s.n = play.n;
    for (unsigned k = 0; k < play.n; k++) {
        play.base[k] = play.count[k] = some_count(style);
        s.past[k] = s.run[k] = (uint16_t)play.base[k];
        s.barrier[k] = (uint16_t)below(play.base[k] + 1);
    }
    for (unsigned k = 0; k < play.n; k++)
        age_seat(k, &s);
}

static void open_chair(unsigned k)
{
    const unsigned size[] = {0, 1, 2, 4, 8, SLOTS};
    struct chair *c = &play.chair[k];
    c->slots = percent(50) ? size[below(6)] : below(SLOTS + 1);
    empty_all();
    in.n = play.n;
    in.own = k + 1;
    set_length(&in.state, STATE);
    set_length(&in.shelf, c->slots * SLOT);
    need(both(OPEN) == TAUTROBIN_DONE, "model: open");
    rise(k);
}

static void open_session(void)
{
    const unsigned causal[] = {0, 5, 25, 60, 100}, loss[] = {0, 0, 5, 30};
    memset(&play, 0, sizeof play);
    play.n = percent(50) ? between(1, 4) : percent(25) ? SEATS : between(1, SEATS);
    play.causal = causal[below(5)];
    play.loss = loss[below(4)];
    play.order = below(3);
    for (unsigned k = 0; k < play.n; k++)
        open_chair(k);
    if (percent(30))
        age_session();
}

/* Which edit comes next: any, the newest, or the oldest not yet taken. */
static unsigned next_arrival(const struct chair *c)
{
    unsigned m = below(play.edits);
    for (unsigned i = 0; play.order != 0 && percent(85) && i < play.edits; i++) {
        m = play.order == 1 ? play.edits - 1 - i : i;
        if (!holds(&c->accepted, m) && !holds(&c->lost, m) && percent(60))
            break;
    }
    return m;
}

static void play_step(void)
{
    unsigned k = below(play.n), what = below(10);
    if (play.edits == 0 || what < 2) {
        play_send(k);
    } else if (what < 8) {
        unsigned m = next_arrival(&play.chair[k]);
        if (!holds(&play.chair[k].lost, m))
            play_arrive(k, m);
    } else if (what == 8) {
        play_release(k);
    } else {
        play_all_releases(k);
    }
}

/* What was lost is sent again, in the order of sending: all must get all. */
static void heal(unsigned k)
{
    for (unsigned m = 0; m < play.edits; m++) {
        if (!holds(&play.chair[k].accepted, m))
            play_arrive(k, m);
        play_all_releases(k);
    }
    for (unsigned m = 0; m < play.edits; m++)
        need(holds(&play.chair[k].handed, m), "model: healed session lacks an edit");
}

static void honest(void)
{
    unsigned steps;
    open_session();
    steps = between(20, 200 + 60 * play.n);
    for (unsigned i = 0; i < steps; i++)
        play_step();
    for (unsigned k = 0; k < play.n; k++)
        play_all_releases(k);
    for (unsigned k = 0; k < play.n && percent(40); k++)
        heal(k);
}

/* One seat sends on and on; another gets it all but for a few, then those. */
static void honest_window(void)
{
    unsigned held, sends = between(60, 140);
    open_session();
    play.causal = percent(50) ? 0 : 3;
    for (unsigned i = 0; i < sends; i++)
        play_send(0);
    if (play.edits == 0)
        return;
    held = least(below(3), play.edits - 1);
    for (unsigned i = 0; i < 150; i++) {
        unsigned m = percent(50) ? least(held + 1 + i, play.edits - 1) : below(play.edits);
        if (m != held)
            play_arrive(play.n - 1, m);
    }
    play_all_releases(play.n - 1);
    play_arrive(play.n - 1, held);
    play_all_releases(play.n - 1);
    heal(play.n - 1);
}

#endif
