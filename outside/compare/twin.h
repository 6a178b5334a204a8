/* twin.h: one case of compare.c, the same call on both sides.
 *
 * Fill `in`, call both(), find the results in `in` again.
 */
#ifndef COMPARE_TWIN_H
#define COMPARE_TWIN_H

#include "tautrobin.h"
#include "second.h"

#include "chance.h"

#include <inttypes.h>
#include <signal.h>
#include <stdbool.h>
#include <stdio.h>
#include <stdlib.h>
#include <string.h>

/* Under the address sanitizer a guard may not even be read. */
#ifdef __SANITIZE_ADDRESS__
#include <sanitizer/asan_interface.h>
#define FORBID(bytes, length) ASAN_POISON_MEMORY_REGION(bytes, length)
#define ALLOW(bytes, length) ASAN_UNPOISON_MEMORY_REGION(bytes, length)
#else
#define FORBID(bytes, length) ((void)(bytes), (void)(length))
#define ALLOW(bytes, length) ((void)(bytes), (void)(length))
#endif

enum {
    SEATS = TAUTROBIN_SEATS_MAX,
    SLOT = TAUTROBIN_SLOT,
    SLOTS = TAUTROBIN_SLOTS_MAX,
    STATE = TAUTROBIN_STATE,
    BODY = TAUTROBIN_BODY_MAX,
    LAST = TAUTROBIN_COUNT_MAX,
    GUARD = 32,
    ROOM = 67000 /* a body whose length needs more than 16 bits */
};

static void fill_random(uint8_t *bytes, size_t length)
{
    uint8_t salt = (uint8_t)draw();
    for (size_t i = 0; i < length; i++)
        bytes[i] = (uint8_t)(salt + 31 * i);
}

/* ---- One case: inputs, both sides, verdict ---- */

enum call { OPEN, SEND, ARRIVE, RELEASE, CALLS };

static const char *const call_name[CALLS] = {"open", "send", "arrive", "release"};

struct buffer {
    size_t length;
    uint8_t bytes[ROOM];
};

/* The inputs of the next call; afterwards state, shelf and out as it left
 * them.  `given` is the body of a send, the packet of an arrival. */
static struct inputs {
    enum call call;
    uint32_t n, own, kind;
    struct buffer state, shelf, given, out;
} in;

static struct inputs asked; /* the same as they stood before, for a failure */

struct library {
    const char *name;
    uint8_t guard; /* differs, so that a guard byte read shows in the bytes */
    uint64_t (*open)(uint32_t, uint32_t, uint8_t *, size_t, uint8_t *, size_t);
    uint64_t (*send)(uint8_t *, size_t, uint32_t, const uint8_t *, size_t,
                     uint8_t *, size_t);
    uint64_t (*arrive)(uint8_t *, size_t, uint8_t *, size_t, const uint8_t *, size_t);
    uint64_t (*release)(uint8_t *, size_t, uint8_t *, size_t, uint8_t *, size_t);
};

static const struct library library[2] = {
    {"tautrobin", 0x00, tautrobin_open, tautrobin_send, tautrobin_arrive, tautrobin_release},
    {"second", 0xa7, second_open, second_send, second_arrive, second_release},
};

struct guarded {
    _Alignas(16) uint8_t bytes[GUARD + ROOM + GUARD];
};

static struct side {
    struct guarded state, shelf, given, out;
    uint64_t got;
} side[2];

static uint64_t cases, honest_cases, scenario, met[CALLS][256];
static bool lent_null; /* in every second case an empty buffer is lent as NULL */

static void print_hex(const char *name, const struct buffer *b)
{
    printf("%s, %zu bytes:", name, b->length);
    for (size_t i = 0; i < b->length; i++)
        printf("%s%02x", i % 32 == 0 ? "\n  " : "", b->bytes[i]);
    printf("\n");
}

static void fail(const char *what)
{
    printf("FAILED: %s\n", what);
    printf("SEED=%" PRIu64 ", scenario %" PRIu64 ", case %" PRIu64 ", call %s\n",
           seed, scenario, cases, call_name[asked.call]);
    for (int i = 0; i < 2; i++)
        printf("%s answered %u: sender %u, number %u, length %u (%016" PRIx64 ")\n",
               library[i].name, tautrobin_answer(side[i].got),
               tautrobin_sender(side[i].got), tautrobin_number(side[i].got),
               tautrobin_length(side[i].got), side[i].got);
    printf("n %" PRIu32 ", own %" PRIu32 ", kind %" PRIu32 ", empty buffers %s\n",
           asked.n, asked.own, asked.kind, lent_null ? "lent as NULL" : "not NULL");
    print_hex("state", &asked.state);
    print_hex("shelf", &asked.shelf);
    print_hex(asked.call == SEND ? "body" : "packet", &asked.given);
    print_hex("output before", &asked.out);
    fflush(stdout);
    _Exit(1);
}

/* A call that traps still leaves its inputs behind.  Printing from a signal is
 * more than C promises; at this point there is nothing to lose. */
static void broke_down(int number)
{
    signal(number, SIG_DFL);
    fail("the call broke down");
}

static void watch_for_traps(void)
{
#ifndef __SANITIZE_ADDRESS__
    signal(SIGABRT, broke_down);
    signal(SIGFPE, broke_down);
    signal(SIGILL, broke_down);
    signal(SIGSEGV, broke_down);
#endif
    (void)broke_down;
}

static void need(bool holds, const char *what)
{
    if (!holds)
        fail(what);
}

static void lay(struct guarded *g, const struct buffer *b, uint8_t guard)
{
    memset(g->bytes, guard, GUARD);
    memcpy(g->bytes + GUARD, b->bytes, b->length);
    memset(g->bytes + GUARD + b->length, guard, GUARD);
    FORBID(g->bytes, GUARD);
    FORBID(g->bytes + GUARD + b->length, GUARD);
}

static void open_guards(struct guarded *g, const struct buffer *b)
{
    ALLOW(g->bytes, GUARD);
    ALLOW(g->bytes + GUARD + b->length, GUARD);
}

static uint8_t *lend(struct guarded *g, const struct buffer *b)
{
    return b->length == 0 && lent_null ? NULL : g->bytes + GUARD;
}

static uint64_t make_call(const struct library *l, struct side *s)
{
    uint8_t *state = lend(&s->state, &in.state), *shelf = lend(&s->shelf, &in.shelf);
    uint8_t *given = lend(&s->given, &in.given), *out = lend(&s->out, &in.out);
    switch (in.call) {
    case OPEN:
        return l->open(in.n, in.own, state, in.state.length, shelf, in.shelf.length);
    case SEND:
        return l->send(state, in.state.length, in.kind, given, in.given.length,
                       out, in.out.length);
    case ARRIVE:
        return l->arrive(state, in.state.length, shelf, in.shelf.length,
                         given, in.given.length);
    default:
        return l->release(state, in.state.length, shelf, in.shelf.length,
                          out, in.out.length);
    }
}

static void run_side(const struct library *l, struct side *s)
{
    lay(&s->state, &in.state, l->guard);
    lay(&s->shelf, &in.shelf, l->guard);
    lay(&s->given, &in.given, l->guard);
    lay(&s->out, &in.out, l->guard);
    s->got = make_call(l, s);
    open_guards(&s->state, &in.state);
    open_guards(&s->shelf, &in.shelf);
    open_guards(&s->given, &in.given);
    open_guards(&s->out, &in.out);
}

static bool guards_stand(const struct guarded *g, size_t length, uint8_t guard)
{
    uint8_t wrong = 0;
    for (size_t i = 0; i < GUARD; i++)
        wrong |= (uint8_t)((g->bytes[i] ^ guard) | (g->bytes[GUARD + length + i] ^ guard));
    return wrong == 0;
}

static bool same(const struct guarded *g, const struct buffer *b)
{
    return memcmp(g->bytes + GUARD, b->bytes, b->length) == 0;
}

static void check_side(const struct library *l, const struct side *s)
{
    unsigned answer = tautrobin_answer(s->got);
    need(guards_stand(&s->state, in.state.length, l->guard), "guard of the state");
    need(guards_stand(&s->shelf, in.shelf.length, l->guard), "guard of the shelf");
    need(guards_stand(&s->given, in.given.length, l->guard), "guard of body or packet");
    need(guards_stand(&s->out, in.out.length, l->guard), "guard of the output");
    need(same(&s->given, &in.given), "body or packet was written to");
    if (answer != TAUTROBIN_DONE)
        need(same(&s->state, &in.state) && same(&s->out, &in.out),
             "state or output changed without answer 0");
    if (answer > TAUTROBIN_SHELVED || (answer == TAUTROBIN_DONE && in.call == ARRIVE))
        need(same(&s->shelf, &in.shelf), "shelf changed");
    if (answer != TAUTROBIN_DONE || in.call == OPEN)
        need(s->got == answer, "sender, number or length without an edit");
}

static void take_back(struct buffer *b, const struct guarded *g)
{
    memcpy(b->bytes, g->bytes + GUARD, b->length);
}

static bool agree(const struct guarded *a, const struct guarded *b, size_t length)
{
    return memcmp(a->bytes + GUARD, b->bytes + GUARD, length) == 0;
}

static void keep(struct buffer *to, const struct buffer *from)
{
    to->length = from->length;
    memcpy(to->bytes, from->bytes, from->length);
}

static void keep_inputs(void)
{
    asked.call = in.call;
    asked.n = in.n;
    asked.own = in.own;
    asked.kind = in.kind;
    keep(&asked.state, &in.state);
    keep(&asked.shelf, &in.shelf);
    keep(&asked.given, &in.given);
    keep(&asked.out, &in.out);
}

static uint64_t both(enum call call)
{
    in.call = call;
    lent_null = cases % 2 == 0;
    keep_inputs();
    for (int i = 0; i < 2; i++)
        run_side(&library[i], &side[i]);
    need(side[0].got == side[1].got, "answers differ");
    need(agree(&side[0].state, &side[1].state, in.state.length), "states differ");
    need(agree(&side[0].shelf, &side[1].shelf, in.shelf.length), "shelves differ");
    need(agree(&side[0].out, &side[1].out, in.out.length), "outputs differ");
    for (int i = 0; i < 2; i++)
        check_side(&library[i], &side[i]);
    cases++;
    met[call][tautrobin_answer(side[0].got)]++;
    take_back(&in.state, &side[0].state);
    take_back(&in.shelf, &side[0].shelf);
    take_back(&in.out, &side[0].out);
    return side[0].got;
}

static void set_length(struct buffer *b, size_t length)
{
    if (length > b->length)
        fill_random(b->bytes + b->length, length - b->length);
    b->length = length;
}

static void empty_all(void)
{
    in.n = in.own = in.kind = 0;
    in.state.length = in.shelf.length = in.given.length = in.out.length = 0;
}

static void fresh_out(size_t length)
{
    in.out.length = 0;
    set_length(&in.out, length);
}

#endif
