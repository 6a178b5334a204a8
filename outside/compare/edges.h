/* edges.h: P1 to P12 of document 01, as cases of compare.c.
 *
 * Answers are written out here, so that both sides cannot be wrong alike.
 */
#ifndef COMPARE_EDGES_H
#define COMPARE_EDGES_H

#include "loose.h"

static void expect(uint64_t got, const char *edge, unsigned answer,
                   unsigned sender, unsigned number, unsigned length)
{
    need(tautrobin_answer(got) == answer && tautrobin_sender(got) == sender
         && tautrobin_number(got) == number && tautrobin_length(got) == length, edge);
}

static uint64_t edge_open(unsigned n, unsigned own, unsigned slots)
{
    empty_all();
    in.n = n;
    in.own = own;
    set_length(&in.state, STATE);
    set_length(&in.shelf, slots * SLOT);
    return both(OPEN);
}

static uint64_t edge_send(unsigned kind, unsigned body_length)
{
    in.kind = kind;
    in.given.length = 0;
    set_length(&in.given, body_length);
    fresh_out(TAUTROBIN_PACKET_MAX);
    return both(SEND);
}

/* Sender from 1; nothing in its past but its own edits. */
static struct edit edge_edit(unsigned n, unsigned sender, unsigned number, unsigned kind)
{
    struct edit e;
    memset(&e, 0, sizeof e);
    e.version = 1;
    e.n = n;
    e.sender = sender - 1;
    e.kind = kind;
    e.past[sender - 1] = (uint16_t)number;
    e.barrier[sender - 1] = (uint16_t)(kind == 1 ? number - 1 : 0);
    return e;
}

static uint64_t edge_arrive(const struct edit *e)
{
    in.given.length = write_edit(in.given.bytes, e);
    return both(ARRIVE);
}

static uint64_t edge_number(unsigned n, unsigned sender, unsigned number, unsigned kind)
{
    struct edit e = edge_edit(n, sender, number, kind);
    return edge_arrive(&e);
}

static uint64_t edge_release(unsigned room)
{
    in.given.length = 0;
    fresh_out(room);
    return both(RELEASE);
}

static bool out_is(const char *bytes, size_t length)
{
    return memcmp(in.out.bytes, bytes, length) == 0;
}

static void edges_of_open_and_send(void)
{
    expect(edge_open(0, 0, 1), "P1", 20, 0, 0, 0);
    expect(edge_open(17, 1, 1), "P1", 20, 0, 0, 0);
    expect(edge_open(2, 3, 1), "P1", 20, 0, 0, 0);
    expect(edge_open(16, 16, 1), "P1", 0, 0, 0, 0);
    edge_open(1, 1, 0);
    expect(edge_send(0, 0), "P2", 0, 1, 1, 7);
    need(out_is("\x10\0\0\0\1\0\0", 7), "P2");
    edge_open(1, 1, 0);
    expect(edge_send(1, 0), "P3", 0, 1, 1, 7);
    need(out_is("\x10\x08\0\0\1\0\0", 7), "P3");
    expect(edge_send(0, 0), "P3", 0, 1, 2, 7);
    need(out_is("\x10\0\0\0\2\0\1", 7), "P3");
    edge_open(3, 1, 2);
    edge_send(0, 0);
    expect(edge_send(1, 0), "P4", 0, 1, 2, 15);
    need(out_is("\x12\x08\0\0\2\0\0\0\0\0\1\0\0\0\0", 15), "P4");
    edge_open(1, 1, 0);
    put16(in.state.bytes, 1, LAST - 1);
    expect(edge_send(0, 0), "P7", 0, 1, LAST, 7);
    expect(edge_send(0, 0), "P7", 12, 0, 0, 0);
    edge_open(1, 1, 0);
    expect(edge_send(0, 201), "P9", 11, 0, 0, 0);
    expect(edge_send(0, 200), "P9", 0, 1, 1, 207);
}

static void edges_of_the_window(void)
{
    edge_open(2, 2, 0);
    expect(edge_number(2, 1, 65, 0), "P5", 18, 0, 0, 0);
    expect(edge_number(2, 1, 64, 0), "P5", 0, 1, 64, 0);
    for (unsigned number = 2; number <= 63; number++)
        expect(edge_number(2, 1, number, 0), "P6", 0, 1, number, 0);
    expect(edge_number(2, 1, 1, 0), "P6", 0, 1, 1, 0);
    need(memcmp(in.state.bytes + 65, "\0\x40", 2) == 0, "P6: run");
    need(memcmp(in.state.bytes + 97, "\0\0\0\0\0\0\0\0", 8) == 0, "P6: ahead");
}

static void edges_of_arrival(void)
{
    struct edit e = edge_edit(2, 1, 1, 0);
    edge_open(2, 2, 0);
    expect(edge_number(2, 1, 2, 1), "P8", 19, 0, 0, 0);
    expect(edge_number(2, 1, 1, 0), "P8", 0, 1, 1, 0);
    edge_open(2, 2, 0);
    e.body_length = 201;
    expect(edge_arrive(&e), "P9", 14, 0, 0, 0);
    in.given.length = 0;
    expect(both(ARRIVE), "P9", 14, 0, 0, 0);
    expect(edge_number(2, 1, 2, 0), "P10", 0, 1, 2, 0);
    expect(edge_number(2, 1, 1, 0), "P10", 0, 1, 1, 0);
    edge_open(2, 2, 0);
    e.body_length = 0;
    e.past[1] = 1;
    expect(edge_arrive(&e), "P11", 16, 0, 0, 0);
}

static void edges_of_release(void)
{
    for (unsigned length = 0; length <= 1; length++) {
        struct edit e = edge_edit(2, 1, 2, 1);
        e.body_length = length;
        edge_open(2, 2, 1);
        expect(edge_arrive(&e), "P12", 1, 0, 0, 0);
        expect(edge_release(0), "P12", 2, 0, 0, 0);
        expect(edge_number(2, 1, 1, 0), "P12", 0, 1, 1, 0);
        if (length == 1)
            expect(edge_release(0), "P12", 13, 0, 0, 0);
        expect(edge_release(length), "P12", 0, 1, 2, length);
        expect(edge_release(0), "P12", 2, 0, 0, 0);
    }
}

static void edges(void)
{
    edges_of_open_and_send();
    edges_of_the_window();
    edges_of_arrival();
    edges_of_release();
}

#endif
