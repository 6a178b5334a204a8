/* loose.h: cases of compare.c from nowhere.
 *
 * A sound state, a sound shelf and a packet that fits them are drawn; then, in
 * about half the cases, something is damaged.
 */
#ifndef COMPARE_LOOSE_H
#define COMPARE_LOOSE_H

#include "twin.h"

/* ---- States, packets and shelves ---- */

struct seat {
    unsigned n, own; /* own from 1 */
    uint16_t past[SEATS], barrier[SEATS], run[SEATS];
    uint64_t ahead[SEATS];
};

/* Fields as they will be written, good or not; sender from 0. */
struct edit {
    unsigned version, n, sender, kind, zeros, body_length;
    int more; /* bytes beyond the length that the fields tell, or short of it */
    uint16_t past[SEATS], barrier[SEATS];
    uint8_t salt;
};

static size_t put16(uint8_t *bytes, size_t at, unsigned x)
{
    bytes[at] = (uint8_t)(x >> 8);
    bytes[at + 1] = (uint8_t)x;
    return at + 2;
}

static void write_state(const struct seat *s)
{
    uint8_t *b = in.state.bytes;
    size_t at = 1;
    b[0] = (uint8_t)((s->n - 1) << 4 | (s->own - 1));
    for (int k = 0; k < SEATS; k++)
        at = put16(b, at, s->past[k]);
    for (int k = 0; k < SEATS; k++)
        at = put16(b, at, s->barrier[k]);
    for (int k = 0; k < SEATS; k++)
        at = put16(b, at, s->run[k]);
    for (int k = 0; k < SEATS; k++)
        for (int shift = 48; shift >= 0; shift -= 16)
            at = put16(b, at, (unsigned)(s->ahead[k] >> shift & 0xffff));
    in.state.length = at;
}

/* Up to 3 + 64 + 255 bytes and what `more` adds; answers the length. */
static size_t write_edit(uint8_t *b, const struct edit *e)
{
    size_t at = 3;
    b[0] = (uint8_t)(e->version << 4 | (e->n - 1));
    b[1] = (uint8_t)(e->sender << 4 | e->kind << 3 | e->zeros);
    b[2] = (uint8_t)e->body_length;
    for (unsigned k = 0; k < e->n; k++)
        at = put16(b, at, e->past[k]);
    for (unsigned k = 0; k < e->n; k++)
        at = put16(b, at, e->barrier[k]);
    for (unsigned i = 0; i < e->body_length; i++)
        b[at++] = (uint8_t)(e->salt + 13 * i);
    for (int i = 0; i < e->more; i++)
        b[at++] = (uint8_t)(i & 1);
    return e->more >= 0 ? at : at - least((unsigned)at, (unsigned)-e->more);
}

static unsigned some_count(unsigned style)
{
    switch (style) {
    case 0:  return below(4);
    case 1:  return below(300);
    case 2:  return LAST - below(80);
    case 3:  return LAST - below(3);
    default: return below(LAST + 1);
    }
}

static uint64_t low_bits(unsigned n)
{
    return n >= 64 ? UINT64_MAX : ((uint64_t)1 << n) - 1;
}

static uint64_t some_marks(void)
{
    switch (below(6)) {
    case 0:  return draw() & draw();
    case 1:  return draw();
    case 2:  return draw() | draw();
    case 3:  return UINT64_MAX;
    default: return 0;
    }
}

static void make_entry(struct seat *s, unsigned k, unsigned style)
{
    unsigned past = some_count(style), run = past;
    switch (below(4)) {
    case 0: run -= least(past, below(3)); break;
    case 1: run -= least(past, below(70)); break;
    case 2: run -= least(past, 64); break;
    }
    s->past[k] = (uint16_t)past;
    s->run[k] = (uint16_t)run;
    s->ahead[k] = some_marks() & low_bits(past - run) & ~(uint64_t)1;
    s->barrier[k] = (uint16_t)(percent(30) ? past : percent(30) ? 0 : below(past + 1));
}

static void make_seat(struct seat *s)
{
    unsigned style = below(6);
    memset(s, 0, sizeof *s);
    s->n = percent(40) ? between(1, 3) : between(1, SEATS);
    s->own = between(1, s->n);
    for (unsigned k = 0; k < s->n; k++)
        make_entry(s, k, style == 5 ? below(5) : style);
    write_state(s);
}

/* Some number of the sender that is not taken, or 0. */
static unsigned free_number(const struct seat *s, unsigned j, uint64_t taken, bool low)
{
    unsigned run = s->run[j], top = least(run + 64, j == s->own - 1 ? s->past[j] : LAST);
    unsigned number = low || top <= run ? run + 1 : percent(20) ? top : between(run + 1, top);
    while (number <= top && (taken >> (number - run - 1) & 1) != 0)
        number++;
    return number <= top ? number : 0;
}

static unsigned some_past(const struct seat *s, unsigned k)
{
    unsigned past = s->past[k], run = s->run[k];
    switch (below(5)) {
    case 0:  return run;
    case 1:  return below(run + 1);
    case 2:  return below(past + 1);
    case 3:  return k == s->own - 1 ? past : least(past + below(4), LAST);
    default: return past;
    }
}

static unsigned some_barrier(unsigned most, unsigned run, bool easy)
{
    switch (below(4)) {
    case 0:  return 0;
    case 1:  return least(most, run);
    case 2:  return below((easy ? least(most, run) : most) + 1);
    default: return easy ? least(most, run) : least(most, run + 1);
    }
}

static void make_barrier(struct edit *e, const struct seat *s, bool easy)
{
    for (unsigned k = 0; k < e->n; k++) {
        unsigned most = e->past[k] - (k == e->sender ? 1u : 0u);
        e->barrier[k] = (uint16_t)(e->kind == 1 ? most : some_barrier(most, s->run[k], easy));
    }
}

/* A packet this seat would take, if there is a number for it.  An easy one
 * is ready, as far as its number lets it. */
static bool make_edit(struct edit *e, const struct seat *s, const uint64_t taken[SEATS],
                      bool easy)
{
    memset(e, 0, sizeof *e);
    e->version = 1;
    e->n = s->n;
    e->sender = below(s->n);
    e->kind = percent(40);
    e->body_length = percent(50) ? below(4) : percent(30) ? BODY : below(BODY + 1);
    e->salt = (uint8_t)draw();
    unsigned number = free_number(s, e->sender, taken[e->sender],
                                  percent(30) || (easy && e->kind == 1));
    if (number == 0)
        return false;
    for (unsigned k = 0; k < s->n; k++)
        e->past[k] = (uint16_t)(easy && percent(90) ? below(s->run[k] + 1u) : some_past(s, k));
    e->past[e->sender] = (uint16_t)number;
    make_barrier(e, s, easy);
    return true;
}

static void set_number(struct edit *e, unsigned number)
{
    e->past[e->sender] = (uint16_t)number;
    if (number != 0 && (e->kind == 1 || e->barrier[e->sender] >= number))
        e->barrier[e->sender] = (uint16_t)(number - 1);
}

/* ---- Damage ---- */

static unsigned taken_number(const struct seat *s, unsigned j, uint64_t taken)
{
    unsigned bit = below(64);
    for (unsigned i = 0; i < 64; i++, bit = (bit + 1) % 64)
        if ((taken >> bit & 1) != 0)
            return s->run[j] + 1u + bit;
    return s->run[j];
}

static void spoil_numbers(struct edit *e, const struct seat *s, const uint64_t taken[SEATS])
{
    unsigned run = s->run[e->sender], self = s->own - 1;
    switch (below(7)) {
    case 0: set_number(e, 0); break;
    case 1: set_number(e, run == 0 ? 0 : between(1, run)); break;
    case 2: set_number(e, taken_number(s, e->sender, taken[e->sender])); break;
    case 3: set_number(e, least(run + 65, LAST)); break;
    case 4: set_number(e, least(run + between(64, 200), LAST)); break;
    case 5: set_number(e, LAST); break;
    default:
        e->past[self] = (uint16_t)least(s->past[self] + 1u, LAST);
        if (e->kind == 1)
            e->barrier[self] = (uint16_t)(e->past[self] - (self == e->sender));
    }
}

static void spoil_vectors(struct edit *e)
{
    unsigned k = below(e->n);
    switch (below(4)) {
    case 0: e->barrier[e->sender] = e->past[e->sender]; break;
    case 1: e->barrier[k] = (uint16_t)(e->past[k] + 1u); break;
    case 2: e->barrier[k] = (uint16_t)(e->barrier[k] - 1u); break;
    default: e->kind ^= 1;
    }
}

static void spoil_front(struct edit *e)
{
    switch (below(7)) {
    case 0: e->version = below(16); break;
    case 1: e->zeros = between(1, 7); break;
    case 2: e->sender = between(e->n - 1, SEATS - 1); break;
    case 3: e->body_length = BODY + 1; break;
    case 4: e->body_length = between(BODY + 1, 255); break;
    case 5: e->more = percent(50) ? 1 : (int)between(1, 40); break;
    default: e->more = percent(50) ? -1 : -(int)between(1, 300);
    }
}

/* Another n; the entries that come in are 0, so the rest stays as it was. */
static void spoil_seats(struct edit *e)
{
    e->n = percent(50) ? least(e->n + 1, SEATS) : between(e->sender + 1, SEATS);
}

static void spoil_edit(struct edit *e, const struct seat *s, const uint64_t taken[SEATS])
{
    switch (below(6)) {
    case 0:  spoil_front(e); break;
    case 1:  spoil_vectors(e); break;
    case 2:  spoil_seats(e); break;
    default: spoil_numbers(e, s, taken);
    }
}

static void flip_bit(uint8_t *bytes, size_t length)
{
    if (length != 0)
        bytes[below((unsigned)length)] ^= (uint8_t)(1u << below(8));
}

/* One entry above n, or one place of the others, out of order. */
static void spoil_entry(struct seat *s)
{
    unsigned k = s->n < SEATS && percent(60) ? between(s->n, SEATS - 1) : below(s->n);
    unsigned room = (unsigned)(s->past[k] - s->run[k]);
    switch (below(5)) {
    case 0:
        s->past[k] = (uint16_t)least(s->past[k] + between(1, 3), LAST);
        break;
    case 1: s->barrier[k] = (uint16_t)least(s->past[k] + between(1, 3), LAST); break;
    case 2:
        s->run[k] = (uint16_t)least(s->past[k] + 1u, LAST);
        s->ahead[k] &= percent(50) ? 0 : UINT64_MAX;
        break;
    case 3: s->ahead[k] |= 1; break;
    default: s->ahead[k] |= (uint64_t)1 << (percent(60) ? least(room, 63) : below(64));
    }
}

static void spoil_state(struct seat *s)
{
    switch (below(8)) {
    case 0:
        s->own = least(s->n + between(1, 3), SEATS);
        write_state(s);
        break;
    case 1:
        s->n = between(1, SEATS);
        write_state(s);
        break;
    case 2:
        flip_bit(in.state.bytes, in.state.length);
        break;
    case 3: {
        const unsigned edge[] = {0, 1, 224, 226, 450, 481, below(500)};
        set_length(&in.state, edge[below(7)]);
        break;
    }
    default:
        spoil_entry(s);
        write_state(s);
    }
}

/* The shelf that was made, with what stands on it. */
static struct {
    unsigned slots, used;
    struct edit edit[SLOTS + 2];
    unsigned slot[SLOTS + 2];
    uint64_t taken[SEATS];
} made;

static void write_slot(unsigned slot, const struct edit *e)
{
    static uint8_t packet[1024];
    uint8_t *at = in.shelf.bytes + slot * SLOT;
    size_t length = write_edit(packet, e);
    memset(at, 0, SLOT);
    at[0] = 1;
    memcpy(at + 1, packet, least((unsigned)length, SLOT - 1));
}

static void fill_slot(const struct seat *s, unsigned slot, unsigned easy)
{
    struct edit *e = &made.edit[made.used];
    if (!make_edit(e, s, made.taken, percent(easy)))
        return;
    unsigned bit = (unsigned)(e->past[e->sender] - s->run[e->sender] - 1);
    made.taken[e->sender] |= (uint64_t)1 << bit;
    made.slot[made.used++] = slot;
    write_slot(slot, e);
}

static void make_shelf(const struct seat *s)
{
    const unsigned size[] = {0, 1, 2, 3, 8, SLOTS, below(SLOTS + 1), below(6), SLOTS + 1};
    unsigned full = below(4) * 34, easy = below(3) * 50;
    made.slots = size[percent(3) ? 8 : below(8)];
    made.used = 0;
    memcpy(made.taken, s->ahead, sizeof made.taken);
    in.shelf.length = made.slots * SLOT;
    memset(in.shelf.bytes, 0, in.shelf.length);
    for (unsigned i = 0; i < made.slots; i++)
        if (percent(full))
            fill_slot(s, i, easy);
}

static bool slot_is_used(unsigned slot)
{
    return in.shelf.bytes[slot * SLOT] == 1;
}

/* The same sender and number once more, in another slot. */
static void repeat_slot(const struct seat *s)
{
    unsigned which = below(made.used), slot = below(made.slots);
    struct edit e = made.edit[which];
    if (slot == made.slot[which])
        return;
    e.salt++;
    if (percent(50) && e.kind == 0)
        make_barrier(&e, s, true);
    write_slot(slot, &e);
}

static void spoil_slot_bytes(unsigned slot)
{
    uint8_t *at = in.shelf.bytes + slot * SLOT;
    size_t end = slot_is_used(slot)
        ? 1 + tautrobin_body_at((at[1] & 15u) + 1) + at[3] : 1;
    switch (below(5)) {
    case 0: at[0] = (uint8_t)between(2, 255); break;
    case 1: at[0] ^= 1; break;
    case 2: at[SLOT - 1] ^= 1; break;
    case 3: at[end < SLOT ? end : SLOT - 1] ^= 0x80; break;
    default: flip_bit(at, SLOT);
    }
}

static void spoil_shelf_length(void)
{
    const unsigned edge[] = {
        1, SLOT - 1, SLOT + 1, SLOTS * SLOT - 1, SLOTS * SLOT + 1, (SLOTS + 1) * SLOT,
        (SLOTS + 2) * SLOT, made.slots * SLOT + 1, made.slots * SLOT + SLOT - 1, below(9000)};
    size_t length = edge[below(10)], before = in.shelf.length;
    in.shelf.length = length;
    if (length > before)
        memset(in.shelf.bytes + before, 0, length - before);
}

static void spoil_shelf(const struct seat *s)
{
    unsigned kind = below(10), slot;
    if (made.slots == 0 || kind == 0) {
        spoil_shelf_length();
        return;
    }
    slot = below(made.slots);
    if (kind <= 3 && made.used != 0) {
        repeat_slot(s);
    } else if (kind <= 7 && made.used != 0) {
        unsigned which = below(made.used);
        struct edit e = made.edit[which];
        spoil_edit(&e, s, made.taken);
        write_slot(made.slot[which], &e);
    } else {
        spoil_slot_bytes(slot);
    }
}

/* ---- The four calls on loose inputs ---- */

static uint32_t some_kind(void)
{
    const uint32_t odd[] = {3, 255, 256, 257, 258, 65536, 65537, 0x80000000u, 0x80000001u,
                            0xffffffffu, (uint32_t)draw()};
    return percent(75) ? below(3) : odd[below(11)];
}

static size_t some_body_length(void)
{
    const unsigned edge[] = {0, 1, 199, 200, 201, 255, 256, 257, 300};
    if (percent(2))
        return 65536 + below(300);
    return percent(50) ? edge[below(9)] : below(BODY + 1);
}

static size_t some_room(size_t needed)
{
    switch (below(6)) {
    case 0:  return needed == 0 ? 0 : needed - 1;
    case 1:  return needed + 1;
    case 2:  return needed + below(60);
    case 3:  return below(300);
    case 4:  return needed;
    default: return 300;
    }
}

static void loose_open(void)
{
    const uint32_t edge[] = {0, 1, 2, 15, 16, 17, 255, 256, 257, 272, 65537, 0x80000001u,
                             (uint32_t)draw()};
    const unsigned image[] = {0, 224, 226, 481, 225};
    empty_all();
    in.n = percent(60) ? between(1, 16) : edge[below(13)];
    in.own = percent(60) ? between(1, 16) : percent(50) ? in.n + below(2) : edge[below(13)];
    set_length(&in.state, percent(80) ? STATE : image[below(5)]);
    set_length(&in.shelf, (size_t)below(SLOTS + 1) * SLOT);
    if (percent(25)) {
        made.slots = below(SLOTS + 1);
        spoil_shelf_length();
    }
    both(OPEN);
}

static void loose_send(struct seat *s)
{
    if (percent(20)) {
        s->past[s->own - 1] = (uint16_t)(LAST - below(2));
        write_state(s);
    }
    if (percent(15))
        spoil_state(s);
    in.kind = some_kind();
    set_length(&in.given, some_body_length());
    fresh_out(some_room(tautrobin_body_at(s->n) + least((unsigned)in.given.length, 400)));
    both(SEND);
}

static void loose_packet(const struct seat *s, unsigned damage)
{
    struct edit e;
    if (made.used != 0 && percent(10))
        e = made.edit[below(made.used)];
    else if (!make_edit(&e, s, made.taken, percent(50)))
        damage++;
    for (unsigned i = 0; i < damage; i++)
        spoil_edit(&e, s, made.taken);
    in.given.length = write_edit(in.given.bytes, &e);
    if (damage != 0 && percent(5))
        flip_bit(in.given.bytes, in.given.length);
    if (damage != 0 && percent(5))
        in.given.length = below(5);
}

static void spoil(struct seat *s)
{
    if (percent(50))
        spoil_state(s);
    else
        spoil_shelf(s);
}

/* A packet comes in; in some cases state or shelf are damaged first. */
static void loose_arrive(struct seat *s)
{
    loose_packet(s, percent(45) ? 0 : percent(70) ? 1 : 2);
    if (percent(25))
        spoil(s);
    both(ARRIVE);
}

/* All that is ready leaves the shelf, in the order that the calls choose. */
static void loose_release(struct seat *s)
{
    uint64_t got;
    if (percent(40))
        spoil(s);
    do {
        fresh_out(some_room(percent(50) ? 0 : BODY));
        got = both(RELEASE);
        if (tautrobin_answer(got) == TAUTROBIN_OUT_SHORT) {
            fresh_out(BODY);
            got = both(RELEASE);
        }
    } while (tautrobin_answer(got) == TAUTROBIN_DONE);
}

static void loose(void)
{
    struct seat s;
    empty_all();
    make_seat(&s);
    make_shelf(&s);
    switch (below(20)) {
    case 0:
        loose_open();
        break;
    case 1: case 2: case 3: case 4:
        loose_send(&s);
        break;
    case 5: case 6: case 7: case 8: case 9:
        loose_release(&s);
        break;
    default:
        loose_arrive(&s);
        if (percent(20))
            loose_release(&s);
    }
}

/* An output of each length around each body that may be due. */
static void loose_short_release(void)
{
    struct seat s;
    empty_all();
    make_seat(&s);
    make_shelf(&s);
    for (unsigned i = 0; i < made.used; i++)
        for (unsigned more = 0; more < 3; more++) {
            fresh_out(made.edit[i].body_length == 0 ? 0 : made.edit[i].body_length - 1 + more);
            both(RELEASE);
        }
}

#endif
