/* second.c: one seat of a session, written from document 01 alone.
 *
 * Vectors always have 16 entries, those above n being 0, so that the loops
 * over them have a fixed length and no early exit: the compiler makes them
 * wide.  Seats are counted from 0 inside and from 1 in bytes and answers.
 */
#include "second.h"

#include <stdbool.h>
#include <string.h>

enum {
    SEATS = 16,
    SLOT = 268,
    SLOTS = 32,
    BODY = 200,
    WINDOW = 64,
    LAST = 65535,
    FRONT = 3, /* bytes of a packet before its vectors */
    VECTOR = 2 * SEATS
};

/* The state's bytes. */
enum {
    AT_PAST = 1,
    AT_BARRIER = AT_PAST + VECTOR,
    AT_RUN = AT_BARRIER + VECTOR,
    AT_AHEAD = AT_RUN + VECTOR,
    IMAGE = AT_AHEAD + 8 * SEATS
};

enum {
    DONE = 0,
    SHELVED = 1,
    NONE_READY = 2,
    UNSOUND = 10,
    BODY_LONG = 11,
    COUNT_SPENT = 12,
    OUT_SHORT = 13,
    MALFORMED = 14,
    OTHER_SEATS = 15,
    NEVER_SENT = 16,
    REPEAT = 17,
    TOO_FAR = 18,
    SHELF_FULL = 19,
    BAD_SEAT = 20,
    BAD_KIND = 22
};

enum { ORDINARY = 0, CAUSAL = 1, USUAL = 2 };

struct seat {
    unsigned n, self;
    uint16_t past[SEATS], barrier[SEATS], run[SEATS];
    uint64_t ahead[SEATS];
};

struct packet {
    unsigned n, sender, number;
    bool causal;
    uint16_t past[SEATS], barrier[SEATS];
    const uint8_t *body;
    size_t body_length;
};

/* What a walk over the shelf finds. */
struct shelf {
    uint64_t taken[SEATS]; /* ahead, and the numbers that wait here with it */
    uint8_t *free;         /* lowest free slot, or NULL */
    uint8_t *due;          /* slot of the packet to release, or NULL */
    struct packet first;   /* that packet */
};

static uint64_t report(unsigned sender, unsigned number, size_t length)
{
    return (uint64_t)DONE | (uint64_t)(sender + 1) << 8
         | (uint64_t)number << 16 | (uint64_t)length << 32;
}

/* Numbers in bytes, most significant first. */

static bool host_is_little(void)
{
    const uint16_t one = 1;
    uint8_t first;
    memcpy(&first, &one, 1);
    return first == 1;
}

/* Its own inverse: between a number and the same bytes in packet order. */
static uint16_t turn(uint16_t x)
{
    return host_is_little() ? (uint16_t)(x << 8 | x >> 8) : x;
}

/* The first n entries; those above become 0.  Where a full vector may be read
 * it is, and a row of `keep` clears what is not the vector's. */
static inline void get_vector(uint16_t v[SEATS], const uint8_t *from, size_t n, bool roomy)
{
    static const uint16_t keep[2 * SEATS] = {
        LAST, LAST, LAST, LAST, LAST, LAST, LAST, LAST,
        LAST, LAST, LAST, LAST, LAST, LAST, LAST, LAST};
    const uint16_t *row = keep + SEATS - n;
    uint16_t raw[SEATS] = {0};
    if (roomy)
        memcpy(raw, from, VECTOR);
    else
        memcpy(raw, from, 2 * n);
    for (int k = 0; k < SEATS; k++)
        v[k] = turn(raw[k]) & row[k];
}

static inline void put_vector(uint8_t *to, const uint16_t v[SEATS], size_t n)
{
    uint16_t raw[SEATS];
    for (int k = 0; k < SEATS; k++)
        raw[k] = turn(v[k]);
    memcpy(to, raw, 2 * n);
}

static inline uint64_t get_word(const uint8_t *b)
{
    return (uint64_t)b[0] << 56 | (uint64_t)b[1] << 48
         | (uint64_t)b[2] << 40 | (uint64_t)b[3] << 32
         | (uint64_t)b[4] << 24 | (uint64_t)b[5] << 16
         | (uint64_t)b[6] << 8 | (uint64_t)b[7];
}

static inline void put_word(uint8_t *b, uint64_t x)
{
    for (int i = 0; i < 8; i++)
        b[i] = (uint8_t)(x >> (56 - 8 * i));
}

/* The state. */

/* Needs run at most past everywhere: bit b is edit run + 1 + b. */
static bool marks_within_past(const struct seat *s)
{
    uint64_t stray = 0;
    for (int k = 0; k < SEATS; k++) {
        unsigned room = (unsigned)(s->past[k] - s->run[k]);
        stray |= room < WINDOW ? s->ahead[k] >> room : 0;
    }
    return stray == 0;
}

/* Above n only past is tested: the other entries lie within it. */
static bool sound(const struct seat *s)
{
    uint16_t over = 0;
    uint64_t marks = 0;
    for (int k = 0; k < SEATS; k++)
        over |= (uint16_t)(s->barrier[k] > s->past[k]);
    for (int k = 0; k < SEATS; k++)
        over |= (uint16_t)(s->run[k] > s->past[k]);
    for (unsigned k = s->n; k < SEATS; k++)
        over |= s->past[k];
    for (int k = 0; k < SEATS; k++)
        marks |= s->ahead[k];
    if (over != 0 || s->self >= s->n || (marks & 1) != 0)
        return false;
    return marks == 0 || marks_within_past(s);
}

static bool get_seat(struct seat *s, const uint8_t *image, size_t length)
{
    if (length != IMAGE)
        return false;
    s->n = (image[0] >> 4) + 1u;
    s->self = image[0] & 15u;
    get_vector(s->past, image + AT_PAST, SEATS, true);
    get_vector(s->barrier, image + AT_BARRIER, SEATS, true);
    get_vector(s->run, image + AT_RUN, SEATS, true);
    for (int k = 0; k < SEATS; k++)
        s->ahead[k] = get_word(image + AT_AHEAD + 8 * k);
    return sound(s);
}

/* No step changes n, own number, or run and ahead of another than j. */
static void put_seat(uint8_t *image, const struct seat *s, unsigned j)
{
    put_vector(image + AT_PAST, s->past, SEATS);
    put_vector(image + AT_BARRIER, s->barrier, SEATS);
    image[AT_RUN + 2 * j] = (uint8_t)(s->run[j] >> 8);
    image[AT_RUN + 2 * j + 1] = (uint8_t)s->run[j];
    put_word(image + AT_AHEAD + 8 * j, s->ahead[j]);
}

/* Packets. */

static size_t length_for(unsigned n, size_t body_length)
{
    return FRONT + 4 * (size_t)n + body_length;
}

/* By the packet's own fields; reads its first 3 bytes. */
static size_t told_length(const uint8_t *bytes)
{
    return length_for((bytes[0] & 15u) + 1u, bytes[2]);
}

/* Points 7 and 8: past, less 1 at the sender, is the most that barrier may be
 * and, in a causal packet, what it is. */
static inline bool vectors_fit(const struct packet *p)
{
    uint16_t most[SEATS], over = 0, differ = 0;
    if (p->number == 0)
        return false;
    memcpy(most, p->past, sizeof most);
    most[p->sender]--;
    for (int k = 0; k < SEATS; k++)
        over |= (uint16_t)(p->barrier[k] > most[k]);
    for (int k = 0; k < SEATS; k++)
        differ |= (uint16_t)(p->barrier[k] ^ most[k]);
    return over == 0 && (differ == 0 || !p->causal);
}

/* From `bytes` on, `room` bytes may be read: the packet's or more. */
static inline bool get_packet(struct packet *p, const uint8_t *bytes, size_t length, size_t room)
{
    if (length < FRONT || bytes[0] >> 4 != 1 || (bytes[1] & 7) != 0)
        return false;
    p->n = (bytes[0] & 15u) + 1u;
    p->sender = bytes[1] >> 4;
    p->causal = (bytes[1] & 8) != 0;
    p->body_length = bytes[2];
    if (p->sender >= p->n || p->body_length > BODY || length != told_length(bytes))
        return false;
    bool roomy = room >= FRONT + 2 * VECTOR;
    get_vector(p->past, bytes + FRONT, p->n, roomy);
    get_vector(p->barrier, bytes + FRONT + 2 * p->n, p->n, roomy);
    p->number = p->past[p->sender];
    p->body = bytes + FRONT + 4 * p->n;
    return vectors_fit(p);
}

static void put_packet(uint8_t *out, const struct seat *s, bool causal,
                       const uint8_t *body, size_t length)
{
    out[0] = (uint8_t)(1u << 4 | (s->n - 1u));
    out[1] = (uint8_t)(s->self << 4 | (causal ? 8u : 0u));
    out[2] = (uint8_t)length;
    put_vector(out + FRONT, s->past, s->n);
    put_vector(out + FRONT + 2 * s->n, s->barrier, s->n);
    if (length != 0)
        memcpy(out + FRONT + 4 * s->n, body, length);
}

/* A packet before a seat. */

/* Refusals 15 to 18, or 0.  A number below the window was handed over; one
 * above it cannot have been taken, so 18 does not hide a 17. */
static inline unsigned refusal(const struct seat *s, const struct packet *p,
                               const uint64_t taken[SEATS])
{
    unsigned run = s->run[p->sender];
    if (p->n != s->n)
        return OTHER_SEATS;
    if (p->past[s->self] > s->past[s->self])
        return NEVER_SENT;
    if (p->number <= run)
        return REPEAT;
    if (p->number > run + WINDOW)
        return TOO_FAR;
    return taken[p->sender] >> (p->number - run - 1) & 1 ? REPEAT : 0;
}

/* The packet's bit in ahead; it has passed refusal 17 and 18. */
static inline uint64_t bit_of(const struct seat *s, const struct packet *p)
{
    return (uint64_t)1 << (p->number - s->run[p->sender] - 1);
}

static inline bool ready(const struct seat *s, const struct packet *p)
{
    uint16_t missing = 0;
    for (int k = 0; k < SEATS; k++)
        missing |= (uint16_t)(p->barrier[k] > s->run[k]);
    return missing == 0;
}

static inline void raise_to(uint16_t v[SEATS], const uint16_t by[SEATS])
{
    for (int k = 0; k < SEATS; k++)
        v[k] = v[k] > by[k] ? v[k] : by[k];
}

/* Answer 23 does not arise: barrier lies within past in the seat and in the
 * packet, and still does when both are raised. */
static inline void hand_over(struct seat *s, const struct packet *p)
{
    uint64_t marked = s->ahead[p->sender] | bit_of(s, p);
    uint16_t run = s->run[p->sender];
    for (; (marked & 1) != 0; marked >>= 1)
        run++;
    s->ahead[p->sender] = marked;
    s->run[p->sender] = run;
    raise_to(s->past, p->past);
    raise_to(s->barrier, p->causal ? p->past : p->barrier);
}

/* The shelf. */

static bool length_fits(size_t length)
{
    return length <= SLOTS * SLOT && length % SLOT == 0;
}

/* Nine stretches of 32 side by side; the last overlaps the one before. */
static inline bool all_zero(const uint8_t slot[SLOT])
{
    uint8_t any = 0;
    for (int i = 0; i < 32; i++)
        any |= slot[i] | slot[i + 32] | slot[i + 64] | slot[i + 96]
             | slot[i + 128] | slot[i + 160] | slot[i + 192] | slot[i + 224]
             | slot[i + SLOT - 32];
    return any == 0;
}

static inline uint64_t any_of_32(const uint8_t *bytes)
{
    uint64_t w[4];
    memcpy(w, bytes, sizeof w);
    return w[0] | w[1] | w[2] | w[3];
}

/* In stretches of 32, the last of which may overlap the one before. */
static inline bool zero_from(const uint8_t slot[SLOT], size_t at)
{
    uint64_t any = 0;
    if (at + 32 <= SLOT) {
        for (; at + 32 <= SLOT; at += 32)
            any |= any_of_32(slot + at);
        return (any | any_of_32(slot + SLOT - 32)) == 0;
    }
    for (; at < SLOT; at++)
        any |= slot[at];
    return any == 0;
}

static inline bool get_slot(struct packet *p, const uint8_t slot[SLOT])
{
    size_t length = told_length(slot + 1);
    return slot[0] == 1 && 1 + length <= SLOT
        && get_packet(p, slot + 1, length, SLOT - 1) && zero_from(slot, 1 + length);
}

static bool goes_first(const struct packet *p, const struct packet *q)
{
    return p->sender < q->sender || (p->sender == q->sender && p->number < q->number);
}

/* False when the shelf is not sound.  Looks for the packet that is due only
 * when asked to. */
static inline bool walk(struct shelf *v, const struct seat *s,
                        uint8_t *shelf, size_t length, bool seek)
{
    struct packet p;
    if (!length_fits(length))
        return false;
    memcpy(v->taken, s->ahead, sizeof v->taken);
    v->free = v->due = NULL;
    for (size_t at = 0; at < length; at += SLOT) {
        uint8_t *slot = shelf + at;
        if (slot[0] == 0) {
            if (!all_zero(slot))
                return false;
            v->free = v->free != NULL ? v->free : slot;
            continue;
        }
        if (!get_slot(&p, slot) || refusal(s, &p, v->taken) != 0)
            return false;
        v->taken[p.sender] |= bit_of(s, &p);
        if (seek && ready(s, &p) && (v->due == NULL || goes_first(&p, &v->first))) {
            v->due = slot;
            v->first = p;
        }
    }
    return true;
}

/* The four calls. */

uint64_t second_open(uint32_t n, uint32_t own,
                     uint8_t *state, size_t state_length,
                     uint8_t *shelf, size_t shelf_length)
{
    if (n < 1 || n > SEATS || own < 1 || own > n)
        return BAD_SEAT;
    if (state_length != IMAGE || !length_fits(shelf_length))
        return UNSOUND;
    memset(state, 0, IMAGE);
    state[0] = (uint8_t)((n - 1) << 4 | (own - 1));
    if (shelf_length != 0)
        memset(shelf, 0, shelf_length);
    return DONE;
}

uint64_t second_send(uint8_t *state, size_t state_length,
                     uint32_t kind,
                     const uint8_t *body, size_t body_length,
                     uint8_t *out, size_t out_length)
{
    struct seat s;
    bool causal = kind == CAUSAL;
    if (!get_seat(&s, state, state_length))
        return UNSOUND;
    if (kind > USUAL)
        return BAD_KIND;
    if (body_length > BODY)
        return BODY_LONG;
    if (s.past[s.self] == LAST)
        return COUNT_SPENT;
    if (out_length < length_for(s.n, body_length))
        return OUT_SHORT;
    if (causal)
        memcpy(s.barrier, s.past, sizeof s.barrier);
    s.past[s.self]++;
    put_packet(out, &s, causal, body, body_length);
    if (causal)
        memcpy(s.barrier, s.past, sizeof s.barrier);
    put_seat(state, &s, s.self);
    return report(s.self, s.past[s.self], length_for(s.n, body_length));
}

uint64_t second_arrive(uint8_t *state, size_t state_length,
                       uint8_t *shelf, size_t shelf_length,
                       const uint8_t *packet, size_t packet_length)
{
    struct seat s;
    struct shelf v;
    struct packet p;
    if (!get_seat(&s, state, state_length) || !walk(&v, &s, shelf, shelf_length, false))
        return UNSOUND;
    if (!get_packet(&p, packet, packet_length, packet_length))
        return MALFORMED;
    unsigned no = refusal(&s, &p, v.taken);
    if (no != 0)
        return no;
    if (ready(&s, &p)) {
        hand_over(&s, &p);
        put_seat(state, &s, p.sender);
        return report(p.sender, p.number, p.body_length);
    }
    if (v.free == NULL)
        return SHELF_FULL;
    v.free[0] = 1;
    memcpy(v.free + 1, packet, packet_length);
    return SHELVED;
}

uint64_t second_release(uint8_t *state, size_t state_length,
                        uint8_t *shelf, size_t shelf_length,
                        uint8_t *out, size_t out_length)
{
    struct seat s;
    struct shelf v;
    if (!get_seat(&s, state, state_length) || !walk(&v, &s, shelf, shelf_length, true))
        return UNSOUND;
    if (v.due == NULL)
        return NONE_READY;
    if (out_length < v.first.body_length)
        return OUT_SHORT;
    if (v.first.body_length != 0)
        memcpy(out, v.first.body, v.first.body_length);
    hand_over(&s, &v.first);
    put_seat(state, &s, v.first.sender);
    memset(v.due, 0, SLOT);
    return report(v.first.sender, v.first.number, v.first.body_length);
}
