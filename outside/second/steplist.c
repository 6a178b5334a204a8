/* steplist.c: walks a step list from standard input, over second.c.
 *
 *   cc -std=c11 -O2 -o steplist steplist.c second.c
 *   printf '2 1\ns 1 c\na 2 1 1\n' | ./steplist
 *
 * A line is kept only as far as a readable one can reach, so memory does not
 * grow with the input.  Every send line that can be read counts towards the
 * 256, also one whose seat is not there.
 */
#include "second.h"

#include <inttypes.h>
#include <stdbool.h>
#include <stdio.h>

enum {
    SEATS = 16,
    SENDS = 256,
    IMAGE = 225,
    SLOT = 268,
    SLOTS = 8,
    PACKET = 67,    /* 16 seats, no body */
    LONGEST = 19,   /* "a 00001 00002 00003" */
    UNREADABLE = 21
};

struct seat {
    uint8_t state[IMAGE], shelf[SLOTS * SLOT];
};

static struct session {
    unsigned n;
    size_t shelf_length, packet_length;
    struct seat seat[SEATS];
    unsigned sends;                    /* lines that could be read, of all seats */
    uint8_t packet[SENDS][PACKET];     /* by line, empty where no seat sent */
    unsigned sent[SEATS];              /* by each seat */
    uint8_t place[SEATS][SENDS];       /* edit number - 1 to its packet */
} it;

/* A line and how far it has been read. */
struct line {
    char text[LONGEST + 1];
    unsigned length; /* LONGEST + 1: too long to be readable */
    unsigned at;
};

static bool take(struct line *l, char c)
{
    if (l->at == l->length || l->text[l->at] != c)
        return false;
    l->at++;
    return true;
}

static bool at_digit(const struct line *l)
{
    return l->at < l->length && l->text[l->at] >= '0' && l->text[l->at] <= '9';
}

static bool take_number(struct line *l, unsigned *number)
{
    unsigned digits = 0;
    *number = 0;
    for (; at_digit(l); l->at++, digits++)
        *number = *number * 10 + (unsigned)(l->text[l->at] - '0');
    return digits >= 1 && digits <= 5;
}

static bool take_next_number(struct line *l, unsigned *number)
{
    return take(l, ' ') && take_number(l, number);
}

static bool at_end(const struct line *l)
{
    return l->at == l->length && l->length <= LONGEST;
}

static bool in_session(unsigned seat)
{
    return seat >= 1 && seat <= it.n;
}

/* Each step answers the packed number of the call, or 21. */

static uint64_t send(struct line *l)
{
    unsigned seat;
    uint32_t kind = 2;
    if (!take_next_number(l, &seat))
        return UNREADABLE;
    if (take(l, ' ')) {
        if (take(l, 'o'))
            kind = 0;
        else if (take(l, 'c'))
            kind = 1;
        else
            return UNREADABLE;
    }
    if (!at_end(l) || it.sends == SENDS)
        return UNREADABLE;
    unsigned place = it.sends++;
    if (!in_session(seat))
        return UNREADABLE;
    uint64_t got = second_send(it.seat[seat - 1].state, IMAGE, kind, NULL, 0,
                               it.packet[place], it.packet_length);
    if ((got & 0xff) == 0)
        it.place[seat - 1][it.sent[seat - 1]++] = (uint8_t)place;
    return got;
}

static uint64_t arrive(struct line *l)
{
    unsigned seat, sender, number;
    if (!take_next_number(l, &seat) || !take_next_number(l, &sender)
        || !take_next_number(l, &number) || !at_end(l))
        return UNREADABLE;
    if (!in_session(seat) || !in_session(sender)
        || number < 1 || number > it.sent[sender - 1])
        return UNREADABLE;
    struct seat *s = &it.seat[seat - 1];
    return second_arrive(s->state, IMAGE, s->shelf, it.shelf_length,
                         it.packet[it.place[sender - 1][number - 1]], it.packet_length);
}

static uint64_t release(struct line *l)
{
    unsigned seat;
    if (!take_next_number(l, &seat) || !at_end(l) || !in_session(seat))
        return UNREADABLE;
    struct seat *s = &it.seat[seat - 1];
    return second_release(s->state, IMAGE, s->shelf, it.shelf_length, NULL, 0);
}

static uint64_t step(struct line *l)
{
    if (take(l, 's'))
        return send(l);
    if (take(l, 'a'))
        return arrive(l);
    if (take(l, 'r'))
        return release(l);
    return UNREADABLE;
}

/* Line one. */
static bool open_session(struct line *l)
{
    unsigned n, slots;
    if (!take_number(l, &n) || !take_next_number(l, &slots) || !at_end(l))
        return false;
    if (n < 1 || n > SEATS || slots > SLOTS)
        return false;
    it.n = n;
    it.shelf_length = slots * SLOT;
    it.packet_length = 3 + 4 * n;
    for (unsigned k = 1; k <= n; k++)
        second_open(n, k, it.seat[k - 1].state, IMAGE,
                    it.seat[k - 1].shelf, it.shelf_length);
    return true;
}

/* False when the list ends here. */
static bool do_line(struct line *l, uint64_t number)
{
    uint64_t got = 0;
    l->at = 0;
    if (number == 0 && open_session(l))
        return true;
    got = number == 0 ? UNREADABLE : step(l);
    printf("%" PRIu64 " %u %u %u\n", number, (unsigned)(got & 0xff),
           (unsigned)(got >> 8 & 0xff), (unsigned)(got >> 16 & 0xffff));
    return number != 0;
}

static void add(struct line *l, char c)
{
    if (l->length <= LONGEST)
        l->text[l->length++] = c;
}

static void do_list(void)
{
    static char piece[1 << 16];
    struct line l = {{0}, 0, 0};
    uint64_t number = 0;
    size_t got;
    while ((got = fread(piece, 1, sizeof piece, stdin)) != 0)
        for (size_t i = 0; i < got; i++) {
            if (piece[i] != '\n') {
                add(&l, piece[i]);
                continue;
            }
            if (!do_line(&l, number++))
                return;
            l.length = 0;
        }
    if (l.length != 0 || number == 0)
        do_line(&l, number);
}

int main(void)
{
    do_list();
    return fflush(stdout) != 0 || ferror(stdin) ? 1 : 0;
}
