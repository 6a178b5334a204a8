/* evening.c: two seats, one panel, and a decimal comma.
 *
 *   cc -std=c99 -Iinclude -o evening outside/examples/evening.c LIBRARY
 *   ./evening | diff - outside/examples/evening.txt
 *
 * Seat 1 switches the panel to the decimal comma and pastes two tracks.  At
 * seat 2 the packets come in the other way round.  Read with a decimal point
 * 0,25 mm would be 25 there; the switch is causal, so the tracks wait.
 */
#include "tautrobin.h"

#include <stdio.h>
#include <string.h>

struct seat {
    unsigned own;
    uint8_t state[TAUTROBIN_STATE], shelf[4 * TAUTROBIN_SLOT];
};

struct packet {
    uint8_t bytes[TAUTROBIN_PACKET_MAX];
    size_t length;
};

static const unsigned seats = 2;

static void open_seat(struct seat *s, unsigned own)
{
    uint64_t got = tautrobin_open(seats, own, s->state, sizeof s->state,
                                  s->shelf, sizeof s->shelf);
    s->own = own;
    printf("seat %u opens: %s\n", own, tautrobin_text(tautrobin_answer(got)));
}

static struct packet send(struct seat *s, uint32_t kind, const char *text)
{
    struct packet p;
    uint64_t got = tautrobin_send(s->state, sizeof s->state, kind,
                                  (const uint8_t *)text, strlen(text),
                                  p.bytes, sizeof p.bytes);
    p.length = tautrobin_length(got);
    printf("seat %u sends \"%s\": edit %u, %u bytes\n", s->own, text,
           tautrobin_number(got), tautrobin_length(got));
    return p;
}

static void show(const struct seat *s, uint64_t got, const uint8_t *body)
{
    printf("    seat %u shows \"%.*s\" (edit %u of seat %u)\n", s->own,
           (int)tautrobin_length(got), (const char *)body,
           tautrobin_number(got), tautrobin_sender(got));
}

/* What a seat does with each packet: take it, then empty the shelf of all
 * that has become ready. */
static void arrive(struct seat *s, const struct packet *p, const char *clock)
{
    uint8_t body[TAUTROBIN_BODY_MAX];
    uint64_t got = tautrobin_arrive(s->state, sizeof s->state, s->shelf, sizeof s->shelf,
                                    p->bytes, p->length);
    printf("%s a packet for seat %u: %s\n", clock, s->own, tautrobin_text(tautrobin_answer(got)));
    if (tautrobin_answer(got) != TAUTROBIN_DONE)
        return;
    show(s, got, p->bytes + tautrobin_body_at(seats));
    for (;;) {
        got = tautrobin_release(s->state, sizeof s->state, s->shelf, sizeof s->shelf,
                                body, sizeof body);
        if (tautrobin_answer(got) != TAUTROBIN_DONE)
            break;
        show(s, got, body);
    }
}

int main(void)
{
    struct seat one, two;
    struct packet comma, first, second;

    open_seat(&one, 1);
    open_seat(&two, 2);
    comma = send(&one, TAUTROBIN_CAUSAL, "decimal comma");
    first = send(&one, TAUTROBIN_USUAL, "track of 0,25 mm");
    second = send(&one, TAUTROBIN_USUAL, "track of 0,4 mm");

    arrive(&one, &comma, "20:01");
    arrive(&one, &first, "20:02");
    arrive(&one, &second, "20:03");

    arrive(&two, &second, "20:04");
    arrive(&two, &first, "20:05");
    arrive(&two, &first, "20:06");
    arrive(&two, &comma, "20:07");
    return 0;
}
