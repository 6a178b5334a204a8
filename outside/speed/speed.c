/* speed.c: the same calls on the library and on the second program, each in a
 * function of its own, so that a profiler tells their instructions apart.
 * run.sh builds and runs it, and prints a table.
 *
 *   ./speed     of each case: nanoseconds of a call on each, times, name
 *   ./speed 3   case 3 so many times on each, for a profiler
 *
 * Sessions have 16 seats, bodies 20 bytes, shelves 32 slots.  Seat 1 sends,
 * seat 2 takes what arrives.  Before each measured call state and shelf are
 * restored, outside of what is counted.  The last case is an evening (busy.h).
 */
#define _POSIX_C_SOURCE 199309L
#include "tautrobin.h"
#include "second.h"

#include "busy.h"

#include <stdio.h>
#include <stdlib.h>
#include <string.h>
#include <time.h>

static uint8_t sender[TAUTROBIN_STATE], taker[TAUTROBIN_STATE];
static uint8_t shelf[SLOTS * TAUTROBIN_SLOT], no_shelf[1];
static uint8_t sent[64][TAUTROBIN_PACKET_MAX];
static size_t sent_length[64];
static uint8_t body[BODY], out[TAUTROBIN_PACKET_MAX];

static uint8_t state[TAUTROBIN_STATE], slots[SLOTS * TAUTROBIN_SLOT];

static __attribute__((noinline)) void restore(void)
{
    memcpy(state, taker, sizeof state);
    memcpy(slots, shelf, sizeof slots);
}

/* One measured call: its name names the library and the case. */
#define MEASURED __attribute__((noinline)) uint64_t

#define CALLS(lib)                                                            \
    MEASURED lib##_call_send(void)                                            \
    {                                                                         \
        return lib##_send(state, sizeof state, 1, body, sizeof body, out,     \
                          sizeof out);                                        \
    }                                                                         \
    MEASURED lib##_call_arrive(size_t k, size_t length)                       \
    {                                                                         \
        return lib##_arrive(state, sizeof state, slots, sizeof slots,         \
                            sent[k], length);                                 \
    }                                                                         \
    MEASURED lib##_call_release(void)                                         \
    {                                                                         \
        return lib##_release(state, sizeof state, slots, sizeof slots, out,   \
                             sizeof out);                                     \
    }                                                                         \
    MEASURED lib##_call_evening(void)                                         \
    {                                                                         \
        static const struct library calls = {lib##_open, lib##_send,          \
                                             lib##_arrive, lib##_release};    \
        return play_evening(&calls);                                          \
    }
CALLS(tautrobin)
CALLS(second)

/* Edits 1 to 40 of seat 1, the first causal, so that the others wait for it. */
static void prepare(void)
{
    tautrobin_open(SEATS, 1, sender, sizeof sender, no_shelf, 0);
    tautrobin_open(SEATS, 2, taker, sizeof taker, shelf, sizeof shelf);
    for (int k = 1; k <= 40; k++)
        sent_length[k] = (size_t)tautrobin_length(
            tautrobin_send(sender, sizeof sender, k == 1, body, sizeof body, sent[k], sizeof sent[k]));
}

/* Puts so many waiting edits on the shelf; then, if wanted, makes them ready. */
static void fill(int used, int ready)
{
    tautrobin_open(SEATS, 2, taker, sizeof taker, shelf, sizeof shelf);
    for (int k = 0; k < used; k++)
        tautrobin_arrive(taker, sizeof taker, shelf, sizeof shelf, sent[used + 1 - k], sent_length[used + 1 - k]);
    if (ready)
        tautrobin_arrive(taker, sizeof taker, shelf, sizeof shelf, sent[1], sent_length[1]);
}

enum what { SEND, ARRIVE, RELEASE, EVENING };

/* A case: slots in use, whether what they wait for was handed over, the call,
 * the edit that arrives (0: bytes that are no packet), the answer. */
static const struct measured {
    const char *name;
    int used, ready;
    enum what what;
    size_t edit;
    uint32_t answer;
} cases[] = {
    {"send", 0, 0, SEND, 0, TAUTROBIN_DONE},
    {"arrive: handed over, shelf empty", 0, 0, ARRIVE, 1, TAUTROBIN_DONE},
    {"arrive: handed over, 8 slots used", 8, 0, ARRIVE, 1, TAUTROBIN_DONE},
    {"arrive: handed over, 16 slots used", 16, 0, ARRIVE, 1, TAUTROBIN_DONE},
    {"arrive: handed over, 24 slots used", 24, 0, ARRIVE, 1, TAUTROBIN_DONE},
    {"arrive: handed over, 32 slots used", 32, 0, ARRIVE, 1, TAUTROBIN_DONE},
    {"arrive: shelved, shelf empty", 0, 0, ARRIVE, 2, TAUTROBIN_SHELVED},
    {"arrive: repeat refused, 8 slots used", 8, 0, ARRIVE, 2, TAUTROBIN_REPEAT},
    {"arrive: no packet, shelf empty", 0, 0, ARRIVE, 0, TAUTROBIN_MALFORMED},
    {"release: handed over, 1 slot used", 1, 1, RELEASE, 0, TAUTROBIN_DONE},
    {"release: handed over, 8 slots used", 8, 1, RELEASE, 0, TAUTROBIN_DONE},
    {"release: handed over, 32 slots used", 32, 1, RELEASE, 0, TAUTROBIN_DONE},
    {"release: none ready, shelf empty", 0, 0, RELEASE, 0, TAUTROBIN_NONE_READY},
    {"release: none ready, 8 slots used", 8, 0, RELEASE, 0, TAUTROBIN_NONE_READY},
    {"release: none ready, 16 slots used", 16, 0, RELEASE, 0, TAUTROBIN_NONE_READY},
    {"release: none ready, 24 slots used", 24, 0, RELEASE, 0, TAUTROBIN_NONE_READY},
    {"release: none ready, 32 slots used", 32, 0, RELEASE, 0, TAUTROBIN_NONE_READY},
    {"evening: 320 sends, 5,120 arrivals", 0, 0, EVENING, 0, TAUTROBIN_DONE},
};
enum { COUNT = sizeof cases / sizeof *cases };

static uint64_t call(int second, const struct measured *c)
{
    size_t length = c->edit == 0 ? 5 : sent_length[c->edit];
    switch (c->what) {
    case SEND: return second ? second_call_send() : tautrobin_call_send();
    case ARRIVE: return second ? second_call_arrive(c->edit, length) : tautrobin_call_arrive(c->edit, length);
    case RELEASE: return second ? second_call_release() : tautrobin_call_release();
    default: return second ? second_call_evening() : tautrobin_call_evening();
    }
}

static int times(const struct measured *c)
{
    return c->what == EVENING ? 1 : 50;
}

/* False when a call answers something else. */
static bool profile(const struct measured *c)
{
    for (int t = 0; t < 2 * times(c); t++) {
        restore();
        if (tautrobin_answer(call(t % 2, c)) != c->answer)
            return false;
    }
    return true;
}

static double now(void)
{
    struct timespec t;
    clock_gettime(CLOCK_MONOTONIC, &t);
    return (double)t.tv_sec * 1e9 + (double)t.tv_nsec;
}

/* Of restoring and, if there is a case, calling; in nanoseconds. */
static double round_time(int second, const struct measured *c)
{
    int rounds = c != NULL ? times(c) : 50;
    double start = now();
    for (int t = 0; t < rounds; t++) {
        restore();
        if (c != NULL)
            call(second, c);
    }
    return (now() - start) / rounds;
}

static double least_of(double a, double b)
{
    return a < b ? a : b;
}

/* The best of many short rounds.  The cases take turns, so that each has some
 * rounds when the processor does nothing else. */
static void print_times(void)
{
    double best[COUNT][2], restoring = 1e18;
    for (size_t k = 0; k < COUNT; k++)
        best[k][0] = best[k][1] = 1e18;
    for (int turn = 0; turn < 300; turn++)
        for (size_t k = 0; k < COUNT; k++) {
            fill(cases[k].used, cases[k].ready);
            for (int second = 0; second < 2; second++)
                best[k][second] = least_of(best[k][second], round_time(second, &cases[k]));
            restoring = least_of(restoring, round_time(0, NULL));
        }
    for (size_t k = 0; k < COUNT; k++)
        printf("%.0f %.0f %d %s\n", best[k][0] - restoring, best[k][1] - restoring,
               times(&cases[k]), cases[k].name);
}

int main(int argc, char **argv)
{
    plan_evening();
    prepare();
    if (argc < 2) {
        print_times();
        return 0;
    }
    size_t k = (size_t)strtoul(argv[1], NULL, 10) - 1;
    if (k >= COUNT)
        return 2;
    fill(cases[k].used, cases[k].ready);
    return profile(&cases[k]) ? 0 : 1;
}
