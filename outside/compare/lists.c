/* lists.c: prints one step list, honest or broken, for lists.sh.
 *
 *   cc -std=c11 -O2 -o lists outside/compare/lists.c
 *   ./lists 1 17           list 17 of seed 1
 *   ./lists 1 17 100000    drawn in the same way, with so many lines
 *
 * The list is drawn line by line.  What was sent is noted, so that arrivals
 * name messages that are there; then, as the list's manner has it, a number
 * or the line itself is spoiled.
 */
#include "chance.h"

#include <ctype.h>
#include <stdio.h>
#include <stdlib.h>
#include <string.h>

enum {
    SEATS = 16,
    SLOTS = 8,
    SENDS = 256,
    PIECE = 4096,        /* what programs read at once, or sixteen of these */
    LONGEST = 1 << 17
};

/* How a list is drawn: all in percent but for the reach, which is how many
 * messages may overtake one that was sent before them. */
static const struct manner {
    unsigned sends, causal, lost, again, reach, stray, broken, edge, bad_first;
} manners[] = {
    {20, 25,  0,  0,   1,  0,  0,  0,   0}, /* a session in good order */
    {15, 25,  5, 30,   8,  1,  1,  0,   0}, /* over a link like any other */
    {60,  3, 10,  5, 256,  1,  1,  0,   0}, /* far ahead of the run */
    {25, 80,  5, 20,  40,  1,  1,  0,   0}, /* more waits than a shelf holds */
    {90, 10,  5, 20,   8,  3,  3,  0,   0}, /* more than 256 sends */
    {20, 25,  5, 30,   8, 10, 30,  0,   0}, /* broken lines */
    {20, 25,  5, 30,   8,  1,  5, 25,   0}, /* lines across the edges of pieces */
    {20, 25,  5, 30,   8,  1,  5,  0, 100}, /* no good first line */
};

/* Seats are counted from 1, edits from 0 in the order of sending. */
static struct {
    struct manner how;
    unsigned n, sends, edits;
    unsigned sender[SENDS], number[SENDS];
    unsigned count[SEATS + 1];                          /* edits of each seat */
    unsigned queue[SEATS + 1][SENDS], queued[SEATS + 1]; /* on the way to it */
} play;

/* ---- A line ---- */

static char line[LONGEST];
static size_t length;
static size_t written; /* bytes of the list, the last line's end not among them */
static bool begun;     /* there is a line already, if an empty one */

static void insert(size_t at, char c)
{
    memmove(line + at + 1, line + at, length - at);
    line[at] = c;
    length++;
}

static void add(const char *text)
{
    while (*text != '\0')
        line[length++] = *text++;
}

/* Leading zeros are allowed, up to five digits. */
static void add_number(unsigned x)
{
    char digits[16];
    snprintf(digits, sizeof digits, "%0*u", percent(90) ? 1 : (int)between(1, 5), x);
    add(digits);
}

static void add_word(unsigned x)
{
    add(" ");
    add_number(x);
}

/* The end of a line is printed before the next, so that the last may lack it. */
static void print_line(void)
{
    if (begun)
        putchar('\n');
    fwrite(line, 1, length, stdout);
    written += length + begun;
    length = 0;
    begun = true;
}

/* ---- Damage ---- */

/* A number that looks like a good one in its low byte or its low 16 bits. */
static unsigned stray(unsigned good)
{
    const unsigned odd[] = {0, good + 1, play.n + 1, 17, 256, 256 + good,
                            65535, 65536 + good, 99999, below(100000)};
    return percent(play.how.stray) ? odd[below(10)] : good;
}

static char some_byte(void)
{
    static const char odd[] = "sarocSAROC 0123456789\t\r\v\f\n-+.,;:/x\x7f\x80\xa0\xff";
    return percent(80) ? odd[below(sizeof odd)] : (char)draw();
}

/* Where some byte of this kind stands, or the line's end. */
static size_t find(int (*is)(int))
{
    size_t from = below((unsigned)length + 1);
    for (size_t i = 0; i < length; i++) {
        size_t at = (from + i) % length;
        if (is((unsigned char)line[at]))
            return at;
    }
    return length;
}

static void lengthen(void)
{
    const unsigned most[] = {20, 21, 255, 256, 261, 300, 4095, 4096, 4101, 65536, 65541, 70000};
    unsigned to = most[below(percent(90) ? 6 : 12)];
    char filler = percent(30) ? ' ' : percent(50) ? '0' : some_byte();
    while (length < to)
        line[length++] = filler;
}

static void spoil_byte(void)
{
    size_t at = below((unsigned)length);
    switch (below(5)) {
    case 0: insert(at, some_byte()); break;
    case 1: line[at] = some_byte(); break;
    case 2: line[at] = (char)(line[at] ^ 1 << below(8)); break;
    case 3: line[at] = (char)(line[at] ^ 0x80); break;
    default:
        memmove(line + at, line + at + 1, length - at - 1);
        length--;
    }
}

/* The line is not empty. */
static void spoil_line(void)
{
    switch (below(12)) {
    case 0: insert(find(isspace), ' '); break;
    case 1: insert(0, ' '); break;
    case 2: insert(length, ' '); break;
    case 3: insert(length, percent(70) ? '\r' : '\0'); break;
    case 4: line[find(isspace)] = '\t'; break;
    case 5: line[find(islower)] ^= 0x20; break;
    case 6: add(percent(50) ? " 1" : percent(50) ? " o" : "o"); break;
    case 7: length = find(isspace); break;
    case 8: length = 0; break;
    case 9: lengthen(); break;
    case 10: {
        size_t at = find(isdigit);
        for (unsigned zeros = between(4, 6); zeros != 0; zeros--)
            insert(at, '0');
        break;
    }
    default: spoil_byte();
    }
}

/* ---- Steps ---- */

static void note_send(unsigned seat)
{
    if (play.sends++ >= SENDS || seat < 1 || seat > play.n)
        return;
    play.sender[play.edits] = seat;
    play.number[play.edits] = ++play.count[seat];
    for (unsigned k = 1; k <= play.n; k++)
        if (!percent(play.how.lost))
            play.queue[k][play.queued[k]++] = play.edits;
    play.edits++;
}

/* Two seats say half of it, so that their numbers grow large. */
static void make_send(void)
{
    unsigned seat = stray(between(1, percent(50) ? least(2, play.n) : play.n));
    add("s");
    add_word(seat);
    add(percent(play.how.causal) ? " c" : percent(50) ? " o" : "");
    if (percent(play.how.broken))
        spoil_line();
    else
        note_send(seat);
}

/* One of the first on the way to this seat, or any edit, now or once more. */
static unsigned next_edit(unsigned k)
{
    unsigned *queue = play.queue[k], left = play.queued[k];
    if (left == 0 || percent(play.how.again))
        return below(play.edits);
    unsigned i = below(least(left, play.how.reach)), edit = queue[i];
    memmove(queue + i, queue + i + 1, (left - i - 1) * sizeof *queue);
    play.queued[k]--;
    return edit;
}

static void make_arrival(void)
{
    unsigned k = between(1, play.n), edit = play.edits != 0 ? next_edit(k) : 0;
    add("a");
    add_word(stray(k));
    add_word(stray(play.edits != 0 ? play.sender[edit] : 1));
    add_word(stray(play.edits != 0 ? play.number[edit] : 1));
    if (percent(play.how.broken))
        spoil_line();
}

static void make_release(void)
{
    add("r");
    add_word(stray(between(1, play.n)));
    if (percent(play.how.broken))
        spoil_line();
}

static void make_step(void)
{
    if (percent(play.how.sends))
        make_send();
    else if (percent(70))
        make_arrival();
    else
        make_release();
}

/* A long line, so that the next one starts shortly before a piece is full. */
static void go_to_edge(void)
{
    size_t start = (written / PIECE + 1) * PIECE - below(24);
    while (written + length + 2 < start)
        line[length++] = percent(98) ? 'x' : some_byte();
    print_line();
}

/* ---- Lists ---- */

static void make_first_line(void)
{
    add_number(play.n);
    add_word(percent(30) ? below(2) : below(SLOTS + 1));
}

static void make_bad_first_line(void)
{
    const unsigned n[] = {0, 17, 256 + play.n, 65536 + play.n, 99999},
        slots[] = {SLOTS + 1, 10, 256, 65536, 99999};
    switch (below(6)) {
    case 0:
        add_number(n[below(5)]);
        add_word(below(SLOTS + 1));
        break;
    case 1:
        add_number(play.n);
        add_word(slots[below(5)]);
        break;
    case 2:
        make_step();
        break;
    default:
        make_first_line();
        spoil_line();
    }
}

static void make_list(uint64_t number, unsigned lines)
{
    play.how = manners[number % (sizeof manners / sizeof *manners)];
    play.n = percent(40) ? between(1, 3) : between(1, SEATS);
    if (!percent(play.how.bad_first))
        make_first_line();
    else if (percent(10))
        return;
    else
        make_bad_first_line();
    print_line();
    for (unsigned i = 0; i < lines; i++) {
        make_step();
        print_line();
        if (percent(play.how.edge))
            go_to_edge();
    }
    for (unsigned feeds = percent(5) ? below(4) : percent(70); feeds != 0; feeds--)
        putchar('\n');
}

int main(int argc, char **argv)
{
    if (argc < 3)
        return 2;
    seed = strtoull(argv[1], NULL, 10);
    uint64_t number = strtoull(argv[2], NULL, 10);
    start_chance(number);
    unsigned lines = percent(20) ? below(20) : between(200, 600);
    make_list(number, argc > 3 ? (unsigned)strtoul(argv[3], NULL, 10) : lines);
    return fflush(stdout) != 0;
}
