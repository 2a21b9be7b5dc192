/* Joining two tables from C, beside vectors worked by hand from Joining: all bytes of the third table, each number at its edge, the order of the
 * tests over the three tables, and that a refused call alters no byte; then random tables of dimension 1 to 7 beside the reference, what the joined table traces and
 * books, and calls on it over the new port; and damaged tables.
 *
 *     join [tables [seed]]
 *
 * takes that many pairs of tables of each dimension for the random part (12 without an argument). A byte of a table is given by its place, as in calls.c: the link
 * out of port p of node n is held at 257 + 16 n + 2 p, receive channel c of node n at 4353 + 16 n + 2 c, the enabled links of node n are at 1 + n, and its armed
 * channels at 8449 + n. */
#include "blocks.h"
#include "draw.h"
#include "expect.h"
#include "reference.h"
#include "subject.h"

#include <stdlib.h>
#include <string.h>

enum { BYTES = 8705, SPARE = 64, LONG = 65536 + BYTES, MOST = 24, NUMBERS = 30, FAIL = 99 };

/* The tables that are lent, with bytes behind them, and what the third has to be. The third is lent in the middle of `room`. */
static uint8_t first[LONG], second[LONG], room[SPARE + LONG + SPARE], wanted[BYTES];
static uint8_t *const third = room + SPARE;

static unsigned long answers[NUMBERS], accepted_circuits, crossing, later_calls;

/* ---- a call, and what it left ---- */

/* What stood in the third table before, and beside it: each time something else. */
static void fresh_third(size_t length) {
    static unsigned times;
    times += 7;
    for (size_t i = 0; i < SPARE + length + SPARE; i++) room[i] = (uint8_t)(i * (2 * times + 1) + times);
}

/* The answer of a call on the first two tables as they stand, the third being `third`. FAIL where a byte has changed that may not: of the first two, of the third where
 * the call is refused, or one beside the third. The same call once more, on another third table that is a block of its own, comes to the same. */
static unsigned join(size_t first_length, size_t second_length, size_t third_length) {
    static uint8_t before[sizeof room];
    uint8_t *a = block_of(first, first_length), *b = block_of(second, second_length), *other;
    const uint8_t *after = third;
    unsigned number, again;
    int good;
    fresh_third(third_length);
    memcpy(before, room, SPARE + third_length + SPARE);
    number = maze_join(a, first_length, b, second_length, third, third_length);
    good = memcmp(room, before, SPARE) == 0 && memcmp(third + third_length, before + SPARE + third_length, SPARE) == 0;
    if (number != 0) good &= memcmp(third, before + SPARE, third_length) == 0, after = before + 3;
    other = block_of(before + 3, third_length);
    again = maze_join(a, first_length, b, second_length, other, third_length);
    good &= again == number && block_had(other, after, third_length);
    return good & block_had(a, first, first_length) & block_had(b, second, second_length) ? number : FAIL;
}

/* The call is refused with this number. */
static void refused(const char *what, unsigned number, size_t first_length, size_t second_length, size_t third_length) {
    unsigned got = join(first_length, second_length, third_length);
    expect(got == number, what, number, got);
}

/* The call is accepted, and the third table is `wanted` in each of its bytes. */
static void accepted(const char *what, unsigned about) {
    unsigned got = join(BYTES, BYTES, BYTES), at = 0;
    while (at < BYTES && third[at] == wanted[at]) at++;
    if (got == 0 && at < BYTES) printf("byte %u of the third table is %u, not %u\n", at, third[at], wanted[at]);
    expect(got == 0 && at == BYTES, what, about, got == 0 ? at : got);
}

/* ---- tables by their bytes ---- */

/* A made table, by Tables 11: 2^D nodes, each with its D links enabled. */
static void made(uint8_t *table, unsigned dimension) {
    memset(table, 0, BYTES);
    table[0] = (uint8_t)dimension;
    for (unsigned node = 0; node < 1u << dimension; node++) table[1 + node] = (uint8_t)((1u << dimension) - 1);
}

static void made_all(unsigned dimension) {
    made(first, dimension);
    made(second, dimension);
    made(wanted, dimension + 1);
}

static unsigned entry(const uint8_t *table, unsigned part, unsigned node, unsigned slot) {
    const unsigned at = part + 16 * node + 2 * slot;
    return table[at] + 256u * table[at + 1];
}

static void set_entry(uint8_t *table, unsigned part, unsigned node, unsigned slot, unsigned circuit) {
    const unsigned at = part + 16 * node + 2 * slot;
    table[at] = (uint8_t)(circuit % 256);
    table[at + 1] = (uint8_t)(circuit / 256);
}

/* A circuit over one link, on a channel of the node where it leads, which is armed. */
static void hold_link(uint8_t *table, unsigned node, unsigned port, unsigned circuit, unsigned channel) {
    const unsigned target = node ^ 1u << port;
    set_entry(table, 257, node, port, circuit);
    set_entry(table, 4353, target, channel, circuit);
    table[8449 + target] = (uint8_t)(table[8449 + target] | 1u << channel);
}

/* A trace into no bytes is refused as 12 or 14 where the table is sound. */
static int is_sound(const uint8_t *table) {
    return maze_trace(table, BYTES, 0, 0, NULL, 0).number > 3;
}

/* ---- vectors by hand ---- */

struct place {
    unsigned at, value;
};

/* Made tables of one dimension with these bytes changed, and what is changed in a made table of the next dimension when they are joined. Each list goes up to its first
 * entry of value 256. */
enum { END = 256 };

static const struct vector {
    const char *what;
    unsigned dimension;
    struct place first[MOST], second[MOST], joined[MOST];
} vectors[] = {
    {"two made tables, dimension 1", 1, {{0, END}}, {{0, END}}, {{0, END}}},
    {"two made tables, dimension 2", 2, {{0, END}}, {{0, END}}, {{0, END}}},
    {"two made tables, dimension 7", 7, {{0, END}}, {{0, END}}, {{0, END}}},

    /* In the first a circuit from node 0 to node 1, its receive channel 2, and the link of node 1 blocked. In the second circuit 16, channel 7 of node 1, to node 0, its
     * receive channel 0, and channel 5 of node 1 armed. Of the joined four nodes 2 and 3 are the second's: circuit 16 + 16 on the link of node 3 at 257 + 48, on channel
     * 0 of node 2 at 4353 + 32; port 1 is enabled everywhere, and port 0 as it was: 3, 2, 3, 3. */
    {"two cubes of two nodes", 1,
     {{2, 0}, {257, 1}, {4353 + 16 + 4, 1}, {8450, 4}, {0, END}},
     {{257 + 16, 16}, {4353, 16}, {8449, 1}, {8450, 32}, {0, END}},
     {{2, 2}, {257, 1}, {4353 + 16 + 4, 1}, {8450, 4}, {305, 32}, {4385, 32}, {8451, 1}, {8452, 32}, {0, END}}},
    /* the same two the other way round: circuit 1 is 1 + 16 now, from node 2 to node 3 */
    {"the same, the second first", 1,
     {{257 + 16, 16}, {4353, 16}, {8449, 1}, {8450, 32}, {0, END}},
     {{2, 0}, {257, 1}, {4353 + 16 + 4, 1}, {8450, 4}, {0, END}},
     {{4, 2}, {257 + 16, 16}, {4353, 16}, {8449, 1}, {8450, 32}, {257 + 32, 17}, {4353 + 48 + 4, 17}, {8452, 4}, {0, END}}},
    /* out and back over both links of a cube of two nodes: 0, 1, 0 */
    {"example 3 in both halves", 1,
     {{257, 1}, {273, 1}, {4353 + 6, 1}, {8449, 8}, {0, END}},
     {{257, 1}, {273, 1}, {4353 + 6, 1}, {8449, 8}, {0, END}},
     {{257, 1}, {273, 1}, {4359, 1}, {8449, 8}, {289, 17}, {305, 17}, {4391, 17}, {8451, 8}, {0, END}}},

    /* Everything blocked in the first, nothing in the second; and every channel armed in the second. */
    {"all blocked, all armed", 2,
     {{1, 0}, {2, 0}, {3, 0}, {4, 0}, {0, END}},
     {{8449, 255}, {8450, 255}, {8451, 255}, {8452, 255}, {0, END}},
     {{1, 4}, {2, 4}, {3, 4}, {4, 4}, {8453, 255}, {8454, 255}, {8455, 255}, {8456, 255}, {0, END}}},
    {"all armed, all blocked", 2,
     {{8449, 255}, {8450, 255}, {8451, 255}, {8452, 255}, {0, END}},
     {{1, 0}, {2, 0}, {3, 0}, {4, 0}, {0, END}},
     {{5, 4}, {6, 4}, {7, 4}, {8, 4}, {8449, 255}, {8450, 255}, {8451, 255}, {8452, 255}, {0, END}}},

    /* The circuit of the patent's figure 7 in both halves: 0, 2, 6, 7 by ports 1, 2, 0, over links at 257 + 2, 257 + 32 + 4 and 257 + 96, to channel 0 of node 7, with
     * the links out of port 2 of nodes 1 and 3 blocked. In the second half it is circuit 65 from node 8 over nodes 10 and 14 to 15. */
    {"figure 7 in both halves", 3,
     {{2, 3}, {4, 3}, {259, 1}, {293, 1}, {353, 1}, {4465, 1}, {8456, 1}, {0, END}},
     {{2, 3}, {4, 3}, {259, 1}, {293, 1}, {353, 1}, {4465, 1}, {8456, 1}, {0, END}},
     {{2, 11}, {4, 11}, {259, 1}, {293, 1}, {353, 1}, {4465, 1}, {8456, 1}, {10, 11}, {12, 11}, {387, 65}, {421, 65}, {481, 65}, {4593, 65}, {8464, 1}, {0, END}}},

    /* Numbers of two bytes. Dimension 4 adds 128: circuit 128, of channel 7 of node 15, becomes 256, the low byte 0; 127 becomes 255. Over ports 0 and 1 to channels 0
     * of node 14 and of node 13, which are nodes 30 and 29. */
    {"128 becomes 256", 4, {{0, END}},
     {{257 + 240, 128}, {4353 + 224, 128}, {8463, 1}, {257 + 242, 127}, {4353 + 208, 127}, {8462, 1}, {0, END}},
     {{257 + 496, 0}, {257 + 497, 1}, {4353 + 480, 0}, {4353 + 481, 1}, {8479, 1}, {257 + 498, 255}, {4353 + 464, 255}, {8478, 1}, {0, END}}},
    /* Dimension 5 adds 256: circuits 1, of node 0, 255 and 256, of channels 6 and 7 of node 31, become 257, 511 and 512. */
    {"256 more", 5, {{0, END}},
     {{257, 1}, {4353 + 16, 1}, {8450, 1}, {257 + 496, 255}, {4353 + 480, 255}, {8479, 1}, {257 + 499, 1}, {4353 + 465, 1}, {8478, 1}, {0, END}},
     {{257 + 512, 1}, {257 + 513, 1}, {4353 + 528, 1}, {4353 + 529, 1}, {8482, 1}, {257 + 1008, 255}, {257 + 1009, 1}, {4353 + 992, 255}, {4353 + 993, 1}, {8511, 1},
      {257 + 1011, 2}, {4353 + 977, 2}, {8510, 1}, {0, END}}},
    /* Dimension 7 adds 1,024: circuit 1,024, of channel 7 of node 127, over port 6 to channel 7 of node 63, becomes 2,048, of node 255, to node 191; in the first half
     * it stays. 1,023, over port 0 to channel 0 of node 126, becomes 2,047. */
    {"1,024 becomes 2,048", 7,
     {{257 + 2044 + 1, 4}, {4353 + 1022 + 1, 4}, {8449 + 63, 128}, {0, END}},
     {{257 + 2044 + 1, 4}, {4353 + 1022 + 1, 4}, {8449 + 63, 128}, {257 + 2032, 255}, {257 + 2033, 3}, {4353 + 2016, 255}, {4353 + 2017, 3}, {8449 + 126, 1}, {0, END}},
     {{257 + 2045, 4}, {4353 + 1023, 4}, {8449 + 63, 128}, {257 + 4080 + 12 + 1, 8}, {4353 + 3056 + 14 + 1, 8}, {8449 + 191, 128}, {257 + 4080, 255}, {257 + 4081, 7},
      {4353 + 4064, 255}, {4353 + 4065, 7}, {8449 + 254, 1}, {0, END}}},
};

static void put_places(uint8_t *table, const struct place *place) {
    for (; place->value != END; place++) table[place->at] = (uint8_t)place->value;
}

static void run_vectors(void) {
    for (size_t i = 0; i < sizeof vectors / sizeof *vectors; i++) {
        made_all(vectors[i].dimension);
        put_places(first, vectors[i].first);
        put_places(second, vectors[i].second);
        put_places(wanted, vectors[i].joined);
        expect(is_sound(first) && is_sound(second) && is_sound(wanted), vectors[i].what, 0, 3);
        accepted(vectors[i].what, vectors[i].dimension);
    }
}

/* ---- sweeps: one thing in either half, in every dimension ---- */

static void sweeps(void) {
    for (unsigned dimension = 1; dimension <= 7; dimension++) {
        const unsigned nodes = 1u << dimension;
        for (unsigned half = 0; half < 2; half++) {
            uint8_t *const table = half ? second : first;
            const unsigned behind = half * nodes, more = half * 8 * nodes;
            made_all(dimension);
            for (unsigned node = 0; node < nodes; node++) {
                /* every circuit number of the half, over one link, to a channel that goes round */
                for (unsigned channel = 0; channel < 8; channel++) {
                    const unsigned circuit = 8 * node + channel + 1, port = (node + channel) % dimension, receive = (3 * node + 5 * channel) % 8, target = node ^ 1u << port;
                    hold_link(table, node, port, circuit, receive);
                    hold_link(wanted, node + behind, port, circuit + more, receive);
                    accepted("a circuit number", circuit);
                    hold_link(table, node, port, 0, receive);
                    hold_link(wanted, node + behind, port, 0, receive);
                    table[8449 + target] = wanted[8449 + target + behind] = 0;
                }
                /* every link blocked, alone and with the others; every mask of armed channels */
                for (unsigned mask = 0; mask < nodes; mask += nodes > 16 && mask > 3 ? 5 : 1) {
                    table[1 + node] = (uint8_t)mask;
                    wanted[1 + node + behind] = (uint8_t)(mask + nodes);
                    accepted("links enabled", mask);
                }
                table[1 + node] = (uint8_t)(nodes - 1);
                wanted[1 + node + behind] = (uint8_t)(2 * nodes - 1);
                for (unsigned mask = node % 5; mask < 256; mask += 5 + node) {
                    table[8449 + node] = wanted[8449 + node + behind] = (uint8_t)mask;
                    accepted("channels armed", mask);
                }
                table[8449 + node] = wanted[8449 + node + behind] = 0;
            }
        }
        /* every link of both halves held, each by a circuit of its own: port p of node n by channel p of node n, on channel p of the next node */
        made_all(dimension);
        for (unsigned node = 0; node < nodes; node++)
            for (unsigned port = 0; port < dimension; port++) {
                hold_link(first, node, port, 8 * node + port + 1, port);
                hold_link(wanted, node, port, 8 * node + port + 1, port);
                hold_link(second, node, port, 8 * node + port + 1, port);
                hold_link(wanted, node + nodes, port, 8 * (node + nodes) + port + 1, port);
            }
        accepted("every link held", dimension);
        expect(is_sound(wanted), "every link held, the joined table", dimension, 0);
    }
}

/* ---- numbers at their edges ---- */

static void lengths(void) {
    static const size_t wrong[] = {0, 1, 2, 257, 4353, 8448, 8449, 8703, 8704, 8706, 8707, 8961, 14338, 17410, 65535, 65536, 65536 + 8705};
    uint8_t *const nowhere[] = {NULL, (uint8_t *)(uintptr_t)1};
    for (unsigned dimension = 1; dimension <= 8; dimension++) {
        made(first, dimension);
        made(second, dimension);
        refused("right lengths", dimension < 8 ? 0 : 29, BYTES, BYTES, BYTES);
        for (size_t i = 0; i < sizeof wrong / sizeof *wrong; i++) {
            refused("the first of a wrong length", 1, wrong[i], BYTES, BYTES);
            refused("the second of a wrong length", 1, BYTES, wrong[i], BYTES);
            refused("the third of a wrong length", 1, BYTES, BYTES, wrong[i]);
            refused("two of a wrong length", 1, wrong[i], BYTES, wrong[i]);
            refused("all of a wrong length", 1, wrong[i], wrong[i], wrong[i]);
        }
        for (size_t i = 0; i < 2; i++) {
            uint8_t *none = nowhere[i];
            fresh_third(BYTES);
            expect(maze_join(none, 0, second, BYTES, third, BYTES) == 1 && maze_join(first, BYTES, none, 0, third, BYTES) == 1, "no table", dimension, i);
            expect(maze_join(first, BYTES, second, BYTES, none, 0) == 1 && maze_join(none, 0, none, 0, none, 0) == 1, "no third table", dimension, i);
        }
    }
}

/* Every pair of dimension bytes: 2 of a dimension that there is not, and 29 of two that differ or are 8. */
static void dimensions(void) {
    for (unsigned one = 0; one < 12; one++)
        for (unsigned other = 0; other < 12; other++) {
            const unsigned number = one == 0 || one > 8 || other == 0 || other > 8 ? 2 : one != other || one == 8 ? 29 : 0;
            if (one >= 1 && one <= 8) made(first, one);
            else made(first, 3), first[0] = (uint8_t)one;
            if (other >= 1 && other <= 8) made(second, other);
            else made(second, 3), second[0] = (uint8_t)other;
            refused("two dimensions", number, BYTES, BYTES, BYTES);
            if (number == 29) refused("29 after 1 of the third", 1, BYTES, BYTES, BYTES - 1);
            if (number == 2) refused("2 before 1 of the third", 2, BYTES, BYTES, BYTES - 1);
        }
    for (unsigned byte = 9; byte < 256; byte++) {
        made(first, 3);
        made(second, 3);
        first[0] = (uint8_t)byte;
        refused("the first dimension", 2, BYTES, BYTES, BYTES);
        first[0] = 3;
        second[0] = (uint8_t)byte;
        refused("the second dimension", 2, BYTES, BYTES, BYTES);
    }
    /* a made table of another dimension under this one's byte: links of ports or nodes that are not there */
    for (unsigned one = 1; one <= 8; one++)
        for (unsigned other = 1; other < one; other++) {
            made(first, one);
            made(second, other);
            first[0] = (uint8_t)other;
            refused("the first from a larger cube", 3, BYTES, BYTES, BYTES);
            made(first, other);
            made(second, one);
            second[0] = (uint8_t)other;
            refused("the second from a larger cube", 3, BYTES, BYTES, BYTES);
        }
}

/* What makes a table unsound, in a cube of dimension D with 2^D nodes. In the joined cube several of them would fit. */
enum { ABSENT_PORT, ABSENT_NODE, ABSENT_ARMED, HELD_BLOCKED, HELD_UNARMED, NUMBER_ABOVE, NO_CHANNEL, NO_LINK, TWO_CHANNELS, ANOTHER_TARGET, NEW_LINK_HELD, WAYS };

static const char *const ways[WAYS] = {"the new port enabled", "a node of the other half enabled", "a channel of the other half armed", "a held link blocked", "a held channel not armed",
                                       "a circuit of the other half", "no receive channel", "no link", "two receive channels", "a receive channel elsewhere", "the new port held"};

static void spoil(uint8_t *table, unsigned way, unsigned dimension) {
    const unsigned nodes = 1u << dimension, node = nodes - 1, circuit = 8 * node + 8, target = node ^ 1;
    if (way != NO_LINK && way != NEW_LINK_HELD) hold_link(table, node, 0, circuit, 1);
    switch (way) {
    case ABSENT_PORT: table[1 + node] = (uint8_t)(2 * nodes - 1); break;
    case ABSENT_NODE: table[1 + nodes] = 1; break;
    case ABSENT_ARMED: table[8449 + nodes] = 1; break;
    case HELD_BLOCKED: table[1 + node] = (uint8_t)(nodes - 2); break;
    case HELD_UNARMED: table[8449 + target] = 0; break;
    case NUMBER_ABOVE: hold_link(table, node, 0, 8 * nodes + 1, 1); break;
    case NO_CHANNEL: set_entry(table, 4353, target, 1, 0); break;
    case NO_LINK: set_entry(table, 4353, target, 1, circuit), table[8449 + target] = 2; break;
    case TWO_CHANNELS: set_entry(table, 4353, target, 4, circuit), table[8449 + target] = 18; break;
    case ANOTHER_TARGET: set_entry(table, 4353, target, 1, 0), set_entry(table, 4353, node, 1, circuit), table[8449 + node] = 2; break;
    default: set_entry(table, 257, node, dimension, circuit), set_entry(table, 4353, target, 1, circuit), table[8449 + target] = 2, table[1 + node] = (uint8_t)(2 * nodes - 1);
    }
}

static void unsound(void) {
    for (unsigned dimension = 1; dimension <= 7; dimension++)
        for (unsigned way = 0; way < WAYS; way++) {
            made_all(dimension);
            spoil(first, way, dimension);
            refused(ways[way], 3, BYTES, BYTES, BYTES);
            refused(ways[way], 3, BYTES, BYTES, BYTES + 1);
            refused(ways[way], 3, BYTES, BYTES - 1, BYTES);
            made(first, dimension);
            spoil(second, way, dimension);
            refused(ways[way], 3, BYTES, BYTES, BYTES);
            refused(ways[way], 3, BYTES, BYTES, BYTES - 1);
            refused(ways[way], 1, BYTES - 1, BYTES, BYTES);
        }
}

/* Every choice of what is wrong with each of the three and with the pair: the answer is that of the first, then of the second, then of the third, and then 29. */
static void order(void) {
    enum { RIGHT, LENGTH, DIMENSION, SOUNDNESS, TABLES };
    for (unsigned one = 0; one < TABLES; one++)
        for (unsigned other = 0; other < TABLES; other++)
            for (unsigned last = 0; last < 2; last++)
                for (unsigned pair = 0; pair < 3; pair++) {
                    /* equal, or unequal, or both 8 */
                    const unsigned dimension = pair == 2 ? 8 : 3, number = one ? one : other ? other : last ? 1 : pair ? 29 : 0;
                    made(first, dimension);
                    made(second, pair == 1 ? 4 : dimension);
                    if (one == DIMENSION) first[0] = 0;
                    if (one == SOUNDNESS) first[257] = 1;
                    if (other == DIMENSION) second[0] = 9;
                    if (other == SOUNDNESS) second[4353] = 1;
                    refused("the order of the tests", number, one == LENGTH ? BYTES + 1 : BYTES, other == LENGTH ? BYTES - 1 : BYTES, last ? BYTES - 1 : BYTES);
                    refused("the order of the tests", number, one == LENGTH ? 0 : BYTES, other == LENGTH ? 0 : BYTES, last ? 0 : BYTES);
                }
}

/* ---- where the tables lie ---- */

static void places(void) {
    static uint8_t lent[3][BYTES + 16];
    for (unsigned dimension = 1; dimension <= 7; dimension++) {
        made_all(dimension);
        hold_link(first, 0, 0, 3, 6), hold_link(wanted, 0, 0, 3, 6);
        hold_link(wanted, 1u << dimension, 0, 3 + (8u << dimension), 6);
        /* the same bytes twice, and a copy of them */
        memcpy(second, first, BYTES);
        accepted("a copy of the first as the second", dimension);
        fresh_third(BYTES);
        expect(maze_join(first, BYTES, first, BYTES, third, BYTES) == 0 && memcmp(third, wanted, BYTES) == 0, "the first as the second", dimension, 0);
        expect(memcmp(first, second, BYTES) == 0, "the first as the second, afterwards", dimension, 0);
        for (unsigned shift = 0; shift < 16; shift++) {
            const unsigned other = (5 * shift + 3) % 16, last = (7 * shift + 1) % 16;
            memcpy(lent[0] + shift, first, BYTES);
            memcpy(lent[1] + other, second, BYTES);
            memset(lent[2], 200, sizeof lent[2]);
            expect(maze_join(lent[0] + shift, BYTES, lent[1] + other, BYTES, lent[2] + last, BYTES) == 0 && memcmp(lent[2] + last, wanted, BYTES) == 0, "tables at", shift, other);
        }
        /* the third just behind the second, and just before the first */
        memcpy(room, second, BYTES);
        memset(room + BYTES, 1, BYTES);
        memcpy(room + 2 * BYTES, first, BYTES);
        expect(maze_join(room + 2 * BYTES, BYTES, room, BYTES, room + BYTES, BYTES) == 0 && memcmp(room + BYTES, wanted, BYTES) == 0, "side by side", dimension, 0);
        expect(memcmp(room, second, BYTES) == 0 && memcmp(room + 2 * BYTES, first, BYTES) == 0, "side by side, afterwards", dimension, 0);
    }
}

/* ---- at random, beside the reference ---- */

/* A table with some links blocked, many channels armed and circuits of every type open, all by calls but for the arming. */
static void random_table(uint8_t *table, unsigned dimension) {
    static const uint16_t types[] = {0, 0, 4, 4, 1, 3};
    const unsigned nodes = 1u << dimension, sends = below(4) ? below(6u << below(dimension + 2)) : 0;
    made(table, dimension);
    for (unsigned node = 0; node < nodes; node++) table[8449 + node] = (uint8_t)(below(3) ? 255 : below(256));
    for (unsigned i = below(2) ? 0 : below(2 * nodes); i > 0; i--) maze_block(table, BYTES, (uint16_t)below(nodes), (uint16_t)below(dimension));
    for (unsigned i = 0; i < sends; i++)
        maze_open(table, BYTES, (uint16_t)below(nodes), (uint16_t)below(8), (uint16_t)below(nodes), types[below(6)], (uint16_t)(1 + below(nodes - 1)));
    for (unsigned i = below(3) ? 0 : below(nodes); i > 0; i--) maze_close(table, BYTES, (uint16_t)below(nodes), (uint16_t)below(8));
}

/* The call beside the reference. Answers its number. */
static unsigned compare(const char *what, size_t first_length, size_t second_length, size_t third_length) {
    static uint8_t other[LONG];
    unsigned got = join(first_length, second_length, third_length), want = ref_join(first, first_length, second, second_length, other, third_length);
    expect(got == want && (want != 0 || memcmp(third, other, BYTES) == 0), what, want, got);
    if (want < NUMBERS) answers[want]++;
    return want;
}

/* Every send channel of the joined table traces as it did in its half: the same number, hops and ports. */
static void traces(unsigned dimension) {
    const unsigned nodes = 1u << dimension;
    unsigned same = 0;
    for (unsigned node = 0; node < 2 * nodes; node++)
        for (unsigned channel = 0; channel < 8; channel++) {
            uint8_t before[9] = {0}, after[9] = {0};
            maze_traced was = maze_trace(node < nodes ? first : second, BYTES, (uint16_t)(node % nodes), (uint16_t)channel, before, 9);
            maze_traced is = maze_trace(third, BYTES, (uint16_t)node, (uint16_t)channel, after, 9);
            same += was.number == is.number && was.hops == is.hops && memcmp(before, after, 9) == 0;
            accepted_circuits += is.number == 0;
        }
    expect(same == 16 * nodes, "every circuit traces to the same ports", same, dimension);
}

/* The book of the joined table is that of the first and then that of the second, with numbers that are larger by 8 * 2^D and offsets by the first's hops. */
static void books(unsigned dimension) {
    static uint8_t ports[2][4096], index[2][24576];
    maze_booked one = maze_book(first, BYTES, ports[0], 2048, index[0], 12288);
    maze_booked two = maze_book(second, BYTES, ports[0] + one.hops, 2048, index[0] + 6 * one.circuits, 12288);
    maze_booked all = maze_book(third, BYTES, ports[1], 2048, index[1], 12288);
    for (unsigned i = one.circuits; i < (unsigned)one.circuits + two.circuits; i++) {
        uint8_t *line = index[0] + 6 * i;
        const unsigned number = line[0] + 256u * line[1] + (8u << dimension), offset = line[2] + 256u * line[3] + one.hops;
        line[0] = (uint8_t)(number % 256), line[1] = (uint8_t)(number / 256), line[2] = (uint8_t)(offset % 256), line[3] = (uint8_t)(offset / 256);
    }
    expect(one.number == 0 && two.number == 0 && all.number == 0 && all.circuits == one.circuits + two.circuits && all.hops == one.hops + two.hops &&
               memcmp(ports[0], ports[1], all.hops) == 0 && memcmp(index[0], index[1], 6u * all.circuits) == 0,
           "the book of the joined table", all.circuits, one.circuits + two.circuits);
}

/* Calls on the joined table, many of them over the new port, each beside the reference on a copy. */
static void go_on(unsigned dimension) {
    static uint8_t table[BYTES], other[BYTES];
    const unsigned nodes = 2u << dimension, side = 1u << dimension;
    memcpy(table, third, BYTES);
    memcpy(other, third, BYTES);
    /* from one half to the other, by the new port first, where that is enabled and free: it always is */
    for (unsigned i = 0; i < 4; i++) {
        const uint16_t node = (uint16_t)below(nodes), target = (uint16_t)(node ^ side);
        uint16_t channel = 0;
        maze_opened opened;
        while (channel < 8 && maze_trace(table, BYTES, node, channel, NULL, 0).number != 12) channel++;
        if (entry(table, 257, node, dimension) != 0 || channel == 8) continue;
        table[8449 + target] = other[8449 + target] = 255; /* eight links into the target at most, and the new one is free: a channel is left */
        opened = maze_open(table, BYTES, node, channel, target, MAZE_TYPE_MAZE, (uint16_t)side);
        expect(opened.number == 0 && opened.hops == 1 && opened.scouts == 1, "a circuit over a new link", node, opened.number);
        expect(ref_open(other, BYTES, node, channel, target, MAZE_TYPE_MAZE, (uint16_t)side).number == 0 && memcmp(table, other, BYTES) == 0, "the same in the reference", node, 0);
        expect(maze_block(table, BYTES, node, (uint16_t)dimension) == 13, "a new link that is held", node, 0);
        crossing++;
    }
    for (unsigned i = 0; i < 12; i++) {
        const uint16_t node = (uint16_t)below(nodes), target = (uint16_t)below(nodes), channel = (uint16_t)below(8), port = (uint16_t)(below(2) ? dimension : below(dimension + 2));
        unsigned long got, want;
        switch (below(6)) {
        case 0: got = maze_block(table, BYTES, node, port), want = ref_block(other, BYTES, node, port); break;
        case 1: got = maze_unblock(table, BYTES, node, port), want = ref_unblock(other, BYTES, node, port); break;
        case 2: got = maze_close(table, BYTES, node, channel), want = ref_close(other, BYTES, node, channel); break;
        case 3: got = maze_disarm(table, BYTES, node, channel), want = ref_disarm(other, BYTES, node, channel); break;
        default: {
            const uint16_t type = (uint16_t)(below(2) ? 0 : below(2) ? 1 : 3), vector = (uint16_t)(side | below(nodes));
            const maze_opened a = maze_open(table, BYTES, node, channel, target, type, vector), b = ref_open(other, BYTES, node, channel, target, type, vector);
            got = a.number + 100ul * a.hops + 1000ul * a.receive + 10000ul * a.scouts;
            want = b.number + 100ul * b.hops + 1000ul * b.receive + 10000ul * b.scouts;
        }
        }
        expect(got == want && memcmp(table, other, BYTES) == 0, "a call on the joined table", got, want);
        later_calls++;
    }
    /* what was joined can be closed again, circuit by circuit */
    for (unsigned node = 0; node < nodes; node++)
        for (unsigned channel = 0; channel < 8; channel++) maze_close(table, BYTES, (uint16_t)node, (uint16_t)channel);
    memset(other, 0, BYTES);
    expect(is_sound(table) && memcmp(table + 257, other, 8192) == 0, "every circuit closed", dimension, 0);
}

/* One to four bytes of a table changed, most of them in what its cube has. */
static void damage(uint8_t *table, unsigned dimension) {
    const unsigned nodes = 1u << dimension;
    for (unsigned i = 1 + below(4); i > 0; i--) {
        const unsigned node = below(below(4) ? nodes : 256);
        unsigned at;
        switch (below(8)) {
        case 0: case 1: at = 1 + node; break;
        case 2: case 3: at = 257 + 16 * node + below(16); break;
        case 4: at = 4353 + 16 * node + below(16); break;
        case 5: case 6: at = 8449 + node; break;
        default: at = below(4) ? below(BYTES) : 0;
        }
        table[at] = (uint8_t)(below(2) ? table[at] ^ 1u << below(8) : below(2) ? 0 : below(256));
    }
}

static void random_pairs(unsigned dimension) {
    static uint8_t kept[2][BYTES];
    random_table(first, dimension);
    random_table(second, dimension);
    if (below(8) == 0) memcpy(second, first, BYTES);
    memcpy(kept[0], first, BYTES);
    memcpy(kept[1], second, BYTES);
    if (compare("two random tables", BYTES, BYTES, BYTES) == 0) {
        traces(dimension);
        books(dimension);
        go_on(dimension);
    }
    for (unsigned i = 0; i < 20; i++) {
        const unsigned both = below(5);
        memcpy(first, kept[0], BYTES);
        memcpy(second, kept[1], BYTES);
        if (both != 1) damage(first, dimension);
        if (both < 3) damage(second, dimension);
        compare("damaged tables", below(40) ? BYTES : BYTES + 1, below(40) ? BYTES : BYTES - 1, below(8) ? BYTES : BYTES - 1);
    }
    memcpy(first, kept[0], BYTES);
    random_table(second, 1 + below(8));
    compare("tables of two dimensions", BYTES, BYTES, BYTES);
    for (unsigned i = 0; i < BYTES; i++) second[i] = (uint8_t)below(i ? 256 : 9);
    compare("bytes at random", BYTES, BYTES, BYTES);
    memcpy(second, kept[1], BYTES);
}

/* From cubes of two nodes up to one of 256, each joined of the one before and a new one, on either side; the last one cannot be joined. */
static void built_up(void) {
    static uint8_t so_far[BYTES];
    random_table(so_far, 1);
    for (unsigned dimension = 1; dimension <= 8; dimension++) {
        const int behind = below(2) != 0;
        memcpy(behind ? second : first, so_far, BYTES);
        random_table(behind ? first : second, dimension);
        if (compare("a joined table joined once more", BYTES, BYTES, BYTES) == 0) {
            traces(dimension);
            memcpy(so_far, third, BYTES);
        } else expect(dimension == 8, "a joined table that is refused", dimension, 0);
    }
}

int main(int count, char **arguments) {
    unsigned long tables = count > 1 ? strtoul(arguments[1], NULL, 10) : 12;
    uint64_t seed = count > 2 ? strtoull(arguments[2], NULL, 10) : 1;
    static const unsigned numbers_given[] = {0, 1, 2, 3, 29};
    for (size_t i = 0; i < LONG; i++) first[i] = (uint8_t)(i % 241), second[i] = (uint8_t)(i % 239);
    run_vectors();
    sweeps();
    lengths();
    dimensions();
    unsound();
    order();
    places();
    for (unsigned long i = 0; i < tables; i++) {
        for (unsigned dimension = 1; dimension <= 7; dimension++) {
            random_state = seed * 1000003u + i * 16 + dimension;
            random_pairs(dimension);
        }
        built_up();
    }
    printf("answers beside the reference:");
    for (unsigned number = 0; number < NUMBERS; number++)
        if (answers[number]) printf("  %u: %lu", number, answers[number]);
    printf("; circuits traced in joined tables: %lu; opened over a new link: %lu; other calls on them: %lu\n", accepted_circuits, crossing, later_calls);
    /* what never occurs compares nothing */
    for (unsigned i = 0; i < sizeof numbers_given / sizeof *numbers_given && tables >= 12; i++)
        expect(answers[numbers_given[i]] >= 40, "a number that seldom occurred", numbers_given[i], answers[numbers_given[i]]);
    return verdict();
}
