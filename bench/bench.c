/* The library's speed beside C versions of the same calls, one portable and one with vector instructions, in one run on the same tables:
 *
 *     bench [rounds]
 *     bench line LINE [rounds]
 *     bench once VERSION LINE
 *
 * Each line gives the time of one turn, in nanoseconds, for the two C versions and for the library, and the library's divided by each of the others.
 * A turn leaves the table as it found it. Rounds of the three are taken by turns, and the best round of each counts (15 without an argument).
 * The second form measures one line, which may be one that is too long for every run. The third makes one turn of one line with one version, base, sse or maze, for a count of instructions (bench/instructions). */
#define _POSIX_C_SOURCE 199309L
#include "baseline.h"

#include <stdio.h>
#include <stdlib.h>
#include <string.h>
#include <time.h>

/* The calls of one version on tables of one kind, and those that know of none. */
struct calls {
    uint16_t (*make)(uint8_t *, size_t, uint16_t);
    uint16_t (*block)(uint8_t *, size_t, uint16_t, uint16_t);
    uint16_t (*unblock)(uint8_t *, size_t, uint16_t, uint16_t);
    uint16_t (*arm)(uint8_t *, size_t, uint16_t, uint16_t);
    uint16_t (*disarm)(uint8_t *, size_t, uint16_t, uint16_t);
    maze_opened (*open)(uint8_t *, size_t, uint16_t, uint16_t, uint16_t, uint16_t, uint16_t);
    maze_opened_all (*open_all)(uint8_t *, size_t, const uint8_t *, size_t);
    uint16_t (*close)(uint8_t *, size_t, uint16_t, uint16_t);
    maze_traced (*trace)(const uint8_t *, size_t, uint16_t, uint16_t, uint8_t *, size_t);
    maze_booked (*book)(const uint8_t *, size_t, uint8_t *, size_t, uint8_t *, size_t);
    uint16_t (*judge)(const uint8_t *, size_t, const uint8_t *, size_t, const uint8_t *, size_t, uint16_t, uint16_t);
    uint16_t (*fold)(uint8_t *, size_t, uint16_t); /* of wide tables alone */
    maze_traced (*book_lookup)(const uint8_t *, size_t, const uint8_t *, size_t, uint16_t, uint16_t, uint16_t, uint8_t *, size_t);
    uint16_t (*join)(const uint8_t *, size_t, const uint8_t *, size_t, uint8_t *, size_t);
    uint16_t (*widen)(const uint8_t *, size_t, uint8_t *, size_t);
    uint16_t (*narrow)(const uint8_t *, size_t, uint8_t *, size_t);
    maze_word_read_answer (*word_read)(uint16_t);
    maze_word_written (*word_write)(uint16_t, uint16_t);
    maze_served (*arbitrate)(maze_arbiter *, uint32_t);
    maze_receive_channel (*receive_start)(uint32_t, uint32_t, uint16_t);
    maze_received (*receive_data)(maze_receive_channel);
    maze_received (*receive_word)(maze_receive_channel, uint16_t);
    uint32_t (*receive_overshoot)(maze_receive_channel);
};

#define ON_TABLES(of) of##make, of##block, of##unblock, of##arm, of##disarm, of##open, of##open_all, of##close, of##trace, of##book, of##judge
#define OTHERS(of) of##book_lookup, of##join, of##widen, of##narrow, of##word_read, of##word_write, of##arbitrate, of##receive_start, of##receive_data, of##receive_word, of##receive_overshoot

enum { VERSIONS = 3, KINDS = 2 };

static const struct calls versions[KINDS][VERSIONS] = {
    {{ON_TABLES(base_), NULL, OTHERS(base_)}, {ON_TABLES(sse_), NULL, OTHERS(sse_)}, {ON_TABLES(maze_), NULL, OTHERS(maze_)}},
    {{ON_TABLES(base_wide_), base_wide_fold, OTHERS(base_)}, {ON_TABLES(sse_wide_), sse_wide_fold, OTHERS(sse_)}, {ON_TABLES(maze_wide_), maze_wide_fold, OTHERS(maze_)}},
};
static const char *const version_names[VERSIONS] = {"base", "sse", "maze"};

/* The kind of the table at hand, its length, and where its armed channels begin. */
static unsigned wide;
static size_t bytes;
static unsigned armed_at;

static void of_kind(unsigned kind) {
    wide = kind;
    bytes = kind ? MAZE_WIDE_TABLE_BYTES : MAZE_TABLE_BYTES;
    armed_at = kind ? MAZE_WIDE_ARMED_AT : MAZE_ARMED_AT;
}

/* The C version that prepares tables. */
static const struct calls *plain(void) {
    return &versions[wide][0];
}

static uint8_t table[MAZE_WIDE_TABLE_BYTES], other[MAZE_WIDE_TABLE_BYTES], buffer[MAZE_TRACE_BYTES];
static uint8_t book_ports[MAZE_WIDE_LINKS_LARGEST], book_index[MAZE_BOOK_LINE_BYTES * MAZE_CIRCUITS_LARGEST];

/* ---- the tables ---- */

enum { ALL_CHANNELS = 255 };

/* Nothing held, every channel armed. */
static void armed(unsigned dimension) {
    plain()->make(table, bytes, (uint16_t)dimension);
    memset(table + armed_at, ALL_CHANNELS, (size_t)1 << dimension);
}

static void armed_3(void) { armed(3); }
static void armed_8(void) { armed(8); }
static void made_8(void) { plain()->make(table, bytes, 8); }

/* The eight links into node 254 blocked. */
static void walled(void) {
    armed(8);
    for (unsigned port = 0; port < 8; port++) plain()->block(table, bytes, (uint16_t)(254 ^ 1u << port), (uint16_t)port);
}

/* Dimension 8, wide, with some dimensions folded, every channel armed. */
static void folded(unsigned mask) {
    armed(8);
    plain()->fold(table, bytes, (uint16_t)mask);
}

static void folded_none(void) { folded(0); }
static void folded_all(void) { folded(255); }

/* The links into a node blocked, of every pair both. */
static void wall(unsigned mask, unsigned node) {
    folded(mask);
    for (unsigned port = 0; port < 8; port++) {
        plain()->block(table, bytes, (uint16_t)(node ^ 1u << port), (uint16_t)port);
        if (mask >> port & 1) plain()->block(table, bytes, (uint16_t)(node ^ 1u << port), (uint16_t)(17 - port));
    }
}

static void walled_8_folded(void) { wall(255, 254); }
static void walled_2_folded(void) { wall(3, 254); }

/* Every dimension folded, and every link held, that of port p out of a node and the partner back by one circuit from the node to itself; but for those of circuit 1. */
static void full_of_pairs(void) {
    folded_all();
    for (unsigned node = 0; node < MAZE_NODES; node++)
        for (unsigned port = 0; port < 8; port++) {
            const unsigned circuit = MAZE_CIRCUIT(node, port), other_node = node ^ 1u << port;
            const unsigned at[] = {MAZE_WIDE_LINKS_AT + 36 * node + 2 * port, MAZE_WIDE_LINKS_AT + 36 * other_node + 2 * (17 - port), MAZE_WIDE_RECEIVES_AT + 16 * node + 2 * port};
            for (unsigned i = 0; i < 3 && circuit > 1; i++) table[at[i]] = (uint8_t)circuit, table[at[i] + 1] = (uint8_t)(circuit >> 8);
        }
}

/* A circuit of nine hops in a folded cube, the last of them over a partner. */
static void nine_hops_folded(void) {
    folded_all();
    plain()->open(table, bytes, 0, 0, 254, 0, 1);
}

/* The links into node 255 blocked, but for the last one of the helix path of port 7 from node 0. */
static void last_of_eight(void) {
    armed(8);
    for (unsigned port = 0; port < 8; port++)
        if (port != 6) plain()->block(table, bytes, (uint16_t)(255 ^ 1u << port), (uint16_t)port);
}

static void nine_hops(void) {
    armed(8);
    plain()->open(table, bytes, 0, 0, 254, 0, 1);
}

/* Every link held by a circuit of its own, but the one from node 0 to node 1. */
static void full_of_short(void) {
    armed(8);
    for (unsigned node = 0; node < MAZE_NODES; node++)
        for (unsigned port = 0; port < MAZE_PORTS; port++)
            if (node != 0 || port != 0) plain()->open(table, bytes, (uint16_t)node, (uint16_t)port, (uint16_t)(node ^ 1u << port), 0, (uint16_t)(1u << port));
}

/* The same with the links out of node 0, or into node 255, closed and blocked: no open from the one to the other can succeed. Send channel 0 of node 0
 * is left. */
static void full_but_blocked(void) {
    full_of_short();
    for (unsigned port = 0; port < MAZE_PORTS; port++) plain()->close(table, bytes, 0, (uint16_t)port), plain()->block(table, bytes, 0, (uint16_t)port);
}

static void full_into_blocked(void) {
    full_of_short();
    for (unsigned port = 0; port < MAZE_PORTS; port++) {
        uint16_t node = (uint16_t)(255 ^ 1u << port);
        plain()->close(table, bytes, node, (uint16_t)port), plain()->block(table, bytes, node, (uint16_t)port);
    }
}

/* Circuits of all lengths first, until none finds a path, and then every free link by a circuit of its own, but for the link from node 0 to
 * node 1. */
static void full_of_long(void) {
    unsigned x = 1;
    armed(8);
    plain()->open(table, bytes, 0, 0, 1, 0, 1);
    for (unsigned i = 0; i < 4000; i++) {
        unsigned node = (x = x * 1664525u + 1013904223u) >> 24, target = (x = x * 1664525u + 1013904223u) >> 24;
        plain()->open(table, bytes, (uint16_t)node, (uint16_t)(1 + i % 7), (uint16_t)target, 0, 255);
    }
    for (unsigned node = 0; node < MAZE_NODES; node++)
        for (unsigned port = 0; port < MAZE_PORTS; port++)
            for (unsigned channel = 0; channel < MAZE_CHANNELS && (wide ? maze_wide_link_circuit(table, node, port) : maze_link_circuit(table, node, port)) == 0; channel++)
                plain()->open(table, bytes, (uint16_t)node, (uint16_t)channel, (uint16_t)(node ^ 1u << port), 0, (uint16_t)(1u << port));
    plain()->close(table, bytes, 0, 0);
    table[armed_at + 1] = ALL_CHANNELS; /* the close has disarmed one */
}

/* Books of those tables, for lookups. */
static maze_booked booked;

static void book_it(void) { booked = plain()->book(table, bytes, book_ports, sizeof book_ports, book_index, sizeof book_index); }
static void booked_one(void) { nine_hops(), book_it(); }
static void booked_short(void) { full_of_short(), book_it(); }
static void booked_pairs(void) { full_of_pairs(), book_it(); }

/* The same books, and the table with their circuits closed and their channels armed again. */
static void emptied_one(void) { booked_one(), armed(8); }
static void emptied_short(void) { booked_short(), armed(8); }
static void emptied_long(void) { full_of_long(), book_it(), armed(8); }
static void emptied_pairs(void) { booked_pairs(), folded_all(); }
static void emptied_folded(void) { nine_hops_folded(), book_it(), folded_all(); }

/* Two halves of 128 nodes: a made table twice, and one whose every link is held by a circuit of its own, twice. */
static uint8_t other_half[MAZE_TABLE_BYTES], joined[MAZE_TABLE_BYTES];

static void empty_halves(void) {
    plain()->make(table, bytes, 7);
    memcpy(other_half, table, sizeof other_half);
}

static void full_halves(void) {
    armed(7);
    for (unsigned node = 0; node < 128; node++)
        for (unsigned port = 0; port < 7; port++) plain()->open(table, bytes, (uint16_t)node, (uint16_t)port, (uint16_t)(node ^ 1u << port), 0, (uint16_t)(1u << port));
    memcpy(other_half, table, sizeof other_half);
}

/* Every word once, and every command with every number of six bits once, in an order that a processor cannot foresee: so they come from
 * boards. */
static uint16_t words[4096], pairs[1024];

static void mix(uint16_t *numbers, unsigned count) {
    unsigned x = 1;
    for (unsigned i = 0; i < count; i++) {
        unsigned j = (x = x * 1664525u + 1013904223u) % 65536 * (i + 1) / 65536;
        numbers[i] = numbers[j];
        numbers[j] = (uint16_t)i;
    }
}

static void mixed_words(void) {
    mix(words, 4096);
    mix(pairs, 1024);
}

/* Requests of 1,024 calls that a processor cannot foresee: each requester asks in about one call of `spread`. */
static uint32_t requests[1024];

static void mix_requests(unsigned spread) {
    unsigned x = 1;
    for (unsigned i = 0; i < 1024; i++) {
        requests[i] = 0;
        for (unsigned r = 0; r < MAZE_REQUESTERS; r++)
            if (((x = x * 1664525u + 1013904223u) >> 16) % spread == 0) requests[i] |= 1u << r;
    }
}

static void few_requests(void) { mix_requests(26); }
static void many_requests(void) { mix_requests(2); }

/* 256 channels of any count, about half of them with the overflow mark. */
static maze_receive_channel channels[256];

static void mixed_channels(void) {
    unsigned x = 1;
    for (unsigned i = 0; i < 256; i++) {
        unsigned count = x = x * 1664525u + 1013904223u, marked = (x = x * 1664525u + 1013904223u) >> 31;
        channels[i] = base_receive_start(0, count, 0);
        channels[i].overflow = (uint8_t)marked;
    }
}

/* ---- one turn of each line: answers a sum that all versions must agree on; its last two digits are the numbers that the calls answered ---- */

/* What a turn is made with. Opens are on send channel 0; `other` is their target, the port of a link, or the channel that is traced or armed; vector
 * and routing type are those of an open. */
struct with {
    uint16_t node, other, vector, type;
};

static unsigned long turn_make(const struct calls *c, struct with with) {
    (void)with;
    return c->make(table, bytes, 8);
}

static unsigned long turn_open(const struct calls *c, struct with with) {
    maze_opened opened = c->open(table, bytes, with.node, 0, with.other, with.type, with.vector);
    return opened.number + 100ul * opened.scouts;
}

/* What the close disarms is armed again by a byte, as a third call would be measured too. */
static unsigned long turn_open_close(const struct calls *c, struct with with) {
    unsigned long sum = turn_open(c, with);
    sum += c->close(table, bytes, with.node, 0);
    table[armed_at + with.other] = ALL_CHANNELS;
    return sum;
}

/* Sets the mask that the table cannot have: partner links of an axis that would be unfolded are held. */
static unsigned long turn_unfold(const struct calls *c, struct with with) {
    return c->fold(table, bytes, with.vector) + 100ul * table[MAZE_WIDE_FOLD_AT];
}

/* A job of `type` sends, from node i to node i + 64 over port 6. The send at place `other` is refused, where there is one. What is opened is taken
 * back by a copy of the table, as closes would be measured too. */
static unsigned long turn_job(const struct calls *c, struct with with) {
    static uint8_t kept[sizeof table], list[MAZE_SEND_BYTES * MAZE_SENDS_LARGEST];
    maze_opened_all opened;
    memset(list, 0, sizeof list);
    for (unsigned i = 0; i < MAZE_SENDS_LARGEST; i++) {
        uint8_t *send = list + MAZE_SEND_BYTES * i;
        send[0] = (uint8_t)i, send[4] = (uint8_t)(i ^ with.node), send[8] = (uint8_t)with.vector, send[7] = i == with.other;
    }
    memcpy(kept, table, bytes);
    opened = c->open_all(table, bytes, list, MAZE_SEND_BYTES * with.type);
    memcpy(table, kept, bytes);
    return opened.number + 100ul * opened.sends;
}

static unsigned long turn_block(const struct calls *c, struct with with) {
    unsigned long number = c->block(table, bytes, with.node, with.other);
    return number + c->unblock(table, bytes, with.node, with.other);
}

static unsigned long turn_arm(const struct calls *c, struct with with) {
    unsigned long number = c->disarm(table, bytes, with.node, with.other);
    return number + c->arm(table, bytes, with.node, with.other);
}

/* Folds and unfolds again: `other` is the mask of the table. */
static unsigned long turn_fold(const struct calls *c, struct with with) {
    unsigned long number = c->fold(table, bytes, with.vector);
    return number + c->fold(table, bytes, with.other) + 100ul * table[MAZE_WIDE_FOLD_AT];
}

static unsigned long turn_trace(const struct calls *c, struct with with) {
    maze_traced traced = c->trace(table, bytes, with.node, with.other, buffer, sizeof buffer);
    return traced.number + 100ul * traced.hops + 10000ul * buffer[0];
}

static unsigned long turn_book(const struct calls *c, struct with with) {
    (void)with;
    maze_booked got = c->book(table, bytes, book_ports, sizeof book_ports, book_index, sizeof book_index);
    return got.number + 100ul * (got.circuits + 3000ul * got.hops + book_ports[got.hops - 1] + book_index[6 * got.circuits - 6]);
}

/* The circuit `node` of the book that the table was prepared with. */
static unsigned long turn_lookup(const struct calls *c, struct with with) {
    maze_traced found = c->book_lookup(book_ports, sizeof book_ports, book_index, sizeof book_index, booked.circuits, booked.hops, with.node, buffer, sizeof buffer);
    return found.number + 100ul * found.hops + 10000ul * buffer[0];
}

/* The book that the table was prepared with, judged by it. */
static unsigned long turn_judge(const struct calls *c, struct with with) {
    (void)with;
    return c->judge(table, bytes, book_ports, sizeof book_ports, book_index, sizeof book_index, booked.circuits, booked.hops);
}

/* The sum has the last link of each half over port 6, and the last node's links. */
static unsigned long turn_join(const struct calls *c, struct with with) {
    (void)with;
    unsigned long number = c->join(table, bytes, other_half, sizeof other_half, joined, sizeof joined);
    return number + 100ul * (MAZE_LINK_CIRCUIT(joined, 127, 6) + 3000ul * MAZE_LINK_CIRCUIT(joined, 255, 6) + joined[MAZE_ENABLED_AT + 255]);
}

/* The table converted to the other kind. The sum has the dimension written and the last entry of its links that a cube has. */
static unsigned long turn_convert(const struct calls *c, struct with with) {
    (void)with;
    unsigned long number = wide ? c->narrow(table, bytes, other, MAZE_TABLE_BYTES) : c->widen(table, bytes, other, MAZE_WIDE_TABLE_BYTES);
    return number + 100ul * (other[0] + 10ul * (wide ? maze_link_circuit(other, 255, 7) : maze_wide_link_circuit(other, 255, 7)));
}

static unsigned long turn_words_read(const struct calls *c, struct with with) {
    (void)with;
    unsigned long sum = 0;
    for (unsigned i = 0; i < 4096; i++) {
        maze_word_read_answer read = c->word_read(words[i]);
        sum += read.number + read.command + (unsigned long)read.carried;
    }
    return 100 * sum;
}

static unsigned long turn_words_write(const struct calls *c, struct with with) {
    (void)with;
    unsigned long sum = 0;
    for (unsigned i = 0; i < 1024; i++) {
        maze_word_written written = c->word_write(pairs[i] / 64, pairs[i] % 64);
        sum += written.number + (unsigned long)written.word;
    }
    return 100 * sum;
}

static unsigned long turn_arbitrate(const struct calls *c, struct with with) {
    (void)with;
    maze_arbiter arbiter = {0};
    unsigned long sum = 0;
    for (unsigned i = 0; i < 1024; i++) {
        maze_served served = c->arbitrate(&arbiter, requests[i]);
        sum += served.number + (unsigned long)served.requester;
    }
    return 100 * sum;
}

/* A channel for 60 doublewords takes 100 and an end of transmission. */
static unsigned long turn_receive(const struct calls *c, struct with with) {
    maze_received received = {c->receive_start(with.node, 60, 0), 0};
    unsigned long numbers = 0;
    for (unsigned i = 0; i < 100; i++) {
        received = c->receive_data(received.channel);
        numbers += received.number;
    }
    received = c->receive_word(received.channel, 3648);
    return numbers + received.number + 100ul * (received.channel.address + (unsigned long)received.channel.count);
}

/* Every word once, each to the same channel, which runs. */
static unsigned long turn_receive_words(const struct calls *c, struct with with) {
    maze_receive_channel channel = base_receive_start(with.node, 60, 0);
    unsigned long sum = 0;
    for (unsigned i = 0; i < 4096; i++) {
        maze_received received = c->receive_word(channel, words[i]);
        sum += received.number + (unsigned long)received.channel.running;
    }
    return 100 * sum;
}

static unsigned long turn_overshoots(const struct calls *c, struct with with) {
    (void)with;
    unsigned long sum = 0;
    for (unsigned i = 0; i < 256; i++) sum += c->receive_overshoot(channels[i]);
    return 100 * sum;
}

/* Lines of both kinds are taken of narrow tables and then of wide ones, behind "wide: ". A long one is made where it is asked for alone. */
enum { NARROW_ALONE = 1, WIDE_ALONE = 2, BOTH_KINDS = 3, LONG_ONE = 4 };

static const struct {
    unsigned kinds;
    const char *what;
    void (*prepare)(void);
    unsigned long (*turn)(const struct calls *, struct with);
    struct with with;
    unsigned number;  /* what the calls of the turn answer */
    unsigned turns;   /* of a round */
    unsigned divisor; /* calls of a turn that the time is given for; 1 for the whole turn */
} lines[] = {
    {BOTH_KINDS, "make, dimension 8", made_8, turn_make, {0, 0, 0, 0}, MAZE_ACCEPTED, 10000, 1},
    {BOTH_KINDS, "open and close, 3 hops, dimension 3", armed_3, turn_open_close, {0, 7, 7, 0}, MAZE_ACCEPTED, 5000, 1},
    {BOTH_KINDS, "open and close, 1 hop, dimension 8", armed_8, turn_open_close, {0, 1, 1, 0}, MAZE_ACCEPTED, 5000, 1},
    {BOTH_KINDS, "open and close, 8 hops", armed_8, turn_open_close, {0, 255, 255, 0}, MAZE_ACCEPTED, 5000, 1},
    {BOTH_KINDS, "open of type 3 and close, 8 hops", armed_8, turn_open_close, {0, 255, 255, MAZE_TYPE_FIXED}, MAZE_ACCEPTED, 5000, 1},
    {BOTH_KINDS, "open of type 1 and close, 8 hops", armed_8, turn_open_close, {0, 255, 255, MAZE_TYPE_HELIX}, MAZE_ACCEPTED, 5000, 1},
    {BOTH_KINDS, "open of type 1 and close, 8 paths tried", last_of_eight, turn_open_close, {0, 255, 255, MAZE_TYPE_HELIX}, MAZE_ACCEPTED, 5000, 1},
    {BOTH_KINDS, "open of type 1, 7 paths tried, rejected", last_of_eight, turn_open, {0, 255, 127, MAZE_TYPE_HELIX}, MAZE_NO_ROUTE, 5000, 1},
    {BOTH_KINDS, "open of type 3, rejected", last_of_eight, turn_open, {0, 255, 255, MAZE_TYPE_FIXED}, MAZE_NO_ROUTE, 5000, 1},
    {BOTH_KINDS, "open, 8 hops, receive rejected", made_8, turn_open, {0, 255, 255, 0}, MAZE_RECEIVE_REJECTED, 5000, 1},
    {BOTH_KINDS, "open, 77,940 scouts, rejected", walled, turn_open, {0, 254, 255, 0}, MAZE_NO_ROUTE, 10, 1},
    {BOTH_KINDS, "a job of 1 send", armed_8, turn_job, {64, 64, 64, 1}, MAZE_ACCEPTED, 2000, 1},
    {BOTH_KINDS, "a job of 64 sends of 1 hop", armed_8, turn_job, {64, 64, 64, 64}, MAZE_ACCEPTED, 300, 1},
    {BOTH_KINDS, "a job of 64 sends of 1 hop, the last refused", armed_8, turn_job, {64, 63, 64, 64}, MAZE_BAD_ROUTING_TYPE, 300, 1},
    {BOTH_KINDS, "block and unblock", armed_8, turn_block, {200, 5, 0, 0}, MAZE_ACCEPTED, 5000, 1},
    {BOTH_KINDS, "disarm and arm", armed_8, turn_arm, {200, 5, 0, 0}, MAZE_ACCEPTED, 5000, 1},
    {BOTH_KINDS, "trace of 9 hops", nine_hops, turn_trace, {0, 0, 0, 0}, MAZE_ACCEPTED, 5000, 1},
    {BOTH_KINDS, "a book of 1 circuit of 9 hops", nine_hops, turn_book, {0, 0, 0, 0}, MAZE_ACCEPTED, 2000, 1},
    {NARROW_ALONE, "a lookup in a book of 1 circuit of 9 hops", booked_one, turn_lookup, {1, 0, 0, 0}, MAZE_ACCEPTED, 20000, 1},
    {BOTH_KINDS, "judging a book of 1 circuit of 9 hops", emptied_one, turn_judge, {0, 0, 0, 0}, MAZE_ACCEPTED, 2000, 1},
    {BOTH_KINDS, "converting a table of one circuit of 9 hops", nine_hops, turn_convert, {0, 0, 0, 0}, MAZE_ACCEPTED, 2000, 1},
    {BOTH_KINDS, "converting a table of 2,047 circuits of 1 hop", full_of_short, turn_convert, {0, 0, 0, 0}, MAZE_ACCEPTED, 100, 1},
    {NARROW_ALONE, "joining two halves of 128 nodes, no circuit", empty_halves, turn_join, {0, 0, 0, 0}, MAZE_ACCEPTED, 3000, 1},
    {NARROW_ALONE, "joining two halves of 896 circuits of 1 hop", full_halves, turn_join, {0, 0, 0, 0}, MAZE_ACCEPTED, 200, 1},
    {BOTH_KINDS, "2,047 circuits of 1 hop: open and close", full_of_short, turn_open_close, {0, 1, 1, 0}, MAZE_ACCEPTED, 300, 1},
    {BOTH_KINDS, "  open, rejected", full_of_short, turn_open, {0, 255, 255, 0}, MAZE_ROUTE_REJECTED, 300, 1},
    {BOTH_KINDS, "  open, rejected, links into the target blocked", full_into_blocked, turn_open, {0, 255, 255, 0}, MAZE_NO_ROUTE, 300, 1},
    {BOTH_KINDS, "  open, rejected, links out of the source blocked", full_but_blocked, turn_open, {0, 255, 255, 0}, MAZE_NO_ROUTE, 300, 1},
    {BOTH_KINDS, "  open of type 1, rejected", full_of_short, turn_open, {0, 255, 255, MAZE_TYPE_HELIX}, MAZE_ROUTE_REJECTED, 300, 1},
    {BOTH_KINDS, "  block and unblock", full_of_short, turn_block, {0, 0, 0, 0}, MAZE_ACCEPTED, 300, 1},
    {BOTH_KINDS, "  disarm and arm", full_of_short, turn_arm, {1, 7, 0, 0}, MAZE_ACCEPTED, 300, 1},
    {BOTH_KINDS, "  trace", full_of_short, turn_trace, {255, 5, 0, 0}, MAZE_ACCEPTED, 300, 1},
    {BOTH_KINDS, "  a book", full_of_short, turn_book, {0, 0, 0, 0}, MAZE_ACCEPTED, 100, 1},
    {NARROW_ALONE, "  a lookup of the first in it", booked_short, turn_lookup, {2, 0, 0, 0}, MAZE_ACCEPTED, 500, 1},
    {NARROW_ALONE, "  a lookup of the last in it", booked_short, turn_lookup, {2048, 0, 0, 0}, MAZE_ACCEPTED, 500, 1},
    {BOTH_KINDS, "  judging their book, all of them closed", emptied_short, turn_judge, {0, 0, 0, 0}, MAZE_ACCEPTED, 100, 1},
    {BOTH_KINDS, "  the same, all of them open", booked_short, turn_judge, {0, 0, 0, 0}, MAZE_BAD_BOOK_CIRCUIT, 100, 1},
    {BOTH_KINDS, "circuits of all lengths, 2,047 links: open and close", full_of_long, turn_open_close, {0, 1, 1, 0}, MAZE_ACCEPTED, 300, 1},
    {BOTH_KINDS, "  open, rejected", full_of_long, turn_open, {0, 255, 255, 0}, MAZE_ROUTE_REJECTED, 300, 1},
    {BOTH_KINDS, "  block and unblock", full_of_long, turn_block, {0, 0, 0, 0}, MAZE_ACCEPTED, 300, 1},
    {BOTH_KINDS, "  disarm and arm", full_of_long, turn_arm, {1, 0, 0, 0}, MAZE_ACCEPTED, 300, 1},
    {BOTH_KINDS, "  trace of 8 hops", full_of_long, turn_trace, {220, 1, 0, 0}, MAZE_ACCEPTED, 300, 1},
    {BOTH_KINDS, "  a book", full_of_long, turn_book, {0, 0, 0, 0}, MAZE_ACCEPTED, 100, 1},
    {BOTH_KINDS, "  judging their book, all of them closed", emptied_long, turn_judge, {0, 0, 0, 0}, MAZE_ACCEPTED, 100, 1},
    {WIDE_ALONE, "folding and unfolding 8 dimensions, dimension 8", folded_none, turn_fold, {0, 0, 255, 0}, MAZE_ACCEPTED, 3000, 1},
    {WIDE_ALONE, "folded: open and close, 1 hop", folded_all, turn_open_close, {0, 1, 1, 0}, MAZE_ACCEPTED, 5000, 1},
    {WIDE_ALONE, "folded: open and close, 8 hops", folded_all, turn_open_close, {0, 255, 255, 0}, MAZE_ACCEPTED, 5000, 1},
    {WIDE_ALONE, "folded: open of type 3 and close, 8 hops, 7 by partners", folded_all, turn_open_close, {0, 255, 128, MAZE_TYPE_FIXED}, MAZE_ACCEPTED, 5000, 1},
    {WIDE_ALONE, "folded: open of type 1, 16 paths tried, rejected", walled_8_folded, turn_open, {1, 254, 255, MAZE_TYPE_HELIX}, MAZE_NO_ROUTE, 2000, 1},
    {WIDE_ALONE, "folded: open, 2 dimensions, rejected", walled_2_folded, turn_open, {0, 254, 255, 0}, MAZE_NO_ROUTE, 5, 1},
    {WIDE_ALONE | LONG_ONE, "folded: open, 13,810,600 scouts, rejected", walled_8_folded, turn_open, {0, 254, 255, 0}, MAZE_NO_ROUTE, 1, 1},
    {WIDE_ALONE, "folded: a job of 1 send", folded_all, turn_job, {64, 64, 64, 1}, MAZE_ACCEPTED, 2000, 1},
    {WIDE_ALONE, "folded: a job of 64 sends of 1 hop", folded_all, turn_job, {64, 64, 64, 64}, MAZE_ACCEPTED, 300, 1},
    {WIDE_ALONE, "folded: block and unblock", folded_all, turn_block, {200, 12, 0, 0}, MAZE_ACCEPTED, 5000, 1},
    {WIDE_ALONE, "folded: disarm and arm", folded_all, turn_arm, {200, 5, 0, 0}, MAZE_ACCEPTED, 5000, 1},
    {WIDE_ALONE, "folded: trace of 9 hops", nine_hops_folded, turn_trace, {0, 0, 0, 0}, MAZE_ACCEPTED, 5000, 1},
    {WIDE_ALONE, "folded: a book of 1 circuit of 9 hops", nine_hops_folded, turn_book, {0, 0, 0, 0}, MAZE_ACCEPTED, 2000, 1},
    {WIDE_ALONE, "folded: judging a book of 1 circuit of 9 hops", emptied_folded, turn_judge, {0, 0, 0, 0}, MAZE_ACCEPTED, 2000, 1},
    {WIDE_ALONE, "folded: setting the mask, partners held", nine_hops_folded, turn_unfold, {0, 0, 0, 0}, MAZE_LINK_HELD, 3000, 1},
    {WIDE_ALONE, "folded: 2,047 circuits of 2 hops: open and close", full_of_pairs, turn_open_close, {0, 0, 1, 0}, MAZE_ACCEPTED, 300, 1},
    {WIDE_ALONE, "folded:   open, rejected", full_of_pairs, turn_open, {0, 255, 255, 0}, MAZE_ROUTE_REJECTED, 300, 1},
    {WIDE_ALONE, "folded:   trace of 2 hops", full_of_pairs, turn_trace, {255, 5, 0, 0}, MAZE_ACCEPTED, 300, 1},
    {WIDE_ALONE, "folded:   setting the mask that it has", full_of_pairs, turn_unfold, {0, 0, 255, 0}, MAZE_ACCEPTED, 300, 1},
    {WIDE_ALONE, "folded:   a book", full_of_pairs, turn_book, {0, 0, 0, 0}, MAZE_ACCEPTED, 100, 1},
    {WIDE_ALONE, "folded:   judging it, all of them closed", emptied_pairs, turn_judge, {0, 0, 0, 0}, MAZE_ACCEPTED, 100, 1},
    {NARROW_ALONE, "reading a word, of 4,096", mixed_words, turn_words_read, {0, 0, 0, 0}, MAZE_ACCEPTED, 50, 4096},
    {NARROW_ALONE, "writing a word, of 1,024", mixed_words, turn_words_write, {0, 0, 0, 0}, MAZE_ACCEPTED, 200, 1024},
    {NARROW_ALONE, "a choice of the arbiter, few ask, of 1,024", few_requests, turn_arbitrate, {0, 0, 0, 0}, MAZE_ACCEPTED, 200, 1024},
    {NARROW_ALONE, "a choice of the arbiter, half ask, of 1,024", many_requests, turn_arbitrate, {0, 0, 0, 0}, MAZE_ACCEPTED, 200, 1024},
    {NARROW_ALONE, "100 data packets and an end of transmission", armed_3, turn_receive, {8, 0, 0, 0}, MAZE_ACCEPTED, 5000, 1},
    {NARROW_ALONE, "a word to a receive channel, of 4,096", mixed_words, turn_receive_words, {8, 0, 0, 0}, MAZE_ACCEPTED, 50, 4096},
    {NARROW_ALONE, "the overshoot of a receive channel, of 256", mixed_channels, turn_overshoots, {0, 0, 0, 0}, MAZE_ACCEPTED, 1000, 256},
};

/* ---- time ---- */

static double now(void) {
    struct timespec time;
    clock_gettime(CLOCK_MONOTONIC, &time);
    return 1e9 * (double)time.tv_sec + (double)time.tv_nsec;
}

/* The name of a line: that of a wide table has a word before it. */
static const char *name_of(size_t line, unsigned kind) {
    static char name[80];
    snprintf(name, sizeof name, "%s%s", kind ? "wide: " : "", lines[line].what);
    return name;
}

static int once(const char *version, const char *what) {
    for (size_t i = 0; i < sizeof lines / sizeof *lines; i++)
        for (unsigned kind = 0; kind < KINDS; kind++)
            for (int v = 0; v < VERSIONS; v++)
                if ((lines[i].kinds >> kind & 1) && strcmp(name_of(i, kind), what) == 0 && strcmp(version_names[v], version) == 0) {
                    of_kind(kind);
                    lines[i].prepare();
                    return lines[i].turn(&versions[kind][v], lines[i].with) % 100 != lines[i].number;
                }
    return 2;
}

/* Measures a line of one kind and prints it. Answers 1 where the versions differ or do not answer what the line says. */
static int measure(size_t i, unsigned kind, unsigned long rounds) {
    double best[VERSIONS] = {0};
    unsigned long sum[VERSIONS] = {0};
    static uint8_t before[sizeof table];
    int differs = 0;
    of_kind(kind);
    lines[i].prepare();
    memcpy(before, table, bytes);
    if (lines[i].turn(&versions[kind][2], lines[i].with) % 100 != lines[i].number) {
        printf("bench: %s does not answer %u\n", name_of(i, kind), lines[i].number);
        return 1;
    }
    for (unsigned long round = 0; round < rounds; round++)
        for (int version = 0; version < VERSIONS; version++) {
            double start = now(), time;
            sum[version] = 0;
            for (unsigned turn = 0; turn < lines[i].turns; turn++) sum[version] += lines[i].turn(&versions[kind][version], lines[i].with);
            time = (now() - start) / lines[i].turns / lines[i].divisor;
            if (round == 0 || time < best[version]) best[version] = time;
            if (memcmp(before, table, bytes) != 0) differs = 1;
        }
    if (sum[0] != sum[2] || sum[1] != sum[2]) differs = 1;
    printf("%-60s %10.1f %10.1f %10.1f %9.2f %9.2f\n", name_of(i, kind), best[0], best[1], best[2], best[2] / best[0], best[2] / best[1]);
    if (differs) printf("bench: the versions differ\n");
    return differs;
}

int main(int count, char **arguments) {
    if (count == 4 && strcmp(arguments[1], "once") == 0) return once(arguments[2], arguments[3]);
    const char *line = count > 2 && strcmp(arguments[1], "line") == 0 ? arguments[2] : NULL;
    unsigned long rounds = line ? (count > 3 ? strtoul(arguments[3], NULL, 10) : 15) : count > 1 ? strtoul(arguments[1], NULL, 10) : 15;
    printf("%-60s %10s %10s %10s %9s %9s\n", "nanoseconds", "portable C", "SSE C", "library", "/portable", "/SSE");
    for (unsigned kind = 0; kind < KINDS; kind++)
        for (size_t i = 0; i < sizeof lines / sizeof *lines; i++) {
            const int wanted = line ? strcmp(name_of(i, kind), line) == 0 : !(lines[i].kinds & LONG_ONE);
            if ((lines[i].kinds >> kind & 1) && wanted && measure(i, kind, rounds)) return 1;
        }
    return 0;
}
