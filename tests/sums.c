/* Tables made to fool a test of soundness that adds up hops, at random: the library beside the reference, which follows every circuit by itself.
 *
 *     sums [tables [seed]]
 *
 * First tables worked by hand, of circuits that come through their source again, and every set of links that one circuit can hold in a small cube. Then
 * each table holds circuits that were opened, and then one deed is done to it that keeps the number of held links equal to the hops to all receive
 * channels, or that a test by counting may not see for another reason. Calls at random never make such tables. 300 tables of each deed without an
 * argument, 150 with -DWIDE, where the tables are wide and most of them folded. */
#include "draw.h"
#include "expect.h"
#include "near.h"
#include "reference.h"
#include "subject.h"

#include <stdlib.h>
#include <string.h>

static uint8_t table[MAZE_TABLE_BYTES];
static unsigned dimension, nodes;

/* ---- the ports of the cube ---- */

static unsigned fold_mask(void) {
#ifdef WIDE
    return table[MAZE_WIDE_FOLD_AT];
#else
    return 0;
#endif
}

/* The bit of a node that a port changes: of port p and of its partner 17 - p it is bit p. */
static unsigned step(unsigned port) {
    return 1u << (port < 9 ? port : 17 - port);
}

static int has_port(unsigned port) {
    return port < dimension || (port > 17 - dimension && port < 18 && (fold_mask() & step(port)));
}

static unsigned any_port(void) {
    unsigned port = below(dimension);
    return (fold_mask() >> port & 1) && below(2) ? 17 - port : port;
}

/* ---- entries ---- */

static uint8_t *entry(unsigned part, unsigned node, unsigned slot) {
    return table + (part == MAZE_LINKS_AT ? link_at(node, slot) : receive_at(node, slot));
}

static unsigned get(unsigned part, unsigned node, unsigned slot) {
    const uint8_t *e = entry(part, node, slot);
    return e[0] + 256u * e[1];
}

static void put(unsigned part, unsigned node, unsigned slot, unsigned circuit) {
    uint8_t *e = entry(part, node, slot);
    e[0] = (uint8_t)(circuit % 256);
    e[1] = (uint8_t)(circuit / 256);
}

/* A free entry of the cube at random, or of one node where that is given: 0 if there is none. */
static int free_entry(unsigned part, const unsigned *only, unsigned *node, unsigned *slot) {
    for (unsigned tries = 0; tries < 64; tries++) {
        *node = only ? *only : below(nodes);
        *slot = part == MAZE_LINKS_AT ? any_port() : below(MAZE_CHANNELS);
        if (get(part, *node, *slot) == 0) return 1;
    }
    return 0;
}

/* A receive channel of a node for a circuit, armed. */
static int receive(unsigned node, unsigned circuit) {
    unsigned at, channel;
    if (!free_entry(MAZE_RECEIVES_AT, &node, &at, &channel)) return 0;
    put(MAZE_RECEIVES_AT, node, channel, circuit);
    table[MAZE_ARMED_AT + node] |= (uint8_t)(1u << channel);
    return 1;
}

/* ---- the circuits that were opened ---- */

enum { MOST = 24 };

static struct opened {
    unsigned circuit, hops;
    unsigned node[MAZE_HOPS_LARGEST + 1], port[MAZE_HOPS_LARGEST];
} opened[MOST];
static unsigned opened_count;

static void open_some(unsigned count) {
    opened_count = 0;
    for (unsigned i = 0; i < count; i++) {
        struct opened *o = &opened[opened_count];
        unsigned source = below(nodes), channel = below(8), target = near_to(fold_mask(), source, below(nodes));
        uint8_t ports[MAZE_TRACE_BYTES];
        if (ref_open(table, MAZE_TABLE_BYTES, (uint16_t)source, (uint16_t)channel, (uint16_t)target, (uint16_t)(4 * below(2)), (uint16_t)(1 + below(nodes - 1))).number) continue;
        o->circuit = MAZE_CIRCUIT(source, channel);
        o->hops = ref_trace(table, MAZE_TABLE_BYTES, (uint16_t)source, (uint16_t)channel, ports, sizeof ports).hops;
        o->node[0] = source;
        for (unsigned h = 0; h < o->hops; h++) {
            o->port[h] = ports[h];
            o->node[h + 1] = o->node[h] ^ step(ports[h]);
        }
        opened_count++;
    }
}

static struct opened *any_opened(void) {
    return &opened[below(opened_count)];
}

/* A circuit number of a source that nothing has. */
static unsigned unused_circuit(unsigned source) {
    for (unsigned tries = 0; tries < 32; tries++) {
        unsigned circuit = MAZE_CIRCUIT(source, below(8)), used = 0;
        for (unsigned i = 0; i < opened_count; i++) used |= opened[i].circuit == circuit;
        if (!used) return circuit;
    }
    return 0;
}

/* So many stray links: each of a circuit that is there or of another, on a path's node or anywhere. */
static int strays(unsigned count) {
    while (count--) {
        struct opened *o = any_opened();
        unsigned node, port, circuit = below(3) ? o->circuit : MAZE_CIRCUIT(below(nodes), below(8));
        unsigned by = below(2) ? o->node[below(o->hops + 1)] : below(nodes);
        if (!free_entry(MAZE_LINKS_AT, below(4) ? &by : NULL, &node, &port) && !free_entry(MAZE_LINKS_AT, NULL, &node, &port)) return 0;
        put(MAZE_LINKS_AT, node, port, circuit);
    }
    return 1;
}

/* ---- the deeds: 0 where one cannot be done ---- */

static int nothing(void) { return 1; }

/* A circuit is received at a node of its path once more, and strays make up for the hops to there. */
static int received_again(void) {
    struct opened *o = any_opened();
    unsigned hops = 1 + below(o->hops);
    return receive(o->node[hops], o->circuit) && strays(hops);
}

/* Two circuits are received at each other's ends. */
static int ends_exchanged(void) {
    struct opened *a = any_opened(), *b = any_opened();
    unsigned ends[2] = {a->node[a->hops], b->node[b->hops]}, of[2] = {a->circuit, b->circuit};
    for (unsigned i = 0; i < 2; i++)
        for (unsigned k = 0; k < MAZE_CHANNELS; k++)
            if (get(MAZE_RECEIVES_AT, ends[i], k) == of[i] && a != b) {
                put(MAZE_RECEIVES_AT, ends[i], k, of[1 - i]);
                break;
            }
    return a != b;
}

/* A link of a path is moved elsewhere. */
static int link_moved(void) {
    struct opened *o = any_opened();
    unsigned h = below(o->hops), node, port;
    if (!free_entry(MAZE_LINKS_AT, below(2) ? &o->node[h] : NULL, &node, &port)) return 0;
    put(MAZE_LINKS_AT, o->node[h], o->port[h], 0);
    put(MAZE_LINKS_AT, node, port, o->circuit);
    return 1;
}

#ifdef WIDE
/* A hop of a path is over the other link of its pair: sound where that is free. */
static int over_the_partner(void) {
    struct opened *o = any_opened();
    unsigned h = below(o->hops), other = 17 - o->port[h];
    if (!has_port(other) || get(MAZE_LINKS_AT, o->node[h], other)) return 0;
    put(MAZE_LINKS_AT, o->node[h], o->port[h], 0);
    put(MAZE_LINKS_AT, o->node[h], other, o->circuit);
    return 1;
}

/* A circuit holds both links of a pair, and is received once more, at the first node of its path. */
static int whole_pair(void) {
    struct opened *o = any_opened();
    unsigned h = below(o->hops), other = 17 - o->port[h];
    if (!has_port(other) || get(MAZE_LINKS_AT, o->node[h], other)) return 0;
    put(MAZE_LINKS_AT, o->node[h], other, o->circuit);
    return below(2) || receive(o->node[1], o->circuit);
}

/* The fold mask loses dimensions, whether a partner of theirs is held or not, or gains some; the enabled links go with it, or stay. */
static int mask_changed(void) {
    unsigned to = below(nodes);
    table[MAZE_WIDE_FOLD_AT] = (uint8_t)to;
    for (unsigned node = 0; node < nodes && below(2); node++)
        for (unsigned port = 0; port < 18; port++)
            if (!has_port(port)) table[enabled_at(node) + port / 8] &= (uint8_t)~(1u << port % 8);
    return 1;
}
#endif

/* Two circuits exchange a link. */
static int links_exchanged(void) {
    struct opened *a = any_opened(), *b = any_opened();
    unsigned i = below(a->hops), j = below(b->hops);
    put(MAZE_LINKS_AT, a->node[i], a->port[i], b->circuit);
    put(MAZE_LINKS_AT, b->node[j], b->port[j], a->circuit);
    return a != b;
}

/* A circuit goes out over an absent port and comes back. */
static int absent_port(void) {
    unsigned source = below(nodes), circuit = unused_circuit(source), port, other;
    if (dimension == MAZE_PORTS || !circuit) return 0;
    do port = dimension + below(MAZE_PORTS - dimension);
    while (has_port(port));
    /* the node behind it is none, or that of its partner 17 - port in a wide table */
    other = source ^ 1u << (port < 8 ? port : port > 9 ? 17 - port : 0);
    put(MAZE_LINKS_AT, source, port, circuit);
    put(MAZE_LINKS_AT, other, port, circuit);
    if (below(2)) {
        table[enabled_at(source) + port / 8] |= (uint8_t)(1u << port % 8);
        table[enabled_at(other) + port / 8] |= (uint8_t)(1u << port % 8);
    }
    return receive(source, circuit);
}

/* A circuit is received at two neighbours of its source, to each of which it can go by way of the other and the source; strays make up for it. */
static int two_ways_round(void) {
    unsigned source = below(nodes), circuit = unused_circuit(source), a = any_port(), b = any_port();
    unsigned at[4][2] = {{source, a}, {source ^ step(a), a}, {source, b}, {source ^ step(b), b}};
    if (!circuit || step(a) == step(b)) return 0;
    for (unsigned i = 1; i < 4; i += 2) /* back over the other link of a pair */
        if (has_port(17 - at[i][1]) && below(2)) at[i][1] = 17 - at[i][1];
    for (unsigned i = 0; i < 4; i++)
        if (get(MAZE_LINKS_AT, at[i][0], at[i][1])) return 0;
    for (unsigned i = 0; i < 4; i++) put(MAZE_LINKS_AT, at[i][0], at[i][1], circuit);
    return receive(at[1][0], circuit) && receive(at[3][0], circuit) && strays(2);
}

/* All that a circuit holds is another's, of another source or of the same one. */
static int renamed(void) {
    struct opened *o = any_opened();
    unsigned circuit = unused_circuit(below(2) ? o->node[0] : below(nodes));
    if (!circuit) return 0;
    for (unsigned n = 0; n < nodes; n++)
        for (unsigned k = 0; k < MAZE_PORTS; k++) {
            if (get(MAZE_LINKS_AT, n, k) == o->circuit) put(MAZE_LINKS_AT, n, k, circuit);
            if (k < MAZE_CHANNELS && get(MAZE_RECEIVES_AT, n, k) == o->circuit) put(MAZE_RECEIVES_AT, n, k, circuit);
        }
    return 1;
}

/* A circuit has one link more at a node of its path, and another of one hop is received once more. */
static int link_more_and_received_again(void) {
    struct opened *o = any_opened(), *short_one = any_opened();
    unsigned node, port;
    if (!free_entry(MAZE_LINKS_AT, &o->node[below(o->hops)], &node, &port) || short_one->hops != 1) return 0;
    put(MAZE_LINKS_AT, node, port, o->circuit);
    return receive(short_one->node[1], short_one->circuit);
}

static const struct {
    const char *what;
    int (*deed)(void);
    int sound, unsound; /* whether tables of this kind must have occurred that are, and that are not */
} deeds[] = {
    {"nothing", nothing, 1, 0},
    {"received again, and strays", received_again, 0, 1},
    {"ends exchanged", ends_exchanged, 1, 1},
    {"a link moved", link_moved, 0, 1},
    {"links exchanged", links_exchanged, 0, 1},
    {"out over an absent port and back", absent_port, 0, 1},
    {"two ways round, and strays", two_ways_round, 0, 1},
    {"renamed", renamed, 1, 1},
    {"a link more, and another received again", link_more_and_received_again, 0, 1},
#ifdef WIDE
    {"a hop over the partner", over_the_partner, 1, 0},
    {"a whole pair, received again", whole_pair, 0, 1},
    {"another fold mask", mask_changed, 1, 1},
#endif
};

/* ---- tables worked by hand ---- */

/* What a call answers of the table: 5, for a channel that no node has, where it is sound. The library and the reference, and the bytes stay. */
static void answers(const char *what, unsigned long which, uint16_t expected) {
    uint8_t buffer[MAZE_TRACE_BYTES], before[MAZE_TABLE_BYTES];
    uint16_t number, reference;
    memcpy(before, table, MAZE_TABLE_BYTES);
    number = maze_trace(table, MAZE_TABLE_BYTES, 0, 8, buffer, sizeof buffer).number;
    reference = ref_trace(table, MAZE_TABLE_BYTES, 0, 8, buffer, sizeof buffer).number;
    expect(number == expected && reference == expected && memcmp(before, table, MAZE_TABLE_BYTES) == 0, what, which, number);
}

static void empty(unsigned of) {
    dimension = of;
    nodes = 1u << of;
    ref_make(table, MAZE_TABLE_BYTES, (uint16_t)of);
    memset(table + MAZE_ARMED_AT, 255, nodes);
}

/* Circuits 1 and 2 of node 0 in a cube of dimension 3: the ports that a circuit takes from a node on, and where it is received. Several that are not sound
 * have as many hops to their receive channels as links held. */
static const struct by_hand {
    const char *what;
    struct { unsigned circuit, from; const char *ports; } ways[3];
    struct { unsigned circuit, node; } receives[3];
    uint16_t number;
} by_hand[] = {
    {"out, back and on", {{1, 0, "220"}}, {{1, 1}}, MAZE_BAD_CHANNEL},
    {"out, back and on to the farthest node", {{1, 0, "0012"}}, {{1, 6}}, MAZE_BAD_CHANNEL},
    {"out and back", {{1, 0, "11"}}, {{1, 0}}, MAZE_BAD_CHANNEL},
    {"out, back and on beside a circuit of one hop", {{1, 0, "220"}, {2, 0, "1"}}, {{1, 1}, {2, 2}}, MAZE_BAD_CHANNEL},
    {"three links at the source", {{1, 0, "220"}, {1, 0, "1"}, {2, 5, "1"}}, {{1, 1}, {1, 2}}, MAZE_NOT_SOUND},
    {"three links at the source, one uphill", {{1, 0, "220"}, {1, 0, "1"}, {2, 3, "2"}}, {{1, 1}, {2, 7}}, MAZE_NOT_SOUND},
    {"a second link at the node between", {{1, 0, "220"}, {1, 4, "1"}, {2, 1, "1"}}, {{1, 1}, {1, 6}}, MAZE_NOT_SOUND},
    {"back and on, received at the source", {{1, 0, "220"}}, {{1, 0}}, MAZE_NOT_SOUND},
    {"back and on, received at the source and behind it", {{1, 0, "220"}, {2, 6, "00"}}, {{1, 0}, {1, 1}}, MAZE_NOT_SOUND},
    {"out by an uphill port, back and on", {{1, 0, "0010"}}, {{1, 3}}, MAZE_NOT_SOUND},
    {"out and on, and back at another node", {{1, 0, "20"}, {1, 1, "0"}, {1, 0, "0"}}, {{1, 1}}, MAZE_NOT_SOUND},
    {"the way back another's", {{1, 0, "2"}, {1, 0, "0"}, {2, 4, "2"}}, {{1, 1}}, MAZE_NOT_SOUND},
    {"two circuits out and back, each on by the other's link", {{1, 0, "22"}, {2, 0, "00"}, {1, 0, "1"}}, {{1, 0}, {2, 2}}, MAZE_NOT_SOUND},
};

static void tables_by_hand(void) {
    for (size_t i = 0; i < sizeof by_hand / sizeof *by_hand; i++) {
        empty(3);
        for (unsigned w = 0; w < 3 && by_hand[i].ways[w].circuit; w++) {
            unsigned node = by_hand[i].ways[w].from;
            for (const char *p = by_hand[i].ways[w].ports; *p; p++) {
                put(MAZE_LINKS_AT, node, (unsigned)(*p - '0'), by_hand[i].ways[w].circuit);
                node ^= 1u << (*p - '0');
            }
        }
        for (unsigned r = 0; r < 3 && by_hand[i].receives[r].circuit; r++) receive(by_hand[i].receives[r].node, by_hand[i].receives[r].circuit);
        answers(by_hand[i].what, i, by_hand[i].number);
    }
}

/* Every set of links that one circuit can hold in a small cube, from every source to every node, beside the reference; where dimensions are folded, every set of up to five
 * from one source. */
static void every_set_of_links(unsigned of, unsigned mask) {
    uint8_t buffer[MAZE_TRACE_BYTES];
    unsigned links[18][2], count = 0;
    unsigned long sound = 0, all = 0;
    empty(of);
#ifdef WIDE
    ref_wide_fold(table, MAZE_TABLE_BYTES, (uint16_t)mask);
#endif
    for (unsigned node = 0; node < nodes; node++)
        for (unsigned port = 0; port < 18; port++)
            if (has_port(port)) links[count][0] = node, links[count++][1] = port;
    for (unsigned source = 0; source < (mask ? 1 : nodes); source++)
        for (unsigned end = 0; end < nodes; end++)
            for (unsigned set = 0; set < 1u << count; set++) {
                uint16_t number;
                unsigned size = 0;
                for (unsigned link = 0; link < count; link++) size += set >> link & 1;
                if (mask && size > 5) continue;
                all++;
                for (unsigned link = 0; link < count; link++) put(MAZE_LINKS_AT, links[link][0], links[link][1], set >> link & 1 ? MAZE_CIRCUIT(source, 3) : 0);
                for (unsigned node = 0; node < nodes; node++) put(MAZE_RECEIVES_AT, node, 0, node == end ? MAZE_CIRCUIT(source, 3) : 0);
                number = ref_trace(table, MAZE_TABLE_BYTES, 0, 8, buffer, sizeof buffer).number;
                sound += number == MAZE_BAD_CHANNEL;
                answers("a set of links", (1u << count) * (nodes * source + end) + set, number);
            }
    printf("every set of links of one circuit, mask %u  %6lu sound %6lu not sound\n", mask, sound, all - sound);
}

int main(int count, char **arguments) {
    unsigned long tables = count > 1 ? strtoul(arguments[1], NULL, 10) : MAZE_PORTS == 8 ? 300 : 150;
    random_state = count > 2 ? strtoul(arguments[2], NULL, 10) : 1;
    tables_by_hand();
    every_set_of_links(2, 0);
#ifdef WIDE
    every_set_of_links(1, 1);
    every_set_of_links(2, 1);
    every_set_of_links(2, 2);
#endif
    for (size_t d = 0; d < sizeof deeds / sizeof *deeds; d++) {
        unsigned long sound = 0, unsound = 0;
        for (unsigned long done = 0; done < tables;) {
            uint8_t buffer[MAZE_TRACE_BYTES], before[MAZE_TABLE_BYTES];
            uint16_t number, reference;
            dimension = 1 + below(8);
            nodes = 1u << dimension;
            ref_make(table, MAZE_TABLE_BYTES, (uint16_t)dimension);
            memset(table + MAZE_ARMED_AT, 255, nodes);
#ifdef WIDE
            if (below(4)) ref_wide_fold(table, MAZE_TABLE_BYTES, (uint16_t)(below(3) ? below(nodes) : nodes - 1));
#endif
            open_some(1 + below(MOST));
            if (opened_count == 0 || !deeds[d].deed()) continue;
            done++;
            memcpy(before, table, MAZE_TABLE_BYTES);
            /* a trace of a channel that no node has: 5 where the table is sound */
            number = maze_trace(table, MAZE_TABLE_BYTES, 0, 8, buffer, sizeof buffer).number;
            reference = ref_trace(table, MAZE_TABLE_BYTES, 0, 8, buffer, sizeof buffer).number;
            if (reference == MAZE_NOT_SOUND) unsound++;
            else sound++;
            expect(number == reference && memcmp(before, table, MAZE_TABLE_BYTES) == 0, deeds[d].what, done, number);
        }
        printf("%-42s %6lu sound %6lu not sound\n", deeds[d].what, sound, unsound);
        expect(!deeds[d].sound || sound, "no sound table", d, 0);
        expect(!deeds[d].unsound || unsound, "no table that is not sound", d, 0);
    }
    return verdict();
}
