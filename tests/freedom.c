/* Promises 11 and Promises 12 on random tables of every dimension. An open that is acknowledged is acknowledged, too, after any one circuit
 * is closed and after any calls that close, unblock or arm. And an open of type 0 with an uphill send vector answers and takes the same on two tables that agree
 * between its source and its target, whatever differs elsewhere. With -DWIDE the tables of the first are folded, too. What is between is decided here, from the bytes. It fails, too, where a case that it is there for did
 * not occur. */
#include "draw.h"
#include "expect.h"
#include "subject.h"

#include <string.h>

enum { ROUNDS = 60, SMALL_ROUNDS = 400, SMALL = 3, CALLS = 60, CHANGES = 120, MOST_CLOSED = 40 };

static struct {
    unsigned long folded, over_partners, other_path, other_scouts, same_target, closed, freed, numbers[MAZE_NO_ROUTE + 1], differ, away_differs, second_pass_differs;
} seen;

static int one_in(unsigned count) {
    return below(count) == 0;
}

/* ---- random calls on a table ---- */

static uint16_t any_node(unsigned dimension) {
    return (uint16_t)below(1u << dimension);
}

static uint16_t any_vector(unsigned dimension) {
    return (uint16_t)(1 + below((1u << dimension) - 1));
}

static uint16_t any_type(void) {
    static const uint16_t types[] = {MAZE_TYPE_MAZE, MAZE_TYPE_HELIX, MAZE_TYPE_FIXED, MAZE_TYPE_ALTERNATE_MAZE};
    return types[below(4)];
}

static uint16_t any_port(const uint8_t *table, unsigned dimension) {
    unsigned port = below(dimension);
#ifdef WIDE
    if ((table[MAZE_WIDE_FOLD_AT] >> port & 1) && one_in(2)) port = 17 - port;
#else
    (void)table;
#endif
    return (uint16_t)port;
}

static void any_call(uint8_t *table, unsigned dimension) {
    uint16_t node = any_node(dimension);
    uint16_t port = any_port(table, dimension), channel = (uint16_t)below(MAZE_CHANNELS);
    switch (below(8)) {
    case 0: maze_block(table, MAZE_TABLE_BYTES, node, port); break;
    case 1: maze_unblock(table, MAZE_TABLE_BYTES, node, port); break;
    case 2: maze_close(table, MAZE_TABLE_BYTES, node, channel); break;
    case 3: maze_disarm(table, MAZE_TABLE_BYTES, node, channel); break;
    case 4: maze_arm(table, MAZE_TABLE_BYTES, node, channel); break;
    default: maze_open(table, MAZE_TABLE_BYTES, node, channel, any_node(dimension), any_type(), any_vector(dimension)); break;
    }
}

/* A table with circuits, blocked links and armed channels, few of them in one of three; folded, where it can be and is to be. */
static void any_table(uint8_t *table, unsigned dimension, int folded) {
    int few = one_in(3);
    maze_make(table, MAZE_TABLE_BYTES, (uint16_t)dimension);
#ifdef WIDE
    if (folded && !one_in(3)) {
        unsigned mask = below(1u << dimension);
        if (dimension > 6) mask &= below(1u << dimension);
        expect(maze_wide_fold(table, MAZE_TABLE_BYTES, (uint16_t)mask) == MAZE_ACCEPTED, "fold", dimension, mask);
        seen.folded += mask != 0;
    }
#else
    (void)folded;
#endif
    for (unsigned node = 0; node < 1u << dimension; node++)
        for (unsigned channel = 0; channel < MAZE_CHANNELS; channel++)
            if (few ? one_in(8) : !one_in(3)) maze_arm(table, MAZE_TABLE_BYTES, (uint16_t)node, (uint16_t)channel);
    for (unsigned i = below(CALLS << dimension / 2); i > 0; i--) any_call(table, dimension);
}

/* ---- after closing a circuit ---- */

struct sent {
    maze_opened opened;
    maze_traced traced;
    uint8_t ports[MAZE_TRACE_BYTES];
};

/* An open on a copy of a table, and the trace of its circuit where it is acknowledged. */
static struct sent send_on(const uint8_t *table, uint16_t node, uint16_t channel, uint16_t target, uint16_t type, uint16_t vector) {
    static uint8_t copy[MAZE_TABLE_BYTES];
    struct sent sent;
    memset(&sent, 0, sizeof sent);
    memcpy(copy, table, sizeof copy);
    sent.opened = maze_open(copy, sizeof copy, node, channel, target, type, vector);
    if (sent.opened.number == MAZE_ACCEPTED) sent.traced = maze_trace(copy, sizeof copy, node, channel, sent.ports, sizeof sent.ports);
    return sent;
}

/* A call that only gives more freedom. */
static void any_freedom(uint8_t *table, unsigned dimension) {
    uint16_t node = any_node(dimension);
    switch (below(3)) {
    case 0: maze_close(table, MAZE_TABLE_BYTES, node, (uint16_t)below(MAZE_CHANNELS)); break;
    case 1: maze_unblock(table, MAZE_TABLE_BYTES, node, any_port(table, dimension)); break;
    default: maze_arm(table, MAZE_TABLE_BYTES, node, (uint16_t)below(MAZE_CHANNELS)); break;
    }
}

static void closing(unsigned dimension) {
    static uint8_t table[MAZE_TABLE_BYTES], freer[MAZE_TABLE_BYTES];
    unsigned channels = MAZE_CHANNELS << dimension, first = below(channels), closed = 0;
    uint16_t node, channel, target, type, vector;
    struct sent before, after;
    any_table(table, dimension, 1);
    node = any_node(dimension), channel = (uint16_t)below(MAZE_CHANNELS), target = any_node(dimension), type = any_type(), vector = any_vector(dimension);
    before = send_on(table, node, channel, target, type, vector);
    if (before.opened.number != MAZE_ACCEPTED) return;
    for (unsigned hop = 0; hop < before.traced.hops; hop++) seen.over_partners += before.ports[hop] > 9;
    /* each circuit by itself, up to some of one table, from any of them on */
    for (unsigned i = 0; i < channels && closed < MOST_CLOSED; i++) {
        unsigned circuit = 1 + (first + i) % channels, at = maze_circuit_receive(table, circuit);
        memcpy(freer, table, sizeof freer);
        if (maze_close(freer, sizeof freer, (uint16_t)maze_circuit_node(circuit), (uint16_t)maze_circuit_channel(circuit)) != MAZE_ACCEPTED) continue;
        after = send_on(freer, node, channel, target, type, vector);
        expect(after.opened.number == MAZE_ACCEPTED, "acknowledged after closing, type and number", type, after.opened.number);
        closed++;
        seen.same_target += at != 0 && maze_circuit_node(at) == target;
        seen.other_path += memcmp(before.ports, after.ports, sizeof before.ports) != 0;
        seen.other_scouts += before.opened.scouts != after.opened.scouts;
    }
    seen.closed += closed;
    /* and after some calls that close, unblock or arm */
    memcpy(freer, table, sizeof freer);
    for (unsigned i = 0; i < CALLS; i++) any_freedom(freer, dimension);
    after = send_on(freer, node, channel, target, type, vector);
    expect(after.opened.number == MAZE_ACCEPTED, "acknowledged after more freedom, type and number", type, after.opened.number);
    seen.freed++;
}

/* ---- two tables that agree between source and target ---- */

/* Whether a node matches the source wherever source and target match. */
static int between(unsigned node, unsigned source, unsigned target) {
    return ((node ^ source) & ~(source ^ target)) == 0;
}

/* 0 free, 1 held, 2 blocked */
static int state(const uint8_t *table, unsigned node, unsigned port) {
    return !maze_link_enabled(table, node, port) ? 2 : maze_link_circuit(table, node, port) != 0;
}

static int is_open(const uint8_t *table, unsigned node, unsigned channel) {
    return maze_circuit_receive(table, maze_circuit(node, channel)) != 0;
}

static int agree(const uint8_t *a, const uint8_t *b, unsigned dimension, unsigned source, unsigned channel, unsigned target) {
    if (channel < MAZE_CHANNELS && is_open(a, source, channel) != is_open(b, source, channel)) return 0;
    for (unsigned k = 0; k < MAZE_CHANNELS; k++)
        if (!maze_receive_armed(a, target, k) != !maze_receive_armed(b, target, k) ||
            (maze_receive_circuit(a, target, k) != 0) != (maze_receive_circuit(b, target, k) != 0)) return 0;
    for (unsigned node = 0; node < 1u << dimension; node++)
        for (unsigned port = 0; port < dimension; port++)
            if (between(node, source, target) && between(node ^ 1u << port, source, target) && state(a, node, port) != state(b, node, port)) return 0;
    return 1;
}

static int same_sent(const struct sent *a, const struct sent *b) {
    return a->opened.number == b->opened.number && a->opened.hops == b->opened.hops && a->opened.receive == b->opened.receive &&
           a->opened.scouts == b->opened.scouts && a->traced.hops == b->traced.hops && memcmp(a->ports, b->ports, sizeof a->ports) == 0;
}

static void elsewhere(unsigned dimension) {
    static uint8_t first[MAZE_TABLE_BYTES], second[MAZE_TABLE_BYTES], tried[MAZE_TABLE_BYTES];
    uint16_t source = any_node(dimension), target = any_node(dimension), channel = (uint16_t)below(MAZE_CHANNELS);
    unsigned uphill = source ^ target, all = (1u << dimension) - 1;
    struct sent a, b;
    if (one_in(30)) channel = (uint16_t)(MAZE_CHANNELS + below(3)); /* no channel of the node */
    any_table(first, dimension, 0); /* Promises 12 is said of tables with nothing folded */
    /* with many links blocked in one of four, so that 22 occurs */
    if (one_in(4))
        for (unsigned i = dimension << dimension; i > 0; i--)
            if (one_in(2)) maze_block(first, sizeof first, any_node(dimension), (uint16_t)below(dimension));
    memcpy(second, first, sizeof second);
    for (unsigned i = 0; i < CHANGES; i++) {
        memcpy(tried, second, sizeof tried);
        any_call(tried, dimension);
        if (agree(first, tried, dimension, source, channel, target)) memcpy(second, tried, sizeof second);
    }
    for (unsigned vector = 0; vector <= all; vector++) {
        if (vector & ~uphill || (dimension > 5 && !one_in(4))) continue;
        a = send_on(first, source, channel, target, MAZE_TYPE_MAZE, (uint16_t)vector);
        b = send_on(second, source, channel, target, MAZE_TYPE_MAZE, (uint16_t)vector);
        expect(same_sent(&a, &b), "same answer and path on tables that agree between, numbers", a.opened.number, b.opened.number);
        seen.numbers[a.opened.number]++;
        seen.differ += memcmp(first, second, sizeof first) != 0;
        /* that a type 4 open is not like this, nor one whose vector is not uphill */
        a = send_on(first, source, channel, target, MAZE_TYPE_ALTERNATE_MAZE, (uint16_t)vector);
        b = send_on(second, source, channel, target, MAZE_TYPE_ALTERNATE_MAZE, (uint16_t)vector);
        seen.second_pass_differs += !same_sent(&a, &b);
    }
    a = send_on(first, source, channel, target, MAZE_TYPE_MAZE, (uint16_t)all);
    b = send_on(second, source, channel, target, MAZE_TYPE_MAZE, (uint16_t)all);
    seen.away_differs += !same_sent(&a, &b);
}

int main(void) {
    for (unsigned dimension = 1; dimension <= MAZE_DIMENSION_LARGEST; dimension++)
        for (unsigned round = 0; round < (dimension <= SMALL ? SMALL_ROUNDS : ROUNDS); round++) {
            random_state = 1000u * dimension + round;
            closing(dimension);
            elsewhere(dimension);
        }
    expect(seen.closed > 0 && seen.freed > 0 && seen.other_path > 0 && seen.other_scouts > 0 && seen.same_target > 0, "closings: other path, other scouts", seen.other_path, seen.other_scouts);
    expect(seen.differ > 0 && seen.second_pass_differs > 0 && seen.away_differs > 0, "tables that differ, and opens that look further", seen.second_pass_differs, seen.away_differs);
#ifdef WIDE
    expect(seen.folded > 0 && seen.over_partners > 0, "folded tables, and opens over partners", seen.folded, seen.over_partners);
    printf("folded tables: %lu, hops over partners: %lu\n", seen.folded, seen.over_partners);
#endif
    for (unsigned number = 0; number <= MAZE_NO_ROUTE; number++) {
        int wanted = number == MAZE_ACCEPTED || number == MAZE_BAD_CHANNEL || number == MAZE_BAD_SEND_VECTOR || number == MAZE_CHANNEL_IN_USE || number == MAZE_ROUTE_REJECTED || number == MAZE_RECEIVE_REJECTED || number == MAZE_NO_ROUTE;
        expect(!wanted || seen.numbers[number] > 0, "a number did not occur", number, seen.numbers[number]);
    }
    printf("closed %lu: another path %lu, other scouts %lu, to the same target %lu; compared %lu on tables that differ; type 4 differs %lu, a vector away %lu\n", seen.closed,
           seen.other_path, seen.other_scouts, seen.same_target, seen.differ, seen.second_pass_differs, seen.away_differs);
    printf("numbers: 0 %lu, 5 %lu, 8 %lu, 9 %lu, 10 %lu, 11 %lu, 22 %lu\n", seen.numbers[0], seen.numbers[5], seen.numbers[8], seen.numbers[9], seen.numbers[10], seen.numbers[11], seen.numbers[22]);
    return verdict();
}
