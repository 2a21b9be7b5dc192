/* What maze_explain.h says, beside a plain reading of it over the calls of reference.c: every path is walked hop by hop with nothing remembered, and every circuit and every link of the
 * table is tried. The tables are drawn, narrow ones of dimensions 1 to 5, with many links blocked and many circuits open, and wide ones of 1 to 4 with any dimensions folded. */
#include "draw.h"
#include "expect.h"
#include "reference.h"

#include <maze_explain.h>
#include <string.h>

enum { ROUNDS = 400, BYTES = MAZE_WIDE_TABLE_BYTES, PORTS = 18 };

static int wide;
static uint8_t table[BYTES], copy[BYTES];
static unsigned send[5]; /* node, channel, target, type, vector */

/* A call of the kind at hand, on the bytes of a table. */
#define LENGTH (wide ? (size_t)MAZE_WIDE_TABLE_BYTES : (size_t)MAZE_TABLE_BYTES)
#define CALL(prefix, call, bytes, ...) (wide ? prefix##_wide_##call((bytes), LENGTH, __VA_ARGS__) : prefix##_##call((bytes), LENGTH, __VA_ARGS__))

/* The fewest hops before a link at which a scout turned back, plus one; 0 where none did. */
static unsigned turned[MAZE_NODES][PORTS];

static unsigned answer_of(const uint8_t *from, unsigned channel, unsigned type, unsigned vector) {
    memcpy(copy, from, sizeof copy);
    return CALL(ref, open, copy, (uint16_t)send[0], (uint16_t)channel, (uint16_t)send[2], (uint16_t)type, (uint16_t)vector).number;
}

/* Reads the bytes as Tables and Wide lay them out. */
static unsigned pair_at(unsigned at) { return table[at] + 256u * table[at + 1]; }
static unsigned holder_of(unsigned node, unsigned port) { return pair_at(wide ? 770 + 36 * node + 2 * port : 257 + 16 * node + 2 * port); }
static int is_enabled(unsigned node, unsigned port) { return table[wide ? 2 + 3 * node + port / 8 : 1 + node] >> port % 8 & 1; }
static unsigned receiver_of(unsigned node, unsigned channel) { return pair_at((wide ? 9986u : 4353u) + 16 * node + 2 * channel); }
static unsigned armed_at(unsigned node) { return (wide ? 14082u : 8449u) + node; }

/* The bit of a node that a port changes, as a mask; 0 where the cube lacks the port. */
static unsigned changed_by(unsigned port) {
    if (port < table[0]) return 1u << port;
    return wide && 17 - port < table[0] && (table[1] >> (17 - port) & 1) ? 1u << (17 - port) : 0;
}

static int is_free(unsigned node, unsigned port, unsigned hops) {
    if (holder_of(node, port) == 0 && is_enabled(node, port)) return 1;
    if (turned[node][port] == 0 || hops + 1 < turned[node][port]) turned[node][port] = hops + 1;
    return 0;
}

/* Every permitted path on from a node, by the bits of the mask. */
static void walk(unsigned node, unsigned mask, unsigned hops) {
    for (unsigned port = 0; port < PORTS; port++) {
        const unsigned next = node ^ changed_by(port);
        if ((mask & changed_by(port)) != 0 && is_free(node, port, hops) && next != send[2]) walk(next, next ^ send[2], hops + 1);
    }
}

/* The helix path of a port, up to its first link that is not free. */
static void walk_helix(unsigned port) {
    unsigned node = send[0], hops = 0;
    while (is_free(node, port, hops++)) {
        node ^= changed_by(port);
        if (node == send[2]) return;
        do port = (port + 1) % PORTS;
        while ((changed_by(port) & (node ^ send[2])) == 0);
    }
}

/* Of the wide table that says what a narrow one does, the same is told. */
static void try_wide(const maze_explained *told, const uint16_t *closes, unsigned close_count, const maze_explained_link *repairs, unsigned repair_count) {
    const uint16_t n[5] = {(uint16_t)send[0], (uint16_t)send[1], (uint16_t)send[2], (uint16_t)send[3], (uint16_t)send[4]};
    static uint8_t widened[MAZE_WIDE_TABLE_BYTES];
    static uint16_t others[MAZE_CIRCUITS_LARGEST];
    static maze_explained_link links[MAZE_NODES * PORTS];
    maze_explained w;
    unsigned same = maze_widen(table, MAZE_TABLE_BYTES, widened, sizeof widened) == 0;
    w = maze_wide_explain(widened, sizeof widened, n[0], n[1], n[2], n[3], n[4]);
    same &= w.number == told->number && w.scouts == told->scouts && w.held == told->held && w.blocked == told->blocked && w.nearest_circuit == told->nearest_circuit &&
            w.nearest_hops == told->nearest_hops && w.nearest.node == told->nearest.node && w.nearest.port == told->nearest.port && w.types == told->types && w.ports == told->ports &&
            w.circuit == told->circuit && w.channels == told->channels && w.arms == told->arms;
    same &= maze_wide_explain_closes(widened, sizeof widened, n[0], n[1], n[2], n[3], n[4], others, MAZE_CIRCUITS_LARGEST) == close_count && memcmp(others, closes, close_count * sizeof *closes) == 0;
    same &= maze_wide_explain_repairs(widened, sizeof widened, n[0], n[1], n[2], n[3], n[4], links, MAZE_NODES * PORTS) == repair_count;
    for (unsigned i = 0; i < repair_count && same; i++) same &= links[i].node == repairs[i].node && links[i].port == repairs[i].port;
    expect((int)same, "a wide table", told->number, w.number);
}

static unsigned told_of[2][5], seen_helps[2][3], seen_partners[3]; /* by kind; a partner as the nearest link, one to repair, and all channels held by more than eight links */

static void try_one(void) {
    const uint16_t node = (uint16_t)send[0], channel = (uint16_t)send[1], target = (uint16_t)send[2], type = (uint16_t)send[3], vector = (uint16_t)send[4];
    unsigned close_count, nodes = 1u << table[0], held = 0, blocked = 0, types = 0, ports = 0, channels = 0, arms = 0, best = 0, best_node = 0, best_port = 0, count, i, n, p;
    uint16_t closes[MAZE_CIRCUITS_LARGEST];
    maze_explained_link repairs[MAZE_NODES * PORTS];
    uint8_t before[BYTES], ready[BYTES];
    maze_explained told;
    maze_opened opened;
    memcpy(before, table, sizeof table);
    told = CALL(maze, explain, table, node, channel, target, type, vector);
    memcpy(copy, table, sizeof copy);
    opened = CALL(ref, open, copy, node, channel, target, type, vector);
    expect(told.number == opened.number && told.scouts == opened.scouts, "number and scouts", told.number, opened.number);
    memset(turned, 0, sizeof turned);
    memcpy(ready, table, sizeof ready);
    if (opened.number == 10 || opened.number == 22) {
        unsigned idle = 0;
        for (i = 0; i < 8; i++) {
            if (!(table[armed_at(target)] >> i & 1)) arms |= 1u << i;
            else if (receiver_of(target, i) == 0) idle = 1;
        }
        if (idle) arms = 0;
        /* whether a channel is armed is told beside the rest */
        ready[armed_at(target)] = 255;
        if (type == 0) walk(node, vector, 0);
        if (type == 4) walk(node, vector, 0), walk(node, ~(unsigned)vector & (nodes - 1), 0);
        if (type == 1 || type == 3)
            for (p = 0; p < PORTS; p++)
                if ((vector & changed_by(p)) != 0) {
                    walk_helix(p);
                    if (type == 3) break;
                }
        for (n = 0; n < nodes; n++)
            for (p = 0; p < PORTS; p++) {
                if (turned[n][p] == 0) continue;
                if (holder_of(n, p) == 0) blocked++;
                else if (held++ == 0 || turned[n][p] < best) best = turned[n][p], best_node = n, best_port = p;
            }
        for (i = 0; i < 8; i++) types |= (unsigned)(answer_of(ready, channel, i, vector) == 0) << i;
        for (p = 0; p < table[0]; p++) ports |= (unsigned)(answer_of(ready, channel, 0, 1u << p) == 0) << p;
    }
    if (opened.number == 9)
        for (i = 0; i < 8; i++) channels |= (unsigned)(answer_of(table, i, type, vector) == 0) << i;
    if (opened.number == 11)
        for (i = 0; i < 8; i++) {
            uint8_t armed[BYTES];
            memcpy(armed, table, sizeof armed);
            if (armed[armed_at(target)] >> i & 1) continue;
            armed[armed_at(target)] = (uint8_t)(armed[armed_at(target)] | 1u << i);
            arms |= (unsigned)(answer_of(armed, channel, type, vector) == 0) << i;
        }
    expect(told.held == held && told.blocked == blocked, "held and blocked links", told.held, told.blocked);
    expect(told.nearest_circuit == (held ? holder_of(best_node, best_port) : 0), "who holds the nearest link", told.nearest_circuit, held);
    expect(!held || (told.nearest.node == best_node && told.nearest.port == best_port && told.nearest_hops == best - 1u), "the nearest link", told.nearest.node, told.nearest.port);
    expect(told.types == types && told.ports == ports, "other types and ports", told.types, told.ports);
    expect(told.channels == channels && told.arms == arms, "other channels", told.channels, told.arms);
    expect(told.circuit == (opened.number == 9 ? 8u * node + channel + 1 : 0), "the circuit of the send channel", told.circuit, opened.number);
    /* every circuit, and every blocked link */
    count = 0;
    n = close_count = CALL(maze, explain_closes, table, node, channel, target, type, vector, closes, MAZE_CIRCUITS_LARGEST);
    for (i = 1; i <= 8 * nodes; i++) {
        uint8_t closed[BYTES];
        unsigned receive = 0;
        for (p = 0; p < 8 * nodes; p++)
            if (receiver_of(p / 8, p % 8) == i) receive = p + 1;
        memcpy(closed, ready, sizeof closed);
        if (CALL(ref, close, closed, (uint16_t)((i - 1) / 8), (uint16_t)((i - 1) % 8)) != 0) continue;
        if ((receive - 1) / 8 == target) CALL(ref, arm, closed, target, (uint16_t)((receive - 1) % 8));
        if (opened.number == 0 || answer_of(closed, channel, type, vector) != 0) continue;
        expect(count < n && closes[count] == i, "a circuit to close", i, n);
        count++;
    }
    expect(count == n, "circuits to close", count, n);
    seen_helps[wide][0] += n;
    expect(CALL(maze, explain_closes, table, node, channel, target, type, vector, closes, 0) == n, "circuits to close, none written", n, 0);
    count = 0;
    n = CALL(maze, explain_repairs, table, node, channel, target, type, vector, repairs, MAZE_NODES * PORTS);
    for (i = 0; i < nodes * PORTS; i++) {
        uint8_t repaired[BYTES];
        if (changed_by(i % PORTS) == 0 || is_enabled(i / PORTS, i % PORTS)) continue;
        memcpy(repaired, ready, sizeof repaired);
        CALL(ref, unblock, repaired, (uint16_t)(i / PORTS), (uint16_t)(i % PORTS));
        if (opened.number == 0 || answer_of(repaired, channel, type, vector) != 0) continue;
        expect(count < n && repairs[count].node == i / PORTS && repairs[count].port == i % PORTS, "a link to repair", i, n);
        count++;
    }
    expect(count == n, "links to repair", count, n);
    seen_helps[wide][1] += n;
    for (i = 0; i < n; i++) seen_partners[1] += repairs[i].port >= 8;
    seen_partners[0] += told.nearest_circuit != 0 && told.nearest.port >= 8;
    if (!wide) try_wide(&told, closes, close_count, repairs, n);
    seen_helps[wide][2] += (types | ports | channels | arms) != 0;
    expect(memcmp(before, table, sizeof table) == 0, "the table stays", opened.number, 0);
    told_of[wide][opened.number == 10 ? 0 : opened.number == 22 ? 1 : opened.number == 11 ? 2 : opened.number == 9 ? 3 : 4]++;
}

/* A table with many circuits. Of a wide one some dimensions are folded before its circuits are opened, and some after. */
static void draw_table(unsigned dimension) {
    unsigned nodes = 1u << dimension, calls = below(12 * nodes), blocks = below(2) ? below(nodes * dimension / 2 + 1) : 0, arms = 1 + below(8), i;
    CALL(ref, make, table, (uint16_t)dimension);
    if (wide) ref_wide_fold(table, LENGTH, (uint16_t)below(nodes));
    if (wide) blocks *= 2;
    for (i = 0; i < blocks; i++) {
        unsigned port = below(dimension);
        if (wide && below(2)) port = 17 - port;
        CALL(ref, block, table, (uint16_t)below(nodes), (uint16_t)port);
    }
    for (i = 0; i < nodes * arms; i++) CALL(ref, arm, table, (uint16_t)below(nodes), (uint16_t)below(8));
    for (i = 0; i < calls; i++)
        CALL(ref, open, table, (uint16_t)below(nodes), (uint16_t)below(8), (uint16_t)below(nodes), 4, (uint16_t)(1 + below(nodes > 2 ? nodes - 1 : 1)));
    if (wide && below(4) == 0) ref_wide_fold(table, LENGTH, (uint16_t)(table[1] | below(nodes)));
}

/* Twelve links into node 1 of a folded cube of dimension 6, eight circuits over them that end there: what a ninth meets. */
static void try_full_target(void) {
    maze_explained told;
    uint16_t closes[16] = {0};
    wide = 1;
    CALL(ref, make, table, 6);
    ref_wide_fold(table, LENGTH, 63);
    for (uint16_t i = 0; i < 8; i++) CALL(ref, arm, table, 1, i);
    for (uint16_t i = 0; i < 8; i++) expect(CALL(ref, open, table, (uint16_t)(1 ^ 1 << i % 6), (uint16_t)(i / 6), 1, 0, (uint16_t)(1 << i % 6)).number == 0, "a circuit into node 1", i, 0);
    told = CALL(maze, explain, table, 63, 7, 1, 0, 63);
    expect(told.number == 11 && told.arms == 0 && told.channels == 0, "a target whose channels are held", told.number, told.arms);
    expect(CALL(maze, explain_closes, table, 63, 7, 1, 0, 63, closes, 16) == 8, "the circuits that hold them", 8, 0);
    for (unsigned i = 0; i < 8; i++) seen_partners[2] += closes[i] != 0;
}

int main(void) {
    random_state = 43;
    for (unsigned round = 0; round < 2 * ROUNDS; round++) {
        unsigned dimension = 1 + round / 2 % (round % 2 ? 4 : 5), nodes = 1u << dimension;
        wide = round % 2;
        draw_table(dimension);
        for (unsigned i = 0; i < 8; i++) {
            static const uint8_t types[] = {0, 1, 3, 4};
            send[0] = below(nodes), send[1] = below(8), send[2] = below(nodes), send[3] = types[i % 4], send[4] = 1 + below(nodes - 1);
            if (below(40) == 0) send[below(5)] = 300; /* what the first tests refuse */
            try_one();
        }
    }
    try_full_target();
    for (unsigned kind = 0; kind < 2; kind++) {
        for (unsigned i = 0; i < 5; i++) expect(told_of[kind][i] >= 60, "answers of each kind", 10 * kind + i, told_of[kind][i]);
        for (unsigned i = 0; i < 3; i++) expect(seen_helps[kind][i] >= 100, "help of each kind", 10 * kind + i, seen_helps[kind][i]);
    }
    expect(seen_partners[0] >= 40 && seen_partners[1] >= 40 && seen_partners[2] == 8, "partners", seen_partners[0], seen_partners[1]);
    /* bytes that are no sound table */
    table[0] = 9;
    expect(maze_explain(table, MAZE_TABLE_BYTES, 0, 0, 0, 0, 1).number == 2, "a dimension of 9", 0, 0);
    expect(maze_explain(table, 8704, 0, 0, 0, 0, 1).number == 1, "a short table", 0, 0);
    expect(maze_explain_closes(table, MAZE_TABLE_BYTES, 0, 0, 0, 0, 1, NULL, 0) == 0 && maze_explain_repairs(table, MAZE_TABLE_BYTES, 0, 0, 0, 0, 1, NULL, 0) == 0, "no table", 0, 0);
    expect(maze_wide_explain(table, MAZE_TABLE_BYTES, 0, 0, 0, 0, 1).number == 1 && maze_wide_explain_closes(table, MAZE_TABLE_BYTES, 0, 0, 0, 0, 1, NULL, 0) == 0, "no wide table", 0, 0);
    table[0] = 2, table[1] = 4;
    expect(maze_wide_explain(table, MAZE_WIDE_TABLE_BYTES, 0, 0, 0, 0, 1).number == 3 && maze_wide_explain_repairs(table, MAZE_WIDE_TABLE_BYTES, 0, 0, 0, 0, 1, NULL, 0) == 0, "a fold bit at the dimension", 0, 0);
    return verdict();
}
