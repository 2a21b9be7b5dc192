/* The most scouts of an open, in every dimension: on tables that are written out and reach the bound, and on random tables, whose opens never exceed it. An open that is route rejected has sent
 * at most one scout for each beginning over the ports of its source that has not arrived at the target, and any other open at most one more. These beginnings are counted here, from the axes
 * alone. With -DWIDE the tables are folded, too. It fails, too, where a case that it is there for did not occur. */
#include "draw.h"
#include "expect.h"
#include "subject.h"

#include <string.h>

enum { ROUNDS = 120, SMALL_ROUNDS = 600, SMALL = 4, CALLS = 30 };

/* by dimension: the most of a route rejected open, with nothing folded and with every dimension folded; and the most of an acknowledged one that is known, with nothing folded */
static const unsigned long most[] = {0, 1, 3, 12, 50, 246, 1442, 9896, 77940};
static const unsigned long most_folded[] = {0, 2, 10, 66, 528, 5230, 62276, 866898, 13810600};
static const unsigned long known[] = {0, 2, 4, 10, 35, 168, 1018, 7308, 60001};

static uint8_t table[MAZE_TABLE_BYTES], before[MAZE_TABLE_BYTES];
static struct {
    unsigned long numbers[MAZE_NO_ROUTE + 1], reached, folded, highest;
} seen;

/* ---- what bounds an open ---- */

static unsigned links_of(unsigned axis, unsigned fold) {
    return 1 + (fold >> axis & 1);
}

/* On from a node with these uphill axes, the beginnings that have not arrived, the empty one among them; `counted` is filled from the target on. */
static unsigned long counted[256];

static void count_from(unsigned dimension, unsigned fold) {
    counted[0] = 0;
    for (unsigned uphill = 1; uphill < 1u << dimension; uphill++) {
        counted[uphill] = 1;
        for (unsigned axis = 0; axis < dimension; axis++)
            if (uphill >> axis & 1) counted[uphill] += links_of(axis, fold) * counted[uphill ^ 1u << axis];
    }
}

/* Those of an open over all ports of its source. */
static unsigned long unarrived(unsigned dimension, unsigned fold, unsigned source, unsigned target) {
    unsigned long sum = 0;
    for (unsigned axis = 0; axis < dimension; axis++) sum += links_of(axis, fold) * counted[source ^ target ^ 1u << axis];
    return sum;
}

static unsigned all_axes(unsigned dimension) {
    return (1u << dimension) - 1;
}

/* ---- tables ---- */

static void make(unsigned dimension, unsigned fold) {
    expect(maze_make(table, sizeof table, (uint16_t)dimension) == MAZE_ACCEPTED, "make", dimension, 0);
#ifdef WIDE
    expect(maze_wide_fold(table, sizeof table, (uint16_t)fold) == MAZE_ACCEPTED, "fold", dimension, fold);
    seen.folded += fold != 0;
#endif
    count_from(dimension, fold);
}

/* Both links of an axis where it is folded. */
static void block(unsigned node, unsigned axis, unsigned fold) {
    unsigned number = maze_block(table, sizeof table, (uint16_t)node, (uint16_t)axis);
    if (fold >> axis & 1) number += maze_block(table, sizeof table, (uint16_t)node, (uint16_t)(17 - axis));
    expect(number == MAZE_ACCEPTED, "block", node, axis);
}

/* An open that does not stay. */
static maze_opened opened(unsigned source, unsigned target, unsigned type, unsigned vector) {
    maze_opened got;
    memcpy(before, table, sizeof table);
    got = maze_open(table, sizeof table, (uint16_t)source, 7, (uint16_t)target, (uint16_t)type, (uint16_t)vector);
    expect(got.number == MAZE_ACCEPTED || memcmp(table, before, sizeof table) == 0, "a rejected open changes nothing", source, target);
    memcpy(table, before, sizeof table);
    return got;
}

/* What is proved of it. */
static void within(unsigned dimension, unsigned fold, unsigned source, unsigned target, maze_opened got) {
    int rejected = got.number == MAZE_ROUTE_REJECTED || got.number == MAZE_NO_ROUTE;
    unsigned long bound = unarrived(dimension, fold, source, target);
    expect(got.scouts <= bound + !rejected, "more scouts than beginnings that have not arrived", bound, got.scouts);
    expect(bound <= most_folded[dimension] && (fold || (bound <= most[dimension] && got.scouts <= 123300)), "more than in any such cube", dimension, bound);
    if (got.number <= MAZE_NO_ROUTE) seen.numbers[got.number]++;
    seen.reached += rejected && got.scouts == bound;
}

/* ---- reached ---- */

/* All links into a target are blocked, and no other: each source sends a scout for every beginning, whatever the routing type of a pass, and one is at the worst distance. */
static void walled(unsigned dimension, unsigned fold, unsigned target, unsigned first, unsigned last) {
    const unsigned all = all_axes(dimension);
    unsigned long highest = 0;
    make(dimension, fold);
    for (unsigned axis = 0; axis < dimension; axis++) block(target ^ 1u << axis, axis, fold);
    for (unsigned source = first; source <= last; source++) {
        unsigned long bound = unarrived(dimension, fold, source, target);
        maze_opened got = opened(source, target, MAZE_TYPE_MAZE, all);
        expect(got.number == MAZE_NO_ROUTE && got.scouts == bound, "every beginning that has not arrived", bound, got.scouts);
        within(dimension, fold, source, target, got);
        if (got.scouts > highest) highest = got.scouts;
        if (bound > most[8]) continue;
        got = opened(source, target, MAZE_TYPE_ALTERNATE_MAZE, 1 + below(all));
        expect(got.number == MAZE_NO_ROUTE && got.scouts == bound, "and of both passes", bound, got.scouts);
        got = opened(source, target, MAZE_TYPE_HELIX, all);
        expect(got.number == MAZE_NO_ROUTE, "helix paths", got.number, 0);
        within(dimension, fold, source, target, got);
        got = opened(source, target, MAZE_TYPE_FIXED, 1 + below(all));
        expect(got.number == MAZE_NO_ROUTE, "a helix path", got.number, 0);
        within(dimension, fold, source, target, got);
    }
    if (fold == 0 || fold == all) expect(highest == (fold ? most_folded : most)[dimension], "the most", dimension, highest);
    if (highest > seen.highest) seen.highest = highest;
}

/* With nothing folded: a path over port D - 2 out and back, then over D - 1, D - 3 and down to 0, comes late, since every link into one of its nodes but its own is blocked. */
static void found(unsigned dimension) {
    const unsigned all = all_axes(dimension), first = dimension > 1 ? dimension - 2 : 0, source = all ^ 1u << first;
    unsigned node = source;
    maze_opened got;
    make(dimension, 0);
    for (unsigned hop = 0; hop <= dimension; hop++) {
        unsigned port = hop < 2 ? first : hop == 2 ? dimension - 1 : dimension - hop;
        node ^= 1u << port;
        for (unsigned axis = 0; axis < dimension; axis++)
            if (axis != port) block(node ^ 1u << axis, axis, 0);
    }
    got = opened(source, 0, MAZE_TYPE_MAZE, all);
    expect(got.number == MAZE_RECEIVE_REJECTED && got.scouts == known[dimension], "no channel for a path that comes late", known[dimension], got.scouts);
    within(dimension, 0, source, 0, got);
    expect(maze_arm(table, sizeof table, 0, 0) == MAZE_ACCEPTED, "arm", 0, 0);
    got = opened(source, 0, MAZE_TYPE_MAZE, all);
    expect(got.number == MAZE_ACCEPTED && got.hops == dimension + 1 && got.scouts == known[dimension], "a path that comes late", known[dimension], got.scouts);
    within(dimension, 0, source, 0, got);
    if (dimension <= 2) expect(got.scouts == most[dimension] + 1, "one more than rejected", dimension, got.scouts);
}

/* ---- random tables ---- */

static int one_in(unsigned count) {
    return below(count) == 0;
}

static void random_table(unsigned dimension) {
    static const uint16_t types[] = {MAZE_TYPE_MAZE, MAZE_TYPE_HELIX, MAZE_TYPE_FIXED, MAZE_TYPE_ALTERNATE_MAZE};
    const unsigned nodes = 1u << dimension, all = all_axes(dimension), target = below(nodes), rare = 2 + below(60);
    unsigned fold = 0;
#ifdef WIDE
    fold = below(nodes);
    for (unsigned i = dimension > 5 ? dimension - 5 : 0; i > 0; i--) fold &= below(nodes);
#endif
    make(dimension, fold);
    for (unsigned channel = 0; channel < MAZE_CHANNELS; channel++)
        for (unsigned node = 0; node < nodes; node++)
            if (one_in(node == target ? 8 : 2)) maze_arm(table, sizeof table, (uint16_t)node, (uint16_t)channel);
    /* some circuits, few links blocked, and of the links into the target most */
    for (unsigned i = below(CALLS); i > 0; i--)
        maze_open(table, sizeof table, (uint16_t)below(nodes), (uint16_t)below(7), (uint16_t)below(nodes), types[below(4)], (uint16_t)(1 + below(all)));
    for (unsigned node = 0; node < nodes; node++)
        for (unsigned port = 0; port < MAZE_PORTS; port++) {
            unsigned axis = port < 9 ? port : 17 - port, into = (node ^ target) == 1u << axis;
            if (into ? !one_in(dimension + 1) : one_in(rare)) maze_block(table, sizeof table, (uint16_t)node, (uint16_t)port);
        }
    for (unsigned i = 0; i < 12; i++) {
        unsigned source = below(nodes);
        within(dimension, fold, source, target, opened(source, target, types[i % 4], one_in(2) ? all : 1 + below(all)));
    }
}

int main(void) {
    random_state = 45;
    for (unsigned dimension = 1; dimension <= MAZE_DIMENSION_LARGEST; dimension++) {
        const unsigned all = all_axes(dimension);
        walled(dimension, 0, 0, 0, all);
        walled(dimension, 0, below(1u << dimension), 0, all);
#ifdef WIDE
        /* every mask of the small dimensions; of the others some, and with every dimension folded one source that is D - 1 hops away */
        for (unsigned fold = 1; fold < (dimension <= SMALL ? 1u << dimension : 1); fold++) walled(dimension, fold, below(1u << dimension), 0, all);
        if (dimension > SMALL) {
            walled(dimension, 1, 0, all >> 1, all >> 1);
            walled(dimension, 1u << (dimension - 1) | 1, all, 0, 0);
            walled(dimension, all, 0, all >> 1, all >> 1);
        }
#endif
        found(dimension);
        for (unsigned round = 0; round < (dimension <= SMALL ? SMALL_ROUNDS : ROUNDS); round++) random_table(dimension);
    }
    expect(seen.numbers[MAZE_ACCEPTED] > 0 && seen.numbers[MAZE_ROUTE_REJECTED] > 0, "acknowledged and rejected", seen.numbers[MAZE_ACCEPTED], seen.numbers[MAZE_ROUTE_REJECTED]);
    expect(seen.numbers[MAZE_RECEIVE_REJECTED] > 0 && seen.numbers[MAZE_NO_ROUTE] > 0, "the other rejections", seen.numbers[MAZE_RECEIVE_REJECTED], seen.numbers[MAZE_NO_ROUTE]);
#ifdef WIDE
    expect(seen.folded > 0 && seen.highest == most_folded[8], "folded tables", seen.folded, seen.highest);
#else
    expect(seen.highest == most[8], "the most of all", seen.highest, most[8]);
#endif
    printf("numbers: 0 %lu, 10 %lu, 11 %lu, 22 %lu; %lu reach the bound, the highest %lu\n", seen.numbers[MAZE_ACCEPTED], seen.numbers[MAZE_ROUTE_REJECTED], seen.numbers[MAZE_RECEIVE_REJECTED], seen.numbers[MAZE_NO_ROUTE], seen.reached, seen.highest);
    return verdict();
}
