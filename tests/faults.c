/* How few links that are blocked or held cannot stop an open over every port, on tables of every dimension. Where nothing is folded, fewer than D of them leave each open of type 0, 1 or
 * 4 a route, and with -DWIDE, whatever is folded, each of type 0 or 4; fewer than 2 D do where every dimension is folded. So the open answers 0, or 11 where no receive channel of
 * the target is armed and not held; and where so few are blocked, however many are held, it does not answer 22. Links are taken at random, out of the source, into the target, and one of each path
 * that an open finds. How many are free or blocked is counted here, from the bytes. It fails, too, where a case that it is there for did not occur, among them D links that do stop an open. */
#include "draw.h"
#include "expect.h"
#include "subject.h"

#include <string.h>

/* Few rounds in large folded cubes, where a search that is turned back late takes long. */
enum { ROUNDS = 80, FOLDED_ROUNDS = 20, LARGE = 7, LARGE_ROUNDS = 2, TRIES = 6, WHOLE = 3, SAMPLED = 4, SAMPLE = 450 };

static struct {
    unsigned long few, most, held, folded, all_folded, full, stopped, stopped_by_limit, blocked_many, held_many;
} seen;

static uint8_t table[MAZE_TABLE_BYTES], copy[MAZE_TABLE_BYTES];

static int one_in(unsigned count) {
    return below(count) == 0;
}

/* ---- the cube of a table ---- */

static unsigned dimension, mask;

static unsigned axis_of(unsigned port) {
    return port < 9 ? port : 17 - port;
}

static int has_port(unsigned port) {
    return axis_of(port) < dimension && (port < 9 || (mask >> axis_of(port) & 1));
}

static unsigned beyond(unsigned node, unsigned port) {
    return node ^ 1u << axis_of(port);
}

/* How many links of the cube are not free, and how many are blocked. */
static unsigned not_free, blocked;

static void count_links(void) {
    not_free = blocked = 0;
    for (unsigned node = 0; node < 1u << dimension; node++)
        for (unsigned port = 0; port < 18; port++)
            if (has_port(port)) {
                int on = maze_link_enabled(table, node, port) != 0;
                blocked += !on;
                not_free += !on || maze_link_circuit(table, node, port) != 0;
            }
}

/* So many links stop nothing if there are fewer. */
static unsigned limit(void) {
    return mask == (1u << dimension) - 1 ? 2 * dimension : dimension;
}

static int available(unsigned node) {
    for (unsigned k = 0; k < MAZE_CHANNELS; k++)
        if (maze_receive_armed(table, node, k) && maze_receive_circuit(table, node, k) == 0) return 1;
    return 0;
}

static void make(unsigned of, unsigned folded) {
    dimension = of, mask = folded;
    maze_make(table, sizeof table, (uint16_t)dimension);
#ifdef WIDE
    expect(maze_wide_fold(table, sizeof table, (uint16_t)mask) == MAZE_ACCEPTED, "fold", dimension, mask);
#endif
}

/* ---- opens ---- */

static unsigned open_on(uint8_t *lent, unsigned source, unsigned target, unsigned type, unsigned vector) {
    for (unsigned channel = 0; channel < MAZE_CHANNELS; channel++) {
        maze_opened opened = maze_open(lent, MAZE_TABLE_BYTES, (uint16_t)source, (uint16_t)channel, (uint16_t)target, (uint16_t)type, (uint16_t)vector);
        if (opened.number != MAZE_CHANNEL_IN_USE) return opened.number;
    }
    return MAZE_CHANNEL_IN_USE;
}

static unsigned over_all(unsigned source, unsigned target, unsigned type) {
    memcpy(copy, table, sizeof copy);
    return open_on(copy, source, target, type, (1u << dimension) - 1);
}

static const unsigned types[] = {MAZE_TYPE_MAZE, MAZE_TYPE_ALTERNATE_MAZE, MAZE_TYPE_HELIX};

/* What is said of an open, on a table whose links are counted. */
static void check(unsigned source, unsigned target) {
    for (unsigned i = 0; i < (mask == 0 ? 3 : 2); i++) {
        unsigned number = over_all(source, target, types[i]);
        if (number == MAZE_CHANNEL_IN_USE) continue;
        if (not_free < limit()) {
            expect(number == (available(target) ? MAZE_ACCEPTED : MAZE_RECEIVE_REJECTED), "few links stop an open, dimension and number", dimension, number);
            seen.few++, seen.most += not_free + 1 == limit(), seen.held += not_free > blocked;
            seen.folded += mask != 0, seen.all_folded += mask != 0 && limit() > dimension && not_free >= dimension;
            seen.full += number == MAZE_RECEIVE_REJECTED;
        } else {
            seen.stopped += number == MAZE_ROUTE_REJECTED || number == MAZE_NO_ROUTE;
            seen.stopped_by_limit += not_free == limit() && (number == MAZE_ROUTE_REJECTED || number == MAZE_NO_ROUTE);
        }
        if (blocked < limit()) {
            expect(number != MAZE_NO_ROUTE, "few blocked links make it 22, dimension and type", dimension, types[i]);
            seen.held_many += number == MAZE_ROUTE_REJECTED;
        } else seen.blocked_many += number == MAZE_NO_ROUTE;
    }
}

/* ---- links that are not free ---- */

static void arm_one(uint8_t *lent, unsigned node) {
    for (unsigned k = 0; k < MAZE_CHANNELS; k++)
        if (maze_receive_circuit(lent, node, k) == 0) {
            maze_arm(lent, MAZE_TABLE_BYTES, (uint16_t)node, (uint16_t)k);
            return;
        }
}

/* Takes a link away: by a circuit of one hop over it, where it is to be held and one can be opened, else by blocking it. */
static void take(unsigned node, unsigned port, int hold) {
    if (!has_port(port)) return;
    if (hold) {
        memcpy(copy, table, sizeof copy);
        arm_one(copy, beyond(node, port));
        if (open_on(copy, node, beyond(node, port), MAZE_TYPE_FIXED, 1u << axis_of(port)) == MAZE_ACCEPTED && maze_link_circuit(copy, node, port) != 0) memcpy(table, copy, sizeof table);
        if (maze_link_circuit(table, node, port) != 0) return;
    }
    maze_block(table, sizeof table, (uint16_t)node, (uint16_t)port);
}

static unsigned any_port(void) {
    for (;;) {
        unsigned port = below(18);
        if (has_port(port)) return port;
    }
}

/* Takes one link of the path that an open finds, if it finds one. */
static void take_of_found(unsigned source, unsigned target, int hold) {
    static uint8_t opened[MAZE_TABLE_BYTES];
    uint8_t ports[MAZE_TRACE_BYTES];
    unsigned type = types[below(mask == 0 ? 3 : 2)], node = source, at;
    memcpy(opened, table, sizeof opened);
    arm_one(opened, target);
    for (unsigned channel = 0; channel < MAZE_CHANNELS; channel++) {
        maze_traced traced;
        if (maze_trace(table, sizeof table, (uint16_t)source, (uint16_t)channel, ports, sizeof ports).number == MAZE_ACCEPTED) continue;
        if (maze_open(opened, sizeof opened, (uint16_t)source, (uint16_t)channel, (uint16_t)target, (uint16_t)type, (uint16_t)((1u << dimension) - 1)).number != MAZE_ACCEPTED) return;
        traced = maze_trace(opened, sizeof opened, (uint16_t)source, (uint16_t)channel, ports, sizeof ports);
        at = below((unsigned)traced.hops);
        /* a port below 18 is stored as it is */
        for (unsigned hop = 0; hop < at; hop++) node = beyond(node, ports[hop]);
        take(node, ports[at], hold);
        return;
    }
}

/* Links against opens from a source to a target, so many or a few more. */
static void take_links(unsigned source, unsigned target, unsigned many) {
    unsigned way = below(5), holds = below(3);
    for (unsigned tries = 0; tries < 4 * many && (count_links(), not_free < many); tries++) {
        int hold = holds == 1 || (holds == 2 && one_in(2));
        unsigned port = any_port();
        switch (way) {
        case 0: take(below(1u << dimension), port, hold); break;
        case 1: take(source, port, hold); break;
        case 2: take(beyond(target, port), port, hold); break;
        case 3: take_of_found(source, target, hold); break;
        default: /* one circuit over a whole path, then links of paths that are found */
            if (tries == 0) arm_one(table, target), open_on(table, below(1u << dimension), target, MAZE_TYPE_MAZE, (1u << dimension) - 1);
            take_of_found(source, target, hold);
        }
    }
}

static void any_round(unsigned of, unsigned folded) {
    unsigned source = below(1u << of), target = one_in(6) ? source : below(1u << of), many, from;
    make(of, folded);
    many = one_in(4) ? limit() + below(3) : one_in(4) ? below(limit()) : limit() - 1;
    take_links(source, target, many);
    for (unsigned node = 0; node < 1u << of; node++)
        if (!one_in(6)) arm_one(table, node);
    count_links();
    check(source, target);
    for (unsigned i = 0; i < TRIES; i++) from = below(1u << of), check(one_in(2) ? source : from, one_in(2) ? target : below(1u << of));
}

/* Every set of fewer than D links, or a sample of them, and every source and target. */
static void every_set(unsigned of) {
    unsigned links = of << of, all = 1;
    for (unsigned i = 1; i < of; i++) all *= links;
    for (unsigned set = 0; set < all; set++) {
        unsigned rest = set, source = of > WHOLE ? below(1u << of) : 0;
        if (of > WHOLE && !one_in(SAMPLE)) continue;
        make(of, 0);
        for (unsigned i = 1; i < of; i++, rest /= links) maze_block(table, sizeof table, (uint16_t)(rest % links / of), (uint16_t)(rest % of));
        for (unsigned node = 0; node < 1u << of; node++) arm_one(table, node);
        count_links();
        for (unsigned target = 0; target < 1u << of; target++) check(source, target);
    }
}

/* ---- as many links as stop an open ---- */

/* Every link out of a node, or into it, taken away: that many stop its opens, or those to it. */
static void none_left(unsigned of, unsigned folded, int into, int hold) {
    unsigned source, target, number;
    make(of, folded);
    source = below(1u << of), target = below(1u << of);
    for (unsigned port = 0; port < 18; port++) take(into ? beyond(target, port) : source, port, hold);
    count_links();
    expect(not_free == limit() || (folded != 0 && folded != (1u << of) - 1), "links out of a node", of, not_free);
    arm_one(table, target);
    for (unsigned i = 0; i < 3; i++) {
        number = over_all(source, target, types[i]);
        if (number == MAZE_CHANNEL_IN_USE) continue;
        expect(number == (hold && blocked == 0 ? MAZE_ROUTE_REJECTED : MAZE_NO_ROUTE) || (hold && blocked > 0 && number == MAZE_ROUTE_REJECTED), "no link out of the source or into the target", of, number);
    }
    count_links();
    check(source, target);
}

#ifdef WIDE
/* Of type 1 nothing is said where a dimension is folded: two links stop it here, fewer than D, and do not stop types 0 and 4. */
static void helix_when_folded(unsigned of, unsigned folded, unsigned source, unsigned target, unsigned first, unsigned port, unsigned second, unsigned other) {
    make(of, folded);
    take(first, port, 0), take(second, other, 0);
    arm_one(table, target);
    expect(over_all(source, target, MAZE_TYPE_HELIX) == MAZE_NO_ROUTE, "two links stop type 1 where folded", of, folded);
    expect(over_all(source, target, MAZE_TYPE_MAZE) == MAZE_ACCEPTED && over_all(source, target, MAZE_TYPE_ALTERNATE_MAZE) == MAZE_ACCEPTED, "but not types 0 and 4", of, folded);
}
#endif

int main(void) {
    for (unsigned of = 1; of <= SAMPLED; of++) random_state = of, every_set(of);
    for (unsigned of = 1; of <= MAZE_DIMENSION_LARGEST; of++) {
        for (unsigned round = 0; round < ROUNDS; round++) {
            random_state = 1000u * of + round;
            any_round(of, 0);
#ifdef WIDE
            if (round >= (of < LARGE ? FOLDED_ROUNDS : LARGE_ROUNDS)) continue;
            any_round(of, (1u << of) - 1);
            any_round(of, below(1u << of));
#endif
        }
        for (int way = 0; way < 4; way++) {
            none_left(of, 0, way & 1, way >> 1);
#ifdef WIDE
            if (of >= LARGE && (way & 1)) continue;
            none_left(of, (1u << of) - 1, way & 1, way >> 1);
            none_left(of, below(1u << of), way & 1, way >> 1);
#endif
        }
    }
#ifdef WIDE
    helix_when_folded(2, 3, 0, 3, 1, 1, 2, 17);
    helix_when_folded(3, 2, 0, 5, 1, 2, 4, 0);
    expect(seen.folded > 0 && seen.all_folded > 0, "folded, and with D or more links", seen.folded, seen.all_folded);
    printf("on folded tables %lu, with D or more links %lu\n", seen.folded, seen.all_folded);
#endif
    expect(seen.few > 0 && seen.most > 0 && seen.held > 0 && seen.full > 0, "opens with few links, as many as may be", seen.few, seen.most);
    expect(seen.stopped > 0 && seen.stopped_by_limit > 0 && seen.blocked_many > 0 && seen.held_many > 0, "opens that links stop", seen.stopped, seen.stopped_by_limit);
    printf("few links %lu, as many as may be %lu, some held %lu, no channel %lu; stopped %lu, by as few as can %lu; 22 %lu, 10 with few blocked %lu\n", seen.few, seen.most, seen.held, seen.full,
           seen.stopped, seen.stopped_by_limit, seen.blocked_many, seen.held_many);
    return verdict();
}
