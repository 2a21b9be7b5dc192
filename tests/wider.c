/* More freedom never hurts: what one table acknowledges, another does that leaves an open at least as much. On random pairs of tables, of one kind or of both, that were made apart
 * and then changed by calls until every link free in the first is free in the second, every receive channel that may be taken in the first may be taken in the second, and no send
 * channel that is tried has a circuit in the second: whether that is so is decided here, from the bytes. Types 0 and 4 whatever the fold masks are, types 1 and 3 where the second
 * has no fold bit that the first has not. Then on one table, after each of a list of calls that close, unblock, arm, trace or book, and of foldings that unfold nothing, where the
 * type is 0 or 4. And the example in which folding turns an open of types 1 and 3 into a rejected one. It fails, too, where a case that it is there for did not occur.
 *
 *     wider [times]
 *
 * runs so many times the rounds. */
#include "draw.h"
#include "expect.h"
#include "subject.h"

#include <stdlib.h>
#include <string.h>

enum { NARROW_KIND, WIDE_KIND, KINDS };
enum { LARGEST = 14338, ROUNDS = 24, SMALL_ROUNDS = 160, SMALL = 3, SENDS = 60, CALLS_BETWEEN = 24 };

/* A kind of table, and its calls. */
static const struct kind {
    unsigned bytes, ports, mask_bytes, enabled_at, links_at, receives_at, armed_at;
    uint16_t (*make)(uint8_t *, size_t, uint16_t);
    uint16_t (*block)(uint8_t *, size_t, uint16_t, uint16_t);
    uint16_t (*unblock)(uint8_t *, size_t, uint16_t, uint16_t);
    uint16_t (*arm)(uint8_t *, size_t, uint16_t, uint16_t);
    uint16_t (*disarm)(uint8_t *, size_t, uint16_t, uint16_t);
    uint16_t (*close)(uint8_t *, size_t, uint16_t, uint16_t);
    maze_opened (*open)(uint8_t *, size_t, uint16_t, uint16_t, uint16_t, uint16_t, uint16_t);
    maze_traced (*trace)(const uint8_t *, size_t, uint16_t, uint16_t, uint8_t *, size_t);
    maze_booked (*book)(const uint8_t *, size_t, uint8_t *, size_t, uint8_t *, size_t);
} kinds[KINDS] = {
    {8705, 8, 1, 1, 257, 4353, 8449, maze_make, maze_block, maze_unblock, maze_arm, maze_disarm, maze_close, maze_open, maze_trace, maze_book},
    {14338, 18, 3, 2, 770, 9986, 14082, maze_wide_make, maze_wide_block, maze_wide_unblock, maze_wide_arm, maze_wide_disarm, maze_wide_close, maze_wide_open, maze_wide_trace, maze_wide_book},
};

struct table {
    unsigned kind, dimension;
    uint8_t bytes[LARGEST];
};

static const uint16_t types[] = {MAZE_TYPE_MAZE, MAZE_TYPE_HELIX, MAZE_TYPE_FIXED, MAZE_TYPE_ALTERNATE_MAZE};

static struct {
    unsigned long pairs, of_both_kinds, masks_apart, acknowledged[5], not_before[5], fewer_scouts, more_scouts, most_scouts, helix_hurt, fixed_hurt, lists, foldings, refused_foldings, folded_acknowledged, over_new;
} seen;

static int one_in(unsigned count) {
    return below(count) == 0;
}

/* ---- what a table shows ---- */

static unsigned fold_of(const struct table *t) {
    return t->kind == WIDE_KIND ? t->bytes[1] : 0;
}

static int there(const struct table *t, unsigned port) {
    unsigned axis = port < 9 ? port : 17 - port;
    return port < kinds[t->kind].ports && axis < t->dimension && (port == axis || (fold_of(t) >> axis & 1));
}

static int free_link(const struct table *t, unsigned node, unsigned port) {
    const struct kind *kind = &kinds[t->kind];
    const uint8_t *entry;
    if (!there(t, port)) return 0;
    entry = t->bytes + kind->links_at + 2 * (kind->ports * node + port);
    return (t->bytes[kind->enabled_at + kind->mask_bytes * node + port / 8] >> port % 8 & 1) && entry[0] == 0 && entry[1] == 0;
}

static int can_be_taken(const struct table *t, unsigned node, unsigned channel) {
    const struct kind *kind = &kinds[t->kind];
    const uint8_t *entry = t->bytes + kind->receives_at + 2 * (8 * node + channel);
    return (t->bytes[kind->armed_at + node] >> channel & 1) && entry[0] == 0 && entry[1] == 0;
}

/* The circuit of a send channel holds some receive channel exactly where it is open. */
static int is_open(const struct table *t, unsigned node, unsigned channel) {
    unsigned circuit = 8 * node + channel + 1;
    const uint8_t *entry = t->bytes + kinds[t->kind].receives_at;
    for (unsigned i = 0; i < 8u << t->dimension; i++, entry += 2)
        if (entry[0] + 256u * entry[1] == circuit) return 1;
    return 0;
}

/* ---- random tables and calls ---- */

static uint16_t any_node(unsigned dimension) {
    return (uint16_t)below(1u << dimension);
}

static uint16_t any_vector(unsigned dimension) {
    return (uint16_t)(1 + below((1u << dimension) - 1));
}

static uint16_t any_port(const struct table *t) {
    unsigned port = below(t->dimension);
    return (uint16_t)(t->kind == WIDE_KIND && one_in(2) && there(t, 17 - port) ? 17 - port : port);
}

static void any_call(struct table *t) {
    const struct kind *on = &kinds[t->kind];
    uint16_t node = any_node(t->dimension), channel = (uint16_t)below(8);
    switch (below(6)) {
    case 0: on->block(t->bytes, kinds[t->kind].bytes, node, any_port(t)); break;
    case 1: on->close(t->bytes, kinds[t->kind].bytes, node, channel); break;
    default: on->open(t->bytes, kinds[t->kind].bytes, node, channel, any_node(t->dimension), types[below(4)], any_vector(t->dimension)); break;
    }
}

/* A node of which only the link over one port leads in, where it is to be so: a search for it is long. */
struct closed {
    unsigned node, port;
    int is;
};

static struct closed any_closed(unsigned dimension) {
    const struct closed at = {below(1u << dimension), below(dimension), one_in(2)};
    return at;
}

/* A table of a random fold mask, with circuits, and a half to a tenth of its links blocked; fewer where those into one node are. */
static void any_table(struct table *t, unsigned kind, unsigned dimension, const struct closed *closed) {
    const struct kind *on = &kinds[kind];
    unsigned dense = 2 + below(9);
    memset(t, 0, sizeof *t);
    t->kind = kind, t->dimension = dimension;
    expect(on->make(t->bytes, kinds[kind].bytes, (uint16_t)dimension) == MAZE_ACCEPTED, "make", kind, dimension);
    if (kind == WIDE_KIND && !one_in(3)) {
        unsigned mask = below(1u << dimension);
        if (dimension > 5) mask &= below(1u << dimension) & below(1u << dimension);
        expect(maze_wide_fold(t->bytes, kinds[kind].bytes, (uint16_t)mask) == MAZE_ACCEPTED, "fold", dimension, mask);
    }
    for (unsigned node = 0; node < 1u << dimension; node++)
        for (unsigned channel = 0; channel < 8; channel++)
            if (one_in(2)) on->arm(t->bytes, kinds[kind].bytes, (uint16_t)node, (uint16_t)channel);
    for (unsigned i = below(30u << dimension / 2); i > 0; i--) any_call(t);
    for (unsigned node = 0; node < 1u << dimension; node++)
        for (unsigned port = 0; port < kinds[kind].ports; port++)
            if (there(t, port) && one_in(dense * (closed->is ? 3 : 1))) on->block(t->bytes, kinds[kind].bytes, (uint16_t)node, (uint16_t)port);
    for (unsigned port = 0; closed->is && port < kinds[kind].ports; port++) {
        unsigned axis = port < 9 ? port : 17 - port;
        if (!there(t, port)) continue;
        if (port == closed->port) on->unblock(t->bytes, kinds[kind].bytes, (uint16_t)(closed->node ^ 1u << axis), (uint16_t)port);
        else on->block(t->bytes, kinds[kind].bytes, (uint16_t)(closed->node ^ 1u << axis), (uint16_t)port);
    }
}

/* Some send on a copy. */
static maze_opened send_on(const struct table *t, const uint16_t *n) {
    static uint8_t copy[LARGEST];
    memcpy(copy, t->bytes, kinds[t->kind].bytes);
    return kinds[t->kind].open(copy, kinds[t->kind].bytes, n[0], n[1], n[2], n[3], n[4]);
}

/* ---- pairs ---- */

/* Two tables made apart are changed by calls, the first so that it leaves less, or the second so that it leaves more. */
static void leave_more(struct table *a, struct table *b) {
    size_t of_a = kinds[a->kind].bytes, of_b = kinds[b->kind].bytes;
    unsigned prefer = 1 + below(4);
    for (unsigned node = 0; node < 1u << a->dimension; node++) {
        for (unsigned port = 0; port < 18; port++) {
            if (!free_link(a, node, port) || free_link(b, node, port)) continue;
            if (!one_in(prefer)) kinds[b->kind].unblock(b->bytes, of_b, (uint16_t)node, (uint16_t)port);
            if (!free_link(b, node, port)) expect(kinds[a->kind].block(a->bytes, of_a, (uint16_t)node, (uint16_t)port) == MAZE_ACCEPTED, "block", node, port);
        }
        for (unsigned k = 0; k < 8; k++) {
            if (!can_be_taken(a, node, k) || can_be_taken(b, node, k)) continue;
            if (!one_in(prefer)) kinds[b->kind].arm(b->bytes, of_b, (uint16_t)node, (uint16_t)k);
            if (!can_be_taken(b, node, k)) expect(kinds[a->kind].disarm(a->bytes, of_a, (uint16_t)node, (uint16_t)k) == MAZE_ACCEPTED, "disarm", node, k);
        }
    }
}

/* The premise, but for the send channel. */
static int at_least_as_free(const struct table *a, const struct table *b) {
    for (unsigned node = 0; node < 1u << a->dimension; node++) {
        for (unsigned port = 0; port < 18; port++)
            if (free_link(a, node, port) && !free_link(b, node, port)) return 0;
        for (unsigned k = 0; k < 8; k++)
            if (can_be_taken(a, node, k) && !can_be_taken(b, node, k)) return 0;
    }
    return 1;
}

static void pair(unsigned dimension) {
    static struct table a, b;
    const struct closed closed = any_closed(dimension);
    int fewer;
    any_table(&a, below(KINDS), dimension, &closed);
    any_table(&b, below(KINDS), dimension, &closed);
    leave_more(&a, &b);
    expect(at_least_as_free(&a, &b), "the second leaves at least as much", dimension, a.kind);
    fewer = (fold_of(&b) & ~fold_of(&a)) == 0;
    seen.pairs++;
    seen.of_both_kinds += a.kind != b.kind;
    seen.masks_apart += (fold_of(&a) & ~fold_of(&b)) != 0 && !fewer;
    for (unsigned i = 0; i < SENDS; i++) {
        uint16_t n[5] = {any_node(dimension), (uint16_t)below(8), any_node(dimension), 0, any_vector(dimension)};
        if (closed.is && one_in(2)) n[2] = (uint16_t)closed.node;
        if (is_open(&b, n[0], n[1])) continue;
        for (unsigned j = 0; j < 4; j++) {
            unsigned type = n[3] = types[j];
            maze_opened one = send_on(&a, n), other;
            other = send_on(&b, n);
            if (one.number != MAZE_ACCEPTED) {
                seen.not_before[type] += other.number == MAZE_ACCEPTED;
                continue;
            }
            if (type == MAZE_TYPE_MAZE || type == MAZE_TYPE_ALTERNATE_MAZE || fewer) {
                expect(other.number == MAZE_ACCEPTED, "acknowledged on the freer table, type and number", type, other.number);
                seen.acknowledged[type]++;
                seen.fewer_scouts += other.scouts < one.scouts;
                seen.more_scouts += other.scouts > one.scouts;
                if (other.scouts > seen.most_scouts) seen.most_scouts = other.scouts;
            } else if (other.number != MAZE_ACCEPTED) {
                if (type == MAZE_TYPE_HELIX) seen.helix_hurt++;
                else seen.fixed_hurt++;
            }
        }
    }
}

/* ---- a list of calls on one table ---- */

/* A call that takes nothing from an open of the type. */
static void takes_nothing(struct table *t, unsigned type) {
    static uint8_t ports[4096], index[12288];
    const struct kind *on = &kinds[t->kind];
    size_t bytes = kinds[t->kind].bytes;
    uint16_t node = any_node(t->dimension), channel = (uint16_t)below(8);
    switch (below(t->kind == WIDE_KIND && (type == MAZE_TYPE_MAZE || type == MAZE_TYPE_ALTERNATE_MAZE) ? 8 : 6)) {
    case 0: case 1: on->close(t->bytes, bytes, node, channel); break;
    case 2: on->unblock(t->bytes, bytes, node, any_port(t)); break;
    case 3: on->arm(t->bytes, bytes, node, channel); break;
    case 4: on->trace(t->bytes, bytes, node, channel, ports, sizeof ports); break;
    case 5: on->book(t->bytes, bytes, ports, sizeof ports, index, sizeof index); break;
    default: {
        unsigned mask = fold_of(t) | 1u << below(t->dimension + 1u);
        uint16_t number;
        /* wide masks make searches long in large cubes */
        if (t->dimension > 5 && (mask & (mask - 1)) != 0) mask = fold_of(t);
        number = maze_wide_fold(t->bytes, bytes, (uint16_t)mask);
        expect(number == (mask >> t->dimension ? MAZE_BAD_PORT : MAZE_ACCEPTED), "a folding that unfolds nothing, mask and number", mask, number);
        if (number == MAZE_ACCEPTED) seen.foldings++;
        else seen.refused_foldings++;
    }
    }
}

static void list(unsigned dimension) {
    static struct table t, first;
    const struct closed closed = any_closed(dimension);
    uint16_t n[5] = {any_node(dimension), (uint16_t)below(8), any_node(dimension), types[below(4)], any_vector(dimension)};
    maze_opened before, after;
    if (closed.is) n[2] = (uint16_t)closed.node;
    any_table(&t, below(KINDS), dimension, &closed);
    before = send_on(&t, n);
    if (before.number != MAZE_ACCEPTED) return;
    seen.lists++;
    first = t;
    for (unsigned i = 0; i < CALLS_BETWEEN; i++) {
        takes_nothing(&t, n[3]);
        after = send_on(&t, n);
        expect(after.number == MAZE_ACCEPTED, "acknowledged after calls that take nothing, type and number", n[3], after.number);
        seen.folded_acknowledged += fold_of(&t) != fold_of(&first);
    }
    if (fold_of(&t) != fold_of(&first)) {
        uint8_t path[9];
        kinds[t.kind].open(t.bytes, kinds[t.kind].bytes, n[0], n[1], n[2], n[3], n[4]);
        after.hops = kinds[t.kind].trace(t.bytes, kinds[t.kind].bytes, n[0], n[1], path, sizeof path).hops;
        for (unsigned i = 0; i < after.hops; i++) seen.over_new += path[i] > 8 && !there(&first, path[i]);
    }
}

/* ---- the example ---- */

static void example(void) {
    static struct table t;
    const struct closed closed = {0, 0, 0};
    any_table(&t, WIDE_KIND, 3, &closed);
    expect(maze_wide_make(t.bytes, 14338, 3) == MAZE_ACCEPTED && maze_wide_arm(t.bytes, 14338, 7, 0) == MAZE_ACCEPTED && maze_wide_block(t.bytes, 14338, 6, 0) == MAZE_ACCEPTED, "example made", 0, 0);
    for (unsigned folded = 0; folded < 2; folded++) {
        for (unsigned j = 0; j < 4; j++) {
            const uint16_t n[5] = {0, 0, 7, types[j], 4};
            int hurt = folded && (types[j] == MAZE_TYPE_HELIX || types[j] == MAZE_TYPE_FIXED);
            maze_opened x = send_on(&t, n);
            expect(x.number == (hurt ? MAZE_NO_ROUTE : MAZE_ACCEPTED) && x.hops == (hurt ? 0 : 3), "example, type and number", types[j], x.number);
        }
        expect(maze_wide_fold(t.bytes, 14338, 2) == MAZE_ACCEPTED, "example folded", folded, 2);
    }
}

int main(int argc, char **argv) {
    unsigned times = argc > 1 ? (unsigned)strtoul(argv[1], NULL, 10) : 1;
    for (unsigned dimension = 1; dimension <= MAZE_DIMENSION_LARGEST; dimension++)
        for (unsigned round = 0; round < times * (dimension <= SMALL ? SMALL_ROUNDS : ROUNDS); round++) {
            random_state = 77000u * dimension + round;
            pair(dimension);
            for (unsigned i = 0; i < 4; i++) list(dimension);
        }
    example();
    for (unsigned j = 0; j < 4; j++) expect(seen.acknowledged[types[j]] > 0 && seen.not_before[types[j]] > 0, "of a type: acknowledged by both, and by the second alone", types[j], seen.acknowledged[types[j]]);
    expect(seen.of_both_kinds > 0 && seen.masks_apart > 0, "tables of both kinds, and of masks of which neither contains the other", seen.of_both_kinds, seen.masks_apart);
    expect(seen.fewer_scouts > 0 && seen.more_scouts > 0 && seen.most_scouts > 1000, "fewer scouts, and more, and many", seen.more_scouts, seen.most_scouts);
    expect(seen.helix_hurt > 0 && seen.fixed_hurt > 0, "types 1 and 3 rejected with more folded", seen.helix_hurt, seen.fixed_hurt);
    expect(seen.lists > 0 && seen.foldings > 0 && seen.refused_foldings > 0 && seen.folded_acknowledged > 0 && seen.over_new > 0, "lists with foldings, and hops over new partners", seen.foldings, seen.over_new);
    printf("pairs %lu, of both kinds %lu, with masks apart %lu; acknowledged by both: type 0 %lu, 1 %lu, 3 %lu, 4 %lu, with fewer scouts %lu, with more %lu, %lu at most; with more folded rejected: type 1 %lu, 3 %lu\n",
           seen.pairs, seen.of_both_kinds, seen.masks_apart, seen.acknowledged[0], seen.acknowledged[1], seen.acknowledged[3], seen.acknowledged[4], seen.fewer_scouts, seen.more_scouts, seen.most_scouts, seen.helix_hurt, seen.fixed_hurt);
    printf("lists %lu, foldings %lu, refused %lu, opens with more folded %lu, hops over new partners %lu\n", seen.lists, seen.foldings, seen.refused_foldings, seen.folded_acknowledged, seen.over_new);
    return verdict();
}
