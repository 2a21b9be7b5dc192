/* The calls on tables once more, written for checking. Nothing here is quick, and nothing follows the library's method:
 *
 * - A call reads the table, of either kind, into a record of its own, works on that, and writes all bytes back if it succeeds. The record has what a wide table can
 *   say; only reading and writing know the kind.
 * - The cube has the ports of its shape, which are its dimension and its fold mask. A row has 18 places; which of them are ports of the cube, and which way each leads, is
 *   asked place by place.
 * - A pass lists every beginning of every permitted path, from the highest port down and without looking at the links. Then it looks which of
 *   them are free, takes the first of the free paths by comparing paths as Order 3 has it, and counts.
 * - A helix path is looked for in such a list, as the one path each of whose later hops is by the first uphill port: no uphill port is tried before it.
 * - Whether waiting helps is looked up in such lists once more, with every circuit taken out of the record.
 * - Soundness searches all the permitted paths that the links of a circuit allow, for one that uses them all; so does a trace, which sees that there is no other.
 * - A book is gathered apart, from the path of each open circuit, and copied at the end. A lookup writes down to which circuit each place of the ports belongs.
 * - To judge a book, each circuit's ports are tried with every target and with every send vector of one port; then the uses of each link are counted, those by
 *   circuits of the table too, and the circuits that end at each node.
 * - To join two tables, a made one is taken, the links blocked in either half are blocked in it and the channels armed are armed, and every circuit of either half is
 *   laid along its path from its source's new number on.
 * - To convert a table, the record of the one is written as the other. */
#include "reference.h"

#include <stdlib.h>
#include <string.h>

enum { NODES = 256, SLOTS = 8, PORTS = 18, MASK_BITS = 24, CIRCUITS = 65536, MOST_HOPS = 9, MOST_BEGINNINGS = 123300, MOST_FOLDED = 35099560, MOST_BYTES = 14338 };

struct ref_send ref_last_send;

/* ---- what a table says ---- */

/* A kind of table: its length, the bytes of its fold mask and of a node's enabled links, and the ports of a row. */
struct kind {
    unsigned bytes, ports;
    int fold_bytes, mask_bytes;
};

static const struct kind narrow = {8705, 8, 0, 1}, wide = {14338, 18, 1, 3};

struct cube {
    unsigned dimension, fold, ports; /* ports: of a row in the table that was read */
    unsigned enabled[NODES];        /* bit p for the link out of port p; a wide table has more bits than ports */
    unsigned link[NODES][PORTS];    /* the circuit that holds it */
    unsigned receive[NODES][SLOTS];
    int armed[NODES][SLOTS];        /* whether the receive channel is armed */
    int there[PORTS];               /* whether the nodes of the cube have the port, worked out from dimension and fold mask */
};

/* The bytes of a table in their order, read or written one after another. */
static const uint8_t *take(const uint8_t *at, unsigned *number, int bytes) {
    *number = 0;
    for (int i = 0; i < bytes; i++) *number += (unsigned)*at++ << 8 * i;
    return at;
}

static uint8_t *put(uint8_t *at, unsigned number, int bytes) {
    for (int i = 0; i < bytes; i++) *at++ = (uint8_t)(number >> 8 * i & 255);
    return at;
}

/* Of the numbers met here: dimensions, places of a mask, and ports and channels of a row. */
static unsigned power(unsigned exponent) {
    return 1u << exponent;
}

static int bit(unsigned number, unsigned place) {
    return number / power(place) % 2 == 1;
}

/* Cube 2: the bit of a node that a port changes: of port p and of its partner 17 - p it is p. */
static unsigned axis(unsigned port) {
    return port + port < 17 ? port : 17 - port;
}

/* The node that a port leads to. */
static unsigned across(unsigned node, unsigned port) {
    const unsigned changed = axis(port);
    return bit(node, changed) ? node - power(changed) : node + power(changed);
}

static int uphill(unsigned node, unsigned target, unsigned port) {
    return bit(node, axis(port)) != bit(target, axis(port));
}

/* The nodes of the cube have a port for each dimension, and for each that is folded its partner. */
static void find_ports(struct cube *cube) {
    for (unsigned port = 0; port < PORTS; port++)
        for (unsigned p = 0; p < cube->dimension; p++)
            if (port == p || (port == 17 - p && bit(cube->fold, p))) cube->there[port] = 1;
}

static int has_port(const struct cube *cube, unsigned port) {
    return port < PORTS && cube->there[port];
}

/* The ports of a mask of dimensions: each of them, and the partner of each that is folded. */
static unsigned with_partners(const struct cube *cube, unsigned mask) {
    unsigned ports = 0;
    for (unsigned p = 0; p < cube->dimension; p++)
        if (bit(mask, p)) ports += power(p) + (bit(cube->fold, p) ? power(17 - p) : 0);
    return ports;
}

static void read_cube(struct cube *cube, const struct kind *kind, const uint8_t *at) {
    memset(cube, 0, sizeof *cube);
    cube->ports = kind->ports;
    at = take(at, &cube->dimension, 1);
    at = take(at, &cube->fold, kind->fold_bytes);
    for (int n = 0; n < NODES; n++) at = take(at, &cube->enabled[n], kind->mask_bytes);
    for (int n = 0; n < NODES; n++)
        for (unsigned p = 0; p < kind->ports; p++) at = take(at, &cube->link[n][p], 2);
    for (int n = 0; n < NODES; n++)
        for (int c = 0; c < SLOTS; c++) at = take(at, &cube->receive[n][c], 2);
    for (int n = 0; n < NODES; n++) {
        unsigned mask;
        at = take(at, &mask, 1);
        for (unsigned c = 0; c < SLOTS; c++) cube->armed[n][c] = bit(mask, c);
    }
    if (cube->dimension <= 8) find_ports(cube);
}

static void write_cube(const struct cube *cube, const struct kind *kind, uint8_t *at) {
    at = put(at, cube->dimension, 1);
    at = put(at, cube->fold, kind->fold_bytes);
    for (int n = 0; n < NODES; n++) at = put(at, cube->enabled[n], kind->mask_bytes);
    for (int n = 0; n < NODES; n++)
        for (unsigned p = 0; p < kind->ports; p++) at = put(at, cube->link[n][p], 2);
    for (int n = 0; n < NODES; n++)
        for (int c = 0; c < SLOTS; c++) at = put(at, cube->receive[n][c], 2);
    for (int n = 0; n < NODES; n++) {
        unsigned mask = 0;
        for (unsigned c = 0; c < SLOTS; c++)
            if (cube->armed[n][c]) mask += power(c);
        at = put(at, mask, 1);
    }
}

/* ---- paths ---- */

struct path {
    unsigned char hops;
    unsigned char ends; /* 1 if it is a permitted path, 0 if it is a beginning of longer ones only */
    unsigned char port[MOST_HOPS];
};

static struct path *beginnings;
static size_t listed, room;
static unsigned char falling[PORTS]; /* the ports of the cube at hand, from the highest down */
static unsigned ports_there;

/* One more; Scouts 8 says how many there are at most where nothing is folded. */
static void list_one(const struct cube *cube, const struct path *path) {
    if (listed == (cube->fold == 0 ? MOST_BEGINNINGS : MOST_FOLDED)) abort();
    if (listed == room) {
        room = room ? 2 * room : 4096;
        beginnings = realloc(beginnings, room * sizeof *beginnings);
        if (!beginnings) abort();
    }
    beginnings[listed++] = *path;
}

/* Lists the path so far, and those that go on from it: until the target is reached, by every port that is uphill there. */
static void list_on(const struct cube *cube, const struct path *so_far, unsigned node, unsigned target) {
    struct path path = *so_far;
    path.ends = node == target;
    list_one(cube, &path);
    if (path.ends) return;
    path.hops++;
    for (unsigned i = 0; i < ports_there; i++) {
        if (!uphill(node, target, falling[i])) continue;
        path.port[path.hops - 1] = falling[i];
        list_on(cube, &path, across(node, falling[i]), target);
    }
}

/* Lists every beginning of a permitted path from a source: the first hop is over any of some ports, those of a send vector and their partners. */
static void list_all(const struct cube *cube, unsigned source, unsigned ports, unsigned target) {
    struct path path = {1, 0, {0}};
    listed = ports_there = 0;
    for (unsigned port = PORTS; port-- > 0;)
        if (has_port(cube, port)) falling[ports_there++] = (unsigned char)port;
    for (unsigned i = 0; i < ports_there; i++) {
        if (!bit(ports, falling[i])) continue;
        path.port[0] = falling[i];
        list_on(cube, &path, across(source, falling[i]), target);
    }
}

/* How many places are tried before this one. A send tries 0, 1 and so on; a scout that came in on port a tries a + 1, .., 17, 0, .., a. */
static unsigned tried_before(const struct path *path, unsigned hop) {
    unsigned arrival, count = 0;
    if (hop == 0) return path->port[0];
    arrival = path->port[hop - 1];
    for (unsigned port = (arrival + 1) % PORTS; port != path->port[hop]; port = (port + 1) % PORTS) count++;
    return count;
}

static int is_beginning(const struct path *a, const struct path *b) {
    return a->hops <= b->hops && memcmp(a->port, b->port, a->hops) == 0;
}

static int comes_before(const struct path *a, const struct path *b) {
    for (unsigned hop = 0; hop < a->hops && hop < b->hops; hop++)
        if (a->port[hop] != b->port[hop]) return tried_before(a, hop) < tried_before(b, hop);
    return a->hops < b->hops;
}

static int is_free(const struct cube *cube, unsigned node, const struct path *path) {
    for (unsigned hop = 0; hop < path->hops; hop++) {
        unsigned port = path->port[hop];
        if (!bit(cube->enabled[node], port) || cube->link[node][port] != 0) return 0;
        node = across(node, port);
    }
    return 1;
}

/* ---- a pass ---- */

struct pass {
    unsigned number; /* 0, 10 or 11; 22 in place of 10 once the send is over */
    unsigned scouts;
    unsigned receive;
    struct path path;
};

/* The target of a path that is free takes its lowest receive channel that is armed and not held. */
static void take_channel(const struct cube *cube, unsigned target, struct pass *pass) {
    pass->number = MAZE_RECEIVE_REJECTED;
    for (unsigned channel = SLOTS; channel-- > 0;)
        if (cube->armed[target][channel] && cube->receive[target][channel] == 0) pass->number = MAZE_ACCEPTED, pass->receive = channel;
}

/* `ports`: where the first hop may go, partners too. */
static struct pass run_pass(const struct cube *cube, unsigned source, unsigned ports, unsigned target) {
    struct pass pass = {MAZE_ROUTE_REJECTED, 0, 0, {0, 0, {0}}};
    size_t free_ones = 0;
    const struct path *found = NULL;

    list_all(cube, source, ports, target);
    for (size_t i = 0; i < listed; i++)
        if (is_free(cube, source, &beginnings[i])) beginnings[free_ones++] = beginnings[i];
    for (size_t i = 0; i < free_ones; i++)
        if (beginnings[i].ends && (!found || comes_before(&beginnings[i], found))) found = &beginnings[i];
    for (size_t i = 0; i < free_ones; i++)
        if (!found || comes_before(&beginnings[i], found) || is_beginning(&beginnings[i], found)) pass.scouts++;
    if (!found) return pass;
    pass.path = *found;
    take_channel(cube, target, &pass);
    return pass;
}

/* ---- helix paths ---- */

/* Whether each hop behind the first is by the first port, of those uphill at its node, that is tried there. */
static int is_helix(const struct cube *cube, const struct path *path, unsigned source, unsigned target) {
    unsigned node = source;
    for (unsigned hop = 0; hop < path->hops; node = across(node, path->port[hop++])) {
        struct path other = *path;
        if (hop == 0) continue;
        for (unsigned port = 0; port < PORTS; port++) {
            other.port[hop] = (unsigned char)port;
            if (has_port(cube, port) && uphill(node, target, port) && tried_before(&other, hop) < tried_before(path, hop)) return 0;
        }
    }
    return 1;
}

/* The one path that takes a port and then at each node the first uphill port in helical order. */
static struct path helix_path(const struct cube *cube, unsigned source, unsigned port, unsigned target) {
    struct path found = {0, 0, {0}};
    list_all(cube, source, power(port), target);
    for (size_t i = 0; i < listed; i++)
        if (beginnings[i].ends && is_helix(cube, &beginnings[i], source, target)) {
            if (found.hops != 0) abort(); /* there is one alone */
            found = beginnings[i];
        }
    if (found.hops == 0) abort();
    return found;
}

/* The helix paths of some ports in rising order, `most` of them at most, until one is free. The scouts of each are its free beginnings: the free hops at its front. */
static struct pass run_helix(const struct cube *cube, unsigned source, unsigned ports, unsigned target, unsigned most) {
    struct pass pass = {MAZE_ROUTE_REJECTED, 0, 0, {0, 0, {0}}};
    ref_last_send.passes = 0;
    for (unsigned port = 0; port < PORTS && ref_last_send.passes < most && pass.path.hops == 0; port++) {
        struct path path, beginning;
        if (!bit(ports, port)) continue;
        ref_last_send.passes++;
        path = beginning = helix_path(cube, source, port, target);
        for (beginning.hops = 1; beginning.hops <= path.hops; beginning.hops++) pass.scouts += (unsigned)is_free(cube, source, &beginning);
        if (is_free(cube, source, &path)) pass.path = path;
    }
    if (pass.path.hops != 0) take_channel(cube, target, &pass);
    return pass;
}

/* ---- will waiting help? ---- */

/* Whether some permitted path with this first port is free. */
static int some_path(const struct cube *cube, unsigned source, unsigned port, unsigned target) {
    list_all(cube, source, power(port), target);
    for (size_t i = 0; i < listed; i++)
        if (beginnings[i].ends && is_free(cube, source, &beginnings[i])) return 1;
    return 0;
}

/* Whether, were all circuits closed, some path that the routing type may try would cross no blocked link: that is, would be free. */
static int waiting_helps(const struct cube *cube, unsigned source, unsigned vector, unsigned target, unsigned type) {
    static struct cube idle;
    const unsigned ports = with_partners(cube, vector);
    idle = *cube;
    memset(idle.link, 0, sizeof idle.link);
    for (unsigned port = 0; port < PORTS; port++) {
        struct path path;
        switch (type) {
        case 0: if (bit(ports, port) && some_path(&idle, source, port, target)) return 1; break;
        case 4: if (has_port(cube, port) && some_path(&idle, source, port, target)) return 1; break; /* one of the two passes has it */
        default:
            if (!bit(ports, port)) break;
            path = helix_path(cube, source, port, target);
            if (is_free(&idle, source, &path)) return 1;
            if (type == 3) return 0; /* the lowest port alone */
        }
    }
    return 0;
}

/* ---- soundness ---- */

struct holding {
    unsigned links, receives, target;
};

/* How many permitted paths go on from a node after `so_far` and end on the target after as many hops as the circuit has links, all of them on links of the circuit. A
 * permitted path uses no link twice, so these are then all its links. The last of them is kept. */
static unsigned ways_on(const struct cube *cube, unsigned circuit, const struct holding *held, unsigned node, const struct path *so_far, struct path *kept) {
    struct path path = *so_far;
    unsigned ways = 0;
    if (path.hops > 0 && node == held->target) {
        if (path.hops != held->links) return 0;
        *kept = path;
        return 1;
    }
    if (path.hops == held->links || path.hops == MOST_HOPS) return 0;
    path.hops++;
    for (unsigned port = 0; port < PORTS; port++) {
        path.port[path.hops - 1] = (unsigned char)port;
        if (has_port(cube, port) && cube->link[node][port] == circuit && (path.hops == 1 || uphill(node, held->target, port)))
            ways += ways_on(cube, circuit, held, across(node, port), &path, kept);
    }
    return ways;
}

static unsigned ways_of(const struct cube *cube, unsigned circuit, const struct holding *held, struct path *kept) {
    const struct path none = {0, 0, {0}};
    unsigned ways = ways_on(cube, circuit, held, (circuit - 1) / SLOTS, &none, kept);
    if (ways > 1) abort(); /* source and links determine the path */
    return ways;
}

static int is_sound(const struct cube *cube) {
    static struct holding held[CIRCUITS];
    unsigned nodes = power(cube->dimension);

    /* Soundness 2: a fold bit for a dimension that the cube lacks */
    for (unsigned place = cube->dimension; place < 8; place++)
        if (bit(cube->fold, place)) return 0;
    for (unsigned node = 0; node < NODES; node++) {
        for (unsigned place = 0; cube->enabled[node] != 0 && place < MASK_BITS; place++)
            if ((node >= nodes || !has_port(cube, place)) && bit(cube->enabled[node], place)) return 0;
        for (unsigned port = 0; port < cube->ports; port++) {
            unsigned link = cube->link[node][port];
            if (link != 0 && (node >= nodes || !has_port(cube, port) || !bit(cube->enabled[node], port))) return 0;
            if (link > 8 * nodes) return 0;
        }
        for (unsigned slot = 0; slot < SLOTS; slot++) {
            unsigned receive = cube->receive[node][slot];
            if (node >= nodes && (receive != 0 || cube->armed[node][slot])) return 0;
            if (receive != 0 && !cube->armed[node][slot]) return 0;
            if (receive > 8 * nodes) return 0;
        }
    }

    memset(held, 0, (8 * nodes + 1) * sizeof *held);
    for (unsigned node = 0; node < nodes; node++) {
        for (unsigned port = 0; port < cube->ports; port++) held[cube->link[node][port]].links++;
        for (unsigned slot = 0; slot < SLOTS; slot++) {
            held[cube->receive[node][slot]].receives++;
            held[cube->receive[node][slot]].target = node;
        }
    }
    for (unsigned node = 0; node < nodes; node++)
        for (unsigned channel = 0; channel < SLOTS; channel++) {
            unsigned circuit = 8 * node + channel + 1;
            const struct holding *h = &held[circuit];
            struct path path;
            if (h->links == 0 && h->receives == 0) continue;
            if (h->receives != 1 || ways_of(cube, circuit, h, &path) == 0) return 0;
        }
    return 1;
}

/* ---- a send, of each routing type ---- */

static struct pass run_type(const struct cube *cube, unsigned source, unsigned vector, unsigned target, unsigned type) {
    struct pass pass;
    unsigned first, others = 0;
    if (type == 1) return run_helix(cube, source, with_partners(cube, vector), target, PORTS);
    if (type == 3) return run_helix(cube, source, with_partners(cube, vector), target, 1); /* the lowest port, and then no other */
    pass = run_pass(cube, source, with_partners(cube, vector), target);
    first = pass.scouts;
    ref_last_send.passes = 1;
    /* Searches 11: a receive rejection ends the send, since a second pass would come to the same target */
    if (type == 0 || pass.number != MAZE_ROUTE_REJECTED) return pass;
    for (unsigned port = 0; port < cube->dimension; port++)
        if (!bit(vector, port)) others += power(port);
    pass = run_pass(cube, source, with_partners(cube, others), target);
    pass.scouts += first;
    ref_last_send.passes = 2;
    return pass;
}

/* ---- the calls ---- */

/* A call's tests in rising order, and what it reads. The first test that applies is kept. */
struct call {
    unsigned number;
    struct cube cube;
};

static void test(struct call *call, int applies, unsigned number) {
    if (call->number == MAZE_ACCEPTED && applies) call->number = number;
}

/* Tests 1 to 3 of a call for one kind of table. Only a table of the right length is read. */
static void begin(struct call *call, const struct kind *kind, const uint8_t *table, size_t table_len) {
    call->number = MAZE_ACCEPTED;
    call->cube.dimension = 0;
    test(call, table_len != kind->bytes, MAZE_BAD_LENGTH);
    if (call->number == MAZE_ACCEPTED) read_cube(&call->cube, kind, table);
    test(call, call->cube.dimension < 1 || call->cube.dimension > 8, MAZE_BAD_DIMENSION);
    if (call->number == MAZE_ACCEPTED) test(call, !is_sound(&call->cube), MAZE_NOT_SOUND);
}

static void test_node(struct call *call, unsigned node) {
    if (call->number == MAZE_ACCEPTED) test(call, node >= power(call->cube.dimension), MAZE_BAD_NODE);
}

/* Whether a circuit stands on any link. */
static int is_open(const struct cube *cube, unsigned circuit) {
    for (unsigned node = 0; node < NODES; node++)
        for (unsigned port = 0; port < cube->ports; port++)
            if (cube->link[node][port] == circuit) return 1;
    return 0;
}

static uint16_t make(const struct kind *kind, uint8_t *table, size_t table_len, uint16_t dimension) {
    struct cube cube;
    if (table_len != kind->bytes) return MAZE_BAD_LENGTH;
    if (dimension < 1 || dimension > 8) return MAZE_BAD_DIMENSION;
    memset(&cube, 0, sizeof cube);
    cube.dimension = dimension;
    for (unsigned node = 0; node < power(dimension); node++)
        for (unsigned port = 0; port < dimension; port++) cube.enabled[node] += power(port);
    write_cube(&cube, kind, table);
    return MAZE_ACCEPTED;
}

/* Blocking and unblocking: `enable` is the bit that the link gets. */
static uint16_t set_link(const struct kind *kind, uint8_t *table, size_t table_len, unsigned node, unsigned port, int enable) {
    struct call call;
    begin(&call, kind, table, table_len);
    test_node(&call, node);
    if (call.number == MAZE_ACCEPTED) test(&call, !has_port(&call.cube, port), MAZE_BAD_PORT);
    if (call.number == MAZE_ACCEPTED) test(&call, !enable && call.cube.link[node][port] != 0, MAZE_LINK_HELD);
    if (call.number == MAZE_ACCEPTED) {
        if (bit(call.cube.enabled[node], port)) call.cube.enabled[node] -= power(port);
        if (enable) call.cube.enabled[node] += power(port);
        write_cube(&call.cube, kind, table);
    }
    return (uint16_t)call.number;
}

/* Folding 3. The call on a wide table that sets its fold mask. */
static uint16_t fold_to(uint8_t *table, size_t table_len, unsigned mask) {
    struct call call;
    unsigned held = 0;
    begin(&call, &wide, table, table_len);
    if (call.number == MAZE_ACCEPTED) test(&call, mask >= power(call.cube.dimension), MAZE_BAD_PORT);
    if (call.number != MAZE_ACCEPTED) return (uint16_t)call.number;
    for (unsigned p = 0; p < call.cube.dimension; p++)
        for (unsigned node = 0; node < NODES; node++) held += bit(call.cube.fold, p) && !bit(mask, p) && call.cube.link[node][17 - p] != 0;
    test(&call, held > 0, MAZE_LINK_HELD);
    if (call.number != MAZE_ACCEPTED) return (uint16_t)call.number;
    for (unsigned p = 0; p < call.cube.dimension; p++)
        for (unsigned node = 0; node < power(call.cube.dimension); node++) {
            if (bit(call.cube.fold, p) == bit(mask, p)) continue; /* neither newly folded nor unfolded */
            if (bit(call.cube.enabled[node], 17 - p)) call.cube.enabled[node] -= power(17 - p);
            if (bit(mask, p)) call.cube.enabled[node] += power(17 - p);
        }
    call.cube.fold = mask;
    write_cube(&call.cube, &wide, table);
    return MAZE_ACCEPTED;
}

/* Arming and disarming. */
static uint16_t set_armed(const struct kind *kind, uint8_t *table, size_t table_len, unsigned node, unsigned channel, int armed) {
    struct call call;
    begin(&call, kind, table, table_len);
    test_node(&call, node);
    test(&call, channel > 7, MAZE_BAD_CHANNEL);
    if (call.number == MAZE_ACCEPTED) test(&call, !armed && call.cube.receive[node][channel] != 0, MAZE_CHANNEL_HELD);
    if (call.number == MAZE_ACCEPTED) {
        call.cube.armed[node][channel] = armed;
        write_cube(&call.cube, kind, table);
    }
    return (uint16_t)call.number;
}

static maze_opened open_one(const struct kind *kind, uint8_t *table, size_t table_len, uint16_t node, uint16_t channel, uint16_t target, uint16_t type, uint16_t vector) {
    maze_opened answer = {0, 0, 0, 0};
    struct call call;
    unsigned circuit, at;

    begin(&call, kind, table, table_len);
    test_node(&call, node);
    test_node(&call, target);
    test(&call, channel > 7, MAZE_BAD_CHANNEL);
    test(&call, type == 2 || type > 4, MAZE_BAD_ROUTING_TYPE);
    if (call.number == MAZE_ACCEPTED) test(&call, vector == 0 || vector >= power(call.cube.dimension), MAZE_BAD_SEND_VECTOR);
    circuit = 8u * node + channel + 1u;
    if (call.number == MAZE_ACCEPTED) test(&call, is_open(&call.cube, circuit), MAZE_CHANNEL_IN_USE);
    if (call.number == MAZE_ACCEPTED) {
        struct pass pass = run_type(&call.cube, node, vector, target, type);
        answer.scouts = pass.scouts;
        if (pass.number == MAZE_ROUTE_REJECTED && !waiting_helps(&call.cube, node, vector, target, type)) pass.number = MAZE_NO_ROUTE;
        ref_last_send.hops = pass.path.hops;
        memcpy(ref_last_send.ports, pass.path.port, sizeof ref_last_send.ports);
        call.number = pass.number;
        if (pass.number == MAZE_ACCEPTED) {
            answer.hops = pass.path.hops;
            answer.receive = (uint16_t)pass.receive;
            at = node;
            for (unsigned hop = 0; hop < pass.path.hops; hop++) {
                call.cube.link[at][pass.path.port[hop]] = circuit;
                at = across(at, pass.path.port[hop]);
            }
            call.cube.receive[at][pass.receive] = circuit;
            write_cube(&call.cube, kind, table);
        }
    }
    answer.number = (uint16_t)call.number;
    return answer;
}

/* Jobs 1: the sends are opened one by one on a copy, which takes the table's place only where each of them was accepted. */
static maze_opened_all open_all(const struct kind *kind, uint8_t *table, size_t table_len, const uint8_t *sends, size_t sends_len) {
    maze_opened_all answer = {0, 0};
    uint8_t tried[MOST_BYTES];
    struct call call;
    begin(&call, kind, table, table_len);
    test(&call, sends_len > 640 || sends_len - sends_len / 10 * 10 != 0, MAZE_BAD_SEND_LIST);
    if (call.number == MAZE_ACCEPTED) memcpy(tried, table, kind->bytes);
    for (size_t send = 0; call.number == MAZE_ACCEPTED && send < sends_len / 10; send++) {
        uint16_t numbers[5];
        for (size_t i = 0; i < 5; i++) numbers[i] = (uint16_t)(sends[10 * send + 2 * i] | sends[10 * send + 2 * i + 1] << 8);
        call.number = open_one(kind, tried, kind->bytes, numbers[0], numbers[1], numbers[2], numbers[3], numbers[4]).number;
        if (call.number == MAZE_ACCEPTED) answer.sends++;
    }
    if (call.number == MAZE_ACCEPTED) memcpy(table, tried, kind->bytes);
    answer.number = (uint16_t)call.number;
    return answer;
}

/* The tests that close and trace share. */
static void begin_circuit(struct call *call, const struct kind *kind, const uint8_t *table, size_t table_len, uint16_t node, uint16_t channel, unsigned circuit) {
    begin(call, kind, table, table_len);
    test_node(call, node);
    test(call, channel > 7, MAZE_BAD_CHANNEL);
    if (call->number == MAZE_ACCEPTED) test(call, !is_open(&call->cube, circuit), MAZE_NO_CIRCUIT);
}

static uint16_t close_one(const struct kind *kind, uint8_t *table, size_t table_len, uint16_t node, uint16_t channel) {
    struct call call;
    unsigned circuit = 8u * node + channel + 1u;
    begin_circuit(&call, kind, table, table_len, node, channel, circuit);
    if (call.number == MAZE_ACCEPTED) {
        for (unsigned n = 0; n < NODES; n++) {
            for (unsigned port = 0; port < call.cube.ports; port++)
                if (call.cube.link[n][port] == circuit) call.cube.link[n][port] = 0;
            for (unsigned slot = 0; slot < SLOTS; slot++)
                if (call.cube.receive[n][slot] == circuit) call.cube.receive[n][slot] = 0, call.cube.armed[n][slot] = 0;
        }
        write_cube(&call.cube, kind, table);
    }
    return (uint16_t)call.number;
}

/* The permitted path of a sound circuit: of all permitted paths to the node of its receive channel, the one that stands on its links. */
static struct path path_of(const struct cube *cube, unsigned circuit) {
    struct holding held = {0, 0, 0};
    struct path path = {0, 0, {0}};
    for (unsigned node = 0; node < NODES; node++) {
        for (unsigned port = 0; port < cube->ports; port++) held.links += cube->link[node][port] == circuit;
        for (unsigned slot = 0; slot < SLOTS; slot++)
            if (cube->receive[node][slot] == circuit) held.target = node;
    }
    if (ways_of(cube, circuit, &held, &path) != 1) abort(); /* the circuit was not sound */
    return path;
}

static maze_traced trace(const struct kind *kind, const uint8_t *table, size_t table_len, uint16_t node, uint16_t channel, uint8_t *buffer, size_t buffer_len) {
    maze_traced answer = {0, 0};
    struct call call;
    unsigned circuit = 8u * node + channel + 1u;
    begin_circuit(&call, kind, table, table_len, node, channel, circuit);
    test(&call, buffer_len < 9, MAZE_BUFFER_SHORT);
    if (call.number == MAZE_ACCEPTED) {
        struct path path = path_of(&call.cube, circuit);
        for (unsigned hop = 0; hop < path.hops; hop++) buffer[hop] = path.port[hop];
        answer.hops = path.hops;
    }
    answer.number = (uint16_t)call.number;
    return answer;
}

/* Books 5. Every circuit number that the cube has is asked for; what its path is, a trace says. */
static maze_booked book(const struct kind *kind, const uint8_t *table, size_t table_len, uint8_t *ports, size_t ports_len, uint8_t *index, size_t index_len) {
    static uint8_t all_ports[NODES * PORTS], lines[6 * NODES * SLOTS]; /* no more links, and no more circuits */
    maze_booked answer = {0, 0, 0};
    struct call call;
    unsigned circuits = 0, hops = 0;
    uint8_t *line = lines;
    static int open[CIRCUITS];
    begin(&call, kind, table, table_len);
    memset(open, 0, sizeof open);
    for (unsigned node = 0; call.number == MAZE_ACCEPTED && node < NODES; node++)
        for (unsigned port = 0; port < call.cube.ports; port++) open[call.cube.link[node][port]] = 1;
    for (unsigned node = 0; call.number == MAZE_ACCEPTED && node < power(call.cube.dimension); node++)
        for (unsigned channel = 0; channel < SLOTS; channel++) {
            unsigned circuit = 8 * node + channel + 1;
            struct path path;
            if (!open[circuit]) continue;
            path = path_of(&call.cube, circuit);
            line = put(put(put(line, circuit, 2), hops, 2), path.hops, 2);
            for (unsigned hop = 0; hop < path.hops; hop++) all_ports[hops++] = path.port[hop];
            circuits++;
        }
    test(&call, hops > ports_len || 6 * circuits > index_len, MAZE_BOOK_SHORT);
    if (call.number == MAZE_ACCEPTED) {
        for (unsigned i = 0; i < hops; i++) ports[i] = all_ports[i];
        for (unsigned i = 0; i < 6 * circuits; i++) index[i] = lines[i];
        answer.circuits = (uint16_t)circuits;
        answer.hops = (uint16_t)hops;
    }
    answer.number = (uint16_t)call.number;
    return answer;
}

/* To which circuit each place of the ports of a book belongs. Answers whether the book is well formed: the numbers rise within 1 to 2,048, so do the offsets, each
 * length is 1 to 9, each pair ends within the hops, and each place below the count of hops belongs to one circuit exactly. */
static int read_book(unsigned *owner, size_t ports_len, const uint8_t *index, size_t index_len, unsigned circuits, unsigned hops) {
    unsigned last_number = 0, last_offset = 0;
    if (hops > ports_len || 6ul * circuits > index_len) return 0;
    for (unsigned place = 0; place < hops; place++) owner[place] = 0;
    for (unsigned line = 0; line < circuits; line++) {
        unsigned number, offset, length;
        index = take(take(take(index, &number, 2), &offset, 2), &length, 2);
        if (number <= last_number || number > 2048 || length == 0 || length > 9) return 0;
        if ((line > 0 && offset <= last_offset) || offset + length > hops) return 0;
        for (unsigned place = offset; place < offset + length; place++) {
            if (owner[place] != 0) return 0;
            owner[place] = number;
        }
        last_number = number;
        last_offset = offset;
    }
    for (unsigned place = 0; place < hops; place++)
        if (owner[place] == 0) return 0;
    return 1;
}

maze_traced ref_book_lookup(const uint8_t *ports, size_t ports_len, const uint8_t *index, size_t index_len, uint16_t circuits, uint16_t hops, uint16_t circuit,
                            uint8_t *buffer, size_t buffer_len) {
    static unsigned owner[65536];
    maze_traced answer = {0, 0};
    unsigned found = 0;
    if (!read_book(owner, ports_len, index, index_len, circuits, hops)) {
        answer.number = MAZE_BAD_BOOK;
        return answer;
    }
    for (unsigned place = 0; place < hops; place++) found += owner[place] == circuit;
    if (found == 0) answer.number = MAZE_NO_CIRCUIT;
    else if (buffer_len < 9) answer.number = MAZE_BUFFER_SHORT;
    else
        for (unsigned place = 0; place < hops; place++)
            if (owner[place] == circuit) buffer[answer.hops++] = ports[place];
    return answer;
}

/* Whether ports of the cube are a permitted path from a source to a target for a send vector, word by word. */
static int is_permitted(const struct cube *cube, unsigned source, unsigned vector, unsigned target, const struct path *path) {
    unsigned node = source;
    for (unsigned hop = 0; hop < path->hops; hop++) {
        if (hop == 0 && !bit(with_partners(cube, vector), path->port[hop])) return 0; /* the first hop is over a port of the send vector, or a partner of one */
        if (hop > 0 && !uphill(node, target, path->port[hop])) return 0;
        if (hop > 0 && node == target) return 0; /* it has arrived before */
        node = across(node, path->port[hop]);
    }
    return path->hops > 0 && node == target;
}

/* Judging 2. The ports of each circuit are those places of the book that belong to it. */
static uint16_t judge(const struct kind *kind, const uint8_t *table, size_t table_len, const uint8_t *ports, size_t ports_len, const uint8_t *index, size_t index_len,
                      uint16_t circuits, uint16_t hops) {
    static unsigned owner[65536];
    static struct path path_of_number[2049];
    struct call call;
    unsigned uses[NODES][PORTS], ending[NODES] = {0}, bad_circuits = 0, bad_links = 0, short_nodes = 0;
    begin(&call, kind, table, table_len);
    test(&call, !read_book(owner, ports_len, index, index_len, circuits, hops), MAZE_BAD_BOOK);
    if (call.number != MAZE_ACCEPTED) return (uint16_t)call.number;

    memset(path_of_number, 0, sizeof path_of_number);
    for (unsigned place = 0; place < hops; place++) {
        struct path *path = &path_of_number[owner[place]];
        path->port[path->hops++] = ports[place];
    }
    for (unsigned node = 0; node < NODES; node++)
        for (unsigned port = 0; port < call.cube.ports; port++) uses[node][port] = call.cube.link[node][port] != 0;
    for (unsigned number = 1; number <= 2048; number++) {
        const struct path *path = &path_of_number[number];
        const unsigned source = (number - 1) / 8, nodes = power(call.cube.dimension);
        unsigned outside = source >= nodes, ends_at = NODES, node = source;
        if (path->hops == 0) continue;
        for (unsigned hop = 0; hop < path->hops; hop++) outside += !has_port(&call.cube, path->port[hop]);
        for (unsigned target = 0; outside == 0 && target < nodes; target++)
            for (unsigned port = 0; port < call.cube.dimension; port++)
                if (is_permitted(&call.cube, source, power(port), target, path)) ends_at = target;
        if (ends_at == NODES || is_open(&call.cube, number)) {
            bad_circuits++;
            continue;
        }
        for (unsigned hop = 0; hop < path->hops; hop++) {
            uses[node][path->port[hop]]++;
            bad_links += !bit(call.cube.enabled[node], path->port[hop]);
            bad_links += uses[node][path->port[hop]] > 1;
            node = across(node, path->port[hop]);
        }
        ending[ends_at]++;
    }
    for (unsigned node = 0; node < NODES; node++) {
        unsigned available = 0;
        for (unsigned channel = 0; channel < SLOTS; channel++) available += call.cube.armed[node][channel] && call.cube.receive[node][channel] == 0;
        short_nodes += ending[node] > available;
    }
    test(&call, bad_circuits > 0, MAZE_BAD_BOOK_CIRCUIT);
    test(&call, bad_links > 0, MAZE_BAD_BOOK_LINK);
    test(&call, short_nodes > 0, MAZE_RECEIVE_REJECTED);
    return (uint16_t)call.number;
}

/* What one half brings into a cube as it was made: `behind` is what its nodes gain. A circuit is laid hop by hop, from the new number of its source. */
static void bring(struct cube *whole, const struct cube *half, unsigned behind) {
    for (unsigned node = 0; node < power(half->dimension); node++) {
        for (unsigned port = 0; port < half->dimension; port++)
            if (!bit(half->enabled[node], port)) whole->enabled[node + behind] -= power(port);
        for (unsigned channel = 0; channel < SLOTS; channel++) whole->armed[node + behind][channel] = half->armed[node][channel];
    }
    for (unsigned target = 0; target < power(half->dimension); target++)
        for (unsigned slot = 0; slot < SLOTS; slot++) {
            const unsigned was = half->receive[target][slot], source = (was - 1) / SLOTS, is = SLOTS * (source + behind) + (was - 1) % SLOTS + 1;
            unsigned node = source + behind;
            struct path path;
            if (was == 0) continue;
            path = path_of(half, was);
            for (unsigned hop = 0; hop < path.hops; hop++) {
                whole->link[node][path.port[hop]] = is;
                node = across(node, path.port[hop]);
            }
            whole->receive[node][slot] = is;
        }
}

/* Joining 1. */
uint16_t ref_join(const uint8_t *first, size_t first_len, const uint8_t *second, size_t second_len, uint8_t *joined, size_t joined_len) {
    struct call call, other;
    struct cube whole;
    begin(&call, &narrow, first, first_len);
    begin(&other, &narrow, second, second_len);
    test(&call, other.number != MAZE_ACCEPTED, other.number);
    test(&call, joined_len != 8705, MAZE_BAD_LENGTH);
    test(&call, call.cube.dimension != other.cube.dimension, MAZE_BAD_HALVES);
    test(&call, call.cube.dimension == 8, MAZE_BAD_HALVES);
    if (call.number != MAZE_ACCEPTED) return (uint16_t)call.number;
    make(&narrow, joined, joined_len, (uint16_t)(call.cube.dimension + 1));
    read_cube(&whole, &narrow, joined);
    bring(&whole, &call.cube, 0);
    bring(&whole, &other.cube, power(call.cube.dimension));
    write_cube(&whole, &narrow, joined);
    return MAZE_ACCEPTED;
}

/* Wide 10, Wide 11: what the one table says, the other says, and the fold mask is zero on either side. */
static uint16_t convert(const struct kind *from, const uint8_t *read, size_t read_len, const struct kind *to, uint8_t *written, size_t written_len) {
    struct call call;
    begin(&call, from, read, read_len);
    test(&call, written_len != to->bytes, MAZE_BAD_LENGTH);
    if (call.number == MAZE_ACCEPTED) test(&call, call.cube.fold != 0, MAZE_FOLDED);
    if (call.number == MAZE_ACCEPTED) write_cube(&call.cube, to, written);
    return (uint16_t)call.number;
}

uint16_t ref_widen(const uint8_t *table, size_t table_len, uint8_t *written, size_t written_len) {
    return convert(&narrow, table, table_len, &wide, written, written_len);
}

uint16_t ref_narrow(const uint8_t *table, size_t table_len, uint8_t *written, size_t written_len) {
    return convert(&wide, table, table_len, &narrow, written, written_len);
}

/* The calls on a table, for each kind. */
#define CALLS(of, kind) \
    uint16_t of##make(uint8_t *table, size_t table_len, uint16_t dimension) { \
        return make(kind, table, table_len, dimension); \
    } \
    uint16_t of##block(uint8_t *table, size_t table_len, uint16_t node, uint16_t port) { \
        return set_link(kind, table, table_len, node, port, 0); \
    } \
    uint16_t of##unblock(uint8_t *table, size_t table_len, uint16_t node, uint16_t port) { \
        return set_link(kind, table, table_len, node, port, 1); \
    } \
    uint16_t of##arm(uint8_t *table, size_t table_len, uint16_t node, uint16_t channel) { \
        return set_armed(kind, table, table_len, node, channel, 1); \
    } \
    uint16_t of##disarm(uint8_t *table, size_t table_len, uint16_t node, uint16_t channel) { \
        return set_armed(kind, table, table_len, node, channel, 0); \
    } \
    maze_opened of##open(uint8_t *table, size_t table_len, uint16_t node, uint16_t channel, uint16_t target, uint16_t type, uint16_t vector) { \
        return open_one(kind, table, table_len, node, channel, target, type, vector); \
    } \
    maze_opened_all of##open_all(uint8_t *table, size_t table_len, const uint8_t *sends, size_t sends_len) { \
        return open_all(kind, table, table_len, sends, sends_len); \
    } \
    uint16_t of##close(uint8_t *table, size_t table_len, uint16_t node, uint16_t channel) { \
        return close_one(kind, table, table_len, node, channel); \
    } \
    maze_traced of##trace(const uint8_t *table, size_t table_len, uint16_t node, uint16_t channel, uint8_t *buffer, size_t buffer_len) { \
        return trace(kind, table, table_len, node, channel, buffer, buffer_len); \
    } \
    maze_booked of##book(const uint8_t *table, size_t table_len, uint8_t *ports, size_t ports_len, uint8_t *index, size_t index_len) { \
        return book(kind, table, table_len, ports, ports_len, index, index_len); \
    } \
    uint16_t of##judge(const uint8_t *table, size_t table_len, const uint8_t *ports, size_t ports_len, const uint8_t *index, size_t index_len, uint16_t circuits, \
                       uint16_t hops) { \
        return judge(kind, table, table_len, ports, ports_len, index, index_len, circuits, hops); \
    }

CALLS(ref_, &narrow)
CALLS(ref_wide_, &wide)

uint16_t ref_wide_fold(uint8_t *table, size_t table_len, uint16_t mask) {
    return fold_to(table, table_len, mask);
}
