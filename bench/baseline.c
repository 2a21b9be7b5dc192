/* A plain C version of the calls, written for speed and without proofs: what the library's speed is measured against. Compiled by itself it has the calls on narrow
 * tables and those that know of no table; baseline_wide.c compiles it once more, for the calls on wide tables.
 *
 * Two facts about permitted paths carry it. A port that is uphill stops being so once its axis is walked (the bit of a node that it changes: port p and its partner 17 - p
 * have one), so behind the first hop each axis is walked at most once; a path is permitted exactly if that is true of it. And a path comes through its source again only by
 * walking its first axis back at once. So the links that a circuit holds give its path: out of its source by the port whose link back is held too, or that of its partner,
 * if there is one, and from then on by the one uphill port held. */
#include "baseline.h"

#include <string.h>

/* The layout of a table. A row of links has 8 ports, or 18. */
#ifdef BASELINE_WIDE
enum {
    BYTES = MAZE_WIDE_TABLE_BYTES, PORTS = MAZE_WIDE_PORTS, MASK_BYTES = MAZE_WIDE_MASK_BYTES, ENABLED_AT = MAZE_WIDE_ENABLED_AT, LINKS_AT = MAZE_WIDE_LINKS_AT,
    RECEIVES_AT = MAZE_WIDE_RECEIVES_AT, ARMED_AT = MAZE_WIDE_ARMED_AT
};
#else
enum {
    BYTES = MAZE_TABLE_BYTES, PORTS = MAZE_PORTS, MASK_BYTES = 1, ENABLED_AT = MAZE_ENABLED_AT, LINKS_AT = MAZE_LINKS_AT, RECEIVES_AT = MAZE_RECEIVES_AT,
    ARMED_AT = MAZE_ARMED_AT
};
#endif

enum { LINKS_BYTES = 2 * PORTS, RECEIVES_BYTES = 2 * MAZE_CHANNELS };

/* A mask of a node's ports, kept. */
#ifdef BASELINE_WIDE
typedef uint32_t ports_mask;
#else
typedef uint8_t ports_mask;
#endif

static inline unsigned entry(const uint8_t *row, unsigned slot) {
    return row[2 * slot] | (unsigned)row[2 * slot + 1] << 8;
}

static inline void set_entry(uint8_t *row, unsigned slot, unsigned circuit) {
    row[2 * slot] = (uint8_t)circuit;
    row[2 * slot + 1] = (uint8_t)(circuit >> 8);
}

static inline const uint8_t *links(const uint8_t *table, unsigned node) {
    return table + LINKS_AT + LINKS_BYTES * node;
}

static inline const uint8_t *receives(const uint8_t *table, unsigned node) {
    return table + RECEIVES_AT + RECEIVES_BYTES * node;
}

/* The enabled links of a node. */
static inline unsigned enabled(const uint8_t *table, unsigned node) {
    const uint8_t *mask = table + ENABLED_AT + MASK_BYTES * node;
    return MASK_BYTES == 1 ? mask[0] : mask[0] | (unsigned)mask[MASK_BYTES / 2] << 8 | (unsigned)mask[MASK_BYTES - 1] << 16;
}

static inline void set_enabled(uint8_t *table, unsigned node, unsigned mask) {
    for (unsigned i = 0; i < MASK_BYTES; i++) table[ENABLED_AT + MASK_BYTES * node + i] = (uint8_t)(mask >> 8 * i);
}

static inline unsigned lowest(unsigned bits) {
    return (unsigned)__builtin_ctz(bits);
}

/* How many bits a mask of ports has. By a table: an x86-64 without extensions has no instruction for it, and the compiler would call a function. */
#define COUNTS_2(n) (n), (n) + 1, (n) + 1, (n) + 2
#define COUNTS_4(n) COUNTS_2(n), COUNTS_2((n) + 1), COUNTS_2((n) + 1), COUNTS_2((n) + 2)
#define COUNTS_6(n) COUNTS_4(n), COUNTS_4((n) + 1), COUNTS_4((n) + 1), COUNTS_4((n) + 2)
static const uint8_t counts[256] = {COUNTS_6(0), COUNTS_6(1), COUNTS_6(1), COUNTS_6(2)};

static inline unsigned count_of(unsigned ports) {
    return PORTS == 8 ? counts[ports] : counts[ports & 255] + (unsigned)counts[ports >> 8 & 255] + counts[ports >> 16];
}

/* What folding does. A mask of axes has eight bits; one of ports has a bit for each partner too, which a narrow table has none of. */
#ifdef BASELINE_WIDE
/* A byte with its bits in the reverse order: bit p of axes is bit 17 - p of ports, ten places above bit 7 - p. */
#define REVERSED_2(n) (n), (n) + 2 * 64, (n) + 1 * 64, (n) + 3 * 64
#define REVERSED_4(n) REVERSED_2(n), REVERSED_2((n) + 2 * 16), REVERSED_2((n) + 1 * 16), REVERSED_2((n) + 3 * 16)
#define REVERSED_6(n) REVERSED_4(n), REVERSED_4((n) + 2 * 4), REVERSED_4((n) + 1 * 4), REVERSED_4((n) + 3 * 4)
static const uint8_t reversed[256] = {REVERSED_6(0), REVERSED_6(2), REVERSED_6(1), REVERSED_6(3)};

/* The bit of a node that a port changes. */
static const uint8_t steps[PORTS] = {1, 2, 4, 8, 16, 32, 64, 128, 0, 0, 128, 64, 32, 16, 8, 4, 2, 1};

static inline unsigned fold_mask(const uint8_t *table) {
    return table[MAZE_WIDE_FOLD_AT];
}

static inline unsigned step(unsigned port) {
    return steps[port];
}

/* The ports of some axes, partners too. */
static inline unsigned ports_of(unsigned axes, unsigned fold) {
    return axes | (unsigned)reversed[axes & fold] << 10;
}

/* The axes of some ports. */
static inline unsigned axes_of(unsigned ports) {
    return (ports & 255) | reversed[ports >> 10 & 255];
}
#else
static inline unsigned fold_mask(const uint8_t *table) {
    (void)table;
    return 0;
}

static inline unsigned step(unsigned port) {
    return 1u << port;
}

static inline unsigned ports_of(unsigned axes, unsigned fold) {
    (void)fold;
    return axes;
}

static inline unsigned axes_of(unsigned ports) {
    return ports;
}
#endif

static inline uint64_t word(const uint8_t *bytes) {
    uint64_t word;
    memcpy(&word, bytes, sizeof word);
    return word;
}

/* Two versions of what looks at rows: with vector instructions (SSE2, which every x86-64 has) where baseline_sse.c asks for them, and portable. */
#ifdef BASELINE_SSE
#include <emmintrin.h>

static inline __m128i row_vector(const uint8_t *row) {
    return _mm_loadu_si128((const __m128i *)row);
}

static inline __m128i any_of_64(const uint8_t *bytes) {
    return _mm_or_si128(_mm_or_si128(row_vector(bytes), row_vector(bytes + 16)), _mm_or_si128(row_vector(bytes + 32), row_vector(bytes + 48)));
}

static inline __m128i any_of_144(const uint8_t *bytes) {
    return _mm_or_si128(_mm_or_si128(any_of_64(bytes), any_of_64(bytes + 64)), row_vector(bytes + 128));
}

static inline __m128i any_of_256(const uint8_t *bytes) {
    return _mm_or_si128(_mm_or_si128(any_of_64(bytes), any_of_64(bytes + 64)), _mm_or_si128(any_of_64(bytes + 128), any_of_64(bytes + 192)));
}

static inline __m128i any_of_576(const uint8_t *bytes) {
    return _mm_or_si128(_mm_or_si128(any_of_256(bytes), any_of_256(bytes + 256)), any_of_64(bytes + 512));
}

static inline int none(__m128i any) {
    return _mm_movemask_epi8(_mm_cmpeq_epi8(any, _mm_setzero_si128())) == 0xffff;
}

/* The slots of a row of 8 that have this entry, as a mask. */
static inline unsigned eight_held_by(const uint8_t *row, unsigned circuit) {
    __m128i same = _mm_cmpeq_epi16(row_vector(row), _mm_set1_epi16((short)circuit));
    return (unsigned)_mm_movemask_epi8(_mm_packs_epi16(same, _mm_setzero_si128()));
}

/* A row whose circuits have numbers that are larger by this. */
static inline void put_moved_row(uint8_t *to, const uint8_t *row, unsigned more) {
    __m128i circuits = row_vector(row), none = _mm_cmpeq_epi16(circuits, _mm_setzero_si128());
    _mm_storeu_si128((__m128i *)to, _mm_add_epi16(circuits, _mm_andnot_si128(none, _mm_set1_epi16((short)more))));
}

#else
/* No early exit, so that it is one chain of `or`s. */
static inline uint64_t any_of_64(const uint8_t *bytes) {
    uint64_t any = word(bytes) | word(bytes + 8) | word(bytes + 16) | word(bytes + 24);
    return any | word(bytes + 32) | word(bytes + 40) | word(bytes + 48) | word(bytes + 56);
}

static inline uint64_t any_of_144(const uint8_t *bytes) {
    return any_of_64(bytes) | any_of_64(bytes + 64) | word(bytes + 128) | word(bytes + 136);
}

static inline uint64_t any_of_256(const uint8_t *bytes) {
    return any_of_64(bytes) | any_of_64(bytes + 64) | any_of_64(bytes + 128) | any_of_64(bytes + 192);
}

static inline uint64_t any_of_576(const uint8_t *bytes) {
    return any_of_256(bytes) | any_of_256(bytes + 256) | any_of_64(bytes + 512);
}

static inline int none(uint64_t any) {
    return any == 0;
}

/* Half a row: four entries in one number. */
static inline uint64_t four_entries(const uint8_t *bytes) {
    uint64_t low = bytes[0] | (uint64_t)bytes[1] << 8 | (uint64_t)bytes[2] << 16 | (uint64_t)bytes[3] << 24;
    return low | (uint64_t)bytes[4] << 32 | (uint64_t)bytes[5] << 40 | (uint64_t)bytes[6] << 48 | (uint64_t)bytes[7] << 56;
}

/* Which of four entries are zero, as a mask of four bits: adding reaches the highest bit of each that is not, and the product brings the four
 * highest bits together. */
static inline unsigned zeros(uint64_t four) {
    const uint64_t low = 0x7fff7fff7fff7fffu;
    uint64_t highest = ~(((four & low) + low) | four | low);
    return (unsigned)((highest >> 15) * 0x0001000200040008u >> 48) & 15;
}

static inline unsigned eight_held_by(const uint8_t *row, unsigned circuit) {
    uint64_t same = circuit * (uint64_t)0x0001000100010001u;
    return zeros(four_entries(row) ^ same) | zeros(four_entries(row + 8) ^ same) << 4;
}

static inline void put_four(uint8_t *bytes, uint64_t four) {
    bytes[0] = (uint8_t)four, bytes[1] = (uint8_t)(four >> 8), bytes[2] = (uint8_t)(four >> 16), bytes[3] = (uint8_t)(four >> 24);
    bytes[4] = (uint8_t)(four >> 32), bytes[5] = (uint8_t)(four >> 40), bytes[6] = (uint8_t)(four >> 48), bytes[7] = (uint8_t)(four >> 56);
}

/* A row whose circuits have numbers that are larger by this: both numbers are 2,048 at most, so no sum reaches the next entry. */
static inline void put_moved_row(uint8_t *to, const uint8_t *row, unsigned more) {
    for (unsigned half = 0; half < RECEIVES_BYTES; half += 8) {
        const uint64_t low = 0x7fff7fff7fff7fffu;
        uint64_t four = four_entries(row + half), some = (((four & low) + low) | four) & ~low;
        put_four(to + half, four + (some >> 15) * more);
    }
}

#endif

/* The links of a node that a circuit holds, as a mask. */
static inline unsigned held_by(const uint8_t *table, unsigned node, unsigned circuit) {
    const uint8_t *row = links(table, node);
    unsigned mask = eight_held_by(row, circuit);
    if (PORTS == 18) {
        mask |= eight_held_by(row + LINKS_BYTES - 20, circuit) << 8;
        mask |= (unsigned)(entry(row, PORTS - 2) == circuit) << (PORTS - 2) | (unsigned)(entry(row, PORTS - 1) == circuit) << (PORTS - 1);
    }
    return mask;
}

static inline unsigned held(const uint8_t *table, unsigned node) {
    return held_by(table, node, 0) ^ ((1u << PORTS) - 1);
}

/* The receive channels of a node that are held. */
static inline unsigned received(const uint8_t *table, unsigned node) {
    return eight_held_by(receives(table, node), 0) ^ 255;
}

/* The lowest port of some towards the target whose link the circuit holds: PORTS if there is none. */
static inline unsigned uphill_port(const uint8_t *table, unsigned node, unsigned uphill, unsigned circuit) {
#if defined BASELINE_SSE && !defined BASELINE_WIDE
    return lowest((eight_held_by(links(table, node), circuit) & uphill) | 1u << PORTS);
#else
    for (; uphill; uphill &= uphill - 1)
        if (entry(links(table, node), lowest(uphill)) == circuit) return lowest(uphill);
    return PORTS;
#endif
}

/* The first hop of a circuit that holds the links `ports` of its source, at least one. */
static inline unsigned first_hop(const uint8_t *table, unsigned source, unsigned circuit, unsigned ports) {
    unsigned port = lowest(ports);
    ports &= ports - 1;
    if (!ports) return port;
#ifdef BASELINE_WIDE
    if (!(axes_of(held_by(table, source ^ step(port), circuit)) & step(port))) port = lowest(ports);
#else
    if (entry(links(table, source ^ step(port)), port) != circuit) port = lowest(ports);
#endif
    return port;
}

/* The number of hops by which a circuit comes from its source to the target, along links that it holds; 0 if it does not, or was walked before: the links that it holds
 * at its source are marked, and no other circuit holds one of them. */
static unsigned walk(const uint8_t *table, unsigned circuit, unsigned target, ports_mask *walked) {
    unsigned node = (circuit - 1) / 8, hops = 1, port;
    unsigned ports = held_by(table, node, circuit);
    if (!ports || (walked[node] & ports)) return 0;
    walked[node] |= (ports_mask)ports;
    port = first_hop(table, node, circuit, ports);
    for (node ^= step(port); node != target; node ^= step(port), hops++) {
        port = uphill_port(table, node, ports_of(node ^ target, fold_mask(table)), circuit);
        if (port == PORTS) return 0;
    }
    return hops;
}

/* Rows looked at together: those of 16 nodes, and where these hold something, of 4 at a time. */
enum { GROUP = 16, PART = 4 };

static inline int no_links(const uint8_t *table, unsigned group) {
    return none(PORTS == 8 ? any_of_256(links(table, group)) : any_of_576(links(table, group)));
}

static inline int no_receives(const uint8_t *table, unsigned group) {
    return none(any_of_256(receives(table, group)));
}

/* The first part, from one on, that has a held link, or a held receive channel; `nodes` or more where there is none. */
static inline unsigned links_from(const uint8_t *table, unsigned part, unsigned nodes) {
    for (; part < nodes; part += PART) {
        for (; part % GROUP == 0 && part < nodes && no_links(table, part); part += GROUP) {}
        if (part >= nodes || !none(PORTS == 8 ? any_of_64(links(table, part)) : any_of_144(links(table, part)))) return part;
    }
    return part;
}

static inline unsigned receives_from(const uint8_t *table, unsigned part, unsigned nodes) {
    for (; part < nodes; part += PART) {
        for (; part % GROUP == 0 && part < nodes && no_receives(table, part); part += GROUP) {}
        if (part >= nodes || !none(any_of_64(receives(table, part)))) return part;
    }
    return part;
}

/* How many circuits are open, and how many hops they have in all. */
struct size {
    unsigned circuits, hops;
};

/* No circuit is received twice, and from each receive entry's source a permitted path along links of its circuit ends there. Such paths have no
 * link in common and none twice, so no other link is held exactly if as many are held as were walked. */
static int sound(const uint8_t *table, unsigned dimension, struct size *size) {
    unsigned nodes = 1u << dimension, ports = ports_of(nodes - 1, fold_mask(table)), held_links = 0, circuits = 0, hops = 0;
    ports_mask walked[MAZE_NODES];
    if (fold_mask(table) >> dimension) return 0;
    if (dimension < PORTS) { /* the masks of eight nodes are MASK_BYTES words */
        uint8_t absent_ports[8 * MASK_BYTES], absent_nodes[8];
        uint64_t some = 0;
        for (unsigned node = 0; node < 8; node++) {
            for (unsigned i = 0; i < MASK_BYTES; i++) absent_ports[MASK_BYTES * node + i] = (uint8_t)(node < nodes ? ~ports >> 8 * i : 255);
            absent_nodes[node] = (uint8_t)(node < nodes ? 0 : 255);
        }
        for (unsigned node = 0; node < nodes; node += 8)
            for (unsigned i = 0; i < 8 * MASK_BYTES; i += 8) some |= word(table + ENABLED_AT + MASK_BYTES * node + i) & word(absent_ports + i);
        some |= word(table + ARMED_AT) & word(absent_nodes);
        for (unsigned node = nodes < 8 ? 8 : nodes; node < MAZE_NODES; node += 8) {
            some |= word(table + ARMED_AT + node);
            for (unsigned i = 0; i < 8 * MASK_BYTES; i += 8) some |= word(table + ENABLED_AT + MASK_BYTES * node + i);
        }
        if (some) return 0;
    }
    for (unsigned node = nodes; node < GROUP; node++) /* fewer nodes than a group has: the rest of it */
        if (held(table, node) | received(table, node)) return 0;
    for (unsigned group = nodes < GROUP ? GROUP : nodes; group < MAZE_NODES; group += GROUP)
        if (!no_links(table, group) || !no_receives(table, group)) return 0;

    for (unsigned part = links_from(table, 0, nodes); part < nodes; part = links_from(table, part + PART, nodes)) {
        for (unsigned node = part; node < part + PART; node++) { /* a part may end in absent nodes: these are zero */
            unsigned mask = held(table, node);
            if (mask & ~enabled(table, node)) return 0; /* absent ports are not enabled */
            held_links += count_of(mask);
        }
    }
    if (held_links) memset(walked, 0, sizeof walked);
    for (unsigned part = receives_from(table, 0, nodes); part < nodes; part = receives_from(table, part + PART, nodes)) {
        for (unsigned node = part; node < part + PART; node++) {
            const uint8_t *row = receives(table, node);
            unsigned mask = received(table, node);
            if (mask & ~(unsigned)table[ARMED_AT + node]) return 0;
            for (; mask; mask &= mask - 1) {
                unsigned circuit = entry(row, lowest(mask)), length;
                if (!held_links || circuit > 8 * nodes) return 0;
                length = walk(table, circuit, node, walked);
                if (!length) return 0;
                hops += length;
                circuits++;
            }
        }
    }
    size->circuits = circuits;
    size->hops = hops;
    return hops == held_links;
}

/* Tests 1 to 3, with the size of the table's book. */
static uint16_t refuse_counted(const uint8_t *table, size_t table_len, struct size *size) {
    if (table_len != BYTES) return MAZE_BAD_LENGTH;
    if (table[0] < 1 || table[0] > MAZE_DIMENSION_LARGEST) return MAZE_BAD_DIMENSION;
    if (!sound(table, table[0], size)) return MAZE_NOT_SOUND;
    return MAZE_ACCEPTED;
}

static uint16_t refuse_table(const uint8_t *table, size_t table_len) {
    struct size size;
    return refuse_counted(table, table_len, &size);
}

uint16_t base_make(uint8_t *table, size_t table_len, uint16_t dimension) {
    if (table_len != BYTES) return MAZE_BAD_LENGTH;
    if (dimension < 1 || dimension > MAZE_DIMENSION_LARGEST) return MAZE_BAD_DIMENSION;
    table[0] = (uint8_t)dimension;
#ifdef BASELINE_WIDE
    memset(table + 1, 0, BYTES - 1);
    for (unsigned node = 0; node < 1u << dimension; node++) table[ENABLED_AT + MASK_BYTES * node] = (uint8_t)((1u << dimension) - 1);
#else
    memset(table + ENABLED_AT, (1 << dimension) - 1, (size_t)1 << dimension);
    memset(table + ENABLED_AT + (1u << dimension), 0, BYTES - ENABLED_AT - ((size_t)1 << dimension));
#endif
    return MAZE_ACCEPTED;
}

/* Tests 1 to 6 of a call on one link. */
static uint16_t refuse_link(const uint8_t *table, size_t table_len, unsigned node, unsigned port) {
    uint16_t number = refuse_table(table, table_len);
    if (number) return number;
    if (node >> table[0]) return MAZE_BAD_NODE;
    if (port >= PORTS || !(ports_of((1u << table[0]) - 1, fold_mask(table)) >> port & 1)) return MAZE_BAD_PORT;
    return MAZE_ACCEPTED;
}

uint16_t base_block(uint8_t *table, size_t table_len, uint16_t node, uint16_t port) {
    uint16_t number = refuse_link(table, table_len, node, port);
    if (number) return number;
    if (entry(links(table, node), port)) return MAZE_LINK_HELD;
    set_enabled(table, node, enabled(table, node) & ~(1u << port));
    return MAZE_ACCEPTED;
}

uint16_t base_unblock(uint8_t *table, size_t table_len, uint16_t node, uint16_t port) {
    uint16_t number = refuse_link(table, table_len, node, port);
    if (number) return number;
    set_enabled(table, node, enabled(table, node) | 1u << port);
    return MAZE_ACCEPTED;
}

/* Tests 1 to 5 of a call on one channel. */
static uint16_t refuse_channel(const uint8_t *table, size_t table_len, unsigned node, unsigned channel) {
    uint16_t number = refuse_table(table, table_len);
    if (number) return number;
    if (node >> table[0]) return MAZE_BAD_NODE;
    if (channel >= MAZE_CHANNELS) return MAZE_BAD_CHANNEL;
    return MAZE_ACCEPTED;
}

uint16_t base_arm(uint8_t *table, size_t table_len, uint16_t node, uint16_t channel) {
    uint16_t number = refuse_channel(table, table_len, node, channel);
    if (number) return number;
    table[ARMED_AT + node] |= (uint8_t)(1u << channel);
    return MAZE_ACCEPTED;
}

uint16_t base_disarm(uint8_t *table, size_t table_len, uint16_t node, uint16_t channel) {
    uint16_t number = refuse_channel(table, table_len, node, channel);
    if (number) return number;
    if (entry(receives(table, node), channel)) return MAZE_CHANNEL_HELD;
    table[ARMED_AT + node] &= (uint8_t)~(1u << channel);
    return MAZE_ACCEPTED;
}

/* The hops of a path: their nodes and ports, and the node where they end. */
struct path {
    uint8_t node[MAZE_HOPS_LARGEST + 1];
    uint8_t port[MAZE_HOPS_LARGEST];
};

struct search {
    uint8_t *table;
    unsigned target, circuit, hops, fold;
    uint32_t scouts;
    uint16_t found; /* what the arrival at the target answers: 0, or 11 */
};

/* Tries the ports of `vector`, enabled ones, of a node that a scout reached on port `arrival`: those above it first, then the others. Each
 * free link is held while the scout is behind it, and stays so if the search is accepted. */
static uint16_t try_ports(struct search *search, unsigned node, unsigned vector, unsigned arrival) {
    uint8_t *row = search->table + LINKS_AT + LINKS_BYTES * node;
    unsigned later = vector & ((2u << arrival) - 1), now = vector ^ later;
    for (;; now = later, later = 0) {
        for (; now; now &= now - 1) {
            unsigned port = lowest(now), next = node ^ step(port);
            uint16_t number;
            if (entry(row, port)) continue;
            search->scouts++;
            set_entry(row, port, search->circuit);
            if (next == search->target) number = search->found;
            else {
                unsigned on = ports_of(next ^ search->target, search->fold) & enabled(search->table, next);
                number = on ? try_ports(search, next, on, port) : MAZE_ROUTE_REJECTED; /* a node with nothing enabled towards the target asks for no call */
            }
            if (number == MAZE_ACCEPTED) {
                search->hops++;
                return number;
            }
            set_entry(row, port, 0);
            if (number == MAZE_RECEIVE_REJECTED) return number;
        }
        if (!later) return MAZE_ROUTE_REJECTED;
    }
}

/* Follows a port, and then at each node the first port towards the target above the one arrived on, or else the lowest, as long as the links are
 * free. Answers the hops of the path, 0 if it is not free; the scouts grow by its free hops. */
static unsigned helix(const uint8_t *table, unsigned node, unsigned port, unsigned target, struct path *path, uint32_t *scouts) {
    for (unsigned hops = 0;; hops++) {
        unsigned towards, above;
        if (!(enabled(table, node) >> port & 1) || entry(links(table, node), port)) return 0;
        ++*scouts;
        path->node[hops] = (uint8_t)node;
        path->port[hops] = (uint8_t)port;
        node ^= step(port);
        if (node == target) return hops + 1;
        towards = ports_of(node ^ target, fold_mask(table));
        above = towards & ~((2u << port) - 1);
        port = lowest(above ? above : towards);
    }
}

/* Tries the path of each port of `vector`, from the lowest up, and holds the links of the first that is free. */
static uint16_t try_paths(struct search *search, unsigned node, unsigned vector) {
    struct path path;
    for (; vector; vector &= vector - 1) {
        search->hops = helix(search->table, node, lowest(vector), search->target, &path, &search->scouts);
        if (!search->hops) continue;
        if (search->found == MAZE_ACCEPTED)
            for (unsigned i = 0; i < search->hops; i++) set_entry(search->table + LINKS_AT + LINKS_BYTES * path.node[i], path.port[i], search->circuit);
        return search->found;
    }
    return MAZE_ROUTE_REJECTED;
}

/* Whether a path over enabled links, held or not, goes from a node by a port of `vector` and then towards the target. One sweep over the nodes that
 * may lie on such a path, in rising order of how they differ from the target: a node has a way on if a port towards the target leads to one that has. Which of two links
 * of an axis is enabled does not matter. */
static int enabled_way(const uint8_t *table, unsigned node, unsigned target, unsigned vector) {
    unsigned axes, differs = 0, first = axes_of(vector & enabled(table, node));
    uint8_t way[MAZE_NODES];
    if (!first) return 0;
    axes = (node ^ target) | first;
    way[0] = 1;
    while ((differs = (differs - axes) & axes) != 0) {
        unsigned on = differs & axes_of(enabled(table, differs ^ target));
        way[differs] = 0;
        for (; on && !way[differs]; on &= on - 1) way[differs] = way[differs ^ (on & (0u - on))];
    }
    for (; first; first &= first - 1)
        if (way[node ^ target ^ (first & (0u - first))]) return 1;
    return 0;
}

/* Whether the helix path of a port has enabled links alone, held or not. */
static int enabled_helix(const uint8_t *table, unsigned node, unsigned port, unsigned target) {
    while (enabled(table, node) >> port & 1) {
        unsigned towards = ports_of((node ^= step(port)) ^ target, fold_mask(table)), above = towards & ~((2u << port) - 1);
        if (!towards) return 1;
        port = lowest(above ? above : towards);
    }
    return 0;
}

static int any_enabled_helix(const uint8_t *table, unsigned node, unsigned vector, unsigned target) {
    for (; vector; vector &= vector - 1)
        if (enabled_helix(table, node, lowest(vector), target)) return 1;
    return 0;
}

/* Whether the closing of circuits may help a send that was route rejected; `vector` has its partners. */
static int may_help(const uint8_t *table, unsigned node, unsigned target, unsigned type, unsigned vector) {
    switch (type) {
    case MAZE_TYPE_HELIX: return any_enabled_helix(table, node, vector, target);
    case MAZE_TYPE_FIXED: return enabled_helix(table, node, lowest(vector), target);
    case MAZE_TYPE_MAZE: return enabled_way(table, node, target, vector);
    default: return enabled_way(table, node, target, ~0u); /* the two passes together have every port */
    }
}

/* An open on a table that passed its tests. */
static maze_opened open_sound(uint8_t *table, unsigned node, unsigned channel, unsigned target, unsigned type, unsigned vector) {
    maze_opened answer = {0, 0, 0, 0};
    struct search search;
    uint8_t *receive_row;
    unsigned ports, available, others;

    ports = (1u << table[0]) - 1;
    if ((node | target) & ~ports) answer.number = MAZE_BAD_NODE;
    else if (channel >= MAZE_CHANNELS) answer.number = MAZE_BAD_CHANNEL;
    else if (type > MAZE_TYPE_ALTERNATE_MAZE || type == 2) answer.number = MAZE_BAD_ROUTING_TYPE;
    else if (vector == 0 || vector & ~ports) answer.number = MAZE_BAD_SEND_VECTOR;
    else if (held_by(table, node, MAZE_CIRCUIT(node, channel))) answer.number = MAZE_CHANNEL_IN_USE;
    if (answer.number) return answer;

    receive_row = table + RECEIVES_AT + RECEIVES_BYTES * target;
    available = table[ARMED_AT + target] & ~received(table, target);
    search.table = table;
    search.target = target;
    search.circuit = MAZE_CIRCUIT(node, channel);
    search.hops = 0;
    search.scouts = 0;
    search.fold = fold_mask(table);
    search.found = available ? MAZE_ACCEPTED : MAZE_RECEIVE_REJECTED;
    others = ports_of(ports & ~vector, search.fold);
    vector = ports_of(vector, search.fold);
    if (type == MAZE_TYPE_HELIX) answer.number = try_paths(&search, node, vector);
    else if (type == MAZE_TYPE_FIXED) answer.number = try_paths(&search, node, vector & (0u - vector));
    else answer.number = try_ports(&search, node, vector & enabled(table, node), PORTS - 1);
    if (answer.number == MAZE_ROUTE_REJECTED && type == MAZE_TYPE_ALTERNATE_MAZE)
        answer.number = try_ports(&search, node, others & enabled(table, node), PORTS - 1);
    answer.scouts = search.scouts;
    if (answer.number == MAZE_ROUTE_REJECTED && !may_help(table, node, target, type, vector)) answer.number = MAZE_NO_ROUTE;
    if (answer.number == MAZE_ACCEPTED) {
        answer.hops = (uint16_t)search.hops;
        answer.receive = (uint16_t)lowest(available);
        set_entry(receive_row, answer.receive, search.circuit);
    }
    return answer;
}

maze_opened base_open(uint8_t *table, size_t table_len, uint16_t node, uint16_t channel, uint16_t target, uint16_t type, uint16_t vector) {
    maze_opened answer = {0, 0, 0, 0};
    answer.number = refuse_table(table, table_len);
    return answer.number ? answer : open_sound(table, node, channel, target, type, vector);
}

/* The table is tested once, kept, and copied back where a send is refused: one that is refused leaves every byte itself, so a single send asks for no copy. */
maze_opened_all base_open_all(uint8_t *table, size_t table_len, const uint8_t *sends, size_t sends_len) {
    maze_opened_all answer = {0, 0};
    uint8_t kept[BYTES];
    int several;
    answer.number = refuse_table(table, table_len);
    if (answer.number) return answer;
    if (sends_len % MAZE_SEND_BYTES || sends_len > MAZE_SENDS_LARGEST * MAZE_SEND_BYTES) {
        answer.number = MAZE_BAD_SEND_LIST;
        return answer;
    }
    several = sends_len > MAZE_SEND_BYTES;
    if (several) memcpy(kept, table, sizeof kept);
    for (; sends_len; sends_len -= MAZE_SEND_BYTES, sends += MAZE_SEND_BYTES, answer.sends++) {
        answer.number = open_sound(table, entry(sends, 0), entry(sends, 1), entry(sends, 2), entry(sends, 3), entry(sends, 4)).number;
        if (answer.number) {
            if (several) memcpy(table, kept, sizeof kept);
            return answer;
        }
    }
    return answer;
}

/* The hops of a circuit of a sound table. Answers their number, 0 if the circuit is not open. */
static unsigned follow(const uint8_t *table, unsigned source, unsigned circuit, struct path *path) {
    unsigned node = source, hops = 0, ports = held_by(table, source, circuit), first;
    if (!ports) return 0;
    first = first_hop(table, source, circuit, ports);
    ports = 1u << first;
    do {
        unsigned port = lowest(ports);
        path->node[hops] = (uint8_t)node;
        path->port[hops++] = (uint8_t)port;
        node ^= step(port);
        ports = held_by(table, node, circuit);
        if (node == source) ports &= ~(1u << first);
    } while (ports);
    path->node[hops] = (uint8_t)node;
    return hops;
}

/* Tests 1 to 12 of a call on an open circuit, and its path. */
static uint16_t refuse_circuit(const uint8_t *table, size_t table_len, unsigned node, unsigned channel, struct path *path, unsigned *hops) {
    uint16_t number = refuse_channel(table, table_len, node, channel);
    if (number) return number;
    *hops = follow(table, node, MAZE_CIRCUIT(node, channel), path);
    if (!*hops) return MAZE_NO_CIRCUIT;
    return MAZE_ACCEPTED;
}

uint16_t base_close(uint8_t *table, size_t table_len, uint16_t node, uint16_t channel) {
    struct path path;
    unsigned hops, target, receive;
    uint16_t number = refuse_circuit(table, table_len, node, channel, &path, &hops);
    if (number) return number;
    for (unsigned i = 0; i < hops; i++) set_entry(table + LINKS_AT + LINKS_BYTES * path.node[i], path.port[i], 0);
    target = path.node[hops];
    receive = lowest(eight_held_by(receives(table, target), MAZE_CIRCUIT(node, channel)));
    set_entry(table + RECEIVES_AT + RECEIVES_BYTES * target, receive, 0);
    table[ARMED_AT + target] &= (uint8_t)~(1u << receive);
    return MAZE_ACCEPTED;
}

maze_traced base_trace(const uint8_t *table, size_t table_len, uint16_t node, uint16_t channel, uint8_t *buffer, size_t buffer_len) {
    maze_traced answer = {0, 0};
    struct path path;
    unsigned hops;
    answer.number = refuse_circuit(table, table_len, node, channel, &path, &hops);
    if (answer.number) return answer;
    if (buffer_len < MAZE_TRACE_BYTES) {
        answer.number = MAZE_BUFFER_SHORT;
        return answer;
    }
    memcpy(buffer, path.port, hops);
    answer.hops = (uint16_t)hops;
    return answer;
}

/* The test of the table has counted circuits and hops. The circuits of a source are those of its own numbers that hold one of its links. */
maze_booked base_book(const uint8_t *table, size_t table_len, uint8_t *ports, size_t ports_len, uint8_t *index, size_t index_len) {
    maze_booked answer = {0, 0, 0};
    unsigned nodes, hops = 0;
    struct size size;
    answer.number = refuse_counted(table, table_len, &size);
    if (answer.number) return answer;
    nodes = 1u << table[0];
    if (size.hops > ports_len || MAZE_BOOK_LINE_BYTES * size.circuits > index_len) {
        answer.number = MAZE_BOOK_SHORT;
        return answer;
    }
    answer.circuits = (uint16_t)size.circuits;
    answer.hops = (uint16_t)size.hops;
    for (unsigned part = links_from(table, 0, nodes); part < nodes; part = links_from(table, part + PART, nodes)) {
        for (unsigned node = part; node < part + PART; node++) {
            const uint8_t *row = links(table, node);
            unsigned channels = 0;
            for (unsigned mask = held(table, node); mask; mask &= mask - 1) {
                unsigned circuit = entry(row, lowest(mask)) - 1;
                if (circuit / MAZE_CHANNELS == node) channels |= 1u << circuit % MAZE_CHANNELS;
            }
            for (; channels; channels &= channels - 1) {
                unsigned circuit = MAZE_CIRCUIT(node, lowest(channels));
                struct path path;
                unsigned length = follow(table, node, circuit, &path);
                for (unsigned i = 0; i < length; i++) ports[hops + i] = path.port[i];
                set_entry(index, 0, circuit);
                set_entry(index, 1, hops);
                set_entry(index, 2, length);
                index += MAZE_BOOK_LINE_BYTES;
                hops += length;
            }
        }
    }
    return answer;
}

/* Whether two buffers and two counts make a book. One pass over the index, as in a lookup. */
static int well_formed(size_t ports_len, const uint8_t *index, size_t index_len, unsigned circuits, unsigned hops) {
    unsigned above = 0, at = 0, bad = 0;
    if (circuits > MAZE_CIRCUITS_LARGEST || MAZE_BOOK_LINE_BYTES * (size_t)circuits > index_len || hops > ports_len) return 0;
    for (unsigned i = 0; i < circuits; i++, index += MAZE_BOOK_LINE_BYTES) {
        unsigned number = entry(index, 0), length = entry(index, 2);
        bad |= (number <= above) | (entry(index, 1) != at) | (length - 1 >= MAZE_HOPS_LARGEST);
        above = number;
        at += length;
    }
    return !bad && above <= MAZE_CIRCUITS_LARGEST && at == hops;
}

/* One pass over the circuits of the book: the first bad one is the answer, as 26 comes before what the links and the targets come to. Behind the first hop each axis
 * is walked at most once, and then the path is permitted. */
uint16_t base_judge(const uint8_t *table, size_t table_len, const uint8_t *ports, size_t ports_len, const uint8_t *index, size_t index_len, uint16_t circuits,
                    uint16_t hops) {
    uint16_t number = refuse_table(table, table_len);
    unsigned bad_link = 0, too_few = 0, there;
    ports_mask used[MAZE_NODES];
    uint8_t ends[MAZE_NODES];
    if (number) return number;
    there = ports_of((1u << table[0]) - 1, fold_mask(table));
    if (!well_formed(ports_len, index, index_len, circuits, hops)) return MAZE_BAD_BOOK;
    memset(used, 0, sizeof used);
    memset(ends, 0, sizeof ends);
    for (unsigned i = 0; i < circuits; i++, index += MAZE_BOOK_LINE_BYTES) {
        unsigned circuit = entry(index, 0), length = entry(index, 2), node = (circuit - 1) / MAZE_CHANNELS, walked = 0;
        if (node >> table[0] || held_by(table, node, circuit)) return MAZE_BAD_BOOK_CIRCUIT;
        for (unsigned hop = 0; hop < length; hop++) {
            unsigned port = *ports++, bit;
            if (port >= PORTS || !(there >> port & 1)) return MAZE_BAD_BOOK_CIRCUIT;
            bit = 1u << port;
            if (hop) {
                if (walked & step(port)) return MAZE_BAD_BOOK_CIRCUIT;
                walked |= step(port);
            }
            bad_link |= (~enabled(table, node) | used[node]) & bit;
            bad_link |= entry(links(table, node), port);
            used[node] |= (ports_mask)bit;
            node ^= step(port);
        }
        too_few |= ends[node]++ >= counts[table[ARMED_AT + node] & ~received(table, node)];
    }
    return bad_link ? MAZE_BAD_BOOK_LINK : too_few ? MAZE_RECEIVE_REJECTED : MAZE_ACCEPTED;
}

#ifdef BASELINE_WIDE
/* A dimension that loses its partner links must have none of them held; those of one that keeps its bit stay as they are. */
uint16_t base_wide_fold(uint8_t *table, size_t table_len, uint16_t mask) {
    uint16_t number = refuse_table(table, table_len);
    unsigned nodes, lost, gained;
    if (number) return number;
    if (mask >> table[0]) return MAZE_BAD_PORT;
    nodes = 1u << table[0];
    lost = ports_of(fold_mask(table) & ~(unsigned)mask, 255) & ~255u;
    gained = ports_of(mask & ~fold_mask(table), 255) & ~255u;
    if (lost)
        for (unsigned part = links_from(table, 0, nodes); part < nodes; part = links_from(table, part + PART, nodes))
            for (unsigned node = part; node < part + PART; node++)
                if (held(table, node) & lost) return MAZE_LINK_HELD;
    for (unsigned node = 0; node < nodes; node++) set_enabled(table, node, (enabled(table, node) & ~lost) | gained);
    table[MAZE_WIDE_FOLD_AT] = (uint8_t)mask;
    return MAZE_ACCEPTED;
}

/* Of a sound table all that a narrow one lacks is zero where the fold mask is. */
uint16_t base_narrow(const uint8_t *wide, size_t wide_len, uint8_t *narrow, size_t narrow_len) {
    uint16_t number = refuse_table(wide, wide_len);
    if (number) return number;
    if (narrow_len != MAZE_TABLE_BYTES) return MAZE_BAD_LENGTH;
    if (wide[MAZE_WIDE_FOLD_AT]) return MAZE_FOLDED;
    narrow[0] = wide[0];
    for (unsigned node = 0; node < MAZE_NODES; node++) narrow[MAZE_ENABLED_AT + node] = wide[ENABLED_AT + MASK_BYTES * node];
    for (unsigned node = 0; node < MAZE_NODES; node++) memcpy(narrow + MAZE_LINKS_AT + 2 * MAZE_PORTS * node, links(wide, node), 2 * MAZE_PORTS);
    memcpy(narrow + MAZE_RECEIVES_AT, wide + RECEIVES_AT, RECEIVES_BYTES * MAZE_NODES);
    memcpy(narrow + MAZE_ARMED_AT, wide + ARMED_AT, MAZE_NODES);
    return MAZE_ACCEPTED;
}
#else
uint16_t base_widen(const uint8_t *narrow, size_t narrow_len, uint8_t *wide, size_t wide_len) {
    uint16_t number = refuse_table(narrow, narrow_len);
    if (number) return number;
    if (wide_len != MAZE_WIDE_TABLE_BYTES) return MAZE_BAD_LENGTH;
    memset(wide, 0, MAZE_WIDE_RECEIVES_AT);
    wide[0] = narrow[0];
    for (unsigned node = 0; node < MAZE_NODES; node++) wide[MAZE_WIDE_ENABLED_AT + MAZE_WIDE_MASK_BYTES * node] = narrow[ENABLED_AT + node];
    for (unsigned node = 0; node < MAZE_NODES; node++) memcpy(wide + MAZE_WIDE_LINKS_AT + 2 * MAZE_WIDE_PORTS * node, links(narrow, node), LINKS_BYTES);
    memcpy(wide + MAZE_WIDE_RECEIVES_AT, narrow + RECEIVES_AT, RECEIVES_BYTES * MAZE_NODES);
    memcpy(wide + MAZE_WIDE_ARMED_AT, narrow + ARMED_AT, MAZE_NODES);
    return MAZE_ACCEPTED;
}

/* One pass over the index, without an early exit: numbers that rise from 1 on are in range if the last is. */
maze_traced base_book_lookup(const uint8_t *ports, size_t ports_len, const uint8_t *index, size_t index_len, uint16_t circuits, uint16_t hops, uint16_t circuit,
                             uint8_t *buffer, size_t buffer_len) {
    maze_traced answer = {MAZE_BAD_BOOK, 0};
    unsigned above = 0, at = 0, bad = 0, offset = 0, length = 0;
    if (circuits > MAZE_CIRCUITS_LARGEST || MAZE_BOOK_LINE_BYTES * (size_t)circuits > index_len || hops > ports_len) return answer;
    for (unsigned i = 0; i < circuits; i++, index += MAZE_BOOK_LINE_BYTES) {
        unsigned number = entry(index, 0), hops_here = entry(index, 2);
        bad |= (number <= above) | (entry(index, 1) != at) | (hops_here - 1 >= MAZE_HOPS_LARGEST);
        if (number == circuit) offset = at, length = hops_here;
        above = number;
        at += hops_here;
    }
    if (bad || above > MAZE_CIRCUITS_LARGEST || at != hops) return answer;
    answer.number = !length ? MAZE_NO_CIRCUIT : buffer_len < MAZE_TRACE_BYTES ? MAZE_BUFFER_SHORT : MAZE_ACCEPTED;
    if (answer.number) return answer;
    memcpy(buffer, ports + offset, length);
    answer.hops = (uint16_t)length;
    return answer;
}

/* The rows of the second half behind those of the first, with the new numbers of its circuits. */
static void put_rows(uint8_t *part, const uint8_t *second, unsigned nodes) {
    for (unsigned node = 0; node < nodes; node++) put_moved_row(part + LINKS_BYTES * (nodes + node), second + LINKS_BYTES * node, MAZE_CHANNELS * nodes);
}

/* A sound table is zero behind the nodes of its cube, so the first half is all that it is, and the second comes behind its nodes. */
uint16_t base_join(const uint8_t *first, size_t first_len, const uint8_t *second, size_t second_len, uint8_t *joined, size_t joined_len) {
    uint16_t number = refuse_table(first, first_len);
    unsigned nodes;
    if (!number) number = refuse_table(second, second_len);
    if (number) return number;
    if (joined_len != BYTES) return MAZE_BAD_LENGTH;
    if (first[0] != second[0] || first[0] == MAZE_DIMENSION_LARGEST) return MAZE_BAD_HALVES;
    nodes = 1u << first[0];
    memcpy(joined, first, BYTES);
    joined[0]++;
    memcpy(joined + ENABLED_AT + nodes, second + ENABLED_AT, nodes);
    for (unsigned node = 0; node < 2 * nodes; node++) joined[ENABLED_AT + node] |= (uint8_t)nodes; /* the bit of the new port */
    put_rows(joined + LINKS_AT, second + LINKS_AT, nodes);
    put_rows(joined + RECEIVES_AT, second + RECEIVES_AT, nodes);
    memcpy(joined + ARMED_AT + nodes, second + ARMED_AT, nodes);
    return MAZE_ACCEPTED;
}

/* How many numbers each command can carry; 0 where it is reserved. */
static const uint8_t carries[16] = {1, 1, 1, 0, 2, 1, 64, 64, 1, 2, 0, 0, 1, 1, 2, 0};

maze_word_read_answer base_word_read(uint16_t word) {
    maze_word_read_answer answer = {0, 0, 0};
    unsigned type = word / MAZE_WORD_TYPE_PLACE, command = word / MAZE_WORD_COMMAND_PLACE % 16;
    if (word > MAZE_WORD_LARGEST) answer.number = MAZE_WORD_TOO_LARGE;
    else if (type < 2) answer.number = MAZE_NOT_A_COMMAND;
    else if (type != 2 + command / 8) answer.number = MAZE_WRONG_TYPE;
    else if (!carries[command]) answer.number = MAZE_RESERVED_COMMAND;
    else {
        answer.command = (uint16_t)command;
        answer.carried = (uint16_t)(word & (carries[command] - 1u) & 63); /* the counts are powers of two */
    }
    return answer;
}

maze_word_written base_word_write(uint16_t command, uint16_t carried) {
    maze_word_written answer = {0, 0};
    if (command > 15 || !carries[command]) answer.number = MAZE_RESERVED_COMMAND;
    else if (carried >= carries[command]) answer.number = MAZE_CARRIED_TOO_LARGE;
    else answer.word = (uint16_t)((2 + command / 8) * MAZE_WORD_TYPE_PLACE + command * MAZE_WORD_COMMAND_PLACE + carried);
    return answer;
}

/* The lowest request above the record, or else the lowest of all. */
maze_served base_arbitrate(maze_arbiter *arbiter, uint32_t requests) {
    maze_served answer = {0, 0};
    uint32_t above;
    if (requests >> MAZE_REQUESTERS || arbiter->last >= MAZE_REQUESTERS) {
        answer.number = MAZE_BAD_REQUESTER;
        return answer;
    }
    if (!requests) {
        answer.requester = MAZE_REQUESTER_NOBODY;
        return answer;
    }
    above = requests >> (arbiter->last + 1) << (arbiter->last + 1);
    answer.requester = (uint16_t)__builtin_ctz(above ? above : requests);
    arbiter->last = answer.requester;
    return answer;
}

maze_receive_channel base_receive_start(uint32_t address, uint32_t count, uint16_t ignores) {
    maze_receive_channel channel = {address, count, 1, 0, ignores != 0};
    return channel;
}

maze_received base_receive_data(maze_receive_channel channel) {
    if (!channel.running) return (maze_received){channel, MAZE_CHANNEL_STOPPED};
    uint8_t overflow = channel.overflow || !channel.count;
    return (maze_received){{overflow ? channel.address : channel.address + 8, channel.count - 1, channel.running, overflow, channel.ignores}, MAZE_ACCEPTED};
}

maze_received base_receive_word(maze_receive_channel channel, uint16_t word) {
    maze_word_read_answer read = base_word_read(word);
    maze_received answer = {channel, read.number};
    if (read.number) return answer;
    if (!channel.running) answer.number = MAZE_CHANNEL_STOPPED;
    else if (read.command == MAZE_END_OF_TRANSMISSION || (read.command == MAZE_END_OF_MESSAGE && !channel.ignores)) answer.channel.running = 0;
    return answer;
}

uint32_t base_receive_overshoot(maze_receive_channel channel) {
    return channel.overflow ? 0u - channel.count : 0;
}
#endif
