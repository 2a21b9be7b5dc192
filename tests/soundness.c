/*
 * Sound tables: an independent reading of Soundness and of what it rests on,
 * Cube, Tables and Paths in docs/SPECIFICATION.md.
 *
 * The program lays circuits into tables of every dimension, changes each
 * table one bit at a time and one byte at a time, and counts how many of the
 * changed tables are accepted and how many are refused, and why.  The counts
 * printed by the proved program are compared with the counts printed here.
 *
 * Nothing here is shared with the library, nor with the check in reference.c:
 * what one of the two has wrong shows in the other's test.  A circuit is judged
 * by looking for a permitted path among all the paths that its own links allow,
 * by an exhaustive depth-first search.
 *
 * With -DWIDE the tables are wide, and some of them folded.  There is no proved
 * program for those, so with -DLIBRARY the same counts are those of the library:
 * maze.h, and a trace on each table.
 */
#include <stddef.h>
#include <stdint.h>
#include <stdio.h>
#include <string.h>
#ifdef LIBRARY
#include <maze.h>
#endif

#ifdef WIDE
enum { TABLE_BYTES = 14338, PORTS = 18, MASK_BYTES = 3, ENABLE_AT = 2, WHICH = 5 };
#else
enum { TABLE_BYTES = 8705, PORTS = 8, MASK_BYTES = 1, ENABLE_AT = 1, WHICH = 2 };
#endif

enum {
    NODES = 256,
    CHANNELS = 8,
    LINK_AT = ENABLE_AT + MASK_BYTES * NODES,
    RECEIVE_AT = LINK_AT + 2 * PORTS * NODES,
    ARMED_AT = RECEIVE_AT + 2 * CHANNELS * NODES,
    MAX_DIMENSION = 8,
    MAX_HOPS = MAX_DIMENSION + 1
};

_Static_assert(ARMED_AT + NODES == TABLE_BYTES, "layout of the table");

enum { ACCEPTED = 0, BAD_LENGTH = 1, BAD_DIMENSION = 2, NOT_SOUND = 3 };

/* One word of the table that is not zero. */
struct entry {
    unsigned circuit;
    unsigned node;
    unsigned slot;                          /* port, or receive channel */
    int is_link;
};

/* What one circuit holds. */
struct holding {
    unsigned source;
    unsigned target;
    unsigned links;
    unsigned receives;
    unsigned node[MAX_HOPS];
    unsigned port[MAX_HOPS];
};

/* ---- soundness ---- */

/*
 * Collects the words that are not zero in one section of the table.  Eight
 * bytes (four words) that are all zero are passed over at once.
 */
static size_t collect(const unsigned char *section, int is_link,
                      struct entry *out)
{
    const size_t slots = is_link ? PORTS : CHANNELS;
    size_t found = 0;

    for (size_t first = 0; first < NODES * slots; first += 4) {
        uint64_t four;

        memcpy(&four, section + 2 * first, sizeof four);
        if (four == 0)
            continue;
        for (size_t w = first; w < first + 4; w++) {
            unsigned circuit = section[2 * w] + 256u * section[2 * w + 1];

            if (circuit == 0)
                continue;
            out[found].circuit = circuit;
            out[found].node = (unsigned)(w / slots);
            out[found].slot = (unsigned)(w % slots);
            out[found].is_link = is_link;
            found++;
        }
    }
    return found;
}

/* The bit of a node that a port changes: 17 - p is the partner of p. */
static unsigned axis_of(unsigned port)
{
    return port < 9 ? port : 17 - port;
}

/* The fold mask, and the ports that it and the dimension give to every node. */
static unsigned fold_of(const unsigned char *b)
{
    return ENABLE_AT == 2 ? b[1] : 0;
}

static unsigned ports_of(const unsigned char *b)
{
    unsigned ports = (1u << b[0]) - 1u;

    for (unsigned p = 0; p < b[0]; p++)
        if (fold_of(b) >> p & 1)
            ports |= 1u << (17 - p);
    return ports;
}

/*
 * Is there a permitted path that goes on from `node`, having walked the links
 * in the set `walked`, and that has walked every link of the circuit when it
 * ends?  The set has one bit for each link of the circuit.
 */
static int path_goes_on(const struct holding *h, unsigned node,
                        unsigned walked)
{
    if (walked != 0 && node == h->target)
        return walked == (1u << h->links) - 1u;

    for (unsigned i = 0; i < h->links; i++) {
        unsigned bit = 1u << axis_of(h->port[i]);

        if (h->node[i] != node)
            continue;
        if (walked != 0 && ((node ^ h->target) & bit) == 0)
            continue;                       /* a later hop, not uphill */
        if (path_goes_on(h, node ^ bit, walked | 1u << i))
            return 1;
    }
    return 0;
}

/* Does the circuit stand on one permitted path and one receive channel? */
static int circuit_is_sound(const struct entry *entries, size_t count,
                            unsigned circuit, unsigned dimension)
{
    struct holding h = {0};

    if (circuit < 1 || circuit > 8u << dimension)
        return 0;
    h.source = (circuit - 1) / 8;

    for (size_t i = 0; i < count; i++) {
        if (entries[i].circuit != circuit)
            continue;
        if (entries[i].is_link) {
            if (h.links == dimension + 1)
                return 0;                   /* longer than any path */
            h.node[h.links] = entries[i].node;
            h.port[h.links] = entries[i].slot;
            h.links++;
        } else {
            h.target = entries[i].node;
            h.receives++;
        }
    }
    return h.receives == 1 && path_goes_on(&h, h.source, 0);
}

/* The enabled links of a node, and bits that are no port's. */
static unsigned enabled_links(const unsigned char *b, unsigned node)
{
    unsigned mask = 0;

    for (unsigned i = MASK_BYTES; i > 0; i--)
        mask = mask << 8 | b[ENABLE_AT + MASK_BYTES * node + i - 1];
    return mask;
}

static int is_sound(const unsigned char *b)
{
    static struct entry entries[NODES * (PORTS + CHANNELS)];
    unsigned dimension = b[0];
    unsigned nodes = 1u << dimension;
    unsigned ports = ports_of(b);
    size_t count;

    if (fold_of(b) >= nodes)
        return 0;

    /* Enable bits of absent nodes and of absent ports; armed channels of
     * absent nodes. */
    for (unsigned n = 0; n < NODES; n++) {
        unsigned enabled = enabled_links(b, n);

        if (n >= nodes ? enabled != 0 : (enabled & ~ports) != 0)
            return 0;
        if (n >= nodes && b[ARMED_AT + n] != 0)
            return 0;
    }

    count = collect(b + LINK_AT, 1, entries);
    count += collect(b + RECEIVE_AT, 0, entries + count);

    /* Owners of absent nodes and ports; held links that are not enabled, and
     * held receive channels that are not armed. */
    for (size_t i = 0; i < count; i++) {
        const struct entry *e = &entries[i];
        unsigned mask = e->is_link ? enabled_links(b, e->node)
                                   : b[ARMED_AT + e->node];

        if (e->node >= nodes)
            return 0;
        if (e->is_link && (ports >> e->slot & 1) == 0)
            return 0;
        if ((mask >> e->slot & 1) == 0)
            return 0;
    }

    /* Every circuit that occurs, once, at its first entry. */
    for (size_t i = 0; i < count; i++) {
        size_t earlier = 0;

        while (entries[earlier].circuit != entries[i].circuit)
            earlier++;
        if (earlier == i &&
            !circuit_is_sound(entries, count, entries[i].circuit, dimension))
            return 0;
    }
    return 1;
}

/* The answer of the tests on a lent table: the number of the refusal, or 0. */
static int refuse(const unsigned char *b, size_t length)
{
#ifdef LIBRARY
#ifdef WIDE
    unsigned number = maze_wide_check_table(b, length);
#else
    unsigned number = maze_check_table(b, length);
#endif

    (void)is_sound;
    return (int)number;
#else
    if (length != TABLE_BYTES)
        return BAD_LENGTH;
    if (b[0] < 1 || b[0] > MAX_DIMENSION)
        return BAD_DIMENSION;
    if (!is_sound(b))
        return NOT_SOUND;
    return ACCEPTED;
#endif
}

/* ---- the tables ---- */

static void make(unsigned char *b, unsigned dimension)
{
    memset(b, 0, TABLE_BYTES);
    b[0] = (unsigned char)dimension;
    for (unsigned n = 0; n < 1u << dimension; n++)
        b[ENABLE_AT + MASK_BYTES * n] = (unsigned char)((1u << dimension) - 1u);
}

static void put(unsigned char *b, unsigned part, unsigned node, unsigned slot,
                unsigned circuit)
{
    const unsigned slots = part == LINK_AT ? PORTS : CHANNELS;
    unsigned char *word = b + part + 2 * (slots * node + slot);

    word[0] = (unsigned char)(circuit % 256);
    word[1] = (unsigned char)(circuit / 256);
}

/* Gives a circuit a receive channel, which is armed. */
static void receive(unsigned char *b, unsigned node, unsigned channel,
                    unsigned circuit)
{
    put(b, RECEIVE_AT, node, channel, circuit);
    b[ARMED_AT + node] |= (unsigned char)(1u << channel);
}

/*
 * Lays the circuit of send channel c at node s along n ports; it ends on
 * receive channel k.
 */
static void lay(unsigned char *b, unsigned s, unsigned c,
                const unsigned *ports, unsigned n, unsigned k)
{
    unsigned circuit = 8 * s + c + 1;
    unsigned node = s;

    for (unsigned i = 0; i < n; i++) {
        put(b, LINK_AT, node, ports[i], circuit);
        node ^= 1u << axis_of(ports[i]);
    }
    receive(b, node, k, circuit);
}

/* Folds dimensions of a made wide table. */
static void fold(unsigned char *b, unsigned mask)
{
    b[1] = (unsigned char)(mask & ((1u << b[0]) - 1u));
    for (unsigned n = 0; n < 1u << b[0]; n++)
        for (unsigned i = 0; i < MASK_BYTES; i++)
            b[ENABLE_AT + MASK_BYTES * n + i] =
                (unsigned char)(ports_of(b) >> 8 * i);
}

static void build(unsigned char *b, unsigned dimension, int which)
{
    unsigned ports[MAX_HOPS];
    unsigned n = 0;

    make(b, dimension);
    if (which == 1) {
        /* One hop; and from the last node to node 0, highest port first. */
        ports[0] = 0;
        lay(b, 0, 0, ports, 1, 0);
        for (unsigned p = dimension; p > 0; p--)
            ports[n++] = p - 1;
        lay(b, (1u << dimension) - 1u, 7, ports, n, 3);
    } else if (which == 3) {
        /* All dimensions folded: back to the source over the partner and on, by
         * partners; and the two links of a pair. */
        fold(b, 255);
        if (dimension >= 2) {
            ports[0] = 1;
            lay(b, 0, 0, ports, 1, 0);
            ports[0] = 16;
            lay(b, 0, 1, ports, 1, 1);
        }
        ports[n++] = 0;
        for (unsigned p = 0; p < dimension; p++)
            ports[n++] = 17 - p;
        lay(b, 1, 5, ports, n, 6);
    } else if (which == 4) {
        /* Every second one: to the node itself over a pair, and from the last
         * node down, by partners where there are some. */
        fold(b, 85);
        ports[0] = 17;
        ports[1] = 0;
        lay(b, 0, 2, ports, 2, 7);
        for (unsigned p = dimension; p > 0; p--)
            ports[n++] = p % 2 ? 18 - p : p - 1;
        lay(b, (1u << dimension) - 1u, 7, ports, n, 3);
    } else if (which == 5) {
        /* Folded, with every partner blocked: the mask alone may change. */
        b[1] = 1;
        ports[0] = 0;
        lay(b, 0, 0, ports, 1, 0);
    } else {
        /* Out and back through the source, then on; and two hops. */
        ports[n++] = 0;
        for (unsigned p = 0; p < dimension; p++)
            ports[n++] = p;
        lay(b, 1, 5, ports, n, 6);
        if (dimension >= 2) {
            ports[0] = 1;
            ports[1] = 0;
            lay(b, 0, 1, ports, 2, 0);
        }
    }
}

/* ---- the counts ---- */

static void print_changed(unsigned char *b, unsigned dimension, int which)
{
    unsigned answers[4] = {0};
    int as_made = refuse(b, TABLE_BYTES);

    for (size_t at = 0; at < TABLE_BYTES; at++) {
        unsigned char kept = b[at];

        for (unsigned bit = 0; bit < 8; bit++) {
            b[at] = (unsigned char)(kept ^ 1u << bit);
            answers[refuse(b, TABLE_BYTES)]++;
        }
        b[at] = kept;
    }
    printf("dimension %u table %d: as made %d; of %d changed, %u sound, "
           "%u refused by dimension, %u not sound\n",
           dimension, which, as_made, 8 * TABLE_BYTES, answers[ACCEPTED],
           answers[BAD_DIMENSION], answers[NOT_SOUND]);
}

static void print_cleared(unsigned char *b, unsigned dimension, int which)
{
    unsigned answers[4] = {0};

    for (size_t at = 0; at < TABLE_BYTES; at++) {
        unsigned char kept = b[at];

        b[at] = 0;
        answers[refuse(b, TABLE_BYTES)]++;
        b[at] = kept;
    }
    printf("dimension %u table %d: of %d cleared, %u sound, "
           "%u refused by dimension, %u not sound\n",
           dimension, which, TABLE_BYTES, answers[ACCEPTED],
           answers[BAD_DIMENSION], answers[NOT_SOUND]);
}

/*
 * Circuit 1 in a cube of dimension 3, in eleven ways: its ports from a node,
 * and up to two receive channels. The sound ones are 0, 1 and 8.
 */
struct single {
    unsigned from;
    const char *ports;
    struct { unsigned node, channel; } receives[2];
    unsigned receive_count;
    int loop_at_6; /* and the two links between nodes 6 and 7 */
    int other_armed; /* channel 1 of node 1 is armed, and channel 0 is not */
};

static const struct single singles[] = {
    { 0, "010", { { 2, 0 } }, 1, 0, 0 },          /* goes round */
    { 0, "22", { { 0, 7 } }, 1, 0, 0 },           /* to the node itself */
    { 0, "01", { { 1, 0 } }, 1, 0, 0 },           /* received half-way */
    { 0, "0121", { { 5, 0 } }, 1, 0, 0 },         /* a later hop not uphill */
    { 0, "0", { { 1, 0 } }, 1, 1, 0 },            /* links off the path */
    { 0, "01", { { 0, 0 } }, 0, 0, 0 },           /* links alone */
    { 0, "", { { 1, 0 } }, 1, 0, 0 },             /* a receive channel alone */
    { 0, "0", { { 1, 0 }, { 1, 1 } }, 2, 0, 0 },  /* two receive channels */
    { 0, "220", { { 1, 0 } }, 1, 0, 0 },          /* out and back, and on */
    { 2, "0", { { 3, 0 } }, 1, 0, 0 },            /* not from its source */
    { 0, "0", { { 1, 0 } }, 1, 0, 1 },            /* not armed */
};

static void print_single(unsigned char *b, unsigned which)
{
    const struct single *x = &singles[which];
    unsigned node = x->from;

    make(b, 3);
    for (const char *p = x->ports; *p; p++) {
        put(b, LINK_AT, node, (unsigned)(*p - '0'), 1);
        node ^= 1u << (*p - '0');
    }
    for (unsigned i = 0; i < x->receive_count; i++)
        receive(b, x->receives[i].node, x->receives[i].channel, 1);
    if (x->loop_at_6) {
        put(b, LINK_AT, 6, 0, 1);
        put(b, LINK_AT, 7, 0, 1);
    }
    if (x->other_armed)
        b[ARMED_AT + 1] = 2;
    printf("single %u: %d\n", which, refuse(b, TABLE_BYTES));
}

/*
 * Circuits 1 and 2 in a cube of dimension 3: ways over links that they hold, and
 * receive channels. The hops to each receive channel from its circuit's source,
 * added up, are as many as the links held, so that a check which only adds them
 * up is fooled. Table 0 is sound, no other.
 */
struct sums {
    struct { unsigned circuit, from; const char *ports; } ways[4];
    struct { unsigned circuit, node, channel; } receives[3];
};

static const struct sums sums[] = {
    /* two circuits on their paths */
    { { { 1, 0, "01" }, { 2, 0, "2" } }, { { 1, 3, 0 }, { 2, 4, 0 } } },
    /* received half-way too, and a stray link of the other circuit */
    { { { 1, 0, "01" }, { 2, 6, "0" } }, { { 1, 1, 0 }, { 1, 3, 0 } } },
    /* received at two nodes, to each through the source again, and two strays */
    { { { 1, 0, "00" }, { 1, 0, "11" }, { 2, 6, "00" } }, { { 1, 1, 0 }, { 1, 2, 0 } } },
    /* out over an absent port and back */
    { { { 1, 0, "55" } }, { { 1, 0, 0 } } },
    /* two links at a later node, and the other circuit received twice */
    { { { 1, 0, "01" }, { 1, 1, "2" }, { 2, 0, "2" } }, { { 1, 3, 0 }, { 2, 4, 0 }, { 2, 4, 1 } } },
    /* received twice at its end, and a stray link of its own */
    { { { 1, 0, "0" }, { 1, 6, "0" } }, { { 1, 1, 0 }, { 1, 1, 7 } } },
    /* two circuits, each received at the other's end */
    { { { 1, 0, "0" }, { 2, 0, "1" } }, { { 1, 2, 0 }, { 2, 1, 0 } } },
    /* a loop at the end of a path in place of its last two links */
    { { { 1, 0, "0" }, { 1, 6, "00" } }, { { 1, 7, 0 } } },
};

static void print_sums(unsigned char *b, unsigned which)
{
    const struct sums *x = &sums[which];

    make(b, 3);
    for (unsigned i = 0; i < 4 && x->ways[i].circuit; i++) {
        unsigned node = x->ways[i].from;

        for (const char *p = x->ways[i].ports; *p; p++) {
            put(b, LINK_AT, node, (unsigned)(*p - '0'), x->ways[i].circuit);
            node ^= 1u << (*p - '0');
        }
    }
    for (unsigned i = 0; i < 3 && x->receives[i].circuit; i++)
        receive(b, x->receives[i].node, x->receives[i].channel,
                x->receives[i].circuit);
    printf("sums %u: %d\n", which, refuse(b, TABLE_BYTES));
}

int main(void)
{
    static unsigned char table[TABLE_BYTES];
    unsigned refused = 0;

    for (unsigned dimension = 1; dimension <= MAX_DIMENSION; dimension++) {
        for (int which = 1; which <= WHICH; which++) {
            build(table, dimension, which);
            print_changed(table, dimension, which);
            print_cleared(table, dimension, which);
        }
    }
    for (unsigned which = 0; which < sizeof singles / sizeof *singles; which++)
        print_single(table, which);
    for (unsigned which = 0; which < sizeof sums / sizeof *sums; which++)
        print_sums(table, which);

    for (size_t length = 0; length < TABLE_BYTES; length++)
        refused += refuse(table, length) == BAD_LENGTH;
    printf("lengths: %u of %d refused by length\n", refused, TABLE_BYTES);
    return 0;
}
