/* Judging a book from C, beside vectors worked by hand from Books and Judging: each number at its edge, the order of the tests over the whole
 * book, and that nothing lent is altered; then books that were written of a table, judged by it once their circuits are closed; and books that are a step or two
 * away from such a one, judged by tables with circuits at random, beside the reference. With -DWIDE the same by wide tables; there
 * the books written of tables, those at random and the lists of ports in small cubes are of folded cubes too, and the vectors of those are in folded.c.
 *
 *     judge [tables [seed]]
 *
 * takes that many tables of each dimension for the last two (10 without an argument). A byte of a table is given by its place in a narrow one,
 * as in calls.c. */
#include "blocks.h"
#include "books.h"
#include "draw.h"
#include "expect.h"
#include "reference.h"
#include "subject.h"

#include <stdlib.h>
#include <string.h>

enum { BYTES = MAZE_TABLE_BYTES, SPARE = 64, LINES = 2048, LONGEST = 9, MOST = 12, ANSWERS = 32 };

/* A circuit of a book. */
struct circuit {
    unsigned number, length;
    uint8_t port[LONGEST + 1];
};

static uint8_t table[BYTES + SPARE];
static struct circuit book[LINES + 1];
static unsigned lines, dimension, nodes;

/* The bit of a node that a port changes: of port p and of its partner 17 - p it is bit p. */
static unsigned step(unsigned port) {
    return 1u << (port < 9 ? port : 17 - port);
}

static unsigned fold_mask(void) {
#ifdef WIDE
    return table[MAZE_WIDE_FOLD_AT];
#else
    return 0;
#endif
}

static int has_port(unsigned port) {
    return port < dimension || (port > 17 - dimension && port < 18 && (fold_mask() & step(port)));
}

static unsigned any_port(void) {
    unsigned port = below(dimension);
    return (fold_mask() >> port & 1) && below(2) ? 17 - port : port;
}

static int is_enabled(unsigned node, unsigned port) {
    return table[enabled_at(node) + port / 8] >> port % 8 & 1;
}

/* The two buffers of the book, which go on behind what is lent, and its counts; and what stands there where no book is. */
static uint8_t book_ports[PORTS + SPARE], book_index[INDEX + SPARE], no_ports[PORTS + SPARE], no_index[INDEX + SPARE];
static unsigned circuits, hops;

static void put_line(unsigned place, unsigned number, unsigned offset, unsigned length) {
    const unsigned numbers[] = {number, offset, length};
    for (unsigned i = 0; i < 3; i++) book_index[6 * place + 2 * i] = (uint8_t)(numbers[i] % 256), book_index[6 * place + 2 * i + 1] = (uint8_t)(numbers[i] / 256);
}

static void write_book(void) {
    memcpy(book_ports, no_ports, sizeof book_ports);
    memcpy(book_index, no_index, sizeof book_index);
    hops = 0;
    circuits = lines;
    for (unsigned i = 0; i < lines; i++) {
        put_line(i, book[i].number, hops, book[i].length);
        memcpy(book_ports + hops, book[i].port, book[i].length);
        hops += book[i].length;
    }
}

static void add(unsigned number, const char *digits) {
    struct circuit *circuit = &book[lines++];
    circuit->number = number;
    for (circuit->length = 0; digits[circuit->length]; circuit->length++) circuit->port[circuit->length] = (uint8_t)(digits[circuit->length] - '0');
}

/* ---- a call, and what it left ---- */

/* What the call answers for the table and the two buffers as they stand; 99 where it altered a byte. */
static unsigned judged(size_t table_length, size_t ports_length, size_t index_length) {
    uint8_t *t = block_of(table, table_length), *p = block_of(book_ports, ports_length), *x = block_of(book_index, index_length);
    unsigned number = maze_judge(t, table_length, p, ports_length, x, index_length, (uint16_t)circuits, (uint16_t)hops);
    int same = block_had(t, table, table_length) & block_had(p, book_ports, ports_length) & block_had(x, book_index, index_length);
    return same ? number : 99;
}

/* The answer for the circuits of the book, in buffers that just hold them and in longer ones. */
static void expect_judged(const char *what, unsigned number) {
    unsigned got;
    write_book();
    got = judged(BYTES, hops, 6 * circuits);
    expect(got == number, what, number, got);
    got = judged(BYTES, sizeof book_ports, sizeof book_index);
    expect(got == number, what, number, got);
}

/* A made table with every channel armed. */
static void fresh(unsigned of) {
    dimension = of;
    nodes = 1u << dimension;
    lines = 0;
    memset(table, 77, sizeof table);
    expect(maze_make(table, BYTES, (uint16_t)dimension) == 0, "make", dimension, 0);
    memset(table + here(8449), 255, nodes);
}

/* The same, folded where a table can be. */
static void fresh_folded(unsigned of, unsigned mask) {
    fresh(of);
#ifdef WIDE
    expect(maze_wide_fold(table, BYTES, (uint16_t)mask) == 0, "fold", of, mask);
#else
    (void)mask;
#endif
}

/* A trace into no bytes is refused as 12 or 14 where the table is sound. */
static int is_sound(void) {
    return maze_trace(table, BYTES, 0, 0, NULL, 0).number > 3;
}

/* ---- links, channels and circuits of the table, by their bytes ---- */

static unsigned entry(unsigned part, unsigned node, unsigned slot) {
    const unsigned at = part == 257 ? link_at(node, slot) : receive_at(node, slot);
    return table[at] + 256u * table[at + 1];
}

static void set_entry(unsigned part, unsigned node, unsigned slot, unsigned circuit) {
    const unsigned at = part == 257 ? link_at(node, slot) : receive_at(node, slot);
    table[at] = (uint8_t)(circuit % 256);
    table[at + 1] = (uint8_t)(circuit / 256);
}

/* The lowest receive channel of a node that is armed and not held; 8 if there is none. */
static unsigned available_channel(unsigned node) {
    unsigned channel = 0;
    while (channel < 8 && (entry(4353, node, channel) != 0 || !(table[here(8449 + node)] >> channel & 1))) channel++;
    return channel;
}

static unsigned available_count(unsigned node) {
    unsigned count = 0;
    for (unsigned channel = 0; channel < 8; channel++) count += entry(4353, node, channel) == 0 && (table[here(8449 + node)] >> channel & 1);
    return count;
}

static int is_open(unsigned circuit) {
    for (unsigned node = 0; node < 256; node++)
        for (unsigned channel = 0; channel < 8; channel++)
            if (entry(4353, node, channel) == circuit) return 1;
    return 0;
}

static int in_book(unsigned circuit) {
    for (unsigned i = 0; i < lines; i++)
        if (book[i].number == circuit) return 1;
    return 0;
}

static unsigned source_of(const struct circuit *circuit) {
    return (circuit->number - 1) / 8;
}

static unsigned end_of(const struct circuit *circuit) {
    unsigned node = source_of(circuit);
    for (unsigned hop = 0; hop < circuit->length; hop++) node ^= step(circuit->port[hop]);
    return node;
}

/* How many circuits of the book use a link. */
static unsigned uses(unsigned of, unsigned port) {
    unsigned count = 0;
    for (unsigned i = 0; i < lines; i++) {
        unsigned node = source_of(&book[i]);
        for (unsigned hop = 0; hop < book[i].length; node ^= step(book[i].port[hop++])) count += node == of && book[i].port[hop] == port;
    }
    return count;
}

/* Opens a circuit over one link, on a channel of the node where it leads. */
static void hold_link(unsigned node, unsigned port, unsigned circuit, unsigned channel) {
    set_entry(257, node, port, circuit);
    set_entry(4353, node ^ step(port), channel, circuit);
}

/* Opens all circuits of an accepted book at once: then the table is sound and has each of them by the ports of the book. */
static int takes_book(void) {
    static uint8_t kept[BYTES];
    int good = 1;
    memcpy(kept, table, BYTES);
    for (unsigned i = 0; i < lines && good; i++) {
        unsigned node = source_of(&book[i]), channel = available_channel(end_of(&book[i]));
        if (channel == 8) good = 0;
        else set_entry(4353, end_of(&book[i]), channel, book[i].number);
        for (unsigned hop = 0; hop < book[i].length; node ^= step(book[i].port[hop++])) set_entry(257, node, book[i].port[hop], book[i].number);
    }
    for (unsigned i = 0; i < lines && good; i++) {
        uint8_t traced_ports[LONGEST];
        maze_traced traced = maze_trace(table, BYTES, (uint16_t)source_of(&book[i]), (uint16_t)((book[i].number - 1) % 8), traced_ports, LONGEST);
        good = traced.number == 0 && traced.hops == book[i].length && memcmp(traced_ports, book[i].port, traced.hops) == 0;
    }
    good = good && is_sound();
    memcpy(table, kept, BYTES);
    return good;
}

/* ---- one step away from an accepted book ---- */

/* A link of a circuit blocked or held, and the link back blocked, which is another one. */
static void step_links(const char *what, const struct circuit *circuit) {
    unsigned node = source_of(circuit);
    for (unsigned hop = 0; hop < circuit->length; node ^= step(circuit->port[hop++])) {
        const unsigned port = circuit->port[hop], next = node ^ step(port), channel = available_channel(next), at = enabled_at(node) + port / 8, back = enabled_at(next) + port / 8;
        unsigned other = 8 * node + 1;
        table[at] = (uint8_t)(table[at] ^ 1u << port % 8);
        expect_judged(what, 27);
        table[at] = (uint8_t)(table[at] ^ 1u << port % 8);
        if (uses(next, port) == 0 && entry(257, next, port) == 0) {
            const uint8_t enabled = table[back];
            table[back] = (uint8_t)(enabled & ~(1u << port % 8));
            expect_judged(what, 0);
            table[back] = enabled;
        }
        while (other <= 8 * node + 8 && (in_book(other) || is_open(other))) other++;
        if (other > 8 * node + 8 || channel == 8) continue;
        hold_link(node, port, other, channel);
        expect_judged(what, 27);
        hold_link(node, port, 0, channel);
    }
}

/* Just as many channels of its target available as circuits end there, and one fewer. */
static void step_channels(const char *what, const struct circuit *circuit) {
    const unsigned target = end_of(circuit);
    const uint8_t armed = table[here(8449 + target)];
    unsigned ending = 0;
    for (unsigned i = 0; i < lines; i++) ending += end_of(&book[i]) == target;
    while (available_count(target) > ending) table[here(8449 + target)] = (uint8_t)(table[here(8449 + target)] & ~(1u << available_channel(target)));
    expect_judged(what, 0);
    table[here(8449 + target)] = (uint8_t)(table[here(8449 + target)] & ~(1u << available_channel(target)));
    expect_judged(what, 11);
    table[here(8449 + target)] = armed;
}

/* Its send channel open in the table, over a link that the book does not use. */
static void step_open(const char *what, const struct circuit *circuit) {
    const unsigned node = source_of(circuit);
    for (unsigned port = 0; port < MAZE_PORTS; port++) {
        const unsigned channel = has_port(port) ? available_channel(node ^ step(port)) : 8;
        if (channel == 8 || uses(node, port) != 0 || entry(257, node, port) != 0 || !is_enabled(node, port)) continue;
        hold_link(node, port, circuit->number, channel);
        expect_judged(what, 26);
        hold_link(node, port, 0, channel);
    }
}

/* A port that no node of the cube has, at each hop; and one hop more, back to where the last hop came from: after two hops or more that is not permitted. */
static void step_ports(const char *what, struct circuit *circuit) {
    const struct circuit kept = *circuit;
    static const unsigned none[] = {8, 9, 16, 127, 128, 255};
    for (unsigned hop = 0; hop < circuit->length; hop++) {
        circuit->port[hop] = (uint8_t)dimension;
        expect_judged(what, 26);
        circuit->port[hop] = (uint8_t)(17 - dimension);
        expect_judged(what, 26);
        for (unsigned i = 0; i < 6; i++) {
            if (has_port(none[i])) continue;
            circuit->port[hop] = (uint8_t)none[i];
            expect_judged(what, 26);
        }
        *circuit = kept;
    }
    if (circuit->length == 1 || circuit->length == LONGEST) return;
    circuit->port[circuit->length] = circuit->port[circuit->length - 1];
    circuit->length++;
    expect_judged(what, 26);
    *circuit = kept;
}

/* The same path once more, on the next send channel of its source. */
static void step_shared(const char *what, unsigned place) {
    const unsigned number = book[place].number + 1;
    if (book[place].number % 8 == 0 || in_book(number) || is_open(number) || lines == LINES) return;
    memmove(book + place + 1, book + place, (lines - place) * sizeof *book);
    book[place + 1].number = number;
    lines++;
    expect_judged(what, 27);
    memmove(book + place + 1, book + place + 2, (lines - place - 2) * sizeof *book);
    lines--;
}

static void step_away(const char *what, unsigned place) {
    step_links(what, &book[place]);
    step_channels(what, &book[place]);
    step_open(what, &book[place]);
    step_ports(what, &book[place]);
    step_shared(what, place);
}

/* Whatever the book, 25 comes before what its circuits are, and 1, 2 and 3 before the book. */
static void earlier_tests(const char *what) {
    const uint8_t of = table[0];
    unsigned got;
    write_book();
    hops++;
    got = judged(BYTES, sizeof book_ports, sizeof book_index);
    expect(got == 25, what, 25, got);
    hops--;
    if (lines > 0) {
        put_line(lines - 1, book[lines - 1].number, hops - book[lines - 1].length, 0);
        got = judged(BYTES, hops, 6 * circuits);
        expect(got == 25, what, 25, got);
        put_line(lines - 1, 2049, hops - book[lines - 1].length, book[lines - 1].length);
        got = judged(BYTES, hops, 6 * circuits);
        expect(got == 25, what, 25, got);
        circuits++;
        got = judged(BYTES, hops, 6 * circuits - 1);
        expect(got == 25, what, 25, got);
    }
    /* a circuit that no cube of the dimension has */
    set_entry(4353, 0, 7, 8 * nodes + 1);
    got = judged(BYTES, sizeof book_ports, sizeof book_index);
    expect(got == 3, what, 3, got);
    table[0] = 9;
    got = judged(BYTES, sizeof book_ports, sizeof book_index);
    expect(got == 2, what, 2, got);
    table[0] = 0;
    got = judged(BYTES, hops, 6 * circuits);
    expect(got == 2, what, 2, got);
    got = judged(BYTES - 1, hops, 6 * circuits);
    expect(got == 1, what, 1, got);
    got = judged(BYTES + 1, sizeof book_ports, sizeof book_index);
    expect(got == 1, what, 1, got);
    table[0] = of;
    set_entry(4353, 0, 7, 0);
}

/* ---- vectors by hand ---- */

struct place {
    unsigned at, value;
};

/* Every channel is armed and nothing held or blocked, but for the places given. */
static const struct vector {
    const char *what;
    unsigned dimension, number;
    struct { unsigned number; const char *ports; } circuits[MOST]; /* up to a circuit 0 */
    struct place places[MOST];                                     /* up to a place 0 */
} vectors[] = {
    /* circuit 1 is node 0's on channel 0, circuit 9 node 1's, circuit 41 node 5's, circuit 64 is node 7's on channel 7 */
    {"no circuit", 3, 0, {{0, ""}}, {{0, 0}}},
    {"one hop", 3, 0, {{1, "0"}}, {{0, 0}}},
    {"one hop by the last port", 3, 0, {{1, "2"}}, {{0, 0}}},
    {"three hops", 3, 0, {{1, "012"}}, {{0, 0}}},
    {"not the helical order", 3, 0, {{1, "021"}}, {{0, 0}}},
    {"three circuits from 0 to 7", 3, 0, {{1, "012"}, {2, "120"}, {3, "201"}}, {{0, 0}}},
    {"three on other channels", 3, 0, {{4, "012"}, {7, "120"}, {8, "201"}}, {{0, 0}}},
    {"the last circuit of a cube", 3, 0, {{64, "0"}}, {{0, 0}}},
    {"example 4, first hop away", 2, 0, {{1, "101"}}, {{0, 0}}},
    {"four hops, first hop away", 3, 0, {{1, "2012"}}, {{0, 0}}},
    {"example 5, through the source", 2, 0, {{1, "110"}}, {{0, 0}}},
    {"through the source by its first port", 2, 0, {{1, "001"}}, {{0, 0}}},
    {"through the source and two hops on", 3, 0, {{1, "2201"}}, {{0, 0}}},
    {"example 3, out and back", 1, 0, {{1, "00"}}, {{0, 0}}},
    {"out and back from node 5", 3, 0, {{41, "11"}}, {{0, 0}}},
    {"nine hops", 8, 0, {{1, "012345670"}}, {{0, 0}}},
    {"nine hops through the source", 8, 0, {{1, "001234567"}}, {{0, 0}}},
    {"eight hops from port 7 on", 8, 0, {{1, "70123456"}}, {{0, 0}}},
    {"eight hops in no order", 8, 0, {{1, "36152074"}}, {{0, 0}}},
    {"the first and the last circuit", 8, 0, {{1, "0"}, {2048, "7"}}, {{0, 0}}},
    {"numbers on both sides of 256", 8, 0, {{255, "0"}, {256, "1"}, {257, "0"}}, {{0, 0}}},
    {"a link and the link back", 3, 0, {{1, "0"}, {9, "0"}}, {{0, 0}}},
    {"one behind the other", 3, 0, {{1, "0"}, {9, "1"}, {25, "2"}}, {{0, 0}}},
    {"each port of node 0", 8, 0, {{1, "0"}, {2, "1"}, {3, "2"}, {4, "3"}, {5, "4"}, {6, "5"}, {7, "6"}, {8, "7"}}, {{0, 0}}},

    /* 26: sources and ports */
    {"the source is 8, dimension 3", 3, 26, {{65, "0"}}, {{0, 0}}},
    {"the second source is 8", 3, 26, {{1, "0"}, {65, "0"}}, {{0, 0}}},
    {"the source is 2, dimension 1", 1, 26, {{17, "0"}}, {{0, 0}}},
    {"the source is 128, dimension 7", 7, 26, {{1025, "0"}}, {{0, 0}}},
    {"the source is 255, dimension 7", 7, 26, {{2048, "0"}}, {{0, 0}}},
    {"port 1 in dimension 1", 1, 26, {{1, "1"}}, {{0, 0}}},
    {"port 3 in dimension 3", 3, 26, {{1, "3"}}, {{0, 0}}},
    {"port 3 between", 3, 26, {{1, "031"}}, {{0, 0}}},
    {"port 3 at last", 3, 26, {{1, "013"}}, {{0, 0}}},
    {"port 3 in the last circuit", 3, 26, {{1, "012"}, {2, "120"}, {3, "203"}}, {{0, 0}}},
    {"port 8 in dimension 8", 8, 26, {{1, "8"}}, {{0, 0}}},
    {"port 8 at the ninth hop", 8, 26, {{1, "012345678"}}, {{0, 0}}},

    /* 26: paths. 0, 1, 0, 1 comes to its end twice, and so does 0, 1, 3, 1 */
    {"on past its target", 1, 26, {{1, "000"}}, {{0, 0}}},
    {"on past its target and back", 3, 26, {{1, "011"}}, {{0, 0}}},
    {"out and back twice", 3, 26, {{1, "0000"}}, {{0, 0}}},
    {"once round", 2, 26, {{1, "0101"}}, {{0, 0}}},
    {"round and one hop on", 2, 26, {{1, "01010"}}, {{0, 0}}},
    /* 0, 1, 3, 7, 5: at 1 port 1 leads away from 5 */
    {"a later hop away", 3, 26, {{1, "0121"}}, {{0, 0}}},
    /* 0, 1, 3, 1, 0: at 1 port 1 leads away from 0 */
    {"there and back over two links", 3, 26, {{1, "0110"}}, {{0, 0}}},
    {"the ninth hop as the eighth", 8, 26, {{1, "012345677"}}, {{0, 0}}},
    {"the ninth hop as the second", 8, 26, {{1, "012345671"}}, {{0, 0}}},
    {"nine hops in dimension 7", 7, 26, {{1, "012345600"}}, {{0, 0}}},
    {"eight hops in dimension 7", 7, 0, {{1, "01234560"}}, {{0, 0}}},

    /* 26: circuit 1 is open over port 0 to receive channel 0 of node 1; circuit 57 from node 7 over port 0 to node 6; 1604 from node 200, channel 3, over port 0 */
    {"an open send channel", 3, 26, {{1, "2"}}, {{257, 1}, {4369, 1}, {0, 0}}},
    {"its own circuit", 3, 26, {{1, "0"}}, {{257, 1}, {4369, 1}, {0, 0}}},
    {"another channel of that node", 3, 0, {{2, "2"}}, {{257, 1}, {4369, 1}, {0, 0}}},
    {"the node where that circuit ends", 3, 0, {{9, "0"}}, {{257, 1}, {4369, 1}, {0, 0}}},
    {"an open send channel at last", 3, 26, {{1, "012"}, {57, "1"}}, {{369, 57}, {4449, 57}, {0, 0}}},
    {"open send channel 1604", 8, 26, {{1604, "1"}}, {{3457, 68}, {3458, 6}, {7569, 68}, {7570, 6}, {0, 0}}},
    {"beside open send channel 1604", 8, 0, {{1603, "1"}, {1605, "2"}}, {{3457, 68}, {3458, 6}, {7569, 68}, {7570, 6}, {0, 0}}},
    {"the low byte of 1604", 8, 0, {{68, "0"}}, {{3457, 68}, {3458, 6}, {7569, 68}, {7570, 6}, {0, 0}}},

    /* 27: blocked links; the links of nodes 0, 1, 3 and 7 are enabled at 1, 2, 4 and 8 */
    {"the first link blocked", 3, 27, {{1, "012"}}, {{1, 6}, {0, 0}}},
    {"the second link blocked", 3, 27, {{1, "012"}}, {{2, 5}, {0, 0}}},
    {"the last link blocked", 3, 27, {{1, "012"}}, {{4, 3}, {0, 0}}},
    {"all other links blocked", 3, 0, {{1, "012"}}, {{1, 1}, {2, 2}, {3, 0}, {4, 4}, {5, 0}, {6, 0}, {7, 0}, {8, 0}, {0, 0}}},
    {"the way back blocked", 1, 27, {{1, "00"}}, {{2, 0}, {0, 0}}},
    {"a link of the last circuit blocked", 3, 27, {{1, "012"}, {2, "120"}, {3, "201"}}, {{6, 5}, {0, 0}}},
    {"the link of port 7 of node 255 blocked", 8, 27, {{2048, "7"}}, {{256, 127}, {0, 0}}},

    /* 27: circuit 25 of node 3 holds port 2 to node 7, circuit 57 of node 7 the link back, circuit 2047 the link of port 7 of node 255 to node 127 */
    {"the last link held", 3, 27, {{1, "012"}}, {{309, 25}, {4465, 25}, {0, 0}}},
    {"the link back held", 3, 0, {{1, "012"}}, {{373, 57}, {4401, 57}, {0, 0}}},
    {"a link held beside it", 3, 0, {{1, "021"}}, {{309, 25}, {4465, 25}, {0, 0}}},
    {"a held link of the last circuit", 3, 27, {{1, "021"}, {26, "2"}}, {{309, 25}, {4465, 25}, {0, 0}}},
    {"held by circuit 2,047", 8, 27, {{2048, "7"}}, {{4351, 255}, {4352, 7}, {6385, 255}, {6386, 7}, {0, 0}}},
    /* circuit 256 = 1 * 256: its low byte is 0. Node 31, channel 7, port 0, to node 30 */
    {"held by circuit 256", 8, 27, {{249, "0"}}, {{754, 1}, {4834, 1}, {0, 0}}},

    /* 27: shared links */
    {"the first link shared", 3, 27, {{1, "012"}, {2, "021"}}, {{0, 0}}},
    {"the second link shared", 3, 27, {{1, "012"}, {9, "12"}}, {{0, 0}}},
    {"the last link shared", 3, 27, {{1, "012"}, {25, "2"}}, {{0, 0}}},
    {"the way back shared", 3, 27, {{1, "00"}, {9, "0"}}, {{0, 0}}},
    {"shared by the first and the last", 3, 27, {{1, "012"}, {9, "0"}, {17, "2"}, {18, "0"}, {26, "2"}}, {{0, 0}}},
    {"the same path on the eighth channel", 3, 27, {{1, "012"}, {8, "012"}}, {{0, 0}}},
    {"three on one link", 3, 27, {{1, "0"}, {2, "0"}, {3, "0"}}, {{0, 0}}},

    /* 11: the channels of node 7 are armed at 8456, those of node 255 at 8704 */
    {"no channel armed", 3, 11, {{1, "012"}}, {{8456, 0}, {0, 0}}},
    {"channel 0 armed", 3, 0, {{1, "012"}}, {{8456, 1}, {0, 0}}},
    {"channel 7 armed", 3, 0, {{1, "012"}}, {{8456, 128}, {0, 0}}},
    {"one channel and two circuits", 3, 11, {{1, "012"}, {2, "120"}}, {{8456, 16}, {0, 0}}},
    {"two channels and two circuits", 3, 0, {{1, "012"}, {2, "120"}}, {{8456, 129}, {0, 0}}},
    {"two channels and three circuits", 3, 11, {{1, "012"}, {2, "120"}, {3, "201"}}, {{8456, 129}, {0, 0}}},
    {"the one armed channel held", 3, 11, {{1, "021"}}, {{309, 25}, {4465, 25}, {8456, 1}, {0, 0}}},
    {"one armed, one more held", 3, 0, {{1, "021"}}, {{309, 25}, {4465, 25}, {8456, 3}, {0, 0}}},
    {"none armed on the way", 3, 0, {{1, "012"}}, {{8449, 0}, {8450, 0}, {8452, 0}, {0, 0}}},
    {"none armed, out and back", 1, 11, {{1, "00"}}, {{8449, 0}, {0, 0}}},
    {"none armed at the last target", 3, 11, {{1, "012"}, {10, "0"}, {64, "1"}}, {{8454, 0}, {0, 0}}},
    /* circuits over each link into node 255; 2033 is node 254's on channel 0, and holds port 0 and receive channel 0 where it is open */
    {"eight circuits to one target", 8, 0, {{1017, "7"}, {1529, "6"}, {1785, "5"}, {1913, "4"}, {1977, "3"}, {2009, "2"}, {2025, "1"}, {2033, "0"}}, {{0, 0}}},
    {"eight circuits and seven channels", 8, 11, {{1017, "7"}, {1529, "6"}, {1785, "5"}, {1913, "4"}, {1977, "3"}, {2009, "2"}, {2025, "1"}, {2033, "0"}},
     {{8704, 254}, {0, 0}}},
    {"seven circuits and seven channels", 8, 0, {{1017, "7"}, {1529, "6"}, {1785, "5"}, {1913, "4"}, {1977, "3"}, {2009, "2"}, {2025, "1"}}, {{8704, 254}, {0, 0}}},
    {"seven circuits beside one that is open", 8, 0, {{1017, "7"}, {1529, "6"}, {1785, "5"}, {1913, "4"}, {1977, "3"}, {2009, "2"}, {2025, "1"}},
     {{4321, 241}, {4322, 7}, {8433, 241}, {8434, 7}, {0, 0}}},
    {"seven circuits beside it and six channels", 8, 11, {{1017, "7"}, {1529, "6"}, {1785, "5"}, {1913, "4"}, {1977, "3"}, {2009, "2"}, {2025, "1"}},
     {{4321, 241}, {4322, 7}, {8433, 241}, {8434, 7}, {8704, 127}, {0, 0}}},
    /* a ninth has to take a link that one of the eight has */
    {"nine circuits to one target", 8, 27, {{1017, "7"}, {1529, "6"}, {1785, "5"}, {1913, "4"}, {1977, "3"}, {2009, "2"}, {2025, "1"}, {2033, "0"}, {2034, "0"}}, {{0, 0}}},
    {"nine circuits, one from afar", 8, 27, {{1, "12345670"}, {1017, "7"}, {1529, "6"}, {1785, "5"}, {1913, "4"}, {1977, "3"}, {2009, "2"}, {2025, "1"}, {2033, "0"}}, {{0, 0}}},

    /* the order of the tests, over the whole book: port 0 of node 0 is blocked at 1, port 1 of node 1 at 2; nothing is armed at node 1 at 8450, at node 3 at 8452 */
    {"27 and then 26", 3, 26, {{1, "0"}, {9, "3"}}, {{1, 6}, {0, 0}}},
    {"27 and then 26, the source", 3, 26, {{1, "0"}, {65, "0"}}, {{1, 6}, {0, 0}}},
    {"27 and then 26, the path", 3, 26, {{1, "0"}, {9, "000"}}, {{1, 6}, {0, 0}}},
    {"27 and then 26, the send channel", 3, 26, {{1, "1"}, {57, "1"}}, {{1, 5}, {369, 57}, {4449, 57}, {0, 0}}},
    {"26 and then 27", 3, 26, {{1, "3"}, {9, "1"}}, {{2, 5}, {0, 0}}},
    {"shared and then 26", 3, 26, {{1, "0"}, {2, "0"}, {9, "3"}}, {{0, 0}}},
    {"11 and then 27", 3, 27, {{1, "0"}, {9, "1"}}, {{2, 5}, {8450, 0}, {0, 0}}},
    {"11 and then shared", 3, 27, {{1, "0"}, {17, "0"}, {18, "0"}}, {{8450, 0}, {0, 0}}},
    {"27 and then 11", 3, 27, {{1, "0"}, {9, "1"}}, {{1, 6}, {8452, 0}, {0, 0}}},
    {"11 and then 26", 3, 26, {{1, "0"}, {9, "3"}}, {{8450, 0}, {0, 0}}},
    {"26 and then 11", 3, 26, {{1, "3"}, {9, "1"}}, {{8452, 0}, {0, 0}}},
    {"11, 27, 26", 3, 26, {{1, "0"}, {9, "1"}, {25, "3"}}, {{2, 5}, {8450, 0}, {0, 0}}},
    {"27, 11, 26", 3, 26, {{1, "0"}, {9, "1"}, {25, "3"}}, {{1, 6}, {8452, 0}, {0, 0}}},
    {"26, 27, 11", 3, 26, {{1, "3"}, {9, "1"}, {17, "0"}}, {{2, 5}, {8452, 0}, {0, 0}}},
    {"27 and 11 of one circuit", 3, 27, {{1, "0"}}, {{1, 6}, {8450, 0}, {0, 0}}},
    {"26, 27 and 11 of one circuit", 3, 26, {{1, "011"}}, {{1, 6}, {8450, 0}, {0, 0}}},
};

static void run_vector(const struct vector *vector) {
    fresh(vector->dimension);
    for (const struct place *place = vector->places; place->at; place++) table[here(place->at)] = (uint8_t)place->value;
    for (unsigned i = 0; vector->circuits[i].number; i++) add(vector->circuits[i].number, vector->circuits[i].ports);
    expect(is_sound(), vector->what, dimension, 3);
    expect_judged(vector->what, vector->number);
    earlier_tests(vector->what);
    if (vector->number != 0) return;
    expect(takes_book(), vector->what, 0, 1);
    for (unsigned place = 0; place < lines; place++) step_away(vector->what, place);
}

/* ---- books that are not well formed ---- */

/* The good book is accepted; each that is one step away from it is not well formed, whatever else is wrong with it. */
static void not_well_formed(void) {
    static const char *const good_ports[] = {"01", "012345670", "0"};
    unsigned got;
    fresh(8);
    for (unsigned i = 0; i < 3; i++) add(good_lines[i].number, good_ports[i]);
    expect_judged("the good book", 0);
    expect(hops == 12 && takes_book(), "the good book in the table", hops, 0);
    for (size_t i = 0; i < sizeof bad_books / sizeof *bad_books; i++) {
        for (unsigned line = 0; line < 3; line++) put_line(line, bad_books[i].lines[line].number, bad_books[i].lines[line].offset, bad_books[i].lines[line].length);
        circuits = bad_books[i].circuits, hops = bad_books[i].hops;
        got = judged(BYTES, bad_books[i].ports_length, bad_books[i].index_length);
        expect(got == 25, bad_books[i].what, 25, got);
        table[here(8449 + 254)] = 0, table[here(1)] = 0; /* 25 comes before 27 and 11 */
        got = judged(BYTES, bad_books[i].ports_length, bad_books[i].index_length);
        expect(got == 25, bad_books[i].what, 25, got);
        table[here(8449 + 254)] = 255, table[here(1)] = 255;
    }
    /* every length of both buffers below what the good book takes, and one byte more */
    expect_judged("the good book again", 0);
    for (size_t ports_length = 0; ports_length <= 13; ports_length++)
        for (size_t index_length = 0; index_length <= 19; index_length++) {
            unsigned number = ports_length < 12 || index_length < 18 ? 25 : 0;
            got = judged(BYTES, ports_length, index_length);
            expect(got == number, "the good book in buffers of", ports_length, index_length);
        }
}

/* ---- sweeps ---- */

/* Each circuit number over one hop, as far as a cube of each dimension has its source: 8 times 2^D is the last. */
static void numbers(void) {
    for (unsigned of = 1; of <= 8; of++) {
        unsigned good = 0;
        fresh(of);
        for (unsigned number = 0; number <= 2050; number++) {
            lines = 0;
            add(number, "0");
            write_book();
            good += judged(BYTES, 1, 6) == (number == 0 || number > 2048 ? 25u : number > 8 * nodes ? 26u : 0u);
        }
        expect(good == 2051, "circuit numbers in dimension", of, good);
    }
}

/* Each path of dimension D + 1 hops and fewer, 0, 1, .., D - 1, 0, and of one hop more; and each byte that may stand at a hop. */
static void lengths(void) {
    for (unsigned of = 1; of <= 8; of++)
        for (unsigned length = 1; length <= 9 && length <= of + 2; length++) {
            unsigned good = 0;
            fresh(of);
            add(8 * (nodes - 1) + 1, "");
            for (unsigned hop = 0; hop < length; hop++) book[0].port[hop] = (uint8_t)(hop % of);
            book[0].length = length;
            expect_judged("a path of as many hops", length <= of + 1 ? 0 : 26);
            for (unsigned byte = of; byte < 256; byte++) {
                book[0].port[length - 1] = (uint8_t)byte;
                write_book();
                good += judged(BYTES, length, 6) == 26;
            }
            expect(good == 256 - of, "bytes that are no port", of, length);
        }
}

/* Every list of up to D + 2 ports, in small cubes: as many are paths as Paths 4 to 6 have. With h ports to go the target can be come to in h! ways by a first hop
 * towards it, and by each first hop away in (h + 1)! ways; at no distance each port leads out and back: in dimension 1 to 4 that is 2, 10, 48 and 260 in all. With every
 * dimension folded a path of h hops is one of 2^h: in dimension 1 to 3 that is 6, 52 and 474. */
static void every_path(void) {
    static const unsigned paths[] = {0, 2, 10, 48, 260}, folded_paths[] = {0, 6, 52, 474};
    for (unsigned folded = 0; folded < (MAZE_PORTS == 8 ? 1 : 2); folded++)
        for (unsigned of = 1; of <= (folded ? 3 : 4); of++) {
            unsigned ports[8], there = 0;
            fresh_folded(of, folded ? (1u << of) - 1 : 0);
            for (unsigned port = 0; port < 18; port++)
                if (has_port(port)) ports[there++] = port;
            for (unsigned source = of < 4 ? 0 : 5; source < nodes; source += of < 3 ? 1 : of < 4 ? 5 : nodes) {
                unsigned accepted = 0, other = 0, as_reference = 0, all = 0;
                for (unsigned length = 1; length <= of + 2; length++) {
                    unsigned count = 1;
                    for (unsigned hop = 0; hop < length; hop++) count *= there;
                    for (unsigned number = 0; number < count; number++, all++) {
                        unsigned got, rest = number;
                        lines = 0;
                        add(8 * source + 3, "");
                        book[0].length = length;
                        for (unsigned hop = 0; hop < length; hop++, rest /= there) book[0].port[hop] = (uint8_t)ports[rest % there];
                        write_book();
                        got = judged(BYTES, length, 6);
                        accepted += got == 0;
                        other += got != 0 && got != 26;
                        as_reference += got == ref_judge(table, BYTES, book_ports, length, book_index, 6, 1, (uint16_t)length);
                    }
                }
                expect(accepted == (folded ? folded_paths : paths)[of] && other == 0, "how many paths there are in dimension", of, accepted);
                expect(as_reference == all, "the same paths as the reference has", all, as_reference);
            }
        }
}

/* A circuit over each link of a cube of dimension 8, which is the most that a table can hold: 2,048 lines. */
static void whole_cube(void) {
    fresh(8);
    for (unsigned k = 0; k < LINES; k++) {
        add(k + 1, "0");
        book[k].port[0] = (uint8_t)(k % 8);
    }
    expect_judged("2,048 circuits", 0);
    expect(takes_book(), "2,048 circuits in the table", 0, 0);
    earlier_tests("2,048 circuits");
    for (unsigned k = 0; k < LINES; k += k < 16 || k > LINES - 16 ? 1 : 211) {
        const unsigned node = k / 8, port = k % 8, target = node ^ 1u << port;
        table[here(1 + node)] = (uint8_t)(255 ^ 1u << port);
        expect_judged("one of 2,048 links blocked", 27);
        table[here(1 + node)] = 255;
        table[here(8449 + target)] = 127;
        expect_judged("seven channels of one of 256 targets", 11);
        table[here(8449 + target)] = 255;
        book[k].port[0] = 8;
        expect_judged("port 8 in one of 2,048 circuits", 26);
        book[k].port[0] = (uint8_t)((port + 1) % 8); /* which another circuit of the node has */
        expect_judged("a link shared in 2,048 circuits", 27);
        book[k].port[0] = (uint8_t)port;
    }
    /* one line more is no book */
    write_book();
    put_line(LINES, 2049, 2048, 1);
    circuits++, hops++;
    expect(judged(BYTES, hops, 6 * circuits) == 25, "2,049 circuits", 0, 0);
    put_line(LINES, 2048, 2048, 1);
    expect(judged(BYTES, hops, 6 * circuits) == 25, "2,049 circuits, the last two alike", 0, 0);
    /* the longest book: every circuit by nine hops, so that links are shared; and the last one not permitted */
    for (unsigned k = 0; k < LINES; k++) {
        book[k].length = LONGEST;
        for (unsigned hop = 0; hop < LONGEST; hop++) book[k].port[hop] = (uint8_t)((k + hop) % 8);
    }
    expect_judged("18,432 hops", 27);
    book[LINES - 1].port[8] = book[LINES - 1].port[7];
    expect_judged("18,432 hops, the last one back", 26);
    book[LINES - 1].length = 10;
    expect_judged("18,433 hops, the last circuit of ten", 25);
}

/* Nothing lent, and pointers to nothing; and what is lent may lie anywhere, also over itself. */
static void pointers(void) {
    uint8_t *const nowhere[] = {NULL, (uint8_t *)(uintptr_t)1};
    static uint8_t room[BYTES + 16];
    for (unsigned of = 1; of <= 8; of++) {
        fresh(of);
        for (size_t i = 0; i < 2; i++) {
            uint8_t *none = nowhere[i];
            expect(maze_judge(table, BYTES, none, 0, none, 0, 0, 0) == 0, "no circuit and no bytes", of, i);
            expect(maze_judge(table, BYTES, none, 0, none, 0, 1, 0) == 25, "a circuit and no index", of, i);
            expect(maze_judge(table, BYTES, none, 0, none, 0, 0, 1) == 25, "a hop and no ports", of, i);
            expect(maze_judge(table, BYTES, none, 0, none, 0, 65535, 65535) == 25, "the largest counts and no bytes", of, i);
            expect(maze_judge(none, 0, none, 0, none, 0, 0, 0) == 1 && maze_judge(none, 0, none, 0, none, 0, 1, 1) == 1, "no table", of, i);
            expect(maze_judge(table, BYTES - 1, none, 0, none, 0, 0, 0) == 1 && maze_judge(table, BYTES + 1, none, 0, none, 0, 1, 1) == 1, "a table of a wrong length", of, i);
        }
    }
    fresh(3);
    add(1, "012"), add(2, "120"), add(3, "201");
    write_book();
    for (size_t shift = 0; shift < 16; shift++) {
        memcpy(room + shift, table, BYTES);
        memmove(book_ports + shift, book_ports + (shift ? shift - 1 : 0), hops);
        memmove(book_index + shift, book_index + (shift ? shift - 1 : 0), 6 * circuits);
        expect(maze_judge(room + shift, BYTES, book_ports + shift, hops, book_index + shift, 6 * circuits, (uint16_t)circuits, (uint16_t)hops) == 0, "judged at", shift, 0);
        table[here(8456)] = 3;
        memcpy(room + shift, table, BYTES);
        expect(maze_judge(room + shift, BYTES, book_ports + shift, hops, book_index + shift, 6 * circuits, (uint16_t)circuits, (uint16_t)hops) == 11, "two channels, judged at", shift, 0);
        table[here(8456)] = 255;
    }
    /* circuit 1 by port 0: the port is the high byte of the number */
    lines = 0;
    add(1, "0");
    write_book();
    expect(maze_judge(table, BYTES, book_index + 1, 1, book_index, 6, 1, 1) == 0, "ports that lie in the index", 0, 0);
    expect(maze_judge(table, BYTES, book_index + 4, 1, book_index, 6, 1, 1) == 0, "ports that lie in the index", 1, 0);
    expect(maze_judge(table, BYTES, table, BYTES, table, BYTES, 0, 0) == 0, "a book that lies in the table", 0, 0);
}

/* ---- books written of a table, judged by it ---- */

/* A table with some links blocked, many channels armed and circuits open, all by calls but for the arming. */
static void random_table(void) {
    unsigned sends = below(4u << below(dimension + 2));
    fresh_folded(dimension, MAZE_PORTS == 8 || below(3) == 0 ? 0 : below(1u << dimension));
    for (unsigned node = 0; node < nodes; node++)
        if (below(4) == 0) table[here(8449 + node)] = (uint8_t)below(256);
    for (unsigned i = below(2) ? 0 : below(nodes); i > 0; i--) maze_block(table, BYTES, (uint16_t)below(nodes), (uint16_t)any_port());
    for (unsigned i = 0; i < sends; i++)
        maze_open(table, BYTES, (uint16_t)below(nodes), (uint16_t)below(8), (uint16_t)below(nodes), (uint16_t)(below(3) ? 0 : 4), (uint16_t)(1 + below(nodes - 1)));
}

/* The book of the table, line by line. */
static void book_table(void) {
    maze_booked booked;
    unsigned offset = 0;
    lines = 0;
    write_book();
    booked = maze_book(table, BYTES, book_ports, 4096, book_index, 12288);
    expect(booked.number == 0, "a book", booked.number, booked.circuits);
    for (unsigned i = 0; i < booked.circuits; i++) {
        const uint8_t *line = book_index + 6 * i;
        book[i].number = line[0] + 256u * line[1];
        book[i].length = line[4];
        memcpy(book[i].port, book_ports + offset, book[i].length);
        offset += book[i].length;
    }
    lines = booked.circuits;
    circuits = booked.circuits;
    hops = booked.hops;
}

/* Closes a circuit, and arms its channel again if that is wished. */
static void close_circuit(unsigned circuit, int arm) {
    unsigned receive = maze_circuit_receive(table, circuit), number;
    number = maze_close(table, BYTES, (uint16_t)maze_circuit_node(circuit), (uint16_t)maze_circuit_channel(circuit));
    if (arm && number == 0) number = maze_arm(table, BYTES, (uint16_t)maze_circuit_node(receive), (uint16_t)maze_circuit_channel(receive));
    if (number != 0) expect(0, "a circuit closed, its channel armed", circuit, number);
}

static unsigned long answers[ANSWERS], accepted_lines;

/* The book as it stands in the buffers, beside the reference. */
static unsigned compare(const char *what, size_t ports_length, size_t index_length) {
    unsigned got = judged(BYTES, ports_length, index_length);
    unsigned want = ref_judge(table, BYTES, book_ports, ports_length, book_index, index_length, (uint16_t)circuits, (uint16_t)hops);
    expect(got == want, what, want, got);
    if (want < ANSWERS) answers[want]++;
    return want;
}

/* The book of a table: refused while its circuits are open; accepted, as it was written, once they are closed and armed again, and then every step away from it is
 * not. Before they are armed, the reference tells. */
static void own_book(void) {
    static uint8_t kept[BYTES];
    random_table();
    book_table();
    expect(judged(BYTES, hops, 6 * circuits) == (lines > 0 ? 26u : 0u), "a book whose circuits are open", lines, 0);
    memcpy(kept, table, BYTES);
    for (unsigned i = 0; i < lines; i++) close_circuit(book[i].number, 0);
    compare("closed and not armed again", hops, 6 * circuits);
    memcpy(table, kept, BYTES);
    for (unsigned i = 0; i < lines; i++) {
        if (i > 0 && i + 1 == lines) compare("all but one closed", hops, 6 * circuits);
        close_circuit(book[i].number, 1);
    }
    expect(judged(BYTES, hops, 6 * circuits) == 0, "a book whose circuits are closed and armed again", lines, 0);
    expect(judged(BYTES, 4096, 12288) == 0, "the same in the buffers that it was written to", lines, 0);
    expect(takes_book(), "a book taken by its table", lines, 0);
    accepted_lines += lines;
    if (lines == 0) return;
    step_away("a step from the first of its circuits", 0);
    step_away("a step from the last of its circuits", lines - 1);
    step_away("a step from one of its circuits", below(lines));
}

/* ---- at random, beside the reference ---- */

static void sort_book(void) {
    for (unsigned i = 1; i < lines; i++)
        for (unsigned k = i; k > 0 && book[k].number < book[k - 1].number; k--) {
            const struct circuit other = book[k];
            book[k] = book[k - 1];
            book[k - 1] = other;
        }
}

/* One change of the circuits of a book. */
static void change_book(void) {
    struct circuit *circuit = &book[below(lines)], *other = &book[below(lines)];
    unsigned hop = below(circuit->length), last = circuit->length - 1;
    uint8_t port = circuit->port[hop];
    switch (below(9)) {
    case 0: circuit->port[hop] = (uint8_t)(below(8) == 0 ? below(256) : fold_mask() && below(2) ? 17u - port : any_port()); break;
    case 1: circuit->port[hop] = circuit->port[last], circuit->port[last] = port; break; /* often another path to the same target */
    case 2:
        if (circuit->length < LONGEST) circuit->port[circuit->length++] = (uint8_t)any_port();
        break;
    case 3:
        if (circuit->length > 1) circuit->length--;
        break;
    case 4: circuit->number = 1 + below(8 * nodes), sort_book(); break; /* now and then two of one number */
    case 5: circuit->number = (circuit->number - 1) / 8 * 8 + 1 + below(8), sort_book(); break;
    case 6:
        if (lines == LINES) break;
        book[lines] = *circuit;
        book[lines++].number = 1 + below(below(4) ? 8 * nodes : 2048);
        sort_book();
        break;
    case 7: circuit->length = other->length, memcpy(circuit->port, other->port, sizeof circuit->port); break;
    default:
        lines--;
        memmove(circuit, circuit + 1, (size_t)(book + lines - circuit) * sizeof *book);
    }
}

/* One change of the table, by a call. */
static void change_table(void) {
    const struct circuit *circuit = &book[below(lines)];
    unsigned node = source_of(circuit), stop = below(circuit->length), target, channel;
    for (unsigned hop = 0; hop < stop; hop++) node ^= step(circuit->port[hop] % 18u);
    target = end_of(circuit);
    if (source_of(circuit) >= nodes || target >= nodes || node >= nodes || !has_port(circuit->port[stop])) return;
    channel = available_channel(target);
    switch (below(7)) {
    case 0: maze_block(table, BYTES, (uint16_t)node, circuit->port[stop]); break;
    case 1: maze_disarm(table, BYTES, (uint16_t)target, (uint16_t)(channel % 8)); break;
    case 2: case 3: case 4:
        while (available_channel(target) < 8) maze_disarm(table, BYTES, (uint16_t)target, (uint16_t)available_channel(target));
        break;
    case 5: maze_open(table, BYTES, (uint16_t)node, (uint16_t)below(8), (uint16_t)(node ^ step(circuit->port[stop])), 0, (uint16_t)step(circuit->port[stop])); break;
    default: maze_open(table, BYTES, (uint16_t)source_of(circuit), (uint16_t)((circuit->number - 1) % 8), (uint16_t)below(nodes), 4, 1);
    }
}

/* A circuit over a path drawn hop by hop: permitted in most cases. */
static void draw_circuit(unsigned number) {
    struct circuit *circuit = &book[lines++];
    unsigned walked = 0;
    circuit->number = number;
    circuit->length = 1 + below(dimension + 1);
    for (unsigned hop = 0; hop < circuit->length; hop++) {
        unsigned port = any_port();
        for (unsigned tries = 0; hop > 0 && (walked & step(port)) && tries < 30; tries++) port = any_port();
        if (hop > 0) walked |= step(port);
        circuit->port[hop] = (uint8_t)port;
    }
}

static void draw_book(void) {
    lines = 0;
    for (unsigned number = 1 + below(8 * nodes); number <= 8 * nodes && lines < LINES; number += 1 + below(4 * nodes)) draw_circuit(number);
}

/* Books at random: of circuits that a table had, some of them closed, and of circuits that none had; with no change or a few. */
static void random_books(void) {
    static uint8_t kept[BYTES];
    static struct circuit kept_book[LINES + 1];
    unsigned kept_lines = 0, all;
    random_table();
    book_table();
    /* those that are closed make the book, the others stay open */
    all = lines;
    for (unsigned i = 0; i < all; i++)
        if (below(3)) {
            close_circuit(book[i].number, below(30) != 0);
            kept_book[kept_lines++] = book[i];
        }
    memcpy(kept, table, BYTES);
    for (unsigned round = 0; round < 32; round++) {
        unsigned changes = below(4);
        memcpy(table, kept, BYTES);
        memcpy(book, kept_book, sizeof book);
        lines = kept_lines;
        if (below(5) == 0) draw_book();
        for (unsigned i = 0; i < changes && lines > 0; i++) {
            if (below(3)) change_book();
            else change_table();
        }
        write_book();
        if (compare("a book at random", hops, 6 * circuits) == 0 && lines > 0) {
            expect(takes_book(), "an accepted book, taken by the table", round, lines);
            accepted_lines += lines;
        }
        if (lines == 0) continue;
        /* a byte of the index, or a count, changed */
        if (below(2)) {
            unsigned at = below(6 * lines);
            uint8_t byte = book_index[at];
            book_index[at] = (uint8_t)(below(2) ? byte + 1 : below(2) ? byte - 1 : (int)below(256));
            compare("a byte of the index changed", hops, 6 * circuits);
        } else {
            if (below(2)) circuits += 2 * below(2) - 1u;
            else hops += 2 * below(2) - 1u;
            compare("one circuit or hop more or less", sizeof book_ports, sizeof book_index);
        }
    }
    /* bytes of any kind: of the first line sometimes a good number and length */
    for (unsigned i = 0; i < sizeof book_ports; i++) book_ports[i] = (uint8_t)below(below(2) ? dimension : 256);
    for (unsigned i = 0; i < 60; i++) book_index[i] = (uint8_t)below(256);
    for (unsigned i = 0; i < 4; i++) {
        circuits = below(10), hops = below(40);
        compare("bytes at random", 40, 60);
        circuits = 1, hops = 1 + below(9);
        put_line(0, below(9 * nodes), below(20) == 0, hops);
        compare("one circuit at random", 40, 60);
    }
}

int main(int count, char **arguments) {
    unsigned long tables = count > 1 ? strtoul(arguments[1], NULL, 10) : 10;
    uint64_t seed = count > 2 ? strtoull(arguments[2], NULL, 10) : 1;
    static const unsigned numbers_given[] = {0, 25, 26, 27, 11};
    for (size_t i = 0; i < sizeof no_ports; i++) no_ports[i] = (uint8_t)(i % 5);
    for (size_t i = 0; i < sizeof no_index; i++) no_index[i] = (uint8_t)(i % 239 + 5);
    for (size_t i = 0; i < sizeof vectors / sizeof *vectors; i++) run_vector(&vectors[i]);
    not_well_formed();
    numbers();
    lengths();
    every_path();
    whole_cube();
    pointers();
    for (unsigned long i = 0; i < tables; i++)
        for (dimension = 1; dimension <= 8; dimension++) {
            random_state = seed * 1000003u + i * 16 + dimension;
            nodes = 1u << dimension;
            own_book();
            random_books();
        }
    printf("answers beside the reference:");
    for (unsigned number = 0; number < ANSWERS; number++)
        if (answers[number]) printf("  %u: %lu", number, answers[number]);
    printf("; circuits of accepted books: %lu\n", accepted_lines);
    /* what never occurs compares nothing */
    for (unsigned i = 0; i < sizeof numbers_given / sizeof *numbers_given && tables >= 10; i++)
        expect(answers[numbers_given[i]] >= 50, "a number that seldom occurred", numbers_given[i], answers[numbers_given[i]]);
    return verdict();
}
