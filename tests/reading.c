/* The functions of the header itself: what they read in tables that the library made, beside a record kept of the calls; the words for every number. It is
 * written in what C89 and C++11 have in common, and compiled as both. With -DWIDE it is about wide tables, folded ones among them, and the functions that
 * read those. */
#include "expect.h"
#include "subject.h"

#include <string.h>

#define NUMBERS_TRIED 65536UL
#define STEPS 400

static uint8_t table[MAZE_TABLE_BYTES], copy[MAZE_TABLE_BYTES], before[MAZE_TABLE_BYTES], longer[MAZE_TABLE_BYTES + 1];

/* What the accepted calls say that a table shows. */
static struct {
    unsigned dimension, nodes, fold;
    int enabled[256][18], armed[256][8];
    unsigned owner[256][18], receiver[256][8];
    unsigned receive_of[2049];
} shown;

/* Kept from the compiler, which would compare the words of the header with each other as it compiles. */
static int (*volatile compared)(const char *, const char *) = strcmp;

static int same(const char *text, const char *other) {
    return compared(text, other) == 0;
}

static unsigned long seed = 1;

static unsigned below(unsigned bound) {
    seed = (seed * 1103515245UL + 12345UL) & 0xffffffffUL;
    return (unsigned)(seed >> 8) % bound;
}

static uint16_t number16(unsigned number) {
    return (uint16_t)number;
}

static void make(unsigned dimension) {
    unsigned node, slot;
    memset(&shown, 0, sizeof shown);
    shown.dimension = dimension;
    shown.nodes = 1u << dimension;
    for (node = 0; node < shown.nodes; node++)
        for (slot = 0; slot < dimension; slot++) shown.enabled[node][slot] = 1;
    expect(maze_make(table, sizeof table, number16(dimension)) == MAZE_ACCEPTED, "make", dimension, 0);
}

/* Port 17 - p is the partner of port p of a folded dimension. */
static int has_port(unsigned port) {
    return port < shown.dimension || (port < 18 && 17 - port < shown.dimension && (shown.fold >> (17 - port) & 1) != 0);
}

#ifdef WIDE
static unsigned any_port(void) {
    unsigned port = below(shown.dimension);
    return has_port(17 - port) && below(2) ? 17 - port : port;
}

static void fold(unsigned mask) {
    unsigned node, p;
    if (maze_wide_fold(table, sizeof table, number16(mask)) != MAZE_ACCEPTED) return;
    for (p = 0; p < shown.dimension; p++)
        for (node = 0; node < shown.nodes && (mask >> p & 1) != (shown.fold >> p & 1); node++) shown.enabled[node][17 - p] = mask >> p & 1;
    shown.fold = mask;
}
#endif

/* An accepted open: its path is what maze_trace tells, and leads from the source to the target by maze_link_node. */
static void record_open(unsigned node, unsigned channel, unsigned target, unsigned receive) {
    uint8_t ports[MAZE_TRACE_BYTES];
    unsigned at = node, hop, circuit = 8 * node + channel + 1;
    maze_traced traced = maze_trace(table, sizeof table, number16(node), number16(channel), ports, sizeof ports);
    for (hop = 0; hop < traced.hops; hop++) {
        shown.owner[at][ports[hop]] = circuit;
        at = maze_link_node(table, at, ports[hop]);
        if (at >= MAZE_NODES) break;
    }
    expect(traced.number == MAZE_ACCEPTED && at == target, "the ports of a circuit lead to its target", at, target);
    shown.receiver[target][receive] = circuit;
    shown.receive_of[circuit] = 8 * target + receive + 1;
}

static void record_close(unsigned circuit) {
    unsigned node, slot;
    for (node = 0; node < 256; node++) {
        for (slot = 0; slot < 18; slot++)
            if (shown.owner[node][slot] == circuit) shown.owner[node][slot] = 0;
        for (slot = 0; slot < 8; slot++)
            if (shown.receiver[node][slot] == circuit) shown.receiver[node][slot] = 0, shown.armed[node][slot] = 0;
    }
    shown.receive_of[circuit] = 0;
}

/* Mostly opens, and more arming than disarming, so that tables fill. */
static void step(void) {
    unsigned node = below(shown.nodes), slot = below(8), port = below(shown.dimension), target = below(shown.nodes), link = port;
    maze_opened opened;
#ifdef WIDE
    link = any_port();
    if (below(40) == 0) fold(shown.fold ^ 1u << port);
#endif
    switch (below(12)) {
    case 0: if (maze_block(table, sizeof table, number16(node), number16(link)) == MAZE_ACCEPTED) shown.enabled[node][link] = 0; break;
    case 1: if (maze_unblock(table, sizeof table, number16(node), number16(link)) == MAZE_ACCEPTED) shown.enabled[node][link] = 1; break;
    case 2: if (maze_disarm(table, sizeof table, number16(node), number16(slot)) == MAZE_ACCEPTED) shown.armed[node][slot] = 0; break;
    case 3: if (maze_close(table, sizeof table, number16(node), number16(slot)) == MAZE_ACCEPTED) record_close(8 * node + slot + 1); break;
    case 4: case 5: case 6: case 7: if (maze_arm(table, sizeof table, number16(node), number16(slot)) == MAZE_ACCEPTED) shown.armed[node][slot] = 1; break;
    default:
        opened = maze_open(table, sizeof table, number16(node), number16(slot), number16(target), MAZE_TYPE_ALTERNATE_MAZE, number16(1u << port));
        if (opened.number == MAZE_ACCEPTED) record_open(node, slot, target, opened.receive);
        break;
    }
}

/* Every function, and every macro, over every node, port and channel, and some that no table has. */
static void compare(void) {
    unsigned node, slot, circuit, open = 0, met = 0;
    int good = maze_dimension(table) == shown.dimension && MAZE_DIMENSION(table) == shown.dimension && maze_node_count(table) == shown.nodes;
    expect(good, "the dimension and the number of nodes", maze_dimension(table), shown.dimension);
    for (node = 0, good = 1; node < 260; node++)
        for (slot = 0; slot < 26; slot++) {
            int there = node < 256 && slot < 8, link = node < 256 && slot < 18;
            unsigned behind = node < shown.nodes && has_port(slot) ? node ^ 1u << (slot < 9 ? slot : 17 - slot) : MAZE_NODES;
            good &= maze_link_enabled(table, node, slot) == (link ? shown.enabled[node][slot] : 0);
            good &= maze_link_circuit(table, node, slot) == (link ? shown.owner[node][slot] : 0);
            good &= maze_receive_armed(table, node, slot) == (there ? shown.armed[node][slot] : 0);
            good &= maze_receive_circuit(table, node, slot) == (there ? shown.receiver[node][slot] : 0);
            good &= maze_link_node(table, node, slot) == behind;
            good &= MAZE_LINK_ENABLED(table, node, slot) == maze_link_enabled(table, node, slot) && MAZE_LINK_CIRCUIT(table, node, slot) == maze_link_circuit(table, node, slot);
            good &= MAZE_RECEIVE_ARMED(table, node, slot) == maze_receive_armed(table, node, slot) && MAZE_RECEIVE_CIRCUIT(table, node, slot) == maze_receive_circuit(table, node, slot);
            met += maze_receive_circuit(table, node, slot) != 0;
        }
    expect(good, "links and receive channels as the calls left them", shown.dimension, 0);
#ifdef WIDE
    good = maze_wide_fold_mask(table) == shown.fold;
    for (slot = 0; slot < 300; slot++) good &= maze_wide_port_exists(table, slot) == has_port(slot);
    expect(good, "the fold mask, and the ports that the nodes have", shown.dimension, shown.fold);
#endif
    for (circuit = 0, good = 1; circuit < 2049; circuit++) {
        good &= maze_circuit_receive(table, circuit) == shown.receive_of[circuit];
        open += shown.receive_of[circuit] != 0;
    }
    expect(good, "the receive channel of each circuit", shown.dimension, 0);
    expect(met == open && open > 0, "a walk over the receive channels meets each open circuit once", met, open);
    expect(maze_check_table(table, sizeof table) == MAZE_ACCEPTED, "the table is sound", maze_check_table(table, sizeof table), 0);
}

static void far_away(void) {
    unsigned at, good = 1;
    static const unsigned far[] = {256, 257, 511, 512, 8192, 65535, 65536, 1u << 28, 1u << 29, 1u << 31, 4294967295u};
    memset(copy, 255, sizeof copy);
    for (at = 0; at < sizeof far / sizeof *far; at++) {
        good &= !maze_link_enabled(copy, far[at], 0) && !maze_link_circuit(copy, far[at], 0) && !maze_receive_armed(copy, far[at], 0) && !maze_receive_circuit(copy, far[at], 0);
        good &= !maze_link_enabled(copy, 0, far[at]) && !maze_link_circuit(copy, 0, far[at]) && !maze_receive_armed(copy, 0, far[at]) && !maze_receive_circuit(copy, 0, far[at]);
        good &= maze_link_node(table, far[at], 0) == MAZE_NODES && maze_link_node(table, 0, far[at]) == MAZE_NODES;
    }
    expect((int)good, "nothing is read outside a table", 0, 0);
    expect(maze_link_circuit(copy, 255, MAZE_PORTS - 1) == 65535 && maze_receive_circuit(copy, 255, 7) == 65535, "two bytes to a circuit", 0, 0);
    expect(maze_link_enabled(copy, 255, MAZE_PORTS - 1) == 1 && maze_receive_armed(copy, 255, 7) == 1, "the last port and channel of a row", 0, 0);
    expect(maze_link_enabled(copy, 255, MAZE_PORTS) == 0 && maze_link_circuit(copy, 0, MAZE_PORTS) == 0 && maze_receive_armed(copy, 0, 8) == 0, "behind a row", 0, 0);
#ifdef WIDE
    expect(maze_wide_fold_mask(copy) == 255 && maze_wide_fold_mask(table) == shown.fold, "the fold mask", 0, 0);
    for (at = 0; at < 18; at++) good &= maze_wide_axis(at) == (at < 9 ? at : 17 - at) && maze_wide_partner(at) == 17 - at && maze_wide_partner(maze_wide_partner(at)) == at;
    for (at = 18; at < 70000; at++) good &= maze_wide_axis(at) == 18 && maze_wide_partner(at) == 18 && !maze_wide_port_exists(copy, at) && !maze_wide_port_exists(table, at);
    for (at = 0; at < sizeof far / sizeof *far; at++) good &= maze_wide_axis(far[at]) == 18 && maze_wide_partner(far[at]) == 18 && !maze_wide_port_exists(copy, far[at]);
    expect((int)good, "axes and partners", 0, 0);
#endif
    for (at = 0; at < 256; at++) {
        copy[MAZE_DIMENSION_AT] = (uint8_t)at;
        good &= maze_node_count(copy) == (at >= 1 && at <= 8 ? 1u << at : 0) && maze_dimension(copy) == at;
        good &= maze_link_node(copy, 0, 0) == (at >= 1 && at <= 8 ? 1u : MAZE_NODES);
#ifdef WIDE
        /* folded at every dimension, so that nodes have as many partners as ports below the dimension; and none where no cube has it */
        good &= maze_wide_link_node(copy, 0, 17) == (at >= 1 && at <= 8 ? 1u : MAZE_NODES) && maze_wide_link_node(copy, 0, 8) == MAZE_NODES && maze_wide_link_node(copy, 0, 9) == MAZE_NODES;
        good &= maze_wide_port_exists(copy, 10) == (at == 8) && maze_wide_port_exists(copy, 16) == (at >= 2 && at <= 8) && maze_wide_port_exists(copy, 0) == (at >= 1 && at <= 8);
#endif
    }
    expect((int)good, "dimensions that no cube has", 0, 0);
    expect(maze_circuit_receive(copy, 65535) == 0 && maze_circuit_receive(table, 0) == 0 && maze_circuit_receive(table, 65535) == 0, "circuits that are not open", 0, 0);
    for (at = 0; at < 2048; at++) good &= maze_circuit(at / 8, at % 8) == at + 1 && maze_circuit_node(at + 1) == at / 8 && maze_circuit_channel(at + 1) == at % 8;
    expect((int)good, "circuit numbers and back", 0, 0);
}

/* What maze_check_table says of good tables, damaged ones and those of a wrong length: the number that a call on it gives, and no byte changes. */
static void check_tables(void) {
    unsigned at, said, good = 1, unsound = 0;
    make(3);
    expect(maze_check_table(table, sizeof table) == 0, "a made table", 0, 0);
    memcpy(longer, table, sizeof table);
    expect(maze_check_table(table, sizeof table - 1) == 1 && maze_check_table(longer, sizeof longer) == 1 && maze_check_table(NULL, 0) == 1, "lengths", 0, 0);
    maze_arm(table, sizeof table, 7, 0);
    maze_open(table, sizeof table, 0, 0, 7, MAZE_TYPE_MAZE, 7);
    expect(maze_check_table(table, sizeof table) == 0, "send channel 0 of node 0 open", 0, 0);
    for (at = 0; at < sizeof table; at++) {
        memcpy(copy, table, sizeof copy);
        copy[at] = (uint8_t)(copy[at] ^ (at == 0 ? 8 : 1));
        memcpy(before, copy, sizeof copy);
        said = maze_check_table(copy, sizeof copy);
        good &= memcmp(before, copy, sizeof copy) == 0;
        /* a call that changes nothing where it is accepted: an enabled link is enabled */
        good &= said == (at == 0 ? 2u : maze_unblock(copy, sizeof copy, 7, 0));
        unsound += said == MAZE_NOT_SOUND;
        if (at == 0) expect(said == MAZE_BAD_DIMENSION, "dimension 11", said, 2);
    }
    expect((int)good, "damaged tables, as another call judges them", 0, 0);
    expect(unsound > sizeof table - 705 && unsound < sizeof table - 1, "bytes that damage makes unsound", unsound, 0);
}

/* A table may be copied: both copies go on alike. */
static void go_on_with_copy(void) {
    unsigned at, good = 1;
    make(4);
    for (at = 0; at < STEPS; at++) step();
    memcpy(copy, table, sizeof copy);
    for (at = 0; at < STEPS; at++) {
        uint16_t node = number16(below(16)), channel = number16(below(8)), target = number16(below(16));
        maze_opened one, other;
        good &= maze_arm(table, sizeof table, target, channel) == maze_arm(copy, sizeof copy, target, channel);
        one = maze_open(table, sizeof table, node, channel, target, 4, 1);
        other = maze_open(copy, sizeof copy, node, channel, target, 4, 1);
        good &= one.number == other.number && one.hops == other.hops && one.receive == other.receive && one.scouts == other.scouts;
        if (at % 3 == 0) good &= maze_close(table, sizeof table, node, channel) == maze_close(copy, sizeof copy, node, channel);
    }
    expect((int)good && memcmp(table, copy, sizeof copy) == 0, "a copied table goes on as the first", 0, 0);
}

/* The numbers that Refusals gives a meaning: each has words of its own, and no other number has any. */
static void texts(void) {
    static const unsigned numbers[] = {MAZE_ACCEPTED, 1, 2, 3, 4, 5, 6, 7, 8, 9, 10, 11, 12, 13, 14, 15, 16, 17, 18, 19, 20, 21,
                                       MAZE_NO_ROUTE, MAZE_BOOK_SHORT, MAZE_FOLDED, MAZE_BAD_BOOK, MAZE_BAD_BOOK_CIRCUIT, MAZE_BAD_BOOK_LINK,
                                       MAZE_BAD_SEND_LIST, MAZE_BAD_HALVES, MAZE_CHANNEL_STOPPED, MAZE_BAD_REQUESTER};
    const unsigned count = sizeof numbers / sizeof *numbers;
    unsigned at, other;
    unsigned long number, known = 0;
    for (at = 0; at < count; at++) {
        const char *text = maze_refusal_text(numbers[at]);
        int good = strlen(text) > 5 && !same(text, "unknown number");
        for (other = 0; other < at; other++) good &= !same(text, maze_refusal_text(numbers[other]));
        expect(good, "words of a refusal number", numbers[at], 0);
    }
    for (number = 0; number < NUMBERS_TRIED; number++) known += !same(maze_refusal_text((unsigned)number), "unknown number");
    expect(known == count && same(maze_refusal_text(4294967295u), "unknown number"), "words for no other number", known, count);
}

/* The reserved commands are those that the library refuses to write; the others have names that differ. What a word says differs for any two words that
 * differ in their command, or in what tells the two meanings of it apart. */
static void command_texts(void) {
    unsigned long command;
    unsigned other, good = 1, names = 0, word;
    for (command = 0; command < NUMBERS_TRIED; command++) {
        const char *text = maze_command_text((unsigned)command);
        int reserved = maze_word_write(number16((unsigned)command), 0).number == MAZE_RESERVED_COMMAND;
        good &= reserved == (same(text, "reserved command") || same(text, "unknown command"));
        good &= (command > 15) == (same(text, "unknown command"));
        if (reserved) continue;
        names++;
        for (other = 0; other < command && other < 16; other++) good &= !same(text, maze_command_text(other));
    }
    expect((int)good && names == 12, "names of commands", names, 12);
    for (word = 0, good = 1, names = 0; word <= MAZE_WORD_LARGEST; word++) {
        maze_word_read_answer read = maze_word_read(number16(word));
        const char *text = maze_word_text(read.command, read.carried);
        int two = read.command == MAZE_RECEIVE_REJECTED_COMMAND || read.command == MAZE_FLUSH_PATH;
        if (read.number != MAZE_ACCEPTED) continue;
        names++;
        good &= two == (!same(text, maze_command_text(read.command)));
        good &= strstr(maze_command_text(read.command), text) != NULL;
        if (two) good &= !same(text, maze_word_text(read.command, 1u - read.carried));
    }
    expect((int)good && names == 12 * 64, "what words say", names, 12 * 64);
    expect(same(maze_word_text(4, 0), "receive rejected") && same(maze_word_text(4, 1), "parity error flushed back"), "command 4", 4, 0);
    expect(same(maze_word_text(14, 0), "flush path") && same(maze_word_text(14, 1), "parity error flushed forward"), "command 14", 14, 0);
}

/* A list of sends that is put together one by one is the list that its bytes say, and a book is taken apart as its index says. The version is one number. */
static void lists_and_books(void) {
    static const uint8_t want[2 * MAZE_SEND_BYTES + 1] = {0, 0, 7, 0, 7, 0, 4, 0, 5, 0, 0x34, 0x12, 0xff, 0xff, 1, 0x80, 0, 1, 0xfe, 0xca, 9};
    uint8_t sends[2 * MAZE_SEND_BYTES + 1], ports[40], index[10 * MAZE_BOOK_LINE_BYTES];
    maze_booked booked;
    maze_opened_all opened;
    unsigned place, at = 0, first, second, third;
    sends[2 * MAZE_SEND_BYTES] = 9;
    maze_put_send(sends, 1, 0x1234, 65535, 0x8001, 256, 0xcafe);
    maze_put_send(sends, 0, 0, 7, 7, 4, 5);
    expect(memcmp(sends, want, sizeof want) == 0, "a list of sends", 0, 0);
    make(3);
    maze_arm(table, sizeof table, 7, 0);
    maze_arm(table, sizeof table, 4, 3);
    maze_put_send(sends, 1, 6, 2, 4, MAZE_TYPE_MAZE, 4);
    opened = maze_open_all(table, sizeof table, sends, 2 * MAZE_SEND_BYTES);
    expect(opened.number == 0 && opened.sends == 2, "a job", opened.number, opened.sends);
    booked = maze_book(table, sizeof table, ports, sizeof ports, index, sizeof index);
    expect(booked.number == 0 && booked.circuits == 2, "a book", booked.number, booked.circuits);
    for (place = 0; place < booked.circuits; place++) {
        uint8_t traced[MAZE_TRACE_BYTES];
        unsigned circuit = maze_book_circuit(index, place), hops;
        hops = maze_trace(table, sizeof table, number16(maze_circuit_node(circuit)), number16(maze_circuit_channel(circuit)), traced, sizeof traced).hops;
        expect(circuit == (place == 0 ? 8U : 51U) && maze_book_at(index, place) == at && maze_book_hops(index, place) == hops, "a circuit of a book", place, circuit);
        expect(memcmp(ports + maze_book_at(index, place), traced, hops) == 0, "ports of a circuit of a book", place, hops);
        at += hops;
    }
    memcpy(index, want, 12);
    index[7] = 0xcd, index[9] = 0xab, index[11] = 0xef;
    expect(maze_book_circuit(index, 1) == 0xcd04 && maze_book_at(index, 1) == 0xab05 && maze_book_hops(index, 1) == 0xef34, "all bits of an index", 0, 0);
    expect(sscanf(maze_version(), "%u.%u.%u", &first, &second, &third) == 3 && 10000 * first + 100 * second + third == MAZE_VERSION_NUMBER && same(maze_version(), MAZE_VERSION), "the version", MAZE_VERSION_NUMBER, 0);
}

int main(void) {
    unsigned dimension, round, at;
    for (dimension = 1; dimension <= 8; dimension++) {
        make(dimension);
        for (round = 0; round < 10; round++) {
            for (at = 0; at < STEPS; at++) step();
            compare();
        }
    }
    far_away();
    check_tables();
    go_on_with_copy();
    texts();
    command_texts();
    lists_and_books();
    return verdict();
}
