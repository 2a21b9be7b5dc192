/* Folded links from C, beside vectors worked by hand from Folding: setting the fold mask, each number at its edge; sends, circuits and jobs over partner
 * links, with the bytes of their tables; books and judging; conversions; and tables that are not sound. In the names of ports a stands for 10 and so on, up to h for 17, as
 * the printed list has them.
 *
 * Port p of a folded dimension has the partner 17 - p: 0 has h, 1 has g, 2 has f, .., 7 has a. In a wide table the link out of port p of node n is held at 770 + 36 n + 2 p,
 * receive channel c of node n at 9986 + 16 n + 2 c, the enabled links of node n are the three bytes from 2 + 3 n, and its armed channels at 14082 + n.
 *
 * With an argument it tries fewer numbers and no long search, for where a call takes long. */
#include "expect.h"
#include "subject.h"

#include <string.h>

enum { BYTES = 14338, SPARE = 64, BUFFER = 16, MOST = 12, NARROW_BYTES = 8705, PORTS_BYTES = 4096, INDEX_BYTES = 12288 };

#define LINK(node, port) (770 + 36 * (node) + 2 * (port))
#define RECEIVE(node, channel) (9986 + 16 * (node) + 2 * (channel))
#define ENABLED(node, byte) (2 + 3 * (node) + (byte))
#define ARMED(node) (14082 + (node))

/* The table, which goes on behind what is lent, and what it was before a call. */
static uint8_t table[BYTES + SPARE], kept[BYTES + SPARE], buffer[BUFFER];
static unsigned dimension, mask;
static int quick;

struct place {
    unsigned at, value;
};

static void keep(void) {
    memcpy(kept, table, sizeof table);
}

static int unaltered(void) {
    return memcmp(kept, table, sizeof table) == 0;
}

static unsigned nodes(void) {
    return 1u << dimension;
}

/* The next of all 16-bit numbers; of the larger ones not each where calls take long. */
static unsigned next(unsigned value) {
    return value + (quick && value >= 300 ? 257 : 1);
}

static unsigned port_of(char name) {
    return name >= 'a' ? 10u + (unsigned)(name - 'a') : (unsigned)(name - '0');
}

static unsigned fold(unsigned to) {
    unsigned number = maze_wide_fold(table, BYTES, (uint16_t)to);
    if (number == 0) mask = to;
    return number;
}

/* A made table, folded; with every channel armed, or none. */
static void fresh(unsigned of, unsigned to, unsigned channels) {
    for (size_t i = 0; i < sizeof table; i++) table[i] = (uint8_t)(i % 251 + 1);
    dimension = of;
    expect(maze_wide_make(table, BYTES, (uint16_t)of) == 0 && table[1] == 0, "make", of, table[1]);
    expect(fold(to) == 0, "fold", of, to);
    memset(table + ARMED(0), (int)channels, nodes());
}

/* The enabled links of a node of which none is blocked. */
static unsigned every_link(void) {
    unsigned links = nodes() - 1;
    for (unsigned p = 0; p < 8; p++) links |= (mask >> p & 1) << (17 - p);
    return links;
}

static unsigned enabled(unsigned node) {
    return table[ENABLED(node, 0)] + 256u * table[ENABLED(node, 1)] + 65536u * table[ENABLED(node, 2)];
}

static void set_enabled(uint8_t *bytes, unsigned node, unsigned links) {
    for (unsigned i = 0; i < 3; i++) bytes[ENABLED(node, i)] = (uint8_t)(links >> 8 * i);
}

static void put(unsigned at, unsigned circuit) {
    table[at] = (uint8_t)(circuit % 256);
    table[at + 1] = (uint8_t)(circuit / 256);
}

/* The table is as fresh() left it, but for the mask as it is now and for some places, and so are the bytes behind it. */
static void expect_table(const char *what, unsigned channels, const struct place *places) {
    static uint8_t want[BYTES + SPARE];
    size_t at = 0;
    memset(want, 0, BYTES);
    want[0] = (uint8_t)dimension;
    want[1] = (uint8_t)mask;
    for (unsigned node = 0; node < nodes(); node++) {
        set_enabled(want, node, every_link());
        want[ARMED(node)] = (uint8_t)channels;
    }
    for (size_t i = BYTES; i < sizeof want; i++) want[i] = (uint8_t)(i % 251 + 1);
    for (; places && places->at; places++) want[places->at] = (uint8_t)places->value;
    while (at < sizeof want && want[at] == table[at]) at++;
    expect(at == sizeof want, what, at, at < sizeof want ? table[at] : 0);
}

static void expect_trace(const char *what, unsigned node, unsigned channel, const char *ports) {
    maze_traced got;
    int good;
    for (unsigned i = 0; i < BUFFER; i++) buffer[i] = (uint8_t)(0xc0 + i);
    keep();
    got = maze_wide_trace(table, BYTES, (uint16_t)node, (uint16_t)channel, buffer, BUFFER);
    good = got.number == 0 && got.hops == strlen(ports) && unaltered();
    for (unsigned i = 0; i < BUFFER; i++) good &= buffer[i] == (i < strlen(ports) ? port_of(ports[i]) : 0xc0 + i);
    expect(good, what, got.number, got.hops);
}

static maze_opened send(unsigned node, unsigned channel, unsigned target, unsigned type, unsigned vector) {
    return maze_wide_open(table, BYTES, (uint16_t)node, (uint16_t)channel, (uint16_t)target, (uint16_t)type, (uint16_t)vector);
}

static void block(unsigned node, char port) {
    expect(maze_wide_block(table, BYTES, (uint16_t)node, (uint16_t)port_of(port)) == 0, "block", node, port_of(port));
}

/* ---- setting the mask ---- */

/* Each mask after each other one, where some partners are blocked: a dimension that keeps its bit keeps its partner links, one that gains it has all of them enabled, one
 * that loses it none. No port below the dimension is touched. */
static void masks(void) {
    for (unsigned of = 1; of <= 8; of++)
        for (unsigned from = 0; from < 1u << of; from += of < 7 ? 1 : 1 + from % 11)
            for (unsigned to = 0; to < 1u << of; to += of < 5 ? 1 : 1 + to % 13) {
                static uint8_t want[BYTES + SPARE];
                int good;
                fresh(of, from, 0);
                for (unsigned node = 0; node < nodes(); node++) set_enabled(table, node, every_link() & ~(0x15a00u << node % 3 | 5u << node % 2));
                memcpy(want, table, sizeof want);
                want[1] = (uint8_t)to;
                for (unsigned node = 0; node < nodes(); node++) {
                    unsigned links = enabled(node);
                    for (unsigned p = 0; p < of; p++) {
                        if (!(to >> p & 1)) links &= ~(1u << (17 - p));
                        else if (!(from >> p & 1)) links |= 1u << (17 - p);
                    }
                    set_enabled(want, node, links);
                }
                good = fold(to) == 0;
                expect(good && memcmp(table, want, sizeof want) == 0, "a mask after another", 1000 * of + from, to);
                if (from == to) expect(memcmp(table + 2, want + 2, BYTES - 2) == 0, "the same mask", of, to);
            }
}

/* Every 16-bit number as a mask: 6 from 2^D on, also where its low byte would do. */
static void no_masks(void) {
    for (unsigned of = 1; of <= 8; of++)
        for (unsigned from = 0; from < 1u << of; from += (1u << of) - 1) {
            unsigned wrong = 0, first = 0;
            fresh(of, from, 0);
            keep();
            for (unsigned value = 1u << of; value < 65536; value = next(value))
                if (maze_wide_fold(table, BYTES, (uint16_t)value) != 6 && wrong++ == 0) first = value;
            expect(wrong == 0 && unaltered(), "a fold bit at or above the dimension", of, first);
        }
}

static void refused_fold(const char *what, unsigned number, size_t length, unsigned to) {
    unsigned got;
    keep();
    got = maze_wide_fold(table, length, (uint16_t)to);
    expect(got == number && unaltered(), what, number, got);
}

/* 1, 2, 3, 6 and 13, each where later ones apply too. */
static void fold_order(void) {
    static const size_t wrong[] = {0, 1, 8704, 8705, 14337, 14339, BYTES + SPARE};
    for (unsigned of = 1; of <= 8; of++) {
        fresh(of, (1u << of) - 1, 255);
        block(0, '0');
        expect(send(0, 0, 1, 0, 1).number == 0 && table[LINK(0, 17)] == 1, "open over port 17", of, table[LINK(0, 17)]);
        refused_fold("a held partner", 13, BYTES, 0);
        refused_fold("a held partner, other dimensions kept", 13, BYTES, nodes() - 2);
        refused_fold("6 before 13", 6, BYTES, nodes());
        refused_fold("6 before 13, the low byte would do", 6, BYTES, 256 + nodes() - 1);
        refused_fold("65535", 6, BYTES, 65535);
        for (size_t i = 0; i < sizeof wrong / sizeof *wrong; i++) refused_fold("a wrong length", 1, wrong[i], 0), refused_fold("1 before 6", 1, wrong[i], 65535);
        table[LINK(0, 1) + 1] = 77;
        refused_fold("not sound", 3, BYTES, 0);
        refused_fold("3 before 6", 3, BYTES, 256);
        table[0] = 9;
        refused_fold("no dimension", 2, BYTES, 0);
        refused_fold("2 before 6", 2, BYTES, 65535);
        table[0] = 0;
        refused_fold("dimension 0", 2, BYTES, 0);
        refused_fold("1 before 2", 1, BYTES - 1, 0);
    }
    expect(maze_wide_fold(NULL, 0, 0) == 1 && maze_wide_fold((uint8_t *)(uintptr_t)1, 0, 1) == 1, "no table", 0, 0);
}

/* ---- sends ---- */

struct sent {
    const char *what;
    unsigned dimension, mask;
    struct { unsigned node; char port; } blocked[8]; /* up to a port 0 */
    uint16_t node, target, type, vector;
    unsigned number;
    unsigned long scouts;
    const char *ports;
    struct place places[MOST]; /* what the open adds: up to a place 0 */
};

#define NONE {{0, 0}}

/* On send channel 0, every channel armed. The places are those of a table with nothing blocked. */
static const struct sent sends[] = {
    /* dimension 1: nodes 0 and 1, ports 0 and h */
    {"F 1, M 1: port 0 before its partner", 1, 1, NONE, 0, 1, 0, 1, 0, 1, "0", {{LINK(0, 0), 1}, {RECEIVE(1, 0), 1}}},
    {"not folded, so no partner", 1, 0, {{0, '0'}}, 0, 1, 0, 1, 22, 0, "", {{0, 0}}},
    {"the partner where port 0 is blocked", 1, 1, {{0, '0'}}, 0, 1, 0, 1, 0, 1, "h", {{LINK(0, 17), 1}, {RECEIVE(1, 0), 1}}},
    {"neither", 1, 1, {{0, '0'}, {0, 'h'}}, 0, 1, 0, 1, 22, 0, "", {{0, 0}}},
    {"neither, type 4", 1, 1, {{0, '0'}, {0, 'h'}}, 0, 1, 4, 1, 22, 0, "", {{0, 0}}},
    /* to itself: the way back goes over the other link of the axis first, since both follow the port arrived on but that port comes last */
    {"back over the partner", 1, 1, NONE, 0, 0, 0, 1, 0, 2, "0h", {{LINK(0, 0), 1}, {LINK(1, 17), 1}, {RECEIVE(0, 0), 1}}},
    {"not folded: back over port 0", 1, 0, NONE, 0, 0, 0, 1, 0, 2, "00", {{LINK(0, 0), 1}, {LINK(1, 0), 1}, {RECEIVE(0, 0), 1}}},
    {"back over port 0 where the partner is blocked", 1, 1, {{1, 'h'}}, 0, 0, 0, 1, 0, 2, "00", {{LINK(0, 0), 1}, {LINK(1, 0), 1}, {RECEIVE(0, 0), 1}}},
    {"an arrival on h: back over port 0", 1, 1, {{0, '0'}}, 0, 0, 0, 1, 0, 2, "h0", {{LINK(0, 17), 1}, {LINK(1, 0), 1}, {RECEIVE(0, 0), 1}}},
    {"out and back over the partner", 1, 1, {{0, '0'}, {1, '0'}}, 0, 0, 0, 1, 0, 2, "hh", {{LINK(0, 17), 1}, {LINK(1, 17), 1}, {RECEIVE(0, 0), 1}}},
    {"no way back by either", 1, 1, {{1, '0'}, {1, 'h'}}, 0, 0, 0, 1, 22, 2, "", {{0, 0}}},
    {"from node 1", 1, 1, {{1, '0'}}, 1, 0, 0, 1, 0, 1, "h", {{LINK(1, 17), 9}, {RECEIVE(0, 0), 9}}},
    /* types 1 and 3: the helix path of port 0 is 0h, that of h is h0 */
    {"type 3 to itself", 1, 1, NONE, 0, 0, 3, 1, 0, 2, "0h", {{LINK(0, 0), 1}, {LINK(1, 17), 1}, {RECEIVE(0, 0), 1}}},
    {"type 3, its second link blocked", 1, 1, {{1, 'h'}}, 0, 0, 3, 1, 22, 1, "", {{0, 0}}},
    {"type 1, the path of the partner", 1, 1, {{1, 'h'}}, 0, 0, 1, 1, 0, 3, "h0", {{LINK(0, 17), 1}, {LINK(1, 0), 1}, {RECEIVE(0, 0), 1}}},
    {"type 3 never takes a partner first", 1, 1, {{0, '0'}}, 0, 1, 3, 1, 22, 0, "", {{0, 0}}},
    {"type 1 sees partners", 1, 1, {{0, '0'}}, 0, 1, 1, 1, 0, 1, "h", {{LINK(0, 17), 1}, {RECEIVE(1, 0), 1}}},

    /* dimension 2, from 0 to 3, vector 3: tried 0, 1, g, h with both folded; 0, 1, h with dimension 0 alone, and 0, 1, g with dimension 1 alone */
    {"mask 3, the first", 2, 3, NONE, 0, 3, 0, 3, 0, 2, "01", {{LINK(0, 0), 1}, {LINK(1, 1), 1}, {RECEIVE(3, 0), 1}}},
    {"mask 3, the second", 2, 3, {{0, '0'}}, 0, 3, 0, 3, 0, 2, "1h", {{LINK(0, 1), 1}, {LINK(2, 17), 1}, {RECEIVE(3, 0), 1}}},
    {"mask 3, the third", 2, 3, {{0, '0'}, {0, '1'}}, 0, 3, 0, 3, 0, 2, "gh", {{LINK(0, 16), 1}, {LINK(2, 17), 1}, {RECEIVE(3, 0), 1}}},
    {"mask 3, the fourth", 2, 3, {{0, '0'}, {0, '1'}, {0, 'g'}}, 0, 3, 0, 3, 0, 2, "h1", {{LINK(0, 17), 1}, {LINK(1, 1), 1}, {RECEIVE(3, 0), 1}}},
    {"mask 3, none", 2, 3, {{0, '0'}, {0, '1'}, {0, 'g'}, {0, 'h'}}, 0, 3, 4, 3, 22, 0, "", {{0, 0}}},
    {"mask 3, type 1, the order too", 2, 3, {{1, '1'}, {2, 'h'}}, 0, 3, 1, 3, 22, 4, "", {{0, 0}}},
    {"mask 3, type 1, the last", 2, 3, {{0, '0'}, {0, '1'}, {2, 'h'}}, 0, 3, 1, 3, 0, 3, "h1", {{LINK(0, 17), 1}, {LINK(1, 1), 1}, {RECEIVE(3, 0), 1}}},
    {"mask 1, the first", 2, 1, NONE, 0, 3, 0, 3, 0, 2, "01", {{LINK(0, 0), 1}, {LINK(1, 1), 1}, {RECEIVE(3, 0), 1}}},
    {"mask 1, the second", 2, 1, {{0, '0'}}, 0, 3, 0, 3, 0, 2, "1h", {{LINK(0, 1), 1}, {LINK(2, 17), 1}, {RECEIVE(3, 0), 1}}},
    {"mask 1, port 0 behind the partner", 2, 1, {{0, '0'}, {2, 'h'}}, 0, 3, 0, 3, 0, 2, "10", {{LINK(0, 1), 1}, {LINK(2, 0), 1}, {RECEIVE(3, 0), 1}}},
    {"mask 1, the third", 2, 1, {{0, '0'}, {0, '1'}}, 0, 3, 0, 3, 0, 2, "h1", {{LINK(0, 17), 1}, {LINK(1, 1), 1}, {RECEIVE(3, 0), 1}}},
    {"mask 2, the first", 2, 2, NONE, 0, 3, 0, 3, 0, 2, "01", {{LINK(0, 0), 1}, {LINK(1, 1), 1}, {RECEIVE(3, 0), 1}}},
    {"mask 2, the partner behind", 2, 2, {{1, '1'}}, 0, 3, 0, 3, 0, 2, "0g", {{LINK(0, 0), 1}, {LINK(1, 16), 1}, {RECEIVE(3, 0), 1}}},
    {"mask 2, the second", 2, 2, {{0, '0'}}, 0, 3, 0, 3, 0, 2, "10", {{LINK(0, 1), 1}, {LINK(2, 0), 1}, {RECEIVE(3, 0), 1}}},
    {"mask 2, the third", 2, 2, {{0, '0'}, {0, '1'}}, 0, 3, 0, 3, 0, 2, "g0", {{LINK(0, 16), 1}, {LINK(2, 0), 1}, {RECEIVE(3, 0), 1}}},
    {"mask 0: two ways alone", 2, 0, {{0, '0'}, {0, '1'}}, 0, 3, 0, 3, 22, 0, "", {{0, 0}}},
    /* an arrival on g is not one on 1: behind g come h, 0 and then 1; behind 1 comes g */
    {"an arrival on g", 2, 2, {{0, '1'}}, 0, 0, 0, 2, 0, 2, "g1", {{LINK(0, 16), 1}, {LINK(2, 1), 1}, {RECEIVE(0, 0), 1}}},
    {"an arrival on 1", 2, 2, NONE, 0, 0, 0, 2, 0, 2, "1g", {{LINK(0, 1), 1}, {LINK(2, 16), 1}, {RECEIVE(0, 0), 1}}},
    /* out by port 1, back by its partner and on: at 2 axes 0 and 1 lead to 1, and behind an arrival on 1 come g, h, 0, 1 */
    {"through the source, back by the partner", 2, 3, NONE, 0, 1, 0, 2, 0, 3, "1gh", {{LINK(0, 1), 1}, {LINK(2, 16), 1}, {LINK(0, 17), 1}, {RECEIVE(1, 0), 1}}},
    {"through the source, back by port 1", 2, 3, {{2, 'g'}, {2, 'h'}, {2, '0'}}, 0, 1, 0, 2, 0, 3, "11h", {{LINK(0, 1), 1}, {LINK(2, 1), 1}, {LINK(0, 17), 1}, {RECEIVE(1, 0), 1}}},
    {"through the source, out by the partner", 2, 3, {{0, '1'}, {2, 'h'}, {2, '0'}, {0, 'h'}}, 0, 1, 0, 2, 0, 3, "g10", {{LINK(0, 16), 1}, {LINK(2, 1), 1}, {LINK(0, 0), 1}, {RECEIVE(1, 0), 1}}},
    {"through the source and no way on", 2, 3, {{2, 'h'}, {2, '0'}, {0, 'h'}, {0, '0'}}, 0, 1, 0, 2, 22, 6, "", {{0, 0}}},
    /* type 4: the second pass has the ports that the vector left out, and then their partners. From 0 to 3, the links out of 1 over axis 1 blocked: 0 and h lead to 1 */
    {"a second pass", 2, 3, {{1, '1'}, {1, 'g'}}, 0, 3, 4, 1, 0, 4, "1h", {{LINK(0, 1), 1}, {LINK(2, 17), 1}, {RECEIVE(3, 0), 1}}},
    {"a second pass over the partner left out", 2, 3, {{1, '1'}, {1, 'g'}, {0, '1'}}, 0, 3, 4, 1, 0, 4, "gh", {{LINK(0, 16), 1}, {LINK(2, 17), 1}, {RECEIVE(3, 0), 1}}},
    {"one pass, the partner of its port", 2, 3, {{0, '0'}}, 0, 3, 4, 1, 0, 2, "h1", {{LINK(0, 17), 1}, {LINK(1, 1), 1}, {RECEIVE(3, 0), 1}}},
    {"no second pass, since no port is left", 2, 3, {{1, '1'}, {1, 'g'}, {2, '0'}, {2, 'h'}}, 0, 3, 4, 3, 22, 4, "", {{0, 0}}},
    /* one link of a pair free is enough, and 22 asks for both of each pair */
    {"one of each pair", 2, 3, {{0, '0'}, {1, '1'}, {0, '1'}, {0, 'g'}}, 0, 3, 0, 3, 0, 2, "hg", {{LINK(0, 17), 1}, {LINK(1, 16), 1}, {RECEIVE(3, 0), 1}}},
    {"from node 3 to 0", 2, 3, {{3, '0'}, {3, '1'}, {3, 'g'}}, 3, 0, 0, 3, 0, 2, "h1", {{LINK(3, 17), 25}, {LINK(2, 1), 25}, {RECEIVE(0, 0), 25}}},

    /* behind port 7 all partners come before 0 to 6, each of its own axis: b is the partner of 6, h that of 0 */
    {"F 8, M 255: 7bcdefgh", 8, 255, NONE, 0, 255, 3, 128, 0, 8, "7bcdefgh",
     {{LINK(0, 7), 1}, {LINK(128, 11), 1}, {LINK(192, 12), 1}, {LINK(224, 13), 1}, {LINK(240, 14), 1}, {LINK(248, 15), 1}, {LINK(252, 16), 1}, {LINK(254, 17), 1}, {RECEIVE(255, 0), 1}}},
    {"a search takes the same first path", 8, 255, NONE, 0, 255, 0, 128, 0, 8, "7bcdefgh",
     {{LINK(0, 7), 1}, {LINK(128, 11), 1}, {LINK(192, 12), 1}, {LINK(224, 13), 1}, {LINK(240, 14), 1}, {LINK(248, 15), 1}, {LINK(252, 16), 1}, {LINK(254, 17), 1}, {RECEIVE(255, 0), 1}}},
    {"behind its partner a", 8, 255, {{0, '7'}}, 0, 255, 0, 128, 0, 8, "abcdefgh",
     {{LINK(0, 10), 1}, {LINK(128, 11), 1}, {LINK(192, 12), 1}, {LINK(224, 13), 1}, {LINK(240, 14), 1}, {LINK(248, 15), 1}, {LINK(252, 16), 1}, {LINK(254, 17), 1}, {RECEIVE(255, 0), 1}}},
    /* nine hops: away by 0, and back by h at last, since from 7 on partners come first and h is the last of them */
    {"nine hops", 8, 255, NONE, 0, 254, 0, 1, 0, 9, "01234567h",
     {{LINK(0, 0), 1}, {LINK(1, 1), 1}, {LINK(3, 2), 1}, {LINK(7, 3), 1}, {LINK(15, 4), 1}, {LINK(31, 5), 1}, {LINK(63, 6), 1}, {LINK(127, 7), 1}, {LINK(255, 17), 1}, {RECEIVE(254, 0), 1}}},
    {"dimension 7 alone is folded", 8, 128, {{0, '7'}}, 0, 128, 0, 128, 0, 1, "a", {{LINK(0, 10), 1}, {RECEIVE(128, 0), 1}}},
    /* circuit 2041 is node 255's on channel 0: 7 * 256 + 249 */
    {"the last node", 8, 255, {{255, '0'}}, 255, 254, 0, 1, 0, 1, "h", {{LINK(255, 17), 249}, {LINK(255, 17) + 1, 7}, {RECEIVE(254, 0), 249}, {RECEIVE(254, 0) + 1, 7}}},
};

static void run_send(const struct sent *sent) {
    struct place places[2 * MOST];
    size_t count = 0;
    maze_opened got;
    fresh(sent->dimension, sent->mask, 255);
    for (size_t i = 0; i < 8 && sent->blocked[i].port; i++) block(sent->blocked[i].node, sent->blocked[i].port);
    got = send(sent->node, 0, sent->target, sent->type, sent->vector);
    expect(got.number == sent->number, sent->what, sent->number, got.number);
    expect(got.hops == strlen(sent->ports) && got.receive == 0, sent->what, strlen(sent->ports), got.hops);
    expect(got.scouts == sent->scouts, sent->what, sent->scouts, got.scouts);
    if (got.number == 0) {
        expect_trace(sent->what, sent->node, 0, sent->ports);
        for (size_t i = 0; i < MOST && sent->places[i].at; i++) places[count++] = sent->places[i];
    }
    for (size_t i = 0; i < 8 && sent->blocked[i].port; i++)
        expect(maze_wide_unblock(table, BYTES, (uint16_t)sent->blocked[i].node, (uint16_t)port_of(sent->blocked[i].port)) == 0, "unblock", i, 0);
    places[count].at = places[count].value = 0;
    expect_table(sent->what, 255, places);
    if (got.number != 0) return;
    expect(maze_wide_close(table, BYTES, sent->node, 0) == 0, sent->what, 0, 1);
    {
        const struct place disarmed[] = {{ARMED(sent->target), 254}, {0, 0}};
        expect_table("closed", 255, disarmed);
    }
}

/* ---- both links of a pair ---- */

static void pairs(void) {
    static const struct place two[] = {{LINK(0, 0), 1}, {RECEIVE(1, 0), 1}, {LINK(0, 17), 2}, {RECEIVE(1, 1), 2}, {0, 0}};
    static const struct place partner[] = {{LINK(0, 17), 2}, {RECEIVE(1, 1), 2}, {ARMED(1), 254}, {0, 0}};
    static const struct place unfolded[] = {{ARMED(1), 252}, {0, 0}};
    maze_opened got;
    fresh(1, 1, 255);
    got = send(0, 0, 1, 0, 1);
    expect(got.number == 0 && got.receive == 0 && got.scouts == 1, "the first over a pair", got.number, got.scouts);
    got = send(0, 1, 1, 0, 1);
    expect(got.number == 0 && got.receive == 1 && got.scouts == 1, "the second over a pair", got.number, got.scouts);
    expect_table("two circuits over a pair", 255, two);
    expect_trace("the first", 0, 0, "0");
    expect_trace("the second", 0, 1, "h");
    keep();
    got = send(0, 2, 1, 0, 1);
    expect(got.number == 10 && got.scouts == 0 && unaltered(), "a third", got.number, got.scouts);
    expect(maze_wide_block(table, BYTES, 0, 0) == 13 && maze_wide_block(table, BYTES, 0, 17) == 13 && unaltered(), "both are held", 0, 0);
    expect(maze_wide_unblock(table, BYTES, 0, 17) == 0 && unaltered(), "unblock a held partner", 0, 17);
    refused_fold("unfold a held pair", 13, BYTES, 0);
    expect(maze_wide_close(table, BYTES, 0, 0) == 0, "close the first", 0, 0);
    expect_table("the partner alone", 255, partner);
    refused_fold("unfold a held partner", 13, BYTES, 0);
    refused_fold("the same mask, with a partner held", 0, BYTES, 1);
    expect(maze_wide_close(table, BYTES, 0, 1) == 0 && fold(0) == 0, "close the second, and unfold", 0, 0);
    expect_table("unfolded", 255, unfolded);
    expect(maze_wide_block(table, BYTES, 0, 17) == 6 && maze_wide_unblock(table, BYTES, 0, 17) == 6, "no partner any longer", 0, 17);

    /* a circuit over port 0 stays where its dimension is folded and unfolded */
    fresh(2, 0, 255);
    expect(send(0, 0, 3, 0, 3).number == 0, "open over 0 and 1", 0, 0);
    for (unsigned to = 0; to < 4; to++) {
        static const struct place one[] = {{LINK(0, 0), 1}, {LINK(1, 1), 1}, {RECEIVE(3, 0), 1}, {0, 0}};
        expect(fold(to) == 0, "fold beside a circuit", to, 0);
        expect_table("a circuit and another mask", 255, one);
        expect_trace("its trace", 0, 0, "01");
    }
    /* two dimensions, a circuit over the partner of each: each is refused while it is held, wherever the circuit ends */
    fresh(2, 3, 255);
    block(0, '0'), block(1, '1');
    expect(send(0, 0, 3, 0, 1).number == 0, "open over h and g", 0, 0);
    expect_trace("over h and g", 0, 0, "hg");
    refused_fold("unfold both", 13, BYTES, 0);
    refused_fold("unfold dimension 0", 13, BYTES, 2);
    refused_fold("unfold dimension 1", 13, BYTES, 1);
    refused_fold("keep both", 0, BYTES, 3);
    expect(maze_wide_close(table, BYTES, 0, 0) == 0 && fold(0) == 0, "close and unfold", 0, 0);

    /* the last node of each cube holds a partner of the last dimension */
    for (unsigned of = 1; of <= 8; of++) {
        const unsigned last = (1u << of) - 1, top = 1u << (of - 1);
        fresh(of, top, 255);
        expect(maze_wide_block(table, BYTES, (uint16_t)last, (uint16_t)(of - 1)) == 0, "block the last port", of, last);
        got = send(last, 7, last ^ top, 0, top);
        expect(got.number == 0 && got.hops == 1 && table[LINK(last, 18 - of)] == (8 * last + 8) % 256, "over the last partner", of, got.number);
        refused_fold("unfold the last dimension", 13, BYTES, 0);
        refused_fold("unfold it and fold others", 13, BYTES, top - 1);
        expect(fold(2 * top - 1) == 0 && fold(top) == 0, "fold others and unfold them", of, 0);
        expect(maze_wide_close(table, BYTES, (uint16_t)last, 7) == 0 && fold(0) == 0, "close and unfold", of, 0);
    }
}

/* ---- blocked partners are remembered as long as their dimension is folded ---- */

static void remembered(void) {
    static const struct place blocked[] = {{ENABLED(0, 2), 1}, {0, 0}}, of_two[] = {{ENABLED(0, 2), 1}, {ENABLED(3, 2), 2}, {ENABLED(3, 0), 1}, {0, 0}};
    /* F 2, M 1, B 0 17, M 3: still blocked; M 2, M 3: enabled */
    fresh(2, 1, 255);
    block(0, 'h');
    expect(fold(3) == 0, "fold dimension 1 too", 3, 0);
    expect_table("still blocked", 255, blocked);
    expect(fold(3) == 0, "the same mask", 3, 0);
    expect_table("the same mask, still blocked", 255, blocked);
    expect(fold(2) == 0, "unfold dimension 0", 2, 0);
    expect_table("cleared", 255, NULL);
    expect(fold(3) == 0, "fold it again", 3, 0);
    expect_table("enabled", 255, NULL);
    /* one of each dimension, and a port below: unfolding one forgets its own alone */
    block(0, 'h'), block(3, 'g'), block(3, '1');
    expect_table("two partners blocked", 255, of_two);
    expect(fold(1) == 0 && fold(3) == 0, "unfold dimension 1 and fold it again", 1, 3);
    {
        static const struct place left[] = {{ENABLED(0, 2), 1}, {ENABLED(3, 0), 1}, {0, 0}};
        expect_table("the partner of dimension 0 and port 1 are still blocked", 255, left);
    }
    expect(maze_wide_unblock(table, BYTES, 0, 17) == 0 && maze_wide_unblock(table, BYTES, 3, 1) == 0, "unblock", 0, 0);
    expect_table("nothing blocked", 255, NULL);
    /* making forgets all */
    block(0, 'h');
    expect(maze_wide_make(table, BYTES, 2) == 0 && table[1] == 0 && fold(3) == 0, "made over it", 0, 0);
    expect_table("made and folded", 0, NULL);
}

/* ---- ports, vectors and what may be blocked ---- */

/* Every 16-bit number as a port and as a vector. */
static void numbers(void) {
    static const struct { unsigned dimension, mask; } cubes[] = {{1, 0}, {1, 1}, {2, 0}, {2, 1}, {2, 2}, {2, 3}, {3, 5}, {5, 16}, {7, 127}, {8, 0}, {8, 1}, {8, 128}, {8, 170}, {8, 255}};
    for (size_t i = 0; i < sizeof cubes / sizeof *cubes; i++) {
        unsigned wrong[4] = {0}, first[4] = {0};
        fresh(cubes[i].dimension, cubes[i].mask, 255);
        keep();
        for (unsigned value = 0; value < 65536; value = next(value)) {
            const unsigned there = value < 18 && (every_link() >> value & 1), vector = value > 0 && value < nodes();
            unsigned got[4];
            got[0] = maze_wide_block(table, BYTES, 1, (uint16_t)value);
            got[1] = maze_wide_unblock(table, BYTES, 1, (uint16_t)value);
            /* a target that each port leads away from or towards, at one hop or three */
            got[2] = vector && value % 5 ? 0 : send(0, 0, 1, 3, value).number;
            if (got[2] == 0 && !(vector && value % 5)) maze_wide_close(table, BYTES, 0, 0), maze_wide_arm(table, BYTES, 1, 0);
            got[3] = send(0, 8, 1, 3, value).number;
            if (got[0] != (there ? 0 : 6) && wrong[0]++ == 0) first[0] = value;
            if (got[1] != (there ? 0 : 6) && wrong[1]++ == 0) first[1] = value;
            if (got[2] != (vector ? 0 : 8) && wrong[2]++ == 0) first[2] = value;
            if (got[3] != 5 && wrong[3]++ == 0) first[3] = value;
        }
        for (unsigned k = 0; k < 4; k++) expect(wrong[k] == 0, "ports and vectors, first wrong", 1000 * i + k, first[k]);
        expect(unaltered(), "ports and vectors, the table", i, 0);
    }
}

/* A blocked partner is blocked, each port of each node alone; a held one is not. */
static void blocking(void) {
    for (unsigned of = 1; of <= 8; of++)
        for (unsigned to = 1; to < 1u << of; to += of < 4 ? 1 : 1 + to % 7)
            for (unsigned p = 0; p < of; p++) {
                const unsigned node = (37 * to + p) % (1u << of), port = 17 - p;
                const struct place place[] = {{ENABLED(node, port / 8), (((1u << of) - 1) >> (port / 8 * 8) & 255)}, {0, 0}};
                fresh(of, to, 0);
                if (!(to >> p & 1)) {
                    keep();
                    expect(maze_wide_block(table, BYTES, (uint16_t)node, (uint16_t)port) == 6 && unaltered(), "a partner that is not there", of, port);
                    continue;
                }
                struct place blocked[] = {place[0], {0, 0}};
                blocked[0].value = every_link() >> (port / 8 * 8) & 255 & ~(1u << port % 8);
                expect(maze_wide_block(table, BYTES, (uint16_t)node, (uint16_t)port) == 0, "block a partner", of, port);
                expect_table("a partner blocked", 0, blocked);
                keep();
                expect(maze_wide_block(table, BYTES, (uint16_t)node, (uint16_t)port) == 0 && unaltered(), "block it again", of, port);
                expect(maze_wide_unblock(table, BYTES, (uint16_t)node, (uint16_t)port) == 0, "unblock it", of, port);
                expect_table("unblocked", 0, NULL);
            }
    /* 4 before 6, 6 before 13 */
    fresh(3, 5, 255);
    keep();
    expect(maze_wide_block(table, BYTES, 8, 17) == 4 && maze_wide_block(table, BYTES, 8, 16) == 4 && maze_wide_unblock(table, BYTES, 256, 17) == 4, "no node", 8, 17);
    expect(maze_wide_block(table, BYTES, 7, 16) == 6 && maze_wide_block(table, BYTES, 7, 14) == 6 && maze_wide_block(table, BYTES, 7, 273) == 6 && unaltered(), "no port", 7, 16);
}

/* ---- what folding costs ---- */

/* Nothing is open; the links into the target are blocked, and the source differs from it in every bit: with l links to an axis, 1 or 2, every choice of k axes in some
 * order, and of a link for each, is a beginning, for k below D. That is the sum of k! times the k-th elementary symmetric number of the l. */
static unsigned long beginnings(unsigned of, unsigned to) {
    unsigned long symmetric[9] = {1}, sum = 0, factorial = 1;
    for (unsigned p = 0; p < of; p++)
        for (unsigned k = p + 1; k > 0; k--) symmetric[k] += symmetric[k - 1] * (1 + (to >> p & 1));
    for (unsigned k = 1; k < of; k++) sum += (factorial *= k) * symmetric[k];
    return sum;
}

static void wall(unsigned target) {
    for (unsigned p = 0; p < dimension; p++) {
        const uint16_t node = (uint16_t)(target ^ 1u << p);
        maze_wide_block(table, BYTES, node, (uint16_t)p);
        if (mask >> p & 1) maze_wide_block(table, BYTES, node, (uint16_t)(17 - p));
    }
}

static void counts(void) {
    const unsigned largest = quick ? 5 : 8;
    for (unsigned of = 1; of <= largest; of++)
        for (unsigned to = 0; to < 1u << of; to += of < 6 ? 1 : of == 6 ? 1 + to % 5 : 1 + to % 19 + (of == 8) * to) {
            const unsigned target = (1u << of) - 1;
            unsigned ports = 0;
            maze_opened got;
            if (of == 8 && to > 63) break; /* one of those comes below */
            fresh(of, to, 0);
            wall(target);
            keep();
            got = send(0, 0, target, 0, target);
            expect(got.number == 22 && got.scouts == beginnings(of, to) && unaltered(), "scouts of a walled target", 1000 * of + to, got.scouts);
            got = send(0, 0, target, 4, target);
            expect(got.number == 22 && got.scouts == beginnings(of, to) && unaltered(), "the same, type 4", 1000 * of + to, got.scouts);
            /* a helix path for each port, every hop but the last free */
            for (unsigned port = 0; port < 18; port++) ports += every_link() >> port & 1;
            got = send(0, 0, target, 1, target);
            expect(got.number == 22 && got.scouts == ports * (of - 1ul) && unaltered(), "the same, type 1", 1000 * of + to, got.scouts);
            got = send(0, 0, target, 3, target);
            expect(got.number == 22 && got.scouts == of - 1ul && unaltered(), "the same, type 3", 1000 * of + to, got.scouts);
        }
    if (largest == 8) {
        maze_opened got;
        fresh(8, 255, 0);
        wall(254);
        keep();
        /* first by the seven axes towards 254, beginnings up to six hops; or by either link of axis 0, and then by all eight */
        got = send(0, 0, 254, 0, 255);
        expect(got.number == 22 && got.scouts == beginnings(7, 127) + 2 * (1 + beginnings(8, 255)) && got.scouts == 13810600 && unaltered(), "the most scouts that are known", got.number, got.scouts);
    }
}

/* 11 with every channel armed: eight circuits into node 0 hold its channels, and a ninth link is free. With eight links into a node that never happens. */
static void received(void) {
    static const struct { unsigned dimension, mask; } nine[] = {{8, 1}, {8, 128}, {7, 96}, {5, 15}, {5, 30}};
    maze_opened got;
    for (size_t i = 0; i < sizeof nine / sizeof *nine; i++) {
        unsigned taken = 0, last = 0;
        fresh(nine[i].dimension, nine[i].mask, 255);
        for (unsigned port = 0; port < 18; port++)
            if (every_link() >> port & 1) {
                const unsigned p = port < 9 ? port : 17 - port, node = 1u << p;
                if (taken == 8) keep(), last = 1;
                got = send(node, port < 9 ? 0 : 1, 0, 0, node);
                if (!last) expect(got.number == 0 && got.hops == 1 && got.receive == taken++, "a circuit into node 0", port, got.number);
                else expect(got.number == 11 && got.hops == 0 && got.receive == 0 && got.scouts == 1 && unaltered(), "a ninth, with all channels armed", port, got.number);
            }
        expect(last == 1, "nine links", i, taken);
    }
    fresh(4, 15, 255);
    for (unsigned port = 0; port < 18; port++)
        if (every_link() >> port & 1) {
            const unsigned p = port < 9 ? port : 17 - port;
            got = send(1u << p, port < 9 ? 0 : 1, 0, 0, 1u << p);
            expect(got.number == 0 && got.hops == 1, "one of eight links", port, got.number);
        }
    got = send(15, 0, 0, 0, 15);
    expect(got.number == 10, "eight links, all held", got.number, got.scouts);
}

/* A type 3 send accepted before a folding and refused after it. Dimension 3, from 0 to 7 by port 2: 201 over nodes 4 and 5. With dimension 1 folded g comes behind 2, and the
 * path is 2g0 over nodes 4 and 6, where port 0 is blocked. */
static void worse(void) {
    maze_opened got;
    fresh(3, 0, 255);
    block(6, '0');
    got = send(0, 0, 7, 3, 4);
    expect(got.number == 0 && got.scouts == 3, "before folding", got.number, got.scouts);
    expect_trace("before folding", 0, 0, "201");
    expect(maze_wide_close(table, BYTES, 0, 0) == 0 && fold(2) == 0, "close and fold", 0, 2);
    keep();
    got = send(0, 0, 7, 3, 4);
    expect(got.number == 22 && got.scouts == 2 && unaltered(), "after folding", got.number, got.scouts);
    got = send(0, 0, 7, 0, 4);
    expect(got.number == 0 && got.scouts == 4, "a search finds the other", got.number, got.scouts);
    expect_trace("a search finds the other", 0, 0, "201");
}

/* ---- 10 and 22 ---- */

/* Dimension 1 with its pair: every choice of each of the two links out of node 0 free, held or blocked. With no link free it is 10 if one is held and 22 if both are blocked. */
static void waiting(void) {
    for (unsigned first = 0; first < 3; first++)
        for (unsigned second = 0; second < 3; second++)
            for (unsigned type = 0; type < 5; type++) {
                const unsigned states[2] = {first, second}, seen = type == 3 ? 1 : 2;
                unsigned free_one = 0, held_one = 0;
                maze_opened got;
                if (type == 2) continue;
                fresh(1, 1, 255);
                for (unsigned i = 0; i < 2; i++) {
                    const unsigned port = i ? 17 : 0;
                    if (states[i] == 1) put(LINK(0, port), 7 + i), put(RECEIVE(1, 6 + i), 7 + i);
                    if (states[i] == 2) set_enabled(table, 0, enabled(0) & ~(1u << port));
                    if (i < seen) free_one |= states[i] == 0, held_one |= states[i] == 1;
                }
                got = send(0, 0, 1, type, 1);
                expect(got.number == (free_one ? 0 : held_one ? 10 : 22) && got.scouts == free_one, "free, held and blocked", 100 * type + 10 * first + second, got.number);
            }
}

/* ---- jobs ---- */

static void jobs(void) {
    static const struct place two[] = {{LINK(0, 0), 1}, {RECEIVE(1, 0), 1}, {LINK(0, 17), 2}, {RECEIVE(1, 1), 2}, {0, 0}};
    uint8_t list[40];
    maze_opened_all got;
    for (unsigned i = 0; i < 4; i++) {
        const uint8_t one[10] = {0, 0, (uint8_t)i, 0, 1, 0, 0, 0, 1, 0};
        memcpy(list + 10 * i, one, 10);
    }
    fresh(1, 1, 255);
    keep();
    got = maze_wide_open_all(table, BYTES, list, 30);
    expect(got.number == 10 && got.sends == 2 && unaltered(), "three sends over a pair", got.number, got.sends);
    got = maze_wide_open_all(table, BYTES, list, 20);
    expect(got.number == 0 && got.sends == 2, "two sends over a pair", got.number, got.sends);
    expect_table("two sends over a pair", 255, two);
    /* a vector that looks like a partner's bit */
    fresh(1, 1, 255);
    list[18] = 0, list[19] = 1 << (10 - 8);
    keep();
    got = maze_wide_open_all(table, BYTES, list, 20);
    expect(got.number == 8 && got.sends == 1 && unaltered(), "bit 10 in a job", got.number, got.sends);
    list[18] = 1, list[19] = 0;
    expect(fold(0) == 0, "unfold", 0, 0);
    keep();
    got = maze_wide_open_all(table, BYTES, list, 20);
    expect(got.number == 10 && got.sends == 1 && unaltered(), "two sends and no pair", got.number, got.sends);
    /* every second channel of node 1 armed: 11 at the second */
    fresh(1, 1, 1);
    keep();
    got = maze_wide_open_all(table, BYTES, list, 20);
    expect(got.number == 11 && got.sends == 1 && unaltered(), "one channel for two", got.number, got.sends);
}

/* ---- books ---- */

static uint8_t ports[PORTS_BYTES + SPARE], book_index[INDEX_BYTES + SPARE];

/* The book of the table as it stands: circuits, hops, and its bytes, in buffers of these lengths. */
static void expect_book(const char *what, size_t ports_length, size_t index_length, unsigned circuits, const uint8_t *index, unsigned hops, const char *digits) {
    maze_booked got;
    int good = 1;
    memset(ports, 0xa5, sizeof ports), memset(book_index, 0x5a, sizeof book_index);
    keep();
    got = maze_wide_book(table, BYTES, ports, ports_length, book_index, index_length);
    for (size_t i = 0; i < sizeof ports; i++) good &= ports[i] == (i < hops ? port_of(digits[i]) : 0xa5);
    for (size_t i = 0; i < sizeof book_index; i++) good &= book_index[i] == (i < 6 * circuits ? index[i] : 0x5a);
    expect(got.number == 0 && got.circuits == circuits && got.hops == hops && good && unaltered(), what, got.circuits, got.hops);
}

static void judged(const char *what, unsigned number, unsigned circuits, unsigned hops) {
    unsigned got;
    keep();
    got = maze_wide_judge(table, BYTES, ports, hops, book_index, 6 * circuits, (uint16_t)circuits, (uint16_t)hops);
    expect(got == number && unaltered(), what, number, got);
}

/* A book of these circuits, in the buffers; answers its hops. */
struct circuit {
    unsigned number;
    const char *ports;
};

static unsigned write_book(const struct circuit *circuits, unsigned count) {
    unsigned hops = 0;
    for (unsigned i = 0; i < count; i++) {
        const unsigned length = (unsigned)strlen(circuits[i].ports), numbers[] = {circuits[i].number, hops, length};
        for (unsigned k = 0; k < 3; k++) book_index[6 * i + 2 * k] = (uint8_t)(numbers[k] % 256), book_index[6 * i + 2 * k + 1] = (uint8_t)(numbers[k] / 256);
        for (unsigned hop = 0; hop < length; hop++) ports[hops++] = (uint8_t)port_of(circuits[i].ports[hop]);
    }
    return hops;
}

static void books(void) {
    static const uint8_t index[] = {1, 0, 0, 0, 2, 0, 2, 0, 2, 0, 3, 0, 3, 0, 5, 0, 2, 0};
    maze_traced found;
    /* circuit 1 from 0 to 3 over 01, circuit 2 from 0 to 1 through its source over 1gh, circuit 3 from 0 to 3 over what is left, gh */
    fresh(2, 3, 255);
    expect(send(0, 0, 3, 0, 3).number == 0 && send(0, 1, 1, 0, 2).number == 0 && send(0, 2, 3, 0, 3).number == 0, "three circuits", 0, 0);
    expect_book("a book of three circuits", 7, 18, 3, index, 7, "011ghgh");
    expect_book("in large buffers", PORTS_BYTES, INDEX_BYTES, 3, index, 7, "011ghgh");
    keep();
    expect(maze_wide_book(table, BYTES, ports, 6, book_index, 18).number == 23 && maze_wide_book(table, BYTES, ports, 7, book_index, 17).number == 23 && unaltered(), "short buffers", 0, 0);
    memset(buffer, 99, sizeof buffer);
    found = maze_book_lookup(ports, 7, book_index, 18, 3, 7, 2, buffer, 9);
    expect(found.number == 0 && found.hops == 3 && buffer[0] == 1 && buffer[1] == 16 && buffer[2] == 17 && buffer[3] == 99, "look up the second", found.number, found.hops);
    judged("its own book, open", 26, 3, 7);
    for (uint16_t channel = 0; channel < 3; channel++) expect(maze_wide_close(table, BYTES, 0, channel) == 0, "close", channel, 0);
    judged("closed and not armed", 0, 3, 7); /* five channels of node 3 are armed still */
    memset(table + ARMED(0), 255, 4);
    judged("closed and armed", 0, 3, 7);
    /* the ports of the book are those of the mask */
    for (unsigned to = 0; to < 4; to++) {
        expect(fold(to) == 0, "fold under a book", to, 0);
        judged("a book and another mask", to == 3 ? 0 : 26, 3, 7);
    }
    block(2, 'g');
    judged("the way back blocked", 27, 3, 7);
    block(2, '1');
    expect(maze_wide_unblock(table, BYTES, 2, 16) == 0, "unblock", 2, 16);
    judged("its partner blocked", 0, 3, 7);
}

static void judging(void) {
    static const struct {
        const char *what;
        unsigned dimension, mask, number, count;
        struct circuit circuits[3];
    } vectors[] = {
        {"a partner", 3, 1, 0, 1, {{1, "h"}}},
        {"a partner that is not there", 3, 6, 26, 1, {{1, "h"}}},
        {"a partner that is not there, at last", 3, 6, 26, 1, {{1, "0fh"}}},
        {"the partner of the next dimension", 3, 7, 26, 1, {{1, "e"}}},
        {"port 8", 8, 255, 26, 1, {{1, "8"}}},
        {"port 9", 8, 255, 26, 1, {{1, "9"}}},
        {"ports 0 to 7 and partners", 8, 255, 0, 1, {{1, "0gfedcba"}}},
        {"nine hops", 8, 255, 0, 1, {{1, "0gfedcbah"}}},
        {"nine hops, the first axis at the third too", 8, 255, 26, 1, {{1, "0ghfedcb0"}}},
        {"both links of a pair", 1, 1, 0, 2, {{1, "0"}, {2, "h"}}},
        {"one link of a pair twice", 1, 1, 27, 2, {{1, "h"}, {2, "h"}}},
        {"both links of a pair, there and back", 1, 1, 0, 3, {{1, "0h"}, {2, "h0"}, {9, "hh"}}},
        {"out and back by the partner", 3, 5, 0, 1, {{1, "0h"}}},
        {"out by the partner and back", 3, 5, 0, 1, {{1, "h0"}}},
        {"on past its target", 3, 5, 26, 1, {{1, "0h0"}}},
        {"on past its target by the partner", 3, 5, 26, 1, {{1, "0hh"}}},
        {"an axis twice behind the first hop", 3, 5, 26, 1, {{1, "f0h"}}},
        {"the same at last", 3, 7, 26, 1, {{1, "012f"}}},
        {"through the source by the partner", 3, 5, 0, 1, {{1, "0h1f"}}},
        {"the first axis again at last", 3, 5, 0, 1, {{1, "01fh"}}},
        {"a circuit of the last node", 8, 255, 0, 1, {{2048, "a"}}},
    };
    for (size_t i = 0; i < sizeof vectors / sizeof *vectors; i++) {
        unsigned hops;
        if (i == 11) continue; /* below */
        fresh(vectors[i].dimension, vectors[i].mask, 255);
        hops = write_book(vectors[i].circuits, vectors[i].count);
        judged(vectors[i].what, vectors[i].number, vectors[i].count, hops);
    }
    /* circuit 1 over 0 and back over h, circuit 2 over h and back over 0: four links, each once; a third circuit from node 1 has none left */
    fresh(1, 1, 255);
    judged("there and back twice", 0, 2, write_book(vectors[11].circuits, 2));
    judged("and once more", 27, 3, write_book(vectors[11].circuits, 3));
    /* held and blocked links, and channels */
    fresh(1, 1, 255);
    expect(send(0, 0, 1, 0, 1).number == 0, "open over port 0", 0, 0);
    judged("beside a circuit over port 0", 0, 1, write_book(&(struct circuit){2, "h"}, 1));
    judged("over the link that it holds", 27, 1, write_book(&(struct circuit){2, "0"}, 1));
    table[ARMED(1)] = 1;
    judged("and no channel", 11, 1, write_book(&(struct circuit){2, "h"}, 1));
    table[ARMED(1)] = 3;
    block(0, 'h');
    judged("the partner blocked", 27, 1, write_book(&(struct circuit){2, "h"}, 1));
    /* nine circuits into one node, which has eight channels */
    {
        static const struct circuit nine[] = {{9, "0"}, {10, "h"}, {17, "1"}, {33, "2"}, {65, "3"}, {129, "4"}, {257, "5"}, {513, "6"}, {1025, "7"}};
        fresh(8, 1, 255);
        judged("eight circuits into a node", 0, 8, write_book(nine, 8));
        judged("nine circuits into a node", 11, 9, write_book(nine, 9));
    }
}

/* Every link of dimension 8 with every dimension folded is held: circuit 8 n + p + 1 goes from node n out over port p and back over its partner. 2,048 circuits, 4,096 hops. */
static void longest_book(void) {
    static uint8_t index[INDEX_BYTES];
    static char digits[PORTS_BYTES + 1];
    maze_traced found;
    fresh(8, 255, 255);
    for (unsigned k = 0; k < 2048; k++) {
        const unsigned node = k / 8, p = k % 8, numbers[] = {k + 1, 2 * k, 2};
        put(LINK(node, p), k + 1), put(LINK(node ^ 1u << p, 17 - p), k + 1), put(RECEIVE(node, p), k + 1);
        for (unsigned i = 0; i < 3; i++) index[6 * k + 2 * i] = (uint8_t)(numbers[i] % 256), index[6 * k + 2 * i + 1] = (uint8_t)(numbers[i] / 256);
        digits[2 * k] = (char)('0' + p), digits[2 * k + 1] = (char)('h' - p);
    }
    expect(maze_wide_unblock(table, BYTES, 0, 0) == 0, "every link held", 0, 0);
    expect_book("the longest book", PORTS_BYTES, INDEX_BYTES, 2048, index, 4096, digits);
    expect(maze_wide_book(table, BYTES, ports, PORTS_BYTES - 1, book_index, INDEX_BYTES).number == 23, "4,095 bytes of ports", 0, 0);
    expect(maze_wide_book(table, BYTES, ports, 2048, book_index, INDEX_BYTES).number == 23, "2,048 bytes of ports", 0, 0);
    expect(maze_wide_book(table, BYTES, ports, PORTS_BYTES, book_index, INDEX_BYTES - 1).number == 23, "12,287 bytes of index", 0, 0);
    found = maze_book_lookup(ports, PORTS_BYTES, book_index, INDEX_BYTES, 2048, 4096, 2048, buffer, 9);
    expect(found.number == 0 && found.hops == 2 && buffer[0] == 7 && buffer[1] == 10, "look up the last", found.number, found.hops);
    judged("the longest book, open", 26, 2048, 4096);
    expect_trace("circuit 2048", 255, 7, "7a");
    for (unsigned channel = 0; channel < 8; channel++) {
        maze_opened got = send(channel, channel, 255, 4, 255);
        expect(got.number == 9, "every send channel has a circuit", channel, got.number);
    }
    refused_fold("unfold with every link held", 13, BYTES, 0);
    refused_fold("unfold one dimension with every link held", 13, BYTES, 127);
    for (unsigned k = 0; k < 2048; k++) {
        const unsigned node = k / 8, p = k % 8;
        put(LINK(node, p), 0), put(LINK(node ^ 1u << p, 17 - p), 0), put(RECEIVE(node, p), 0);
    }
    expect_table("nothing held", 255, NULL);
    judged("the longest book, closed and armed", 0, 2048, 4096);
    block(255, 'a');
    judged("no circuit goes over the partner that is blocked there", 27, 2048, 4096);
    expect(maze_wide_unblock(table, BYTES, 255, 10) == 0, "unblock", 255, 10);
    table[ARMED(255)] = 127;
    judged("seven channels of the last node", 11, 2048, 4096);
}

/* ---- conversions ---- */

static void conversions(void) {
    static uint8_t narrow[NARROW_BYTES], other[NARROW_BYTES];
    for (unsigned of = 1; of <= 8; of++)
        for (unsigned to = 1; to < 1u << of; to += of < 5 ? 1 : 1 + to % 9) {
            fresh(of, to, 255);
            if (to % 2) expect(send(0, 0, 1, 0, 1).number == 0, "open", of, to);
            memset(narrow, 77, sizeof narrow), memset(other, 77, sizeof other);
            keep();
            expect(maze_narrow(table, BYTES, narrow, sizeof narrow) == 24 && memcmp(narrow, other, sizeof other) == 0 && unaltered(), "a folded table is not narrow", of, to);
            expect(maze_narrow(table, BYTES, narrow, sizeof narrow - 1) == 1, "1 before 24", of, to);
            expect(fold(0) == 0, "unfold", of, to);
            expect(maze_narrow(table, BYTES, narrow, sizeof narrow) == 0, "unfolded it is", of, to);
            expect(maze_make(other, sizeof other, (uint16_t)of) == 0, "make", of, 0);
            memset(other + 8449, 255, nodes());
            if (to % 2) expect(maze_open(other, sizeof other, 0, 0, 1, 0, 1).number == 0, "open", of, to);
            expect(memcmp(narrow, other, sizeof other) == 0, "and says what a narrow one says", of, to);
            keep();
            expect(maze_widen(narrow, sizeof narrow, table, BYTES) == 0 && unaltered(), "there and back", of, to);
            /* widening over a folded table unfolds it */
            expect(fold(to) == 0 && maze_widen(narrow, sizeof narrow, table, BYTES) == 0 && unaltered(), "widened over a folded one", of, to);
        }
    /* every partner blocked: the mask says more than a narrow table still */
    fresh(3, 0, 255);
    table[1] = 7;
    expect(maze_narrow(table, BYTES, narrow, sizeof narrow) == 24, "partners all blocked", 7, 0);
    table[1] = 8;
    expect(maze_narrow(table, BYTES, narrow, sizeof narrow) == 3, "a fold bit at the dimension", 8, 0);
}

/* ---- soundness ---- */

/* Circuit 1, and sometimes 2, of node 0 in dimension 3: the links that they hold, each in its order, and the receive channel of each. */
static const struct laid {
    const char *what;
    unsigned mask;
    const char *trace; /* of circuit 1; NULL where the table is not sound */
    struct { unsigned circuit, node; char port; } links[6]; /* up to a circuit 0 */
    struct { unsigned circuit, node, channel; } receives[3];
} laid[] = {
    {"over partners", 5, "h1f", {{1, 0, 'h'}, {1, 1, '1'}, {1, 3, 'f'}}, {{1, 7, 0}}},
    {"through the source by the partner", 5, "0h1f", {{1, 0, '0'}, {1, 1, 'h'}, {1, 0, '1'}, {1, 2, 'f'}}, {{1, 6, 3}}},
    {"through the source from the partner", 5, "h01f", {{1, 0, 'h'}, {1, 1, '0'}, {1, 0, '1'}, {1, 2, 'f'}}, {{1, 6, 3}}},
    {"through the source, the higher port first", 7, "g1h", {{1, 0, 'g'}, {1, 2, '1'}, {1, 0, 'h'}}, {{1, 1, 0}}},
    {"through the source, the lower port first", 7, "1gh", {{1, 0, '1'}, {1, 2, 'g'}, {1, 0, 'h'}}, {{1, 1, 0}}},
    {"through the source and out by port 0", 7, "1g0", {{1, 0, '1'}, {1, 2, 'g'}, {1, 0, '0'}}, {{1, 1, 0}}},
    {"through the source and out by its partner", 7, "1gf", {{1, 0, '1'}, {1, 2, 'g'}, {1, 0, 'f'}}, {{1, 4, 0}}},
    {"to itself by both links of a pair", 1, "0h", {{1, 0, '0'}, {1, 1, 'h'}}, {{1, 0, 7}}},
    {"to itself by both, the other way", 1, "h0", {{1, 0, 'h'}, {1, 1, '0'}}, {{1, 0, 7}}},
    {"to itself by the partner alone", 1, "hh", {{1, 0, 'h'}, {1, 1, 'h'}}, {{1, 0, 7}}},
    {"the first axis once more at last", 5, "01h", {{1, 0, '0'}, {1, 1, '1'}, {1, 3, 'h'}}, {{1, 2, 0}}},
    {"the first axis once more, from the partner", 5, "h10", {{1, 0, 'h'}, {1, 1, '1'}, {1, 3, '0'}}, {{1, 2, 0}}},
    {"two circuits over a pair", 1, "0", {{1, 0, '0'}, {2, 0, 'h'}}, {{1, 1, 0}, {2, 1, 1}}},
    {"two circuits over a pair, the other way about", 1, "h", {{1, 0, 'h'}, {2, 0, '0'}}, {{1, 1, 0}, {2, 1, 1}}},
    {"both links of a pair by one circuit", 1, NULL, {{1, 0, '0'}, {1, 0, 'h'}}, {{1, 1, 0}}},
    {"both links of a pair, two hops", 5, NULL, {{1, 0, '0'}, {1, 0, 'h'}, {1, 1, '1'}}, {{1, 3, 0}}},
    {"both links of a later pair", 5, NULL, {{1, 0, '1'}, {1, 2, '0'}, {1, 2, 'h'}}, {{1, 3, 0}}},
    {"on past its target by the partner", 1, NULL, {{1, 0, '0'}, {1, 1, 'h'}, {1, 0, 'h'}}, {{1, 1, 0}}},
    {"an axis twice behind the first hop", 5, NULL, {{1, 0, 'f'}, {1, 4, '0'}, {1, 5, 'h'}}, {{1, 4, 0}}},
    {"a partner of a dimension that is not folded", 5, NULL, {{1, 0, 'g'}}, {{1, 2, 0}}},
    {"a partner of no dimension", 7, NULL, {{1, 0, 'e'}}, {{1, 0, 0}}},
    {"port 8", 7, NULL, {{1, 0, '8'}}, {{1, 0, 0}}},
    {"port 9", 7, NULL, {{1, 0, '9'}}, {{1, 0, 0}}},
    {"received where the partner leads back from", 1, NULL, {{1, 0, 'h'}}, {{1, 0, 0}}},
    {"received twice", 1, NULL, {{1, 0, '0'}, {1, 1, 'h'}}, {{1, 0, 0}, {1, 1, 0}}},
    {"a stray partner", 7, NULL, {{1, 0, '0'}, {1, 5, 'g'}}, {{1, 1, 0}}},
    {"the link back of its own", 1, NULL, {{1, 0, 'h'}, {1, 1, 'h'}}, {{1, 1, 0}}},
    {"as many links as hops to both nodes", 1, NULL, {{1, 0, '0'}, {1, 1, 'h'}, {2, 5, 'h'}}, {{1, 0, 0}, {1, 1, 1}}},
};

static void soundness(void) {
    for (size_t i = 0; i < sizeof laid / sizeof *laid; i++) {
        const struct laid *x = &laid[i];
        fresh(3, x->mask, 255);
        for (unsigned k = 0; k < 6 && x->links[k].circuit; k++) {
            const unsigned port = port_of(x->links[k].port);
            put(LINK(x->links[k].node, port), x->links[k].circuit);
            set_enabled(table, x->links[k].node, enabled(x->links[k].node) | 1u << port);
        }
        for (unsigned k = 0; k < 3 && x->receives[k].circuit; k++) put(RECEIVE(x->receives[k].node, x->receives[k].channel), x->receives[k].circuit);
        keep();
        if (!x->trace) {
            expect(maze_wide_unblock(table, BYTES, 0, 0) == 3 && maze_wide_fold(table, BYTES, x->mask & 7) == 3 && unaltered(), x->what, i, 3);
            continue;
        }
        expect_trace(x->what, 0, 0, x->trace);
        /* each of its links has to be enabled */
        for (unsigned k = 0; k < 6 && x->links[k].circuit; k++) {
            const unsigned node = x->links[k].node, links = enabled(node);
            set_enabled(table, node, links & ~(1u << port_of(x->links[k].port)));
            expect(maze_wide_unblock(table, BYTES, 0, 0) == 3, x->what, k, 3);
            set_enabled(table, node, links);
        }
        expect(maze_wide_close(table, BYTES, 0, 0) == 0, x->what, i, 0);
        for (unsigned k = 0; k < 6 && x->links[k].circuit; k++)
            expect(table[LINK(x->links[k].node, port_of(x->links[k].port))] == (x->links[k].circuit == 2 ? 2 : 0), x->what, i, k);
    }
}

/* Every fold byte for a table of each mask: sound where it is below 2^D and folds what has partners enabled; and every bit of the enabled links, and of a link's entry, that is
 * no port's for the mask. */
static void damaged(void) {
    for (unsigned of = 1; of <= 8; of++)
        for (unsigned to = 0; to < 1u << of; to += of < 5 ? 1 : 1 + to % 37) {
            unsigned wrong[4] = {0}, first[4] = {0};
            fresh(of, to, 255);
            if (to & 1) block(0, '0');
            expect(send(0, 0, 1, 0, 1).number == 0, "open", of, to);
            for (unsigned value = 0; value < 256; value++) {
                const int good = value < nodes() && (value & to) == to;
                table[1] = (uint8_t)value;
                keep();
                if ((maze_wide_disarm(table, BYTES, 0, 7) == 3) == good && wrong[0]++ == 0) first[0] = value;
                if (!good && !unaltered() && wrong[0]++ == 0) first[0] = 1000 + value;
                memcpy(table, kept, sizeof table);
            }
            table[1] = (uint8_t)to;
            for (unsigned node = 0; node < 256; node += of < 4 || node < 8 ? 1 : 17)
                for (unsigned bit = 0; bit < 24; bit++) {
                    const int there = node < nodes() && (every_link() >> bit & 1), held = bit < 18 && table[LINK(node, bit)] != 0;
                    table[ENABLED(node, bit / 8)] = (uint8_t)(table[ENABLED(node, bit / 8)] ^ 1u << bit % 8);
                    if (maze_wide_unblock(table, BYTES, 1, 0) != (there && !held ? 0 : 3) && wrong[1]++ == 0) first[1] = 24 * node + bit;
                    table[ENABLED(node, bit / 8)] = (uint8_t)(table[ENABLED(node, bit / 8)] ^ 1u << bit % 8);
                    if (bit >= 18 || there) continue;
                    put(LINK(node, bit), 1);
                    if (maze_wide_unblock(table, BYTES, 1, 0) != 3 && wrong[2]++ == 0) first[2] = 24 * node + bit;
                    put(LINK(node, bit), 0);
                }
            /* with every partner blocked and none held any mask below 2^D is sound */
            fresh(of, 0, 255);
            for (unsigned value = 0; value < 256; value++) {
                table[1] = (uint8_t)value;
                if (maze_wide_unblock(table, BYTES, 0, 0) != (value < nodes() ? 0 : 3) && wrong[3]++ == 0) first[3] = value;
            }
            for (unsigned k = 0; k < 4; k++) expect(wrong[k] == 0, "fold bytes and bits, first wrong", 1000 * of + 10 * to + k, first[k]);
        }
}

int main(int count, char **arguments) {
    (void)arguments;
    quick = count > 1;
    masks();
    no_masks();
    fold_order();
    for (size_t i = 0; i < sizeof sends / sizeof *sends; i++) run_send(&sends[i]);
    pairs();
    remembered();
    numbers();
    blocking();
    counts();
    received();
    worse();
    waiting();
    jobs();
    books();
    judging();
    longest_book();
    conversions();
    soundness();
    damaged();
    return verdict();
}
