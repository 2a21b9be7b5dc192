/* The calls on a table from C, beside vectors worked by hand from docs/SPECIFICATION.md: its Examples with the bytes of their tables, each refusal at its edge,
 * and that a refused call alters nothing. With -DWIDE the same of wide tables; those that are folded are in folded.c.
 *
 * A byte of a table is given by its place in a narrow one: the link out of port p of node n is held at 257 + 16 n + 2 p, receive channel c of node n at
 * 4353 + 16 n + 2 c, the enabled links of node n are at 1 + n, and its armed channels at 8449 + n. What stands there in the table at hand, here() tells. */
#include "books.h"
#include "expect.h"
#include "subject.h"

#include <string.h>

#ifdef WIDE
enum { BYTES = 14338, OTHER_BYTES = 8705, FOLD_AT = 1 };
#else
enum { BYTES = 8705, OTHER_BYTES = 14338 };
#endif
enum { SPARE = 64, BUFFER = 16, MOST = 24 };

/* The table and the buffer lent, and what they were before a call. Both go on behind what is lent. */
static uint8_t table[BYTES + SPARE], kept_table[BYTES + SPARE], buffer[BUFFER], kept_buffer[BUFFER];

static void keep(void) {
    memcpy(kept_table, table, sizeof table);
    memcpy(kept_buffer, buffer, sizeof buffer);
}

static int unaltered(void) {
    return memcmp(kept_table, table, sizeof table) == 0 && memcmp(kept_buffer, buffer, sizeof buffer) == 0;
}

static int unaltered_table(void) {
    return memcmp(kept_table, table, sizeof table) == 0;
}

static void fresh_buffer(void) {
    for (size_t i = 0; i < sizeof buffer; i++) buffer[i] = (uint8_t)(0xc0 + i);
}

/* Whether the buffer has what fresh_buffer() left, from a place on. */
static int fresh_from(size_t i) {
    while (i < sizeof buffer && buffer[i] == 0xc0 + i) i++;
    return i == sizeof buffer;
}

/* The channels of each node that fresh() or fresh_armed() left armed. */
static unsigned armed_at_first;

static void fresh(unsigned dimension) {
    for (size_t i = 0; i < sizeof table; i++) table[i] = (uint8_t)(i % 251 + 1);
    fresh_buffer();
    armed_at_first = 0;
    expect(maze_make(table, BYTES, (uint16_t)dimension) == 0, "make", dimension, 0);
#ifdef WIDE
    expect(table[FOLD_AT] == 0, "a made fold mask", dimension, table[FOLD_AT]);
#endif
}

static void arm(unsigned node, unsigned channel) {
    expect(maze_arm(table, BYTES, (uint16_t)node, (uint16_t)channel) == 0, "arm", node, channel);
}

/* A made table with every channel armed first, as Examples 1 to 8 have it. */
static void fresh_armed(unsigned dimension) {
    unsigned refused = 0;
    fresh(dimension);
    armed_at_first = 255;
    for (unsigned node = 0; node < 1u << dimension; node++)
        for (unsigned channel = 0; channel < 8; channel++) refused += maze_arm(table, BYTES, (uint16_t)node, (uint16_t)channel) != 0;
    expect(refused == 0, "every channel armed, dimension", dimension, refused);
}

struct place {
    unsigned at, value;
};

/* The table is as fresh() or fresh_armed() left it but for some places, and so are the bytes behind it. */
static void expect_table(const char *what, unsigned dimension, const struct place *places) {
    static uint8_t want[BYTES + SPARE];
    size_t at = 0;
    memset(want, 0, BYTES);
    want[0] = (uint8_t)dimension;
    for (unsigned node = 0; node < 1u << dimension; node++) {
        want[here(1 + node)] = (uint8_t)((1u << dimension) - 1);
        want[here(8449 + node)] = (uint8_t)armed_at_first;
    }
    for (size_t i = BYTES; i < sizeof want; i++) want[i] = (uint8_t)(i % 251 + 1);
    for (; places && places->at; places++) want[here(places->at)] = (uint8_t)places->value;
    while (at < sizeof want && want[at] == table[at]) at++;
    expect(at == sizeof want, what, at, at < sizeof want ? table[at] : 0);
}

/* The ports of a circuit, as digits; what the buffer had behind them is still there. */
static void expect_trace(const char *what, unsigned node, unsigned channel, const char *ports) {
    maze_traced got;
    int good;
    fresh_buffer();
    keep();
    got = maze_trace(table, BYTES, (uint16_t)node, (uint16_t)channel, buffer, BUFFER);
    good = got.number == 0 && got.hops == strlen(ports) && fresh_from(strlen(ports)) && unaltered_table();
    for (size_t i = 0; ports[i]; i++) good &= buffer[i] == ports[i] - '0';
    expect(good, what, got.number, got.hops);
}

/* ---- opens ---- */

struct send {
    const char *what;
    unsigned dimension;
    struct { unsigned node, port; } blocked[MOST]; /* up to an entry with port 99 */
    uint16_t node, channel, target, type, vector;
    unsigned number, receive;
    unsigned long scouts;
    const char *ports;
    struct place places[MOST]; /* up to a place 0 */
};

#define NONE {{0, 99}}

/* With every channel armed first. No circuit is open before the send: where it is route rejected, blocked links alone are in the way, and that is 22. */
static const struct send sends[] = {
    {"example 1", 3, NONE, 0, 0, 7, 0, 7, 0, 0, 3, "012", {{257, 1}, {275, 1}, {309, 1}, {4465, 1}}},
    {"example 2", 3, {{1, 2}, {3, 2}, {0, 99}}, 0, 0, 7, 0, 7, 0, 0, 5, "120", {{2, 3}, {4, 3}, {259, 1}, {293, 1}, {353, 1}, {4465, 1}}},
    {"example 3", 1, NONE, 0, 0, 0, 0, 1, 0, 0, 2, "00", {{257, 1}, {273, 1}, {4353, 1}}},
    {"example 4", 2, NONE, 0, 0, 1, 0, 2, 0, 0, 3, "101", {{259, 1}, {289, 1}, {307, 1}, {4369, 1}}},
    {"example 5", 2, {{2, 0}, {0, 99}}, 0, 0, 1, 0, 2, 0, 0, 3, "110", {{3, 2}, {257, 1}, {259, 1}, {291, 1}, {4369, 1}}},
    {"example 6, type 0", 2, {{0, 0}, {0, 99}}, 0, 0, 1, 0, 1, 22, 0, 0, "", {{1, 2}}},
    {"example 6, type 4", 2, {{0, 0}, {0, 99}}, 0, 0, 1, 4, 1, 0, 0, 3, "101", {{1, 2}, {259, 1}, {289, 1}, {307, 1}, {4369, 1}}},
    /* Circuit 1604 is 6 * 256 + 68, circuit 2048 is 8 * 256. */
    {"a circuit above 255", 8, NONE, 200, 3, 201, 0, 1, 0, 0, 1, "0", {{3457, 68}, {3458, 6}, {7569, 68}, {7570, 6}}},
    {"the last circuit", 8, NONE, 255, 7, 127, 0, 128, 0, 0, 1, "7", {{4352, 8}, {6386, 8}}},
    {"eight hops", 8, NONE, 0, 0, 255, 0, 255, 0, 0, 8, "01234567",
     {{257, 1}, {275, 1}, {309, 1}, {375, 1}, {505, 1}, {763, 1}, {1277, 1}, {2303, 1}, {8433, 1}}},
    {"nine hops", 8, NONE, 0, 0, 254, 0, 1, 0, 0, 9, "012345670",
     {{257, 1}, {275, 1}, {309, 1}, {375, 1}, {505, 1}, {763, 1}, {1277, 1}, {2303, 1}, {4337, 1}, {8417, 1}}},
    {"first hop away", 3, NONE, 0, 0, 3, 0, 4, 0, 0, 4, "2012", {{261, 1}, {321, 1}, {339, 1}, {373, 1}, {4401, 1}}},
    {"out and back", 3, NONE, 5, 0, 5, 0, 6, 0, 0, 2, "11", {{339, 41}, {371, 41}, {4433, 41}}},
    {"one pass rejected", 2, {{1, 1}, {0, 99}}, 0, 0, 3, 0, 1, 22, 0, 1, "", {{2, 1}}},
    {"a second pass accepted", 2, {{1, 1}, {0, 99}}, 0, 0, 3, 4, 1, 0, 0, 3, "10", {{2, 1}, {259, 1}, {289, 1}, {4401, 1}}},
    /* the first pass finds its only link blocked; the second goes back from node 1, and then by port 2 */
    {"a second pass past a blocked link", 5, {{0, 1}, {1, 4}, {0, 99}}, 0, 0, 17, 4, 2, 0, 0, 5, "2402",
     {{1, 29}, {2, 15}, {261, 1}, {329, 1}, {577, 1}, {597, 1}, {4625, 1}}},
    {"both passes rejected", 2, {{1, 1}, {2, 0}, {0, 99}}, 0, 0, 3, 4, 1, 22, 0, 2, "", {{2, 1}, {3, 2}}},
    {"a second pass with no port", 2, {{1, 1}, {2, 0}, {0, 99}}, 0, 0, 3, 4, 3, 22, 0, 2, "", {{2, 1}, {3, 2}}},
    {"type 4 with one pass", 3, NONE, 0, 0, 7, 4, 7, 0, 0, 3, "012", {{257, 1}, {275, 1}, {309, 1}, {4465, 1}}},
};

/* Types 1 and 3, every channel armed first. The helix path of a port from 0 to 7 in dimension 3, by the nodes that it comes through:
 *   port 0: 0, 1, 3, 7 over ports 0, 1, 2;  port 1: 0, 2, 6, 7 over 1, 2, 0;  port 2: 0, 4, 5, 7 over 2, 0, 1.
 * Each hop behind the first is over the next port that leads to the target above the one arrived on, or else over the lowest. */
static const struct send helix_sends[] = {
    /* figure 7: of port 0's path 0 to 1 and 1 to 3 are free and 3 to 7 is blocked, 2 scouts; then port 1's is free, 3 scouts. A search finds that path
     * too: it comes to 1 and 3, where there is no way on, and then to 2, 6 and 7. */
    {"figure 7, type 0", 3, {{1, 2}, {3, 2}, {0, 99}}, 0, 0, 7, 0, 7, 0, 0, 5, "120", {{2, 3}, {4, 3}, {259, 1}, {293, 1}, {353, 1}, {4465, 1}}},
    {"figure 7, type 1", 3, {{1, 2}, {3, 2}, {0, 99}}, 0, 0, 7, 1, 7, 0, 0, 5, "120", {{2, 3}, {4, 3}, {259, 1}, {293, 1}, {353, 1}, {4465, 1}}},
    {"figure 7, type 3", 3, {{1, 2}, {3, 2}, {0, 99}}, 0, 0, 7, 3, 7, 22, 0, 2, "", {{2, 3}, {4, 3}}},
    {"figure 7, type 4", 3, {{1, 2}, {3, 2}, {0, 99}}, 0, 0, 7, 4, 7, 0, 0, 5, "120", {{2, 3}, {4, 3}, {259, 1}, {293, 1}, {353, 1}, {4465, 1}}},
    /* without its port 0, what is left of figure 7 begins with port 1; with port 0 alone no path is left to type 1 */
    {"figure 7, type 3, vector 6", 3, {{1, 2}, {3, 2}, {0, 99}}, 0, 0, 7, 3, 6, 0, 0, 3, "120", {{2, 3}, {4, 3}, {259, 1}, {293, 1}, {353, 1}, {4465, 1}}},
    {"figure 7, type 1, vector 1", 3, {{1, 2}, {3, 2}, {0, 99}}, 0, 0, 7, 1, 1, 22, 0, 2, "", {{2, 3}, {4, 3}}},
    /* nothing blocked: the path of each port, in the helical order behind the port arrived on and not from 0, which would give 1, 0, 2 for port 1 */
    {"type 3 by port 0", 3, NONE, 0, 0, 7, 3, 7, 0, 0, 3, "012", {{257, 1}, {275, 1}, {309, 1}, {4465, 1}}},
    {"type 1 by port 0", 3, NONE, 0, 0, 7, 1, 7, 0, 0, 3, "012", {{257, 1}, {275, 1}, {309, 1}, {4465, 1}}},
    {"type 3 by port 1", 3, NONE, 0, 0, 7, 3, 2, 0, 0, 3, "120", {{259, 1}, {293, 1}, {353, 1}, {4465, 1}}},
    {"type 1 by port 1", 3, NONE, 0, 0, 7, 1, 6, 0, 0, 3, "120", {{259, 1}, {293, 1}, {353, 1}, {4465, 1}}},
    {"type 3 by port 2", 3, NONE, 0, 0, 7, 3, 4, 0, 0, 3, "201", {{261, 1}, {321, 1}, {339, 1}, {4465, 1}}},
    /* 3 to 7 blocked, vector 1: the path of port 0 has two free hops. A search goes back from 3 to 1 and finds 1 to 5 to 7: scouts to 1, 3, 5 and 7. */
    {"acknowledged by type 0", 3, {{3, 2}, {0, 99}}, 0, 0, 7, 0, 1, 0, 0, 4, "021", {{4, 3}, {257, 1}, {277, 1}, {339, 1}, {4465, 1}}},
    {"and not by type 1", 3, {{3, 2}, {0, 99}}, 0, 0, 7, 1, 1, 22, 0, 2, "", {{4, 3}}},
    {"nor by type 3", 3, {{3, 2}, {0, 99}}, 0, 0, 7, 3, 1, 22, 0, 2, "", {{4, 3}}},
    /* 0 to 1 blocked: the path of port 0 has no free hop, that of port 1 two */
    {"acknowledged by type 1", 2, {{0, 0}, {0, 99}}, 0, 0, 3, 1, 3, 0, 0, 2, "10", {{1, 2}, {259, 1}, {289, 1}, {4401, 1}}},
    {"and not by type 3, first hop blocked", 2, {{0, 0}, {0, 99}}, 0, 0, 3, 3, 3, 22, 0, 0, "", {{1, 2}}},
    /* the lowest port leads away: to 1, there 2 is the next port above 0 and leads to 5, and from there 0 leads to 4; port 2 alone would do */
    {"type 3, the lowest port leads away", 3, NONE, 0, 0, 4, 3, 5, 0, 0, 3, "020", {{257, 1}, {277, 1}, {337, 1}, {4417, 1}}},
    {"type 1, the lowest port leads away", 3, NONE, 0, 0, 4, 1, 5, 0, 0, 3, "020", {{257, 1}, {277, 1}, {337, 1}, {4417, 1}}},
    /* 1 to 5 blocked: one free hop for type 3; for type 1 that one and the one from 0 to 4 */
    {"type 3, blocked behind a port that leads away", 3, {{1, 2}, {0, 99}}, 0, 0, 4, 3, 5, 22, 0, 1, "", {{2, 3}}},
    {"type 1, blocked behind a port that leads away", 3, {{1, 2}, {0, 99}}, 0, 0, 4, 1, 5, 0, 0, 2, "2", {{2, 3}, {261, 1}, {4417, 1}}},
    /* the port arrived on comes last: at 4 ports 0, 1 and 2 lead to 3, and 2 is the one arrived on */
    {"type 3, first hop away", 3, NONE, 0, 0, 3, 3, 4, 0, 0, 4, "2012", {{261, 1}, {321, 1}, {339, 1}, {373, 1}, {4401, 1}}},
    {"type 1, first hop away", 3, NONE, 0, 0, 3, 1, 4, 0, 0, 4, "2012", {{261, 1}, {321, 1}, {339, 1}, {373, 1}, {4401, 1}}},
    {"type 3, example 4", 2, NONE, 0, 0, 1, 3, 2, 0, 0, 3, "101", {{259, 1}, {289, 1}, {307, 1}, {4369, 1}}},
    /* example 5: type 0 goes back through the source. A helix path takes the port arrived on only where no other is left, so it comes to its source
     * again only to end there: one free hop, then 2 to 3 is blocked. */
    {"example 5, type 0", 2, {{2, 0}, {0, 99}}, 0, 0, 1, 0, 2, 0, 0, 3, "110", {{3, 2}, {257, 1}, {259, 1}, {291, 1}, {4369, 1}}},
    {"example 5, type 1", 2, {{2, 0}, {0, 99}}, 0, 0, 1, 1, 2, 22, 0, 1, "", {{3, 2}}},
    {"example 5, type 3", 2, {{2, 0}, {0, 99}}, 0, 0, 1, 3, 2, 22, 0, 1, "", {{3, 2}}},
    {"example 6, type 1", 2, {{0, 0}, {0, 99}}, 0, 0, 1, 1, 1, 22, 0, 0, "", {{1, 2}}},
    {"example 6, type 1, vector 3", 2, {{0, 0}, {0, 99}}, 0, 0, 1, 1, 3, 0, 0, 3, "101", {{1, 2}, {259, 1}, {289, 1}, {307, 1}, {4369, 1}}},
    {"example 6, type 3", 2, {{0, 0}, {0, 99}}, 0, 0, 1, 3, 3, 22, 0, 0, "", {{1, 2}}},
    /* to itself: out over the port and back over it. With 7 to 5 blocked, one free hop of port 1 and two of port 2, through node 1. */
    {"type 3 to itself", 3, NONE, 5, 0, 5, 3, 6, 0, 0, 2, "11", {{339, 41}, {371, 41}, {4433, 41}}},
    {"type 1 to itself", 1, NONE, 0, 0, 0, 1, 1, 0, 0, 2, "00", {{257, 1}, {273, 1}, {4353, 1}}},
    {"type 1 to itself, no way back", 3, {{7, 1}, {0, 99}}, 5, 0, 5, 1, 6, 0, 0, 3, "22", {{8, 5}, {341, 41}, {277, 41}, {4433, 41}}},
    {"type 3 to itself, no way back", 3, {{7, 1}, {0, 99}}, 5, 0, 5, 3, 6, 22, 0, 1, "", {{8, 5}}},
    /* as long as paths get, and round past port 7 */
    {"type 3, nine hops", 8, NONE, 0, 0, 254, 3, 1, 0, 0, 9, "012345670",
     {{257, 1}, {275, 1}, {309, 1}, {375, 1}, {505, 1}, {763, 1}, {1277, 1}, {2303, 1}, {4337, 1}, {8417, 1}}},
    {"type 1, nine hops", 8, NONE, 0, 0, 254, 1, 1, 0, 0, 9, "012345670",
     {{257, 1}, {275, 1}, {309, 1}, {375, 1}, {505, 1}, {763, 1}, {1277, 1}, {2303, 1}, {4337, 1}, {8417, 1}}},
    /* node 128 holds port 0 at 257 + 2048, then 129 port 1, 131, 135, 143, 159 and 191 port 6 at 257 + 3056 + 12 */
    {"type 3, from port 7 on to 0", 8, NONE, 0, 0, 255, 3, 128, 0, 0, 8, "70123456",
     {{271, 1}, {2305, 1}, {2323, 1}, {2357, 1}, {2423, 1}, {2553, 1}, {2811, 1}, {3325, 1}, {8433, 1}}},
    {"type 3, a circuit above 255", 8, NONE, 200, 3, 201, 3, 1, 0, 0, 1, "0", {{3457, 68}, {3458, 6}, {7569, 68}, {7570, 6}}},
    {"type 1, the last circuit", 8, NONE, 255, 7, 127, 1, 128, 0, 0, 1, "7", {{4352, 8}, {6386, 8}}},
};

/* With no channel armed: a path is found or not, and either way the table stays. */
static const struct send unarmed[] = {
    {"none armed", 3, NONE, 0, 0, 7, 0, 7, 11, 0, 3, "", {{0, 0}}},
    {"none armed, figure 7", 3, {{1, 2}, {3, 2}, {0, 99}}, 0, 0, 7, 0, 7, 11, 0, 5, "", {{2, 3}, {4, 3}}},
    {"none armed, to itself", 1, NONE, 0, 0, 0, 0, 1, 11, 0, 2, "", {{0, 0}}},
    {"none armed, nine hops", 8, NONE, 0, 0, 254, 0, 1, 11, 0, 9, "", {{0, 0}}},
    {"none armed, from node 200", 8, NONE, 200, 0, 201, 0, 1, 11, 0, 1, "", {{0, 0}}},
    {"none armed, no path", 2, {{0, 0}, {0, 99}}, 0, 0, 1, 0, 1, 22, 0, 0, "", {{1, 2}}},
    /* type 4: a receive rejection in the first pass ends the send, whatever a second pass would find: a path, no port, or no way on from node 2 */
    {"receive rejected, type 4", 2, NONE, 0, 0, 3, 4, 1, 11, 0, 2, "", {{0, 0}}},
    {"receive rejected, type 4, no port left", 2, NONE, 0, 0, 3, 4, 3, 11, 0, 2, "", {{0, 0}}},
    {"receive rejected, type 4, no other path", 2, {{2, 0}, {0, 99}}, 0, 0, 3, 4, 1, 11, 0, 2, "", {{3, 2}}},
    {"receive rejected, type 4, to itself", 2, NONE, 2, 0, 2, 4, 2, 11, 0, 2, "", {{0, 0}}},
    {"receive rejected, type 4, nine hops", 8, NONE, 0, 0, 254, 4, 1, 11, 0, 9, "", {{0, 0}}},
    {"receive rejected, type 4, figure 7", 3, {{1, 2}, {3, 2}, {0, 99}}, 0, 0, 7, 4, 7, 11, 0, 5, "", {{2, 3}, {4, 3}}},
    /* a route rejection does not, and then the scouts are those of both: to node 1 or to nodes 1 and 3, and then over the whole path */
    {"route rejected, then receive rejected", 2, {{1, 1}, {0, 99}}, 0, 0, 3, 4, 1, 11, 0, 3, "", {{2, 1}}},
    {"route rejected, then receive rejected, figure 7", 3, {{1, 2}, {3, 2}, {0, 99}}, 0, 0, 7, 4, 1, 11, 0, 5, "", {{2, 3}, {4, 3}}},
    {"no scout, then receive rejected", 2, {{0, 0}, {0, 99}}, 0, 0, 1, 4, 1, 11, 0, 3, "", {{1, 2}}},
    {"route rejected twice, none armed", 2, {{1, 1}, {2, 0}, {0, 99}}, 0, 0, 3, 4, 1, 22, 0, 2, "", {{2, 1}, {3, 2}}},
    /* types 1 and 3: the first path that is free ends the send, though those of ports 1 and 2 are free as well */
    {"none armed, type 3", 3, NONE, 0, 0, 7, 3, 7, 11, 0, 3, "", {{0, 0}}},
    {"none armed, type 1", 3, NONE, 0, 0, 7, 1, 7, 11, 0, 3, "", {{0, 0}}},
    {"none armed, type 1, to itself", 3, NONE, 5, 0, 5, 1, 7, 11, 0, 2, "", {{0, 0}}},
    {"none armed, type 1, nine hops", 8, NONE, 0, 0, 254, 1, 255, 11, 0, 9, "", {{0, 0}}},
    /* the scouts of the path tried before it are counted: 2 and 3 */
    {"none armed, figure 7, type 1", 3, {{1, 2}, {3, 2}, {0, 99}}, 0, 0, 7, 1, 7, 11, 0, 5, "", {{2, 3}, {4, 3}}},
    {"none armed, figure 7, type 3", 3, {{1, 2}, {3, 2}, {0, 99}}, 0, 0, 7, 3, 7, 22, 0, 2, "", {{2, 3}, {4, 3}}},
    {"none armed, type 1, first hop blocked", 2, {{0, 0}, {0, 99}}, 0, 0, 3, 1, 3, 11, 0, 2, "", {{1, 2}}},
    {"none armed, type 3, first hop blocked", 2, {{0, 0}, {0, 99}}, 0, 0, 3, 3, 3, 22, 0, 0, "", {{1, 2}}},
    {"none armed, type 1, no path", 2, {{1, 1}, {2, 0}, {0, 99}}, 0, 0, 3, 1, 3, 22, 0, 2, "", {{2, 1}, {3, 2}}},
};

/* On a table that fresh() or fresh_armed() left. */
static void run_send(const struct send *send) {
    maze_opened got;
    for (size_t i = 0; send->blocked[i].port != 99; i++)
        expect(maze_block(table, BYTES, (uint16_t)send->blocked[i].node, (uint16_t)send->blocked[i].port) == 0, "block for", i, 0);
    got = maze_open(table, BYTES, send->node, send->channel, send->target, send->type, send->vector);
    expect(got.number == send->number, send->what, send->number, got.number);
    expect(got.hops == strlen(send->ports), send->what, strlen(send->ports), got.hops);
    expect(got.receive == send->receive, send->what, send->receive, got.receive);
    expect(got.scouts == send->scouts, send->what, send->scouts, got.scouts);
    expect_table(send->what, send->dimension, send->places);
    if (send->number != 0) return;
    expect_trace(send->what, send->node, send->channel, send->ports);
    expect(maze_close(table, BYTES, send->node, send->channel) == 0, send->what, 0, 0);
    for (size_t i = 0; send->blocked[i].port != 99; i++)
        expect(maze_unblock(table, BYTES, (uint16_t)send->blocked[i].node, (uint16_t)send->blocked[i].port) == 0, "unblock for", i, 0);
    {
        const struct place disarmed[] = {{8449u + send->target, 255u - (1u << send->receive)}, {0, 0}};
        expect_table("closed and unblocked", send->dimension, disarmed);
    }
}

static void example_7(void) {
    static const struct place first[] = {{257, 1}, {4369, 1}, {0, 0}}, closed[] = {{8450, 254}, {0, 0}};
    static const struct place second[] = {{257, 2}, {4371, 2}, {8450, 254}, {0, 0}};
    maze_opened got;
    fresh_armed(1);
    got = maze_open(table, BYTES, 0, 0, 1, 0, 1);
    expect(got.number == 0 && got.hops == 1 && got.receive == 0 && got.scouts == 1, "example 7, channel 0", got.number, got.scouts);
    got = maze_open(table, BYTES, 0, 1, 1, 0, 1);
    expect(got.number == 10 && got.hops == 0 && got.receive == 0 && got.scouts == 0, "example 7, channel 1", got.number, got.scouts);
    expect_table("example 7", 1, first);
    expect(maze_close(table, BYTES, 0, 0) == 0, "example 7, close", 0, 0);
    expect_table("example 7, closed", 1, closed);
    got = maze_open(table, BYTES, 0, 1, 1, 0, 1); /* on receive channel 1, as the close has disarmed 0 */
    expect(got.number == 0 && got.hops == 1 && got.receive == 1 && got.scouts == 1, "example 7, again", got.number, got.scouts);
    expect_table("example 7, again", 1, second);
}

static void example_8(void) {
    static const struct { uint16_t word, number, command, carried; } read[] = {
        {2175, 0, 1, 0}, {2437, 0, 6, 5}, {3649, 0, 9, 1}, {3136, 17, 0, 0}, {2240, 18, 0, 0},
    };
    maze_word_written written = maze_word_write(1, 0);
    for (size_t i = 0; i < sizeof read / sizeof *read; i++) {
        maze_word_read_answer got = maze_word_read(read[i].word);
        expect(got.number == read[i].number && got.command == read[i].command && got.carried == read[i].carried, "example 8", read[i].word, got.number);
    }
    expect(written.number == 0 && written.word == 2112, "example 8, written", written.number, written.word);
}

static void example_9(void) {
    /* circuit 57 from node 7 to node 0 over ports 0, 1 and 2; circuit 1 the other way */
    static const struct place back[] = {{369, 57}, {355, 57}, {325, 57}, {4353, 57}, {0, 0}};
    static const struct place forth[] = {{257, 1}, {275, 1}, {309, 1}, {4465, 1}, {0, 0}};
    fresh(8);
    expect(maze_make(table, BYTES, 9) == 2, "example 9, dimension", 9, 0);
    expect_table("example 9, still dimension 8", 8, NULL);
    fresh_armed(3);
    expect(maze_open(table, BYTES, 7, 0, 0, 0, 7).number == 0, "example 9, node", 7, 0);
    expect_table("example 9, from node 7", 3, back);
    fresh_armed(3);
    expect(maze_open(table, BYTES, 0, 0, 7, 0, 7).number == 0, "example 9, vector", 7, 0);
    expect_table("example 9, vector 7 to node 7", 3, forth);
    fresh_armed(3);
    expect(maze_open(table, BYTES, 8, 0, 0, 0, 7).number == 4, "example 9, source", 8, 0);
    expect(maze_open(table, BYTES, 0, 0, 8, 0, 7).number == 4, "example 9, target", 8, 0);
    expect(maze_open(table, BYTES, 0, 0, 7, 0, 8).number == 8, "example 9, vector", 8, 0);
    expect(maze_open(table, 8448, 0, 0, 7, 0, 7).number == 1, "example 9, length", 8448, 0);
    expect_table("example 9, nothing opened", 3, NULL);
}

/* The eight links into the target are blocked: every beginning that is not a whole path is sent, 123,300 - 45,360 of them. */
static void most_scouts(void) {
    static const uint16_t vectors[] = {255, 1, 128, 170};
    for (size_t i = 0; i < sizeof vectors / sizeof *vectors; i++) {
        maze_opened got;
        fresh(8);
        for (unsigned port = 0; port < 8; port++) expect(maze_block(table, BYTES, (uint16_t)(254 ^ 1u << port), (uint16_t)port) == 0, "block into", 254, port);
        keep();
        got = maze_open(table, BYTES, 0, 0, 254, 4, vectors[i]);
        expect(got.number == 22 && got.scouts == 77940 && got.hops == 0 && got.receive == 0, "most scouts", got.number, got.scouts);
        expect(unaltered(), "most scouts, bytes", vectors[i], 0);
    }
}

/* A target takes its lowest receive channel that is armed and that no circuit holds. A closed circuit disarms its own. */
static void receive_channels(void) {
    static const struct place three[] = {{259, 2}, {289, 2}, {4403, 2}, {275, 9}, {4405, 9}, {8452, 254}, {0, 0}};
    static const struct place armed_again[] = {{259, 2}, {289, 2}, {4403, 2}, {275, 9}, {4401, 9}, {8452, 251}, {0, 0}};
    maze_opened got;
    fresh_armed(2);
    got = maze_open(table, BYTES, 0, 0, 3, 0, 1); /* 0, 1 */
    expect(got.number == 0 && got.receive == 0, "first receive channel", got.number, got.receive);
    got = maze_open(table, BYTES, 0, 1, 3, 0, 2); /* 1, 0 */
    expect(got.number == 0 && got.receive == 1, "second receive channel", got.number, got.receive);
    got = maze_open(table, BYTES, 1, 0, 3, 0, 2);
    expect(got.number == 10 && got.scouts == 0, "both links taken", got.number, got.scouts);
    expect(maze_close(table, BYTES, 0, 0) == 0, "close the first", 0, 0);
    got = maze_open(table, BYTES, 1, 0, 3, 0, 2); /* circuit 9 by port 1 */
    expect(got.number == 0 && got.receive == 2, "0 is not armed, 1 is held", got.number, got.receive);
    expect_table("receive channels", 2, three);
    expect(maze_close(table, BYTES, 1, 0) == 0, "close it", 0, 0);
    arm(3, 0);
    got = maze_open(table, BYTES, 1, 0, 3, 0, 2);
    expect(got.number == 0 && got.receive == 0, "0 is armed again", got.number, got.receive);
    expect_table("the lowest again", 2, armed_again);

    /* seven receive channels of node 0, in the order of the ports by which circuits come in; the eighth link is free and finds no channel */
    fresh(8);
    for (unsigned channel = 0; channel < 7; channel++) arm(0, channel);
    for (unsigned port = 0; port < 8; port++) {
        const uint16_t node = (uint16_t)(1u << port);
        if (port == 7) {
            keep();
            got = maze_open(table, BYTES, node, 1, 0, 0, node);
            expect(got.number == 11 && got.hops == 0 && got.receive == 0 && got.scouts == 1 && unaltered(), "all that are armed are held", got.number, got.scouts);
            arm(0, 7);
        }
        got = maze_open(table, BYTES, node, 1, 0, 0, node);
        expect(got.number == 0 && got.hops == 1 && got.receive == port && table[here(4353 + 2 * port)] + 256u * table[here(4354 + 2 * port)] == 8u * node + 2, "receive channel", port, got.receive);
    }
    /* and then no link into it is free */
    got = maze_open(table, BYTES, 3, 0, 0, 4, 3);
    expect(got.number == 10 && got.hops == 0 && got.receive == 0 && got.scouts == 62, "all receive channels held", got.number, got.scouts);
}

/* Type 4 with the one armed channel of the target held: what a first pass finds decides whether there is a second. */
static void second_pass(void) {
    static const struct place two[] = {{257, 1}, {275, 1}, {4401, 1}, {259, 2}, {289, 2}, {4411, 2}, {8452, 33}, {0, 0}};
    maze_opened got;
    fresh(2);
    arm(3, 0);
    expect(maze_open(table, BYTES, 0, 0, 3, 4, 3).number == 0, "open on ports 0 and 1", 0, 0);
    keep();
    got = maze_open(table, BYTES, 0, 1, 3, 4, 2); /* the path over ports 1 and 0 is free */
    expect(got.number == 11 && got.hops == 0 && got.receive == 0 && got.scouts == 2 && unaltered(), "found in the first pass", got.number, got.scouts);
    got = maze_open(table, BYTES, 0, 1, 3, 4, 3);
    expect(got.number == 11 && got.hops == 0 && got.receive == 0 && got.scouts == 2 && unaltered(), "found in the only pass", got.number, got.scouts);
    got = maze_open(table, BYTES, 0, 1, 3, 4, 1); /* port 0 is held: the second pass finds that path */
    expect(got.number == 11 && got.hops == 0 && got.receive == 0 && got.scouts == 2 && unaltered(), "found in the second pass", got.number, got.scouts);
    got = maze_open(table, BYTES, 1, 0, 3, 4, 2); /* its own link to node 3 is held: the second pass goes by ports 0, 1 and 0 */
    expect(got.number == 11 && got.hops == 0 && got.receive == 0 && got.scouts == 3 && unaltered(), "found through node 0", got.number, got.scouts);
    arm(3, 5);
    got = maze_open(table, BYTES, 0, 1, 3, 4, 1);
    expect(got.number == 0 && got.hops == 2 && got.receive == 5 && got.scouts == 2, "accepted in the second pass", got.number, got.scouts);
    expect_table("two circuits of type 4", 2, two);
}

/* Types 1 and 3 past circuits that stand there. Dimension 3, from 0 to 7: circuit 25 holds the link from 3 to 7, the last of port 0's path. */
static void held_hops(void) {
    static const struct place one[] = {{309, 25}, {4465, 25}, {0, 0}};
    static const struct place two[] = {{309, 25}, {4465, 25}, {259, 1}, {293, 1}, {353, 1}, {4467, 1}, {0, 0}};
    static const struct place three[] = {{309, 25}, {4465, 25}, {259, 1}, {293, 1}, {353, 1}, {4467, 1}, {261, 2}, {321, 2}, {339, 2}, {4469, 2}, {0, 0}};
    static const struct place closed[] = {{309, 25}, {4465, 25}, {261, 2}, {321, 2}, {339, 2}, {4469, 2}, {8456, 253}, {0, 0}};
    maze_opened got;
    fresh_armed(3);
    got = maze_open(table, BYTES, 3, 0, 7, 3, 4);
    expect(got.number == 0 && got.hops == 1 && got.receive == 0 && got.scouts == 1, "open from 3 to 7", got.number, got.scouts);
    expect_table("the link from 3 to 7 held", 3, one);
    keep();
    for (unsigned type = 1; type <= 3; type += 2) { /* to 1 and to 3, and no further */
        got = maze_open(table, BYTES, 0, 0, 7, (uint16_t)type, 1);
        expect(got.number == 10 && got.hops == 0 && got.receive == 0 && got.scouts == 2 && unaltered(), "held at its third hop, type", type, got.scouts);
    }
    got = maze_open(table, BYTES, 0, 0, 7, 3, 7);
    expect(got.number == 10 && got.hops == 0 && got.receive == 0 && got.scouts == 2 && unaltered(), "rejected at once", got.number, got.scouts);
    got = maze_open(table, BYTES, 0, 0, 7, 1, 7); /* 2, and then the 3 of port 1's path */
    expect(got.number == 0 && got.hops == 3 && got.receive == 1 && got.scouts == 5, "the next port", got.number, got.scouts);
    expect_table("two circuits to 7", 3, two);
    keep();
    got = maze_open(table, BYTES, 0, 1, 7, 3, 6); /* its first hop is held */
    expect(got.number == 10 && got.scouts == 0 && unaltered(), "held at its first hop", got.number, got.scouts);
    got = maze_open(table, BYTES, 0, 1, 7, 1, 7); /* 2 of port 0, 0 of port 1, 3 of port 2 */
    expect(got.number == 0 && got.hops == 3 && got.receive == 2 && got.scouts == 5, "the third port", got.number, got.scouts);
    expect_table("three circuits to 7", 3, three);
    keep();
    got = maze_open(table, BYTES, 0, 2, 7, 1, 7);
    expect(got.number == 10 && got.hops == 0 && got.receive == 0 && got.scouts == 2 && unaltered(), "no port left", got.number, got.scouts);
    got = maze_open(table, BYTES, 0, 2, 7, 0, 7); /* a search comes to 1, 3 and 5 */
    expect(got.number == 10 && got.scouts == 3 && unaltered(), "nor for a search", got.number, got.scouts);
    expect_trace("type 3", 3, 0, "2");
    expect_trace("type 1", 0, 0, "120");
    expect_trace("type 1 again", 0, 1, "201");
    expect(maze_close(table, BYTES, 0, 0) == 0, "close one of type 1", 0, 0);
    expect_table("the others stay", 3, closed);

    /* dimension 2, from 0 to 3, whose one armed channel is taken */
    fresh(2);
    arm(3, 0);
    expect(maze_open(table, BYTES, 0, 0, 3, 1, 3).number == 0, "type 1 on ports 0 and 1", 0, 0);
    keep();
    got = maze_open(table, BYTES, 0, 1, 3, 1, 3); /* the path of port 0 is held at its first hop, that of port 1 is free */
    expect(got.number == 11 && got.hops == 0 && got.receive == 0 && got.scouts == 2 && unaltered(), "free and no channel, type 1", got.number, got.scouts);
    got = maze_open(table, BYTES, 0, 1, 3, 3, 2);
    expect(got.number == 11 && got.hops == 0 && got.receive == 0 && got.scouts == 2 && unaltered(), "free and no channel, type 3", got.number, got.scouts);
    got = maze_open(table, BYTES, 0, 1, 3, 3, 3); /* 10, though the path of port 1 would come to 11 */
    expect(got.number == 10 && got.hops == 0 && got.receive == 0 && got.scouts == 0 && unaltered(), "held and no channel, type 3", got.number, got.scouts);
}

/* Dimension 8 with every link into the target blocked. From 0 to 254 the path of port 0 has nine hops, eight of them free, and those of ports 1 to 7
 * have seven, six of them free. From 0 to 255 each of the eight has seven free hops; with the last link of port 7's path enabled, seven of them have
 * seven and that one is free: the most scouts of a send of type 1. */
static void helix_scouts(void) {
    static const struct { uint16_t vector; unsigned long helix, fixed; } walled[] = {{255, 8 + 7 * 6, 8}, {1, 8, 8}, {128, 6, 6}, {170, 4 * 6, 6}, {254, 7 * 6, 6}};
    maze_opened got;
    fresh_armed(8);
    for (unsigned port = 0; port < 8; port++) expect(maze_block(table, BYTES, (uint16_t)(254 ^ 1u << port), (uint16_t)port) == 0, "block into", 254, port);
    keep();
    for (size_t i = 0; i < sizeof walled / sizeof *walled; i++) {
        got = maze_open(table, BYTES, 0, 0, 254, 1, walled[i].vector);
        expect(got.number == 22 && got.scouts == walled[i].helix && got.hops == 0 && got.receive == 0 && unaltered(), "type 1 to 254", walled[i].vector, got.scouts);
        got = maze_open(table, BYTES, 0, 0, 254, 3, walled[i].vector);
        expect(got.number == 22 && got.scouts == walled[i].fixed && got.hops == 0 && got.receive == 0 && unaltered(), "type 3 to 254", walled[i].vector, got.scouts);
    }
    fresh_armed(8);
    for (unsigned port = 0; port < 8; port++) expect(maze_block(table, BYTES, (uint16_t)(255 ^ 1u << port), (uint16_t)port) == 0, "block into", 255, port);
    keep();
    got = maze_open(table, BYTES, 0, 0, 255, 1, 255);
    expect(got.number == 22 && got.scouts == 8 * 7 && got.hops == 0 && got.receive == 0 && unaltered(), "type 1 to 255", got.number, got.scouts);
    expect(maze_unblock(table, BYTES, 191, 6) == 0, "unblock into 255", 191, 6);
    got = maze_open(table, BYTES, 0, 0, 255, 1, 255);
    expect(got.number == 0 && got.scouts == 7 * 7 + 8 && got.hops == 8 && got.receive == 0, "the last of eight paths", got.number, got.scouts);
    expect_trace("the last of eight paths", 0, 0, "70123456");
}

/* Every choice of blocked links in dimension 2, every target and vector, from node 0: with sends alike but for type, type 1 acknowledges all that type
 * 3 does, and type 0 all that type 1 does; and a send of type 1 with one port is one of type 3. One check for each target and vector; where it fails,
 * the first wrong choice is named. */
static void inclusion(void) {
    static const uint16_t types[] = {3, 1, 0};
    for (unsigned target = 0; target < 4; target++)
        for (unsigned vector = 1; vector < 4; vector++) {
            unsigned long wrong = 0, first = 0;
            fresh_armed(2);
            for (unsigned choice = 0; choice < 256; choice++) {
                maze_opened got[3];
                for (unsigned node = 0; node < 4; node++) table[here(1 + node)] = choice >> 2 * node & 3;
                for (unsigned i = 0; i < 3; i++) {
                    got[i] = maze_open(table, BYTES, 0, 0, (uint16_t)target, types[i], (uint16_t)vector);
                    if (got[i].number == 0) maze_close(table, BYTES, 0, 0), maze_arm(table, BYTES, (uint16_t)target, got[i].receive);
                }
                if ((got[0].number == 0 && got[1].number != 0) || (got[1].number == 0 && got[2].number != 0) ||
                    (vector != 3 && (got[0].number != got[1].number || got[0].scouts != got[1].scouts)))
                    if (wrong++ == 0) first = choice;
            }
            expect(wrong == 0, "types 3, 1 and 0 to a target, first wrong choice", target, first);
        }
}

/* ---- will waiting help? ---- */

/* Every link that is enabled is held by a circuit of its own: that of port p of node n by send channel p, which ends on receive channel p. */
static void hold_all(unsigned dimension) {
    for (unsigned node = 0; node < 1u << dimension; node++)
        for (unsigned port = 0; port < dimension; port++)
            if (table[here(1 + node)] >> port & 1)
                table[here(257 + 16 * node + 2 * port)] = table[here(4353 + 16 * (node ^ 1u << port) + 2 * port)] = (uint8_t)(8 * node + port + 1);
}

/* Some links blocked and all others held: 22 where every path of the type crosses a blocked one, and 10 otherwise; no scout is sent. With nothing held
 * the same send is then 22, with the scouts given, or acknowledged. The paths from 0 to 7 in dimension 3 are as above for types 1 and 3; of the search,
 * those of port 0 are 0, 1, 2 and 0, 2, 1. */
static const struct {
    const char *what;
    unsigned dimension;
    struct { unsigned node, port; } blocked[9];
    uint16_t node, target, type, vector;
    unsigned number, scouts;
} edges[] = {
    {"its first link, type 0", 3, {{0, 0}, {0, 99}}, 0, 7, 0, 1, 22, 0},
    {"its first link, type 1", 3, {{0, 0}, {0, 99}}, 0, 7, 1, 1, 22, 0},
    {"its first link, type 3", 3, {{0, 0}, {0, 99}}, 0, 7, 3, 1, 22, 0},
    {"its first link, another port left, type 0", 3, {{0, 0}, {0, 99}}, 0, 7, 0, 3, 10, 0},
    {"its first link, another port left, type 1", 3, {{0, 0}, {0, 99}}, 0, 7, 1, 5, 10, 0},
    {"its first link, another port left, type 3", 3, {{0, 0}, {0, 99}}, 0, 7, 3, 7, 22, 0},
    {"its first link, type 4", 3, {{0, 0}, {0, 99}}, 0, 7, 4, 1, 10, 0},
    /* one link within: port 0's helix path crosses 1 to 3 and 3 to 7, the other path of the search 1 to 5 and 5 to 7 */
    {"1 to 3, type 0", 3, {{1, 1}, {0, 99}}, 0, 7, 0, 1, 10, 0},
    {"1 to 3, type 1", 3, {{1, 1}, {0, 99}}, 0, 7, 1, 1, 22, 1},
    {"1 to 3, type 3", 3, {{1, 1}, {0, 99}}, 0, 7, 3, 7, 22, 1},
    {"1 to 3, type 1, port 1 too", 3, {{1, 1}, {0, 99}}, 0, 7, 1, 3, 10, 0},
    {"3 to 7, type 0", 3, {{3, 2}, {0, 99}}, 0, 7, 0, 1, 10, 0},
    {"3 to 7, type 3", 3, {{3, 2}, {0, 99}}, 0, 7, 3, 1, 22, 2},
    {"1 to 5, type 3", 3, {{1, 2}, {0, 99}}, 0, 7, 3, 1, 10, 0},
    {"1 to 5, type 1", 3, {{1, 2}, {0, 99}}, 0, 7, 1, 1, 10, 0},
    {"1 to 3 and 1 to 5, type 0", 3, {{1, 1}, {1, 2}, {0, 99}}, 0, 7, 0, 1, 22, 1},
    {"1 to 3 and 5 to 7, type 0", 3, {{1, 1}, {5, 1}, {0, 99}}, 0, 7, 0, 1, 22, 2},
    {"3 to 7 and 5 to 7, type 0", 3, {{3, 2}, {5, 1}, {0, 99}}, 0, 7, 0, 1, 22, 3},
    {"3 to 7 and 5 to 7, port 1 too, type 0", 3, {{3, 2}, {5, 1}, {0, 99}}, 0, 7, 0, 3, 10, 0},
    {"a link of each helix path, type 1", 3, {{3, 2}, {2, 2}, {5, 1}, {0, 99}}, 0, 7, 1, 7, 22, 2 + 1 + 2},
    {"a link of each helix path, type 0", 3, {{3, 2}, {2, 2}, {5, 1}, {0, 99}}, 0, 7, 0, 7, 10, 0},
    {"a link of each helix path but one, type 1", 3, {{3, 2}, {5, 1}, {0, 99}}, 0, 7, 1, 7, 10, 0},
    /* blocked and on no path: links back, out of the target, and of nodes that no path comes through */
    {"links off every path, type 0", 3, {{1, 0}, {7, 0}, {2, 2}, {6, 0}, {4, 0}, {0, 2}, {0, 99}}, 0, 7, 0, 1, 10, 0},
    {"links off every path, type 1", 3, {{1, 0}, {7, 0}, {2, 2}, {6, 0}, {4, 0}, {0, 2}, {0, 99}}, 0, 7, 1, 1, 10, 0},
    {"links off every path, type 3", 3, {{1, 0}, {7, 0}, {2, 2}, {6, 0}, {4, 0}, {0, 2}, {0, 99}}, 0, 7, 3, 1, 10, 0},
    {"links off every path, type 4", 3, {{1, 0}, {7, 0}, {7, 1}, {7, 2}, {3, 0}, {0, 99}}, 0, 7, 4, 1, 10, 0},
    /* type 4 in dimension 2, from 0 to 3: port 0 goes by 1, port 1 by 2. It is 22 where both vectors are cut off, and neither alone decides. */
    {"the first vector, type 4", 2, {{1, 1}, {0, 99}}, 0, 3, 4, 1, 10, 0},
    {"the first vector, type 0", 2, {{1, 1}, {0, 99}}, 0, 3, 0, 1, 22, 1},
    {"the second vector, type 4", 2, {{2, 0}, {0, 99}}, 0, 3, 4, 1, 10, 0},
    {"the second vector, type 0", 2, {{2, 0}, {0, 99}}, 0, 3, 0, 1, 10, 0},
    {"both vectors, type 4", 2, {{1, 1}, {2, 0}, {0, 99}}, 0, 3, 4, 1, 22, 2},
    {"both vectors, the other way about", 2, {{1, 1}, {2, 0}, {0, 99}}, 0, 3, 4, 2, 22, 2},
    {"no second vector, type 4", 2, {{1, 1}, {2, 0}, {0, 99}}, 0, 3, 4, 3, 22, 2},
    {"no second vector, one path left", 2, {{1, 1}, {0, 99}}, 0, 3, 4, 3, 10, 0},
    {"dimension 1, type 4", 1, {{0, 0}, {0, 99}}, 0, 1, 4, 1, 22, 0},
    /* the first hop leads away: from 0 to 1 by port 1, over 2 to 3 to 1 or back over 2 to 0 to 1 */
    {"2 to 3, type 0", 2, {{2, 0}, {0, 99}}, 0, 1, 0, 2, 10, 0},
    {"2 to 3, type 1", 2, {{2, 0}, {0, 99}}, 0, 1, 1, 2, 22, 1},
    {"2 to 3 and 0 to 1, type 0", 2, {{2, 0}, {0, 0}, {0, 99}}, 0, 1, 0, 2, 22, 2},
    {"3 to 1 and 0 to 1, type 0", 2, {{3, 1}, {0, 0}, {0, 99}}, 0, 1, 0, 2, 22, 3},
    {"3 to 1 and 2 to 0, type 0", 2, {{3, 1}, {2, 1}, {0, 99}}, 0, 1, 0, 2, 22, 2},
    {"3 to 1 and 2 to 0, type 4", 2, {{3, 1}, {2, 1}, {0, 99}}, 0, 1, 4, 2, 10, 0},
    /* to itself: out and back over one port */
    {"no way back, type 0", 2, {{1, 0}, {0, 99}}, 0, 0, 0, 1, 22, 1},
    {"no way back, type 3", 2, {{1, 0}, {0, 99}}, 0, 0, 3, 3, 22, 1},
    {"no way back, type 1", 2, {{1, 0}, {0, 99}}, 0, 0, 1, 3, 10, 0},
    {"no way back, type 4", 2, {{1, 0}, {0, 99}}, 0, 0, 4, 1, 10, 0},
    {"no way back and no way out, type 4", 2, {{1, 0}, {0, 1}, {0, 99}}, 0, 0, 4, 1, 22, 1},
};

static void waiting_edges(void) {
    for (size_t i = 0; i < sizeof edges / sizeof *edges; i++) {
        maze_opened got;
        for (int all_held = 0; all_held < 2; all_held++) {
            fresh_armed(edges[i].dimension);
            for (size_t j = 0; edges[i].blocked[j].port != 99; j++) table[here(1 + edges[i].blocked[j].node)] &= (uint8_t)~(1u << edges[i].blocked[j].port);
            if (all_held) hold_all(edges[i].dimension);
            keep();
            got = maze_open(table, BYTES, edges[i].node, 7, edges[i].target, edges[i].type, edges[i].vector);
            if (!all_held && edges[i].number == 10) {
                expect(got.number == 0, edges[i].what, 0, got.number);
                continue;
            }
            expect(got.number == edges[i].number && got.hops == 0 && got.receive == 0 && unaltered(), edges[i].what, edges[i].number, got.number);
            expect(got.scouts == (all_held ? 0 : edges[i].scouts), edges[i].what, edges[i].scouts, got.scouts);
        }
    }
}

/* Every choice of blocked links in dimension 2, every target, type and vector, from node 0, and all channels armed. With no circuit open an open is
 * accepted or answered by 22, and with every enabled link held it is 10 where it was accepted and 22 where it was not. One check for each target, type
 * and vector; where it fails, the first wrong choice is named. */
static void waiting_choices(void) {
    static const uint16_t types[] = {0, 1, 3, 4};
    static uint8_t made[BYTES];
    fresh_armed(2);
    memcpy(made, table, BYTES);
    for (unsigned target = 0; target < 4; target++)
        for (unsigned i = 0; i < 12; i++) {
            const uint16_t type = types[i % 4], vector = (uint16_t)(1 + i / 4);
            unsigned long wrong = 0, first = 0;
            for (unsigned choice = 0; choice < 256; choice++) {
                maze_opened idle, held;
                memcpy(table, made, BYTES);
                for (unsigned node = 0; node < 4; node++) table[here(1 + node)] = choice >> 2 * node & 3;
                idle = maze_open(table, BYTES, 0, 7, (uint16_t)target, type, vector);
                memcpy(table, made, BYTES);
                for (unsigned node = 0; node < 4; node++) table[here(1 + node)] = choice >> 2 * node & 3;
                hold_all(2);
                held = maze_open(table, BYTES, 0, 7, (uint16_t)target, type, vector);
                if ((idle.number != 0 && idle.number != 22) || held.number != (idle.number == 0 ? 10 : 22) || held.scouts != 0)
                    if (wrong++ == 0) first = choice;
            }
            expect(wrong == 0, "waiting, first wrong choice", 100 * target + i, first);
        }
}

/* 22 is not read off the links that the search met; it is no answer to a missing channel; and it stays until a link is unblocked. */
static void waiting(void) {
    maze_opened got;
    /* dimension 2: circuit 1 holds the link from 0 to 1, and 1 to 3 is blocked. The search by port 0 meets the held link alone. */
    fresh(2);
    arm(1, 0);
    arm(3, 0);
    expect(maze_open(table, BYTES, 0, 0, 1, 0, 1).number == 0, "open from 0 to 1", 0, 0);
    expect(maze_block(table, BYTES, 1, 1) == 0, "block 1 to 3", 1, 1);
    keep();
    got = maze_open(table, BYTES, 0, 1, 3, 0, 1);
    expect(got.number == 22 && got.hops == 0 && got.receive == 0 && got.scouts == 0 && unaltered(), "held in front of blocked", got.number, got.scouts);
    got = maze_open(table, BYTES, 0, 1, 3, 3, 3);
    expect(got.number == 22 && got.scouts == 0 && unaltered(), "held in front of blocked, type 3", got.number, got.scouts);
    expect(maze_unblock(table, BYTES, 1, 1) == 0, "unblock 1 to 3", 1, 1);
    keep();
    got = maze_open(table, BYTES, 0, 1, 3, 0, 1);
    expect(got.number == 10 && got.hops == 0 && got.receive == 0 && got.scouts == 0 && unaltered(), "held alone", got.number, got.scouts);
    expect(maze_block(table, BYTES, 1, 1) == 0 && maze_close(table, BYTES, 0, 0) == 0, "block it again and close", 1, 1);
    keep();
    got = maze_open(table, BYTES, 0, 1, 3, 0, 1);
    expect(got.number == 22 && got.scouts == 1 && unaltered(), "no circuit left", got.number, got.scouts);
    expect(maze_unblock(table, BYTES, 1, 1) == 0, "unblock 1 to 3", 1, 1);
    got = maze_open(table, BYTES, 0, 1, 3, 0, 1);
    expect(got.number == 0 && got.scouts == 2, "repaired", got.number, got.scouts);

    /* type 4, dimension 2, from 0 to 3: 1 to 3 is blocked, and circuit 17 holds 2 to 3. A scout goes to 1, and in the second pass one to 2. */
    fresh_armed(2);
    expect(maze_block(table, BYTES, 1, 1) == 0 && maze_open(table, BYTES, 2, 0, 3, 3, 1).number == 0, "open from 2 to 3", 2, 3);
    keep();
    got = maze_open(table, BYTES, 0, 0, 3, 4, 1);
    expect(got.number == 10 && got.scouts == 2 && unaltered(), "the second pass is held, type 4", got.number, got.scouts);
    got = maze_open(table, BYTES, 0, 0, 3, 4, 2);
    expect(got.number == 10 && got.scouts == 2 && unaltered(), "the first pass is held, type 4", got.number, got.scouts);
    got = maze_open(table, BYTES, 0, 0, 3, 1, 3);
    expect(got.number == 10 && got.scouts == 2 && unaltered(), "the second path is held, type 1", got.number, got.scouts);
    got = maze_open(table, BYTES, 0, 0, 3, 1, 1);
    expect(got.number == 22 && got.scouts == 1 && unaltered(), "no second path, type 1", got.number, got.scouts);
    got = maze_open(table, BYTES, 0, 0, 3, 3, 3);
    expect(got.number == 22 && got.scouts == 1 && unaltered(), "no second path, type 3", got.number, got.scouts);
    got = maze_open(table, BYTES, 0, 0, 3, 3, 2);
    expect(got.number == 10 && got.scouts == 1 && unaltered(), "the only path is held, type 3", got.number, got.scouts);
    expect(maze_close(table, BYTES, 2, 0) == 0, "close the one from 2 to 3", 2, 3);
    got = maze_open(table, BYTES, 0, 0, 3, 4, 1);
    expect(got.number == 0 && got.scouts == 3, "10, closed and accepted", got.number, got.scouts);

    /* a send of type 3 or 1 is 22 where type 0 with its vector is accepted; and a free path without a channel is 11, whatever else is blocked */
    fresh(3);
    expect(maze_block(table, BYTES, 3, 2) == 0, "block 3 to 7", 3, 2);
    keep();
    got = maze_open(table, BYTES, 0, 0, 7, 0, 1);
    expect(got.number == 11 && got.scouts == 4 && unaltered(), "no channel, type 0", got.number, got.scouts);
    got = maze_open(table, BYTES, 0, 0, 7, 4, 1);
    expect(got.number == 11 && got.scouts == 4 && unaltered(), "no channel, type 4", got.number, got.scouts);
    got = maze_open(table, BYTES, 0, 0, 7, 1, 3);
    expect(got.number == 11 && got.scouts == 5 && unaltered(), "no channel, type 1", got.number, got.scouts);
    for (unsigned type = 1; type <= 3; type += 2) {
        got = maze_open(table, BYTES, 0, 0, 7, (uint16_t)type, 1);
        expect(got.number == 22 && got.hops == 0 && got.receive == 0 && got.scouts == 2 && unaltered(), "22, no channel, type", type, got.number);
    }
    arm(7, 4);
    keep();
    for (unsigned type = 1; type <= 3; type += 2) {
        got = maze_open(table, BYTES, 0, 0, 7, (uint16_t)type, 1);
        expect(got.number == 22 && got.hops == 0 && got.receive == 0 && got.scouts == 2 && unaltered(), "22, type", type, got.number);
    }
    got = maze_open(table, BYTES, 0, 0, 7, 0, 1);
    expect(got.number == 0 && got.receive == 4 && got.scouts == 4, "and type 0 is accepted", got.number, got.scouts);
    /* its circuit holds 0 to 1, 1 to 5 and 5 to 7: for type 0 one path is held and the other blocked */
    keep();
    got = maze_open(table, BYTES, 0, 1, 7, 0, 1);
    expect(got.number == 10 && got.scouts == 0 && unaltered(), "one held and one blocked", got.number, got.scouts);
    got = maze_open(table, BYTES, 0, 1, 7, 3, 1);
    expect(got.number == 22 && got.scouts == 0 && unaltered(), "the blocked one alone", got.number, got.scouts);
    /* tests that come before the search stop it as ever */
    got = maze_open(table, BYTES, 0, 0, 7, 3, 1);
    expect(got.number == 9 && got.scouts == 0 && unaltered(), "9 before 22", got.number, got.scouts);
    got = maze_open(table, BYTES, 0, 1, 7, 3, 8);
    expect(got.number == 8 && got.scouts == 0 && unaltered(), "8 before 22", got.number, got.scouts);
}

/* ---- arming ---- */

/* The lowest armed channel is taken, not the lowest that no circuit holds, and armed channels of other nodes do not help. */
static void lowest_armed(void) {
    /* circuit 1 on ports 0, 1 and 2 to channel 2 of node 7; circuit 42 from node 5 to channel 5 */
    static const struct place two[] = {{257, 1}, {275, 1}, {309, 1}, {4469, 1}, {339, 42}, {4475, 42}, {8456, 36}, {0, 0}};
    static const struct place one[] = {{339, 42}, {4475, 42}, {8456, 32}, {0, 0}};
    maze_opened got;
    fresh(3);
    arm(7, 5);
    arm(7, 2);
    got = maze_open(table, BYTES, 0, 0, 7, 0, 7);
    expect(got.number == 0 && got.receive == 2 && got.scouts == 3, "the lowest armed", got.number, got.receive);
    got = maze_open(table, BYTES, 5, 1, 7, 0, 2);
    expect(got.number == 0 && got.receive == 5 && got.scouts == 1, "the next armed", got.number, got.receive);
    expect_table("two channels armed and held", 3, two);
    keep();
    got = maze_open(table, BYTES, 6, 0, 7, 0, 1);
    expect(got.number == 11 && got.hops == 0 && got.receive == 0 && got.scouts == 1 && unaltered(), "no third", got.number, got.scouts);
    expect(maze_close(table, BYTES, 0, 0) == 0, "close disarms", 7, 2);
    expect_table("its own channel and no other", 3, one);

    fresh_armed(3);
    for (unsigned channel = 0; channel < 8; channel++) expect(maze_disarm(table, BYTES, 7, (uint16_t)channel) == 0, "disarm", 7, channel);
    keep();
    got = maze_open(table, BYTES, 0, 0, 7, 0, 7);
    expect(got.number == 11 && got.scouts == 3 && unaltered(), "armed everywhere else", got.number, got.scouts);
    arm(7, 7);
    got = maze_open(table, BYTES, 0, 0, 7, 0, 7);
    expect(got.number == 0 && got.receive == 7 && got.scouts == 3, "the last channel", got.number, got.receive);
    expect(table[here(8456)] == 128, "the last channel is armed", 7, table[here(8456)]);
    expect(maze_close(table, BYTES, 0, 0) == 0 && table[here(8456)] == 0, "close disarms the last channel", 7, table[here(8456)]);
}

/* Arming sets one bit and disarming clears it; neither turns it round. */
static void arming(void) {
    static const struct place sent[] = {{257, 1}, {275, 1}, {309, 1}, {4465, 1}, {8456, 1}, {0, 0}};
    maze_opened got;
    for (unsigned dimension = 1; dimension <= 8; dimension++) {
        const unsigned last = (1u << dimension) - 1;
        for (unsigned channel = 0; channel < 8; channel++) {
            const struct place armed[] = {{8449 + last, 1u << channel}, {0, 0}};
            const struct place both[] = {{8449 + last, 1u << channel | 1u << (channel ^ 3)}, {0, 0}};
            fresh(dimension);
            keep();
            expect(maze_disarm(table, BYTES, (uint16_t)last, (uint16_t)channel) == 0 && unaltered(), "disarm one that is not armed", dimension, channel);
            arm(last, channel);
            expect_table("armed", dimension, armed);
            keep();
            expect(maze_arm(table, BYTES, (uint16_t)last, (uint16_t)channel) == 0 && unaltered(), "arm an armed channel", dimension, channel);
            arm(last, channel ^ 3);
            expect_table("two armed", dimension, both);
            expect(maze_disarm(table, BYTES, (uint16_t)last, (uint16_t)(channel ^ 3)) == 0, "disarm", dimension, channel ^ 3);
            expect_table("one of two disarmed", dimension, armed);
            expect(maze_disarm(table, BYTES, (uint16_t)last, (uint16_t)channel) == 0, "disarm", dimension, channel);
            expect_table("disarmed", dimension, NULL);
        }
        fresh_armed(dimension);
        expect_table("all armed", dimension, NULL);
        expect(maze_make(table, BYTES, 1) == 0, "make over armed channels", dimension, 0);
        armed_at_first = 0;
        expect_table("none armed in a made table", 1, NULL);
    }

    /* a held channel stays armed until its circuit is closed, and then it is not */
    fresh(3);
    arm(7, 0);
    expect(maze_open(table, BYTES, 0, 0, 7, 0, 7).number == 0, "open for arming", 7, 0);
    expect_table("armed and held", 3, sent);
    keep();
    expect(maze_disarm(table, BYTES, 7, 0) == 21 && unaltered(), "disarm a held channel", 7, 0);
    expect(maze_disarm(table, BYTES, 7, 8) == 5 && unaltered(), "5 before 21", 7, 8);
    expect(maze_disarm(table, BYTES, 7, 256) == 5 && unaltered(), "5 before 21", 7, 256);
    expect(maze_disarm(table, BYTES, 263, 0) == 4 && unaltered(), "4 before 21", 263, 0);
    expect(maze_arm(table, BYTES, 7, 0) == 0 && unaltered(), "arm a held channel", 7, 0);
    expect(maze_disarm(table, BYTES, 7, 1) == 0 && unaltered(), "disarm beside a held channel", 7, 1);
    expect(maze_disarm(table, BYTES, 0, 0) == 0 && unaltered(), "disarm the source's", 0, 0);
    expect_trace("after a refused disarming", 0, 0, "012");
    expect(maze_close(table, BYTES, 0, 0) == 0, "close", 0, 0);
    expect_table("closed, so disarmed", 3, NULL);
    keep();
    got = maze_open(table, BYTES, 0, 0, 7, 0, 7);
    expect(got.number == 11 && got.hops == 0 && got.receive == 0 && got.scouts == 3 && unaltered(), "sent again", got.number, got.scouts);
    expect(maze_disarm(table, BYTES, 7, 0) == 0 && unaltered(), "disarm a channel that was held", 7, 0);
    arm(7, 0);
    expect(maze_open(table, BYTES, 0, 0, 7, 0, 7).number == 0, "armed again", 7, 0);
    expect_table("armed and held again", 3, sent);

    /* blocking a link leaves the channel of the same number armed */
    static const struct place one_blocked[] = {{1 + 5, 127}, {0, 0}};
    fresh_armed(8);
    expect(maze_block(table, BYTES, 5, 7) == 0, "block port 7", 5, 7);
    expect_table("blocked, all armed", 8, one_blocked);

    /* circuits 256 and 2048, whose low byte is zero, hold a channel like any other; channel 7, and a node from 128 on, are armed like any other */
    static const unsigned sources[] = {31, 255};
    for (unsigned i = 0; i < 2; i++) {
        unsigned source = sources[i], target = source ^ 1, last = i ? 7 : 0;
        fresh(8);
        arm(target, last);
        got = maze_open(table, BYTES, (uint16_t)source, 7, (uint16_t)target, 0, 1);
        expect(got.number == 0 && got.receive == last, "open of a round circuit number", source, got.receive);
        keep();
        expect(maze_disarm(table, BYTES, (uint16_t)target, (uint16_t)last) == 21 && unaltered(), "disarm a channel that it holds", source, last);
        table[here(8449 + target)] = 0;
        keep();
        expect(maze_disarm(table, BYTES, (uint16_t)target, (uint16_t)last) == 3 && unaltered(), "held and not armed", target, last);
    }
}

/* ---- blocking ---- */

static void blocking(void) {
    for (unsigned dimension = 1; dimension <= 8; dimension++) {
        unsigned last = (1u << dimension) - 1, top = dimension - 1;
        struct place blocked[] = {{1 + last, last ^ 1u << top}, {0, 0}};
        fresh(dimension);
        keep();
        expect(maze_unblock(table, BYTES, (uint16_t)last, (uint16_t)top) == 0 && unaltered(), "unblock an enabled link", dimension, last);
        expect(maze_block(table, BYTES, (uint16_t)last, (uint16_t)top) == 0, "block", dimension, last);
        expect_table("blocked", dimension, blocked);
        keep();
        expect(maze_block(table, BYTES, (uint16_t)last, (uint16_t)top) == 0 && unaltered(), "block a blocked link", dimension, last);
        expect(maze_unblock(table, BYTES, (uint16_t)last, (uint16_t)top) == 0, "unblock", dimension, last);
        expect_table("unblocked", dimension, NULL);
    }
    fresh(2);
    arm(1, 0);
    expect(maze_open(table, BYTES, 0, 0, 1, 0, 1).number == 0, "open for blocking", 0, 0);
    keep();
    expect(maze_block(table, BYTES, 0, 0) == 13 && unaltered(), "block a held link", 0, 0);
    expect(maze_unblock(table, BYTES, 0, 0) == 0 && unaltered(), "unblock a held link", 0, 0);
    expect(maze_block(table, BYTES, 1, 0) == 0, "block the link back", 1, 0);
    expect(maze_close(table, BYTES, 0, 0) == 0, "close", 0, 0);
    expect(maze_block(table, BYTES, 0, 0) == 0, "block it when closed", 0, 0);
    {
        static const struct place both[] = {{1, 2}, {2, 2}, {0, 0}};
        expect_table("both directions blocked", 2, both);
    }
}

/* ---- refusals ---- */

static void refused(unsigned number, unsigned got, const char *what, unsigned value) {
    expect(got == number, what, value, got);
    expect(unaltered(), "altered by", value, number);
}

static void refused_open(unsigned number, size_t length, unsigned node, unsigned channel, unsigned target, unsigned type, unsigned vector) {
    maze_opened got;
    keep();
    got = maze_open(table, length, (uint16_t)node, (uint16_t)channel, (uint16_t)target, (uint16_t)type, (uint16_t)vector);
    expect(got.number == number && got.hops == 0 && got.receive == 0 && got.scouts == 0, "refused open", number, got.number);
    expect(unaltered(), "altered by an open refused as", number, 0);
}

static void refused_trace(unsigned number, size_t length, unsigned node, unsigned channel, size_t buffer_length) {
    maze_traced got;
    keep();
    got = maze_trace(table, length, (uint16_t)node, (uint16_t)channel, buffer, buffer_length);
    expect(got.number == number && got.hops == 0, "refused trace", number, got.number);
    expect(unaltered(), "altered by a trace refused as", number, buffer_length);
}

/* The conversion that reads a table of the kind. */
#ifdef WIDE
#define convert maze_narrow

static void refused_fold(unsigned number, size_t length, unsigned mask) {
    keep();
    refused(number, maze_wide_fold(table, length, (uint16_t)mask), "refused fold", mask);
}
#else
#define convert maze_widen
#endif

static void refused_block(unsigned number, size_t length, unsigned node, unsigned port) {
    keep();
    refused(number, maze_block(table, length, (uint16_t)node, (uint16_t)port), "refused block", node);
    refused(number, maze_unblock(table, length, (uint16_t)node, (uint16_t)port), "refused unblock", node);
}

static void refused_close(unsigned number, size_t length, unsigned node, unsigned channel) {
    keep();
    refused(number, maze_close(table, length, (uint16_t)node, (uint16_t)channel), "refused close", node);
}

static void refused_arm(unsigned number, size_t length, unsigned node, unsigned channel) {
    keep();
    refused(number, maze_arm(table, length, (uint16_t)node, (uint16_t)channel), "refused arm", node);
    refused(number, maze_disarm(table, length, (uint16_t)node, (uint16_t)channel), "refused disarm", node);
}

/* The list lent to a job, which goes on behind what is lent, and what it was before. */
static uint8_t list[660], kept_list[660];

static void refused_job(unsigned number, unsigned place, size_t length, size_t list_length) {
    maze_opened_all got;
    keep();
    memcpy(kept_list, list, sizeof list);
    got = maze_open_all(table, length, list, list_length);
    expect(got.number == number && got.sends == place, "refused job", number, got.number);
    expect(unaltered() && memcmp(kept_list, list, sizeof list) == 0, "altered by a job refused as", number, list_length);
}

/* The buffers lent for a book, which go on behind what is lent, and what they were before. */

static uint8_t book_ports[PORTS + SPARE], book_index[INDEX + SPARE], kept_ports[PORTS + SPARE], kept_index[INDEX + SPARE];

static void keep_book(void) {
    memcpy(kept_ports, book_ports, sizeof book_ports);
    memcpy(kept_index, book_index, sizeof book_index);
}

static void fresh_book(void) {
    for (size_t i = 0; i < sizeof book_ports; i++) book_ports[i] = (uint8_t)(i % 241 + 9);
    for (size_t i = 0; i < sizeof book_index; i++) book_index[i] = (uint8_t)(i % 239 + 5);
    keep_book();
}

static int unaltered_book(void) {
    return memcmp(kept_ports, book_ports, sizeof book_ports) == 0 && memcmp(kept_index, book_index, sizeof book_index) == 0;
}

static void refused_book(unsigned number, size_t length, size_t ports_length, size_t index_length) {
    maze_booked got;
    keep();
    fresh_book();
    got = maze_book(table, length, book_ports, ports_length, book_index, index_length);
    expect(got.number == number && got.circuits == 0 && got.hops == 0, "refused book", number, got.number);
    expect(unaltered() && unaltered_book(), "altered by a book refused as", number, ports_length);
}

/* Of a judging the refusals of the table alone stand here; the others are in judge.c, and those of a joining in join.c. */
static void refused_judging(unsigned number, size_t length, size_t ports_length, size_t index_length, unsigned circuits, unsigned hops) {
    keep();
    fresh_book();
    refused(number, maze_judge(table, length, book_ports, ports_length, book_index, index_length, (uint16_t)circuits, (uint16_t)hops), "refused judging", circuits);
    expect(unaltered_book(), "altered by a judging refused as", number, circuits);
}

/* So of a conversion, where the table is read; the others are in convert.c. */
static void refused_conversion(unsigned number, size_t length, size_t other_length) {
    static uint8_t other[OTHER_BYTES], kept_other[OTHER_BYTES];
    keep();
    memset(other, 99, OTHER_BYTES);
    memset(kept_other, 99, OTHER_BYTES);
    refused(number, convert(table, length, other, other_length), "refused conversion", number);
    expect(memcmp(other, kept_other, OTHER_BYTES) == 0, "altered by a conversion refused as", number, other_length);
}

#ifndef WIDE
/* So of a joining: the table is its first, its second, or both, and the third, which is then not looked at, of any length. */
static void refused_joining(unsigned number, size_t length, size_t third_length) {
    static uint8_t half[BYTES], third[BYTES], kept_third[BYTES];
    keep();
    expect(maze_make(half, BYTES, 3) == 0, "make", 3, number);
    memset(third, 99, BYTES);
    memset(kept_third, 99, BYTES);
    refused(number, maze_join(table, length, half, BYTES, third, third_length), "refused joining, the first", number);
    refused(number, maze_join(half, BYTES, table, length, third, third_length), "refused joining, the second", number);
    refused(number, maze_join(table, length, table, length, third, third_length), "refused joining, both", number);
    expect(memcmp(third, kept_third, BYTES) == 0, "altered by a joining refused as", number, third_length);
}
#endif

/* Every call but making is refused with this number, also where later tests apply. */
static void all_refused(unsigned number, size_t length) {
    refused_block(number, length, 0, 0);
    refused_block(number, length, 65535, 65535);
    refused_arm(number, length, 0, 0);
    refused_arm(number, length, 65535, 65535);
    refused_open(number, length, 0, 0, 0, 0, 1);
    refused_open(number, length, 65535, 65535, 65535, 65535, 65535);
    refused_close(number, length, 0, 0);
    refused_close(number, length, 65535, 65535);
    refused_trace(number, length, 0, 0, BUFFER);
    refused_trace(number, length, 65535, 65535, 0);
    refused_job(number, 0, length, 0);
    refused_job(number, 0, length, 10);
    refused_job(number, 0, length, 9);
    refused_job(number, 0, length, 650);
    refused_book(number, length, 2048, 12288);
    refused_book(number, length, 0, 0);
    refused_judging(number, length, 0, 0, 0, 0);
    refused_judging(number, length, 0, 0, 65535, 65535);
    refused_conversion(number, length, OTHER_BYTES);
    refused_conversion(number, length, OTHER_BYTES - 1);
#ifdef WIDE
    refused_fold(number, length, 0);
    refused_fold(number, length, 65535);
#else
    refused_joining(number, length, BYTES);
    refused_joining(number, length, BYTES - 1);
#endif
}

static void lengths(void) {
    static const size_t wrong[] = {0, 1, 257, 8448, 8449, 8704, 8706, BYTES - 1, BYTES + 1, BYTES + SPARE};
    uint8_t *const anywhere[] = {NULL, (uint8_t *)(uintptr_t)1};
    for (size_t i = 0; i < sizeof wrong / sizeof *wrong; i++) {
        fresh(3);
        all_refused(1, wrong[i]);
        keep();
        refused(1, maze_make(table, wrong[i], 3), "make of length", (unsigned)wrong[i]);
        refused(1, maze_make(table, wrong[i], 9), "make of length, dimension 9", (unsigned)wrong[i]);
        table[0] = 0; /* 1 comes before 2 */
        all_refused(1, wrong[i]);
    }
    /* With length 0 the pointer may be anything. */
    for (size_t i = 0; i < 2; i++) {
        uint8_t *none = anywhere[i];
        maze_opened opened = maze_open(none, 0, 0, 0, 0, 0, 1);
        maze_traced traced = maze_trace(none, 0, 0, 0, none, 0);
        expect(maze_make(none, 0, 3) == 1, "no table, make", i, 0);
        expect(maze_block(none, 0, 0, 0) == 1 && maze_unblock(none, 0, 0, 0) == 1, "no table, block", i, 0);
        expect(maze_arm(none, 0, 0, 0) == 1 && maze_disarm(none, 0, 0, 0) == 1, "no table, arm", i, 0);
        expect(opened.number == 1 && opened.hops == 0 && opened.receive == 0 && opened.scouts == 0, "no table, open", i, 0);
        expect(maze_close(none, 0, 0, 0) == 1, "no table, close", i, 0);
        expect(traced.number == 1 && traced.hops == 0, "no table, trace", i, 0);
        expect(maze_open_all(none, 0, none, 0).number == 1, "no table, job", i, 0);
        expect(maze_book(none, 0, none, 0, none, 0).number == 1, "no table, book", i, 0);
        expect(maze_judge(none, 0, none, 0, none, 0, 0, 0) == 1 && maze_judge(none, 0, none, 0, none, 0, 1, 1) == 1, "no table, judging", i, 0);
        expect(convert(none, 0, none, 0) == 1 && convert(none, 0, table, BYTES) == 1, "no table, conversion", i, 0);
#ifdef WIDE
        expect(maze_wide_fold(none, 0, 0) == 1, "no table, fold", i, 0);
#else
        expect(maze_join(none, 0, none, 0, none, 0) == 1 && maze_join(none, 0, table, BYTES, none, 0) == 1, "no table, joining", i, 0);
#endif
    }
}

static void dimensions(void) {
    static const uint16_t wrong[] = {0, 9, 10, 16, 255, 256, 257, 264, 32769, 65535};
    for (unsigned dimension = 1; dimension <= 8; dimension++) {
        fresh(dimension);
        expect_table("made", dimension, NULL);
    }
    for (size_t i = 0; i < sizeof wrong / sizeof *wrong; i++) {
        fresh(3);
        arm(7, 0);
        expect(maze_open(table, BYTES, 0, 0, 7, 0, 7).number == 0, "open before a refused making", wrong[i], 0);
        keep();
        refused(2, maze_make(table, BYTES, wrong[i]), "make of dimension", wrong[i]);
        if (wrong[i] > 255) continue;
        table[0] = (uint8_t)wrong[i];
        table[here(300)] = 77; /* not sound either: 2 comes before 3 */
        all_refused(2, BYTES);
        expect(maze_make(table, BYTES, 4) == 0, "make over dimension", wrong[i], 0);
        armed_at_first = 0;
        expect_table("made over it", 4, NULL);
    }
}

/* Nodes, channels, ports, types and vectors, just inside and outside, in every dimension. */
static void ranges(void) {
    static const uint16_t no_channel[] = {8, 9, 255, 256, 257, 263, 65535}, no_type[] = {2, 5, 6, 7, 8, 255, 256, 257, 259, 260, 1024, 65535};
    for (unsigned dimension = 1; dimension <= 8; dimension++) {
        unsigned nodes = 1u << dimension, last = nodes - 1;
        unsigned no_node[] = {nodes, nodes + 1, 256, 256 + last, 257, 32768, 65535}, no_port[] = {dimension, dimension + 1, 8, 9, 16, 17, 17 - dimension, 18, 23, 24, 255, 256, 257, 65535};
        unsigned no_vector[] = {0, nodes, nodes + 1, 256, 256 + last, 257, 32768, 32769, 65535};
        fresh(dimension);
        arm(0, 7);
        arm(last, 0);
        expect(maze_open(table, BYTES, (uint16_t)last, 7, 0, 0, (uint16_t)last).number == 0, "the last node and channel", dimension, last);
        expect(maze_open(table, BYTES, 0, 0, (uint16_t)last, 4, (uint16_t)last).number == 0, "the last target", dimension, last);
        if (dimension > 1) expect(maze_block(table, BYTES, (uint16_t)last, (uint16_t)(dimension - 1)) == 0, "the last port", dimension, last);
        for (size_t i = 0; i < sizeof no_node / sizeof *no_node; i++) {
            refused_block(4, BYTES, no_node[i], 0);
            refused_block(4, BYTES, no_node[i], 65535); /* 4 before 6 */
            refused_arm(4, BYTES, no_node[i], 0);
            refused_arm(4, BYTES, no_node[i], 8);       /* 4 before 5 */
            refused_close(4, BYTES, no_node[i], 0);
            refused_close(4, BYTES, no_node[i], 8);     /* 4 before 5 */
            refused_trace(4, BYTES, no_node[i], 0, BUFFER);
            refused_trace(4, BYTES, no_node[i], 8, 0);
            refused_open(4, BYTES, no_node[i], 1, 0, 0, 1);
            refused_open(4, BYTES, 0, 1, no_node[i], 0, 1);
            refused_open(4, BYTES, no_node[i], 1, no_node[i], 0, 1);
            refused_open(4, BYTES, 0, 8, no_node[i], 2, 0);
        }
        for (size_t i = 0; i < sizeof no_channel / sizeof *no_channel; i++) {
            refused_open(5, BYTES, 0, no_channel[i], 0, 0, 1);
            refused_open(5, BYTES, 0, no_channel[i], 0, 2, 0); /* 5 before 7 and 8 */
            refused_arm(5, BYTES, 0, no_channel[i]);
            refused_arm(5, BYTES, last, no_channel[i]);
            refused_close(5, BYTES, 0, no_channel[i]);
            refused_close(5, BYTES, last, no_channel[i]);
            refused_trace(5, BYTES, 0, no_channel[i], BUFFER);
            refused_trace(5, BYTES, 0, no_channel[i], 8); /* 5 before 14 */
        }
        for (size_t i = 0; i < sizeof no_port / sizeof *no_port; i++) refused_block(6, BYTES, last, no_port[i]);
        for (size_t i = 0; i < sizeof no_type / sizeof *no_type; i++) {
            refused_open(7, BYTES, 0, 1, 0, no_type[i], 1);
            refused_open(7, BYTES, 0, 0, 0, no_type[i], 0); /* 7 before 8 and 9 */
        }
        for (size_t i = 0; i < sizeof no_vector / sizeof *no_vector; i++) {
            refused_open(8, BYTES, 0, 1, 0, 0, no_vector[i]);
            refused_open(8, BYTES, 0, 0, 0, 4, no_vector[i]); /* 8 before 9 */
            refused_open(8, BYTES, 0, 1, 0, 1, no_vector[i]);
            refused_open(8, BYTES, 0, 0, 0, 3, no_vector[i]);
        }
        refused_open(9, BYTES, 0, 0, 0, 0, 1);
        refused_open(9, BYTES, 0, 0, last, 4, last);
        refused_open(9, BYTES, 0, 0, last, 1, last);
        refused_open(9, BYTES, 0, 0, last, 3, 1);
        refused_open(9, BYTES, last, 7, last, 0, 1);
        refused_close(12, BYTES, 0, 1);
        refused_close(12, BYTES, last, 6);
        refused_trace(12, BYTES, 0, 1, BUFFER);
        refused_trace(12, BYTES, last, 6, BUFFER);
        for (size_t length = 0; length < 9; length++) {
            refused_trace(12, BYTES, 0, 1, length); /* 12 before 14 */
            refused_trace(14, BYTES, 0, 0, length);
            refused_trace(14, BYTES, last, 7, length);
        }
        expect(maze_close(table, BYTES, 0, 0) == 0, "close", dimension, 0);
        refused_close(12, BYTES, 0, 0); /* closed already */
        refused_trace(12, BYTES, 0, 0, BUFFER);
    }
}

/* An open, closed again where it is accepted, and its channel armed again. */
static uint16_t opened_and_closed(uint16_t node, uint16_t channel, uint16_t target, uint16_t type, uint16_t vector) {
    maze_opened opened = maze_open(table, BYTES, node, channel, target, type, vector);
    if (opened.number == 0) maze_close(table, BYTES, node, channel), maze_arm(table, BYTES, target, opened.receive);
    return opened.number;
}

/* Every 16-bit value of each argument, on a table of dimension 3 with every channel armed and an open circuit: refused wherever Refusals says so,
 * and nowhere else. One check for each argument; where it fails, the first wrong value is named. */
static void sweeps(void) {
    enum { ARGUMENTS = 18 };
    unsigned long wrong[ARGUMENTS], first[ARGUMENTS];
    memset(wrong, 0, sizeof wrong);
    memset(first, 0, sizeof first);
    fresh_armed(3);
    expect(maze_open(table, BYTES, 0, 0, 7, 0, 7).number == 0, "open for the sweeps", 0, 0);
    keep();
    for (unsigned long value = 0; value < 65536; value++) {
        const uint16_t v = (uint16_t)value;
        uint16_t got[ARGUMENTS], want[ARGUMENTS];
        got[0] = maze_block(table, BYTES, v, 1), want[0] = v > 7 ? 4 : v == 1 ? 13 : 0;
        if (got[0] == 0) maze_unblock(table, BYTES, v, 1);
        got[1] = maze_block(table, BYTES, 4, v), want[1] = v > 2 ? 6 : 0;
        if (got[1] == 0) maze_unblock(table, BYTES, 4, v);
        got[2] = maze_unblock(table, BYTES, v, 0), want[2] = v > 7 ? 4 : 0;
        got[3] = maze_unblock(table, BYTES, 0, v), want[3] = v > 2 ? 6 : 0;
        got[4] = opened_and_closed(v, 0, 5, 0, 1), want[4] = v > 7 ? 4 : v == 0 ? 9 : 0;
        got[5] = opened_and_closed(0, v, 2, 0, 2), want[5] = v > 7 ? 5 : v == 0 ? 9 : 0;
        got[6] = opened_and_closed(6, 0, v, 0, 7), want[6] = v > 7 ? 4 : 0;
        got[7] = opened_and_closed(6, 0, 7, v, 1), want[7] = v == 0 || v == 1 || v == 3 || v == 4 ? 0 : 7;
        got[8] = opened_and_closed(6, 0, 7, 0, v), want[8] = v == 0 || v > 7 ? 8 : 0;
        got[9] = maze_close(table, BYTES, 0, (uint16_t)(v == 0 ? 1 : v)), want[9] = v > 7 ? 5 : 12;
        got[10] = maze_trace(table, BYTES, v, 0, buffer, 8).number, want[10] = v > 7 ? 4 : v == 0 ? 14 : 12;
        got[11] = maze_make(table, BYTES + 1, v), want[11] = 1;
        got[12] = maze_disarm(table, BYTES, v, 0), want[12] = v > 7 ? 4 : v == 7 ? 21 : 0;
        if (got[12] == 0) maze_arm(table, BYTES, v, 0);
        got[13] = maze_disarm(table, BYTES, 7, v), want[13] = v > 7 ? 5 : v == 0 ? 21 : 0;
        if (got[13] == 0) maze_arm(table, BYTES, 7, v);
        got[14] = maze_arm(table, BYTES, v, 6), want[14] = v > 7 ? 4 : 0;
        got[15] = maze_arm(table, BYTES, 6, v), want[15] = v > 7 ? 5 : 0;
        /* the path of port 2 goes from 6 by 2 to 3, where the circuit holds the link to 7 */
        got[16] = opened_and_closed(6, 0, 7, 1, v), want[16] = v == 0 || v > 7 ? 8 : v == 4 ? 10 : 0;
        got[17] = opened_and_closed(6, 0, 7, 3, v), want[17] = v == 0 || v > 7 ? 8 : v == 4 ? 10 : 0;
        for (unsigned i = 0; i < ARGUMENTS; i++)
            if (got[i] != want[i] && wrong[i]++ == 0) first[i] = value;
        if (!unaltered() && wrong[11]++ == 0) first[11] = value;
    }
    for (unsigned i = 0; i < ARGUMENTS; i++) expect(wrong[i] == 0, "sweep of argument, first wrong value", i, first[i]);
    for (unsigned long value = 9; value <= 65536; value++) {
        const uint16_t dimension = (uint16_t)(value & 65535);
        if (maze_make(table, BYTES, dimension) != 2 || !unaltered()) expect(0, "made with dimension", dimension, 0);
    }
    expect(unaltered(), "the sweep of dimensions altered the table", 0, 0);
}

/* Lengths that would be the right one if they were cut to 16 bits, and buffers whose length would be short if it were cut to 8 or 16 bits. */
static void long_ones(void) {
    static uint8_t large[BYTES + 65536], ports[65536 + 8];
    static const size_t lengths_of_buffer[] = {256 + 8, 512, 65536, 65536 + 8};
    fresh(3);
    arm(7, 0);
    expect(maze_open(table, BYTES, 0, 0, 7, 0, 7).number == 0, "open for the long ones", 0, 0);
    memcpy(large, table, BYTES);
    expect(maze_trace(large, BYTES + 65536, 0, 0, ports, 9).number == 1, "a table 65,536 bytes too long", 0, 0);
    expect(maze_make(large, BYTES + 65536, 3) == 1 && maze_close(large, BYTES + 65536, 0, 0) == 1, "a table 65,536 bytes too long", 1, 0);
    expect(maze_arm(large, BYTES + 65536, 0, 0) == 1 && maze_disarm(large, BYTES + 65536, 0, 0) == 1, "a table 65,536 bytes too long", 2, 0);
    for (size_t i = 0; i < sizeof lengths_of_buffer / sizeof *lengths_of_buffer; i++) {
        maze_traced got;
        int kept = 1;
        memset(ports, 0xc5, sizeof ports);
        got = maze_trace(table, BYTES, 0, 0, ports, lengths_of_buffer[i]);
        for (size_t j = 3; j < sizeof ports; j++) kept &= ports[j] == 0xc5;
        expect(got.number == 0 && got.hops == 3 && kept && ports[0] == 0 && ports[1] == 1 && ports[2] == 2, "trace into a long buffer", i, got.number);
    }
}

/* The same of lists of sends, of a book, of judging it, and of a lookup in it. */
static void long_lists_and_books(void) {
    static uint8_t sends[655370], ports[65536 + 8], index[65536 + 8], traced[65536 + 8];
    static const size_t lists[] = {65536, 65546, 65536 + 640, 327680, 327690, 328320, 655360, 655370};
    static const size_t lengths_of_buffer[] = {65536, 65536 + 2, 65536 + 8};
    static const uint8_t three[] = {0, 1, 2}, line[] = {1, 0, 0, 0, 3, 0};
    fresh(3);
    arm(7, 0);
    sends[4] = 7, sends[8] = 7;
    for (size_t i = 0; i < sizeof lists / sizeof *lists; i++) {
        maze_opened_all got;
        keep();
        got = maze_open_all(table, BYTES, sends, lists[i]);
        expect(got.number == 28 && got.sends == 0 && unaltered(), "a list of sends that is too long", i, got.number);
    }
    expect(maze_open_all(table, BYTES, sends, 10).number == 0, "the first of them alone", 0, 0);
    for (size_t i = 0; i < sizeof lengths_of_buffer / sizeof *lengths_of_buffer; i++) {
        const size_t length = lengths_of_buffer[i];
        maze_booked booked;
        maze_traced found;
        int kept = 1;
        memset(ports, 0xc5, sizeof ports);
        memset(index, 0xc5, sizeof index);
        booked = maze_book(table, BYTES, ports, length, index, length);
        for (size_t j = 3; j < sizeof ports; j++) kept &= ports[j] == 0xc5;
        for (size_t j = 6; j < sizeof index; j++) kept &= index[j] == 0xc5;
        expect(booked.number == 0 && booked.circuits == 1 && booked.hops == 3 && kept && memcmp(ports, three, 3) == 0 && memcmp(index, line, 6) == 0, "a book in long buffers", i, booked.number);
        expect(maze_judge(table, BYTES, ports, length, index, length, 1, 3) == 26, "a book in long buffers, its circuit open", i, 0);
        memset(traced, 0xc5, sizeof traced);
        found = maze_book_lookup(ports, length, index, length, 1, 3, 1, traced, length);
        for (size_t j = 3; j < sizeof traced; j++) kept &= traced[j] == 0xc5;
        expect(found.number == 0 && found.hops == 3 && kept && memcmp(traced, three, 3) == 0, "a lookup in long buffers", i, found.number);
    }
    expect(maze_close(table, BYTES, 0, 0) == 0 && maze_arm(table, BYTES, 7, 0) == 0 && maze_judge(table, BYTES, ports, 65536, index, 65536, 1, 3) == 0, "a book in long buffers, loadable", 0, 0);
}

/* A buffer of exactly nine bytes, and longer ones; the length of the path does not matter. */
static void buffers(void) {
    fresh(8);
    arm(254, 0);
    arm(3, 0);
    expect(maze_open(table, BYTES, 0, 0, 254, 0, 1).number == 0, "open nine hops", 0, 0);
    expect(maze_open(table, BYTES, 7, 2, 3, 0, 4).number == 0, "open one hop", 0, 0);
    refused_trace(14, BYTES, 0, 0, 8);
    for (size_t length = 9; length <= BUFFER; length++) {
        static const uint8_t nine[] = {0, 1, 2, 3, 4, 5, 6, 7, 0};
        maze_traced got;
        fresh_buffer();
        got = maze_trace(table, BYTES, 7, 2, buffer, length);
        expect(got.number == 0 && got.hops == 1 && buffer[0] == 2 && fresh_from(1), "trace one hop", length, got.hops);
        got = maze_trace(table, BYTES, 0, 0, buffer, length);
        expect(got.number == 0 && got.hops == 9 && memcmp(buffer, nine, 9) == 0 && fresh_from(9), "trace nine hops", length, got.hops);
    }
}

/* Buffers of every length up to some hundreds of bytes: a trace writes its hops and no other byte, and a refused one writes none. */
static void long_buffers(void) {
    static uint8_t lent[700], kept[700];
    fresh(8);
    arm(3, 0);
    expect(maze_open(table, BYTES, 7, 2, 3, 0, 4).number == 0, "open one hop", 0, 0);
    for (size_t length = 0; length <= sizeof lent - 8; length++) {
        maze_traced got;
        for (size_t i = 0; i < sizeof lent; i++) kept[i] = lent[i] = (uint8_t)(3 * i + length + 1);
        got = maze_trace(table, BYTES, 7, 3, lent, length);
        expect(got.number == 12 && got.hops == 0 && memcmp(lent, kept, sizeof lent) == 0, "refused trace, buffer", length, got.number);
        got = maze_trace(table, BYTES, 7, 2, lent, length);
        if (length >= 9) kept[0] = 2;
        expect(got.number == (length < 9 ? 14 : 0) && got.hops == (length < 9 ? 0 : 1) && memcmp(lent, kept, sizeof lent) == 0, "trace, buffer", length, got.number);
    }
}

/* A table and a buffer may lie anywhere. */
static void alignments(void) {
    static uint8_t room[BYTES + 16], ports[9 + 16];
    for (size_t shift = 0; shift < 16; shift++) {
        uint8_t *lent = room + shift;
        maze_opened opened;
        maze_traced traced;
        memset(room, 0x5a, sizeof room);
        expect(maze_make(lent, BYTES, 3) == 0 && maze_block(lent, BYTES, 1, 2) == 0 && maze_block(lent, BYTES, 3, 2) == 0, "made at", shift, 0);
        expect(maze_arm(lent, BYTES, 7, 0) == 0 && maze_arm(lent, BYTES, 7, 6) == 0 && lent[here(8456)] == 65, "armed at", shift, 0);
        opened = maze_open(lent, BYTES, 0, 0, 7, 0, 7);
        traced = maze_trace(lent, BYTES, 0, 0, ports + shift, 9);
        expect(opened.number == 0 && opened.scouts == 5 && traced.number == 0 && traced.hops == 3, "opened at", shift, opened.number);
        expect(ports[shift] == 1 && ports[shift + 1] == 2 && ports[shift + 2] == 0, "traced at", shift, 0);
        expect(lent[0] == 3 && lent[here(259)] == 1 && lent[here(293)] == 1 && lent[here(353)] == 1 && lent[here(4465)] == 1, "held at", shift, 0);
        expect(maze_unblock(lent, BYTES, 1, 2) == 0 && maze_close(lent, BYTES, 0, 0) == 0 && lent[here(259)] == 0 && lent[here(8456)] == 64, "closed at", shift, 0);
        expect(maze_disarm(lent, BYTES, 7, 6) == 0 && lent[here(8456)] == 0, "disarmed at", shift, 0);
        for (size_t i = 0; i < sizeof room; i++)
            if ((i < shift || i >= shift + BYTES) && room[i] != 0x5a) expect(0, "a byte beside the table", shift, i);
    }
}

/* ---- jobs ---- */

/* A send at a place of the list: node, channel, target, type and vector, two bytes each, low byte first. */
static void put(unsigned place, unsigned node, unsigned channel, unsigned target, unsigned type, unsigned vector) {
    const unsigned numbers[] = {node, channel, target, type, vector};
    for (unsigned i = 0; i < 5; i++) list[10 * place + 2 * i] = (uint8_t)(numbers[i] % 256), list[10 * place + 2 * i + 1] = (uint8_t)(numbers[i] / 256);
}

static void accepted_job(const char *what, unsigned sends) {
    maze_opened_all got;
    memcpy(kept_list, list, sizeof list);
    got = maze_open_all(table, BYTES, list, 10 * sends);
    expect(got.number == 0 && got.sends == sends, what, got.number, got.sends);
    expect(memcmp(kept_list, list, sizeof list) == 0, "the list of an accepted job", sends, 0);
}

/* Dimension 3, from 0 to 7, all ports: the first send goes by ports 0, 1, 2, the second by 1, 2, 0 and the third by 2, 0, 1, each past the links that those
 * before it hold, to receive channels 0, 1 and 2. A fourth has no link out of node 0 left. */
static void three_to_seven(void) {
    for (unsigned place = 0; place < 4; place++) put(place, 0, place, 7, 0, 7);
}

static void jobs(void) {
    static const struct place two[] = {{257, 1}, {275, 1}, {309, 1}, {4465, 1}, {259, 2}, {293, 2}, {353, 2}, {4467, 2}, {0, 0}};
    static const struct place three[] = {{257, 1}, {275, 1}, {309, 1}, {4465, 1}, {259, 2}, {293, 2}, {353, 2}, {4467, 2}, {261, 3}, {321, 3}, {339, 3}, {4469, 3}, {0, 0}};
    static const struct place one[] = {{309, 25}, {4465, 25}, {0, 0}};
    fresh_armed(3);
    three_to_seven();
    accepted_job("two sends", 2);
    expect_table("two sends", 3, two);
    expect_trace("the first of two", 0, 0, "012");
    expect_trace("the second of two", 0, 1, "120");
    refused_job(9, 0, BYTES, 20); /* both channels have a circuit now */
    memcpy(list, list + 20, 20); /* what is left of the four: the third is accepted by itself, and then none */
    refused_job(10, 1, BYTES, 20);
    expect_table("a job refused beside two circuits", 3, two);
    accepted_job("the third alone", 1);
    expect_table("three sends", 3, three);

    fresh_armed(3);
    three_to_seven();
    accepted_job("no send", 0);
    expect_table("no send", 3, NULL);
    expect(maze_open_all(table, BYTES, NULL, 0).number == 0, "no send and no list", 0, 0);
    accepted_job("three sends", 3);
    expect_table("three sends in one job", 3, three);

    /* the last is refused: the three before it are given back, each byte of them, beside a circuit that stood there */
    fresh_armed(3);
    expect(maze_open(table, BYTES, 3, 0, 7, 0, 4).number == 0, "open from 3 to 7", 3, 7);
    for (unsigned place = 0; place < 3; place++) put(place, 0, place, 7, 0, 7);
    put(3, 0, 3, 7, 0, 7);
    refused_job(10, 2, BYTES, 40); /* 3 to 7 is held: two ways into 7 are left */
    expect_table("the circuit from 3 to 7 alone", 3, one);
    fresh_armed(3);
    refused_job(10, 3, BYTES, 40);
    refused_job(10, 3, BYTES, 50); /* whatever stands behind it */
    expect_table("nothing opened", 3, NULL);
}

/* One send between two that would be accepted, at place 0, 1 and 2: its number, whatever number it is. The low byte of each wide number alone would pass. */
static void refused_sends(void) {
    static const struct { unsigned number; uint16_t send[5]; } bad[] = {
        {4, {8, 7, 7, 0, 7}}, {4, {256, 7, 7, 0, 7}}, {4, {65535, 7, 7, 0, 7}}, {4, {1, 7, 8, 0, 7}}, {4, {1, 7, 263, 0, 7}},
        {5, {1, 8, 7, 0, 7}}, {5, {1, 256, 7, 0, 7}}, {7, {1, 7, 7, 2, 7}}, {7, {1, 7, 7, 5, 7}}, {7, {1, 7, 7, 256, 7}},
        {8, {1, 7, 7, 0, 0}}, {8, {1, 7, 7, 0, 8}}, {8, {1, 7, 7, 0, 263}}, {9, {6, 6, 7, 0, 7}},
        {10, {6, 7, 7, 3, 1}}, {11, {1, 7, 0, 0, 1}}, {22, {2, 7, 3, 3, 1}},
        /* the lowest number of several */
        {4, {8, 8, 8, 2, 0}}, {5, {1, 8, 7, 2, 0}}, {7, {1, 7, 7, 2, 0}}, {8, {6, 6, 7, 0, 0}},
    };
    static const struct place places[] = {{353, 55}, {4465, 55}, {3, 6}, {8449, 0}, {0, 0}};
    for (size_t i = 0; i < sizeof bad / sizeof *bad; i++)
        for (unsigned place = 0; place < 3; place++) {
            const uint16_t *send = bad[i].send;
            /* circuit 55 holds 6 to 7, 2 to 3 is blocked, no channel of node 0 is armed */
            fresh_armed(3);
            expect(maze_open(table, BYTES, 6, 6, 7, 0, 1).number == 0 && maze_block(table, BYTES, 2, 0) == 0, "open from 6 to 7", 6, 7);
            for (uint16_t channel = 0; channel < 8; channel++) expect(maze_disarm(table, BYTES, 0, channel) == 0, "disarm", 0, channel);
            put(0, 4, 0, 5, 0, 1), put(1, 5, 0, 4, 0, 1), put(2, 4, 1, 6, 0, 2);
            put(place, send[0], send[1], send[2], send[3], send[4]);
            refused_job(bad[i].number, place, BYTES, 30);
            expect_table("a job refused", 3, places);
        }
}

/* 64 sends over port 6, from node i to node i + 64, each to receive channel 0: circuit 8 i + 1. */
static void long_jobs(void) {
    static const size_t wrong[] = {1, 9, 11, 19, 21, 629, 631, 635, 639, 641, 645, 649, 650, 651, 655, 660};
    static struct place places[4 * 64 + 1];
    for (unsigned i = 0; i < 64; i++) {
        const unsigned circuit = 8 * i + 1, link = 257 + 16 * i + 12, receive = 4353 + 16 * (i + 64);
        put(i, i, 0, i + 64, i % 2 ? 3 : 0, 64);
        places[4 * i].at = link, places[4 * i].value = circuit % 256, places[4 * i + 1].at = link + 1, places[4 * i + 1].value = circuit / 256;
        places[4 * i + 2].at = receive, places[4 * i + 2].value = circuit % 256, places[4 * i + 3].at = receive + 1, places[4 * i + 3].value = circuit / 256;
    }
    put(64, 64, 0, 0, 0, 64); /* a send behind the last, which no list may have */
    fresh_armed(8);
    accepted_job("64 sends", 64);
    expect_table("64 sends", 8, places);
    refused_job(9, 0, BYTES, 640);
    fresh_armed(8);
    for (size_t i = 0; i < sizeof wrong / sizeof *wrong; i++) refused_job(28, 0, BYTES, wrong[i]);
    for (unsigned place = 0; place < 64; place++) {
        put(place, 256, 0, place + 64, 0, 64);
        refused_job(4, place, BYTES, 640);
        put(place, place, 0, place + 64, 0, 64);
    }
    expect_table("no send of 64", 8, NULL);
    accepted_job("63 sends", 63);
    memset(list, 0, sizeof list);
    refused_job(8, 0, BYTES, 640);
    /* 1, 2 and 3 come before 28, and 28 before what a send is refused for */
    put(0, 65535, 65535, 65535, 65535, 65535);
    refused_job(4, 0, BYTES, 10);
    refused_job(28, 0, BYTES, 9);
    refused_job(28, 0, BYTES, 11);
    table[here(263)] = 9;
    refused_job(3, 0, BYTES, 9);
    table[0] = 9;
    refused_job(2, 0, BYTES, 9);
    refused_job(1, 0, BYTES - 1, 9);
}

/* ---- books ---- */

/* The book of the table as it stands, in buffers of these lengths: its counts, and its bytes, behind which nothing is altered. */
static void expect_book(const char *what, size_t ports_length, size_t index_length, unsigned circuits, const uint8_t *index, unsigned hops, const uint8_t *ports) {
    maze_booked got;
    keep();
    fresh_book();
    got = maze_book(table, BYTES, book_ports, ports_length, book_index, index_length);
    expect(got.number == 0 && got.circuits == circuits && got.hops == hops, what, got.number, got.hops);
    for (unsigned i = 0; i < hops; i++) kept_ports[i] = ports[i];
    for (unsigned i = 0; i < 6 * circuits; i++) kept_index[i] = index[i];
    expect(unaltered(), what, ports_length, 1);
    expect(memcmp(book_ports, kept_ports, sizeof book_ports) == 0, what, ports_length, 2);
    expect(memcmp(book_index, kept_index, sizeof book_index) == 0, what, index_length, 3);
}

/* Every length of both buffers around the least that does: a buffer that is one byte short is refused, and the other one is not written either. */
static void book_lengths(const char *what, unsigned circuits, const uint8_t *index, unsigned hops, const uint8_t *ports) {
    for (size_t ports_length = hops < 3 ? 0 : hops - 3; ports_length <= hops + 3; ports_length++)
        for (size_t index_length = circuits < 2 ? 0 : 6 * circuits - 7; index_length <= 6 * circuits + 7; index_length++)
            if (ports_length < hops || index_length < 6 * circuits) refused_book(23, BYTES, ports_length, index_length);
            else expect_book(what, ports_length, index_length, circuits, index, hops, ports);
}

/* Of the book of the table as it stands, a lookup gives for each circuit number of the cube what a trace gives, and 12 for every other. */
static void lookups_trace(const char *what) {
    const unsigned nodes = 1u << table[0];
    unsigned good = 0;
    maze_booked booked;
    fresh_book();
    booked = maze_book(table, BYTES, book_ports, 2048, book_index, 12288);
    keep_book();
    for (unsigned circuit = 0; circuit < 65536; circuit += circuit < 2100 ? 1 : 1009) {
        const int there = circuit > 0 && circuit <= 8 * nodes;
        uint8_t traced_ports[BUFFER];
        maze_traced traced = {12, 0}, found;
        fresh_buffer();
        memcpy(traced_ports, buffer, BUFFER);
        if (there) traced = maze_trace(table, BYTES, (uint16_t)((circuit - 1) / 8), (uint16_t)((circuit - 1) % 8), traced_ports, BUFFER);
        found = maze_book_lookup(book_ports, booked.hops, book_index, 6u * booked.circuits, booked.circuits, booked.hops, (uint16_t)circuit, buffer, BUFFER);
        good += found.number == traced.number && found.hops == traced.hops && memcmp(buffer, traced_ports, BUFFER) == 0;
    }
    expect(booked.number == 0 && good == 2100 + (65536 - 2100 + 1008) / 1009 && unaltered_book(), what, booked.circuits, good);
}

/* A circuit over one link, written to the table by its bytes. */
static void lay(unsigned node, unsigned port) {
    const unsigned circuit = 8 * node + port + 1, link = here(257 + 16 * node + 2 * port), receive = here(4353 + 16 * (node ^ 1u << port) + 2 * port);
    table[link] = table[receive] = (uint8_t)(circuit % 256);
    table[link + 1] = table[receive + 1] = (uint8_t)(circuit / 256);
}

static void books(void) {
    static const uint8_t three_ports[] = {0, 1, 2, 1, 2, 0, 2, 0, 1};
    static const uint8_t three_index[] = {1, 0, 0, 0, 3, 0, 2, 0, 3, 0, 3, 0, 3, 0, 6, 0, 3, 0};
    static const uint8_t without_ports[] = {0, 1, 2, 2, 0, 1};
    static const uint8_t without_index[] = {1, 0, 0, 0, 3, 0, 3, 0, 3, 0, 3, 0};
    /* circuits 256 and 257: one link from 31 to 30, and from 32 over 33 to 35 */
    static const uint8_t two_ports[] = {0, 0, 1};
    static const uint8_t two_index[] = {0, 1, 0, 0, 1, 0, 1, 1, 1, 0, 2, 0};
    /* circuit 1 by nine hops, 1604 = 6 * 256 + 68 by port 0, 2048 = 8 * 256 by port 7 */
    static const uint8_t wide_ports[] = {0, 1, 2, 3, 4, 5, 6, 7, 0, 0, 7};
    static const uint8_t wide_index[] = {1, 0, 0, 0, 9, 0, 68, 6, 9, 0, 1, 0, 0, 8, 10, 0, 1, 0};
    static const uint8_t back_ports[] = {1, 1, 0}, back_index[] = {1, 0, 0, 0, 3, 0};
    static const uint8_t itself_ports[] = {0, 0}, itself_index[] = {1, 0, 0, 0, 2, 0};
    static uint8_t full_ports[2048], full_index[12288];

    for (unsigned dimension = 1; dimension <= 8; dimension++) {
        maze_booked got;
        fresh_armed(dimension);
        book_lengths("a book of no circuit", 0, NULL, 0, NULL);
        got = maze_book(table, BYTES, NULL, 0, NULL, 0);
        expect(got.number == 0 && got.circuits == 0 && got.hops == 0, "a book of no circuit, and no buffers", dimension, got.number);
        lookups_trace("lookups in a book of no circuit");
    }

    /* by number, whichever was opened first */
    fresh_armed(3);
    three_to_seven();
    accepted_job("three sends", 3);
    book_lengths("a book of three circuits", 3, three_index, 9, three_ports);
    expect_book("in large buffers", 2048, 12288, 3, three_index, 9, three_ports);
    lookups_trace("lookups of three circuits");
    expect(maze_close(table, BYTES, 0, 1) == 0, "close the second", 0, 1);
    book_lengths("a book without the second", 2, without_index, 6, without_ports);
    lookups_trace("lookups without the second");

    fresh_armed(8);
    expect(maze_open(table, BYTES, 32, 0, 35, 3, 1).number == 0 && maze_open(table, BYTES, 31, 7, 30, 0, 1).number == 0, "open 257 and 256", 0, 0);
    book_lengths("a book of circuits 256 and 257", 2, two_index, 3, two_ports);
    lookups_trace("lookups of circuits 256 and 257");

    fresh_armed(8);
    expect(maze_open(table, BYTES, 255, 7, 127, 0, 128).number == 0 && maze_open(table, BYTES, 200, 3, 201, 0, 1).number == 0, "open 2048 and 1604", 0, 0);
    expect(maze_open(table, BYTES, 0, 0, 254, 0, 1).number == 0, "open nine hops", 0, 0);
    book_lengths("a book of circuits 1, 1604 and 2048", 3, wide_index, 11, wide_ports);
    lookups_trace("lookups of circuits 1, 1604 and 2048");

    /* through the source again, and back to it */
    fresh_armed(2);
    expect(maze_block(table, BYTES, 2, 0) == 0 && maze_open(table, BYTES, 0, 0, 1, 0, 2).number == 0, "open by 1, 1, 0", 0, 0);
    book_lengths("a book of a circuit through its source", 1, back_index, 3, back_ports);
    lookups_trace("lookups of a circuit through its source");
    fresh_armed(1);
    expect(maze_open(table, BYTES, 0, 0, 0, 0, 1).number == 0, "open to itself", 0, 0);
    book_lengths("a book of a circuit to itself", 1, itself_index, 2, itself_ports);
    lookups_trace("lookups of a circuit to itself");

    /* every link of a cube of dimension 8 with a circuit of its own: circuit k over port (k - 1) % 8, at offset k - 1 */
    fresh_armed(8);
    for (unsigned k = 0; k < 2048; k++) {
        lay(k / 8, k % 8);
        full_ports[k] = (uint8_t)(k % 8);
        full_index[6 * k] = (uint8_t)((k + 1) % 256), full_index[6 * k + 1] = (uint8_t)((k + 1) / 256);
        full_index[6 * k + 2] = (uint8_t)(k % 256), full_index[6 * k + 3] = (uint8_t)(k / 256), full_index[6 * k + 4] = 1;
    }
    expect_book("a book of 2,048 circuits", 2048, 12288, 2048, full_index, 2048, full_ports);
    expect_book("and in larger buffers", PORTS, INDEX, 2048, full_index, 2048, full_ports);
    refused_book(23, BYTES, 2047, 12288);
    refused_book(23, BYTES, 2048, 12287);
    refused_book(23, BYTES, 0, 12288);
    refused_book(23, BYTES, 2048, 0);
    refused_book(23, BYTES, 0, 0);
    lookups_trace("lookups of 2,048 circuits");
    /* a table that is not sound, of a wrong dimension or length: 3, 2 and 1 come before 23 */
    table[here(4353)] ^= 1;
    refused_book(3, BYTES, 2047, 12287);
    refused_book(3, BYTES, 2048, 12288);
    table[0] = 9;
    refused_book(2, BYTES, 0, 0);
    refused_book(1, BYTES - 1, 0, 0);
    refused_book(1, BYTES + 1, 2048, 12288);
}

static void put_line(unsigned place, struct line line) {
    const unsigned numbers[] = {line.number, line.offset, line.length};
    for (unsigned i = 0; i < 3; i++) book_index[6 * place + 2 * i] = (uint8_t)(numbers[i] % 256), book_index[6 * place + 2 * i + 1] = (uint8_t)(numbers[i] / 256);
}

static void refused_lookup(const char *what, unsigned number, size_t ports_length, size_t index_length, unsigned circuits, unsigned hops, unsigned circuit, size_t length) {
    maze_traced got;
    fresh_buffer();
    keep();
    keep_book();
    got = maze_book_lookup(book_ports, ports_length, book_index, index_length, (uint16_t)circuits, (uint16_t)hops, (uint16_t)circuit, buffer, length);
    expect(got.number == number && got.hops == 0 && unaltered() && unaltered_book(), what, number, got.number);
}

/* The ports that a lookup gives are those from an offset on, whatever bytes they are. */
static void expect_lookup(const char *what, size_t ports_length, size_t index_length, unsigned circuits, unsigned hops, unsigned circuit, size_t length, unsigned offset, unsigned found) {
    maze_traced got;
    fresh_buffer();
    keep();
    keep_book();
    got = maze_book_lookup(book_ports, ports_length, book_index, index_length, (uint16_t)circuits, (uint16_t)hops, (uint16_t)circuit, buffer, length);
    expect(got.number == 0 && got.hops == found && memcmp(buffer, book_ports + offset, found) == 0 && fresh_from(found) && unaltered_book(), what, circuit, got.number);
}

static void good_book(void) {
    fresh_book();
    for (unsigned i = 0; i < 3; i++) put_line(i, good_lines[i]);
}

static void lookups(void) {
    static const unsigned circuits[] = {0, 1, 5, 6, 77, 300, 2048, 2049, 65535};
    static const size_t lengths[] = {0, 8, 9, BUFFER};

    for (size_t i = 0; i < sizeof bad_books / sizeof *bad_books; i++) {
        fresh_book();
        for (unsigned line = 0; line < 3; line++) put_line(line, bad_books[i].lines[line]);
        /* 25 before 12 and 14 */
        for (size_t c = 0; c < sizeof circuits / sizeof *circuits; c++)
            for (size_t k = 0; k < sizeof lengths / sizeof *lengths; k++)
                refused_lookup(bad_books[i].what, 25, bad_books[i].ports_length, bad_books[i].index_length, bad_books[i].circuits, bad_books[i].hops, circuits[c], lengths[k]);
    }

    /* the good book, in buffers that just hold it and in larger ones */
    for (unsigned larger = 0; larger < 2; larger++) {
        const size_t ports_length = larger ? PORTS : 12, index_length = larger ? INDEX : 18;
        good_book();
        for (size_t length = 0; length <= BUFFER; length++)
            for (unsigned line = 0; line < 3; line++) {
                const struct line x = good_lines[line];
                if (length < 9) refused_lookup("a short buffer", 14, ports_length, index_length, 3, 12, x.number, length);
                else expect_lookup("a line of a good book", ports_length, index_length, 3, 12, x.number, length, x.offset, x.length);
            }
        /* numbers that it does not have: 12, before 14; 261 is 5 + 256, 2,348 is 300 + 2,048, 32,768 + 5 has the low bits of 5 */
        static const unsigned absent[] = {0, 1, 4, 6, 44, 261, 299, 301, 1024, 2047, 2049, 2053, 2348, 32773, 65535};
        for (size_t i = 0; i < sizeof absent / sizeof *absent; i++)
            for (size_t k = 0; k < sizeof lengths / sizeof *lengths; k++)
                refused_lookup("no such circuit in the book", 12, ports_length, index_length, 3, 12, absent[i], lengths[k]);
        /* its first two lines alone, its first alone, and none of it */
        expect_lookup("of two circuits", ports_length, index_length, 2, 11, 300, 9, 2, 9);
        refused_lookup("of two circuits, the third", 12, ports_length, index_length, 2, 11, 2048, 9);
        expect_lookup("of one circuit", ports_length, index_length, 1, 2, 5, 9, 0, 2);
        refused_lookup("of one circuit, the second", 12, ports_length, index_length, 1, 2, 300, 9);
        refused_lookup("of no circuit", 12, ports_length, index_length, 0, 0, 5, 9);
        refused_lookup("of no circuit, 0", 12, ports_length, index_length, 0, 0, 0, 0);
    }
    refused_lookup("no circuit and no bytes", 12, 0, 0, 0, 0, 5, 9);
    expect(maze_book_lookup(NULL, 0, NULL, 0, 0, 0, 1, NULL, 0).number == 12, "a book of nothing", 0, 0);
    expect(maze_book_lookup(NULL, 0, NULL, 0, 1, 0, 1, NULL, 0).number == 25, "a circuit and no index", 0, 0);
    expect(maze_book_lookup(NULL, 0, NULL, 0, 0, 1, 1, NULL, 0).number == 25, "a hop and no ports", 0, 0);

    /* the longest book: circuits 1 to 2048 of nine hops each, 18,432 in all, more than a table has */
    fresh_book();
    for (unsigned i = 0; i < 2048; i++) put_line(i, (struct line){i + 1, 9 * i, 9});
    for (unsigned circuit = 1; circuit <= 2048; circuit += 89) expect_lookup("of the longest book", PORTS, 12288, 2048, 18432, circuit, 9, 9 * (circuit - 1), 9);
    expect_lookup("the last of the longest book", PORTS, 12288, 2048, 18432, 2048, 9, 18423, 9);
    refused_lookup("behind the longest book", 12, PORTS, 12288, 2048, 18432, 2049, 9);
    refused_lookup("the longest book, a port short", 25, PORTS - 1, 12288, 2048, 18432, 1, 9);
    put_line(2048, (struct line){2049, 18432, 1});
    refused_lookup("2,049 circuits", 25, PORTS + 1, INDEX, 2049, 18433, 1, 9);
    put_line(2048, (struct line){2048, 18432, 1});
    refused_lookup("2,049 circuits, the last two alike", 25, PORTS + 1, INDEX, 2049, 18433, 1, 9);
}

/* Table, book and buffer may lie anywhere. */
static void book_alignments(void) {
    static const uint8_t want_index[] = {1, 0, 0, 0, 3, 0, 2, 0, 3, 0, 3, 0, 3, 0, 6, 0, 3, 0}, want_ports[] = {0, 1, 2, 1, 2, 0, 2, 0, 1};
    static uint8_t room[BYTES + 16];
    fresh_armed(3);
    three_to_seven();
    accepted_job("three sends", 3);
    for (size_t shift = 0; shift < 16; shift++) {
        maze_booked booked;
        maze_traced found;
        memcpy(room + shift, table, BYTES);
        fresh_book();
        fresh_buffer();
        booked = maze_book(room + shift, BYTES, book_ports + 15 - shift, 9, book_index + 3 * shift, 18);
        expect(booked.number == 0 && memcmp(book_ports + 15 - shift, want_ports, 9) == 0 && memcmp(book_index + 3 * shift, want_index, 18) == 0, "booked at", shift, booked.number);
        memcpy(kept_ports + 15 - shift, want_ports, 9);
        memcpy(kept_index + 3 * shift, want_index, 18);
        expect(unaltered_book(), "beside a book at", shift, 0);
        found = maze_book_lookup(book_ports + 15 - shift, 9, book_index + 3 * shift, 18, 3, 9, 2, buffer + shift % 8, 16 - shift % 8 > 9 ? 9 : 16 - shift % 8);
        expect(found.number == 0 && found.hops == 3 && memcmp(buffer + shift % 8, want_ports + 3, 3) == 0, "looked up at", shift, found.number);
    }
}

/* ---- sound tables and others, each circuit 1 of dimension 3 on ports 0, 1, 2, with every channel armed, but for the places given ---- */

static const struct {
    const char *what;
    const char *ports; /* NULL where it is not sound */
    struct place places[16];
} tables[] = {
    {"as opened", "012", {{0, 0}}},
    {"another receive channel", "012", {{4465, 0}, {4475, 1}}},
    {"not the first path", "210", {{257, 0}, {275, 0}, {309, 0}, {261, 1}, {323, 1}, {353, 1}}},
    {"first hop away", "2012", {{257, 0}, {275, 0}, {309, 0}, {4465, 0}, {261, 1}, {321, 1}, {339, 1}, {373, 1}, {4401, 1}}},
    {"through the source", "001", {{273, 1}, {259, 1}, {275, 0}, {309, 0}, {4465, 0}, {4385, 1}}},
    {"through the source, highest port first", "2201", {{261, 1}, {325, 1}, {309, 0}, {4465, 0}, {4401, 1}}},
    {"out and back", "00", {{273, 1}, {275, 0}, {309, 0}, {4465, 0}, {4353, 1}}},
    {"a free link blocked", "012", {{1, 5}}},
    {"all free links blocked", "012", {{1, 1}, {2, 2}, {3, 0}, {4, 4}, {5, 0}, {6, 0}, {7, 0}, {8, 0}}},
    {"its channel alone armed", "012", {{8449, 0}, {8450, 0}, {8451, 0}, {8452, 0}, {8453, 0}, {8454, 0}, {8455, 0}, {8456, 1}}},
    {"another receive channel, alone armed", "012", {{4465, 0}, {4475, 1}, {8456, 32}}},
    {"first link lost", NULL, {{257, 0}}},
    {"second link lost", NULL, {{275, 0}}},
    {"last link lost", NULL, {{309, 0}}},
    {"all links lost", NULL, {{257, 0}, {275, 0}, {309, 0}}},
    {"receive channel lost", NULL, {{4465, 0}}},
    {"received twice at its end", NULL, {{4467, 1}}},
    {"received twice, and as many links held by another circuit", NULL, {{4467, 1}, {337, 2}, {339, 2}, {341, 2}}},
    {"received twice", NULL, {{4401, 1}}},
    {"received half-way", NULL, {{4465, 0}, {4369, 1}}},
    {"received at its source", NULL, {{4465, 0}, {4353, 1}}},
    {"a link elsewhere", NULL, {{337, 1}}},
    {"a second link of the source", NULL, {{259, 1}}},
    {"a link behind the target", NULL, {{369, 1}}},
    {"the first link back", NULL, {{273, 1}}},
    {"another circuit on a link alone", NULL, {{337, 2}}},
    {"another circuit on a receive channel alone", NULL, {{4433, 2}}},
    {"circuit 65 on a link", NULL, {{337, 65}}},
    {"circuit 65 on a receive channel", NULL, {{4433, 65}}},
    {"circuit 65 on a whole path", NULL, {{257, 65}, {275, 65}, {309, 65}, {4465, 65}}},
    {"circuit 257 on a link", NULL, {{258, 1}}},
    {"circuit 257 on a receive channel", NULL, {{4466, 1}}},
    {"not from its source", NULL, {{257, 9}, {275, 9}, {309, 9}, {4465, 9}}},
    {"a held link blocked", NULL, {{1, 6}}},
    {"the last held link blocked", NULL, {{4, 3}}},
    {"an absent port enabled", NULL, {{1, 15}}},
    {"port 7 enabled", NULL, {{8, 135}}},
    {"a link of an absent node enabled", NULL, {{9, 1}}},
    {"a link of node 255 enabled", NULL, {{256, 1}}},
    {"an absent port held", NULL, {{263, 1}}},
    {"an absent port held and enabled", NULL, {{263, 1}, {1, 15}}},
    {"a link of an absent node held", NULL, {{385, 1}}},
    {"a link of node 255 held", NULL, {{4352, 1}}},
    {"a receive channel of an absent node held", NULL, {{4481, 1}}},
    {"the last receive channel held", NULL, {{8448, 1}}},
    {"its channel alone not armed", NULL, {{8456, 254}}},
    {"no channel of the target armed", NULL, {{8456, 0}}},
    {"another receive channel, not armed", NULL, {{4465, 0}, {4475, 1}, {8456, 223}}},
    {"received twice, once not armed", NULL, {{4467, 1}, {8456, 253}}},
    {"channel 0 of an absent node armed", NULL, {{8457, 1}}},
    {"channel 7 of an absent node armed", NULL, {{8457, 128}}},
    {"a channel of node 128 armed", NULL, {{8577, 4}}},
    {"the last byte", NULL, {{8704, 128}}},
    {"a port walked twice", NULL, {{371, 1}, {4465, 0}, {4433, 1}}},
    {"once round", NULL, {{305, 1}, {291, 1}, {309, 0}, {4465, 0}, {4353, 1}}},
};

static void soundness(void) {
    for (size_t i = 0; i < sizeof tables / sizeof *tables; i++) {
        fresh_armed(3);
        expect(maze_open(table, BYTES, 0, 0, 7, 0, 7).number == 0, "open for", i, 0);
        for (const struct place *place = tables[i].places; place->at; place++) table[here(place->at)] = (uint8_t)place->value;
        if (tables[i].ports) {
            expect_trace(tables[i].what, 0, 0, tables[i].ports);
            keep();
            expect(maze_close(table, BYTES, 0, 0) == 0, tables[i].what, i, 0);
            /* what was circuit 1's is free, its receive channel is not armed, and nothing else has changed */
            for (unsigned at = 257; at < 8449; at += 2)
                if (kept_table[here(at)] == 1 && kept_table[here(at + 1)] == 0) {
                    kept_table[here(at)] = 0;
                    if (at >= 4353) kept_table[here(8449 + (at - 4353) / 16)] &= (uint8_t)~(1u << (at - 4353) / 2 % 8);
                }
            expect(unaltered_table(), tables[i].what, i, 1);
        } else {
            all_refused(3, BYTES);
            expect(maze_make(table, BYTES, 3) == 0, "make over an unsound table", i, 0);
            armed_at_first = 0;
            expect_table("made over it", 3, NULL);
        }
    }
}

#ifdef WIDE
/* What a wide table alone has, by its own places: the three bytes of node n's enabled links are at 2 + 3 n, and the link out of its port p is held at 770 + 36 n + 2 p.
 * Dimension 3, with circuit 1 on ports 0, 1, 2 of nodes 0, 1 and 3. */
static const struct {
    const char *what;
    struct place places[4];
} wide_tables[] = {
    {"port 8 enabled", {{3, 1}}},
    {"port 17 enabled", {{4, 2}}},
    {"port 14 enabled, that of a folded dimension 3", {{3, 64}}},
    {"bit 18 set", {{4, 4}}},
    {"bit 23 set", {{4, 128}}},
    {"bit 18 of node 7 set", {{25, 4}}},
    {"bit 23 of an absent node set", {{28, 128}}},
    {"bit 23 of node 255 set", {{769, 128}}},
    {"bit 0 of node 255 set", {{767, 1}}},
    {"port 8 held", {{786, 1}}},
    {"port 17 held", {{804, 1}}},
    {"port 17 held, the high byte", {{805, 1}}},
    {"port 17 enabled and held", {{4, 2}, {804, 1}}},
    {"port 17 of node 255 held", {{9985, 1}}},
    /* out over port 17, where it would lead over port 0 were that folded, in place of port 0 */
    {"its first hop over a partner", {{770, 0}, {804, 1}, {4, 2}}},
    {"held links in the order of the bytes turned round", {{2, 0}, {4, 7}}},
};

static void wide_soundness(void) {
    for (size_t i = 0; i < sizeof wide_tables / sizeof *wide_tables; i++) {
        fresh_armed(3);
        expect(maze_open(table, BYTES, 0, 0, 7, 0, 7).number == 0, wide_tables[i].what, i, 0);
        for (const struct place *place = wide_tables[i].places; place->at; place++) table[place->at] = (uint8_t)place->value;
        all_refused(3, BYTES);
    }
}

/* Each bit of the enabled links of each node that is none of a port of the cube, in each dimension, with nothing folded. */
static void absent_ports(void) {
    for (unsigned dimension = 1; dimension <= 8; dimension++) {
        unsigned wrong = 0, first = 0;
        fresh_armed(dimension);
        for (unsigned node = 0; node < 256; node++)
            for (unsigned bit = node < 1u << dimension ? dimension : 0; bit < 24; bit++) {
                const unsigned at = 2 + 3 * node + bit / 8;
                table[at] = (uint8_t)(table[at] ^ 1u << bit % 8);
                if (maze_unblock(table, BYTES, 0, 0) != 3 && wrong++ == 0) first = 24 * node + bit;
                table[at] = (uint8_t)(table[at] ^ 1u << bit % 8);
            }
        expect(wrong == 0, "an absent port enabled", dimension, first);
        for (unsigned node = 0; node < 256; node++)
            for (unsigned port = node < 1u << dimension ? dimension : 0; port < 18; port++) {
                const unsigned at = 770 + 36 * node + 2 * port + node % 2;
                table[at] = 1;
                if (maze_unblock(table, BYTES, 0, 0) != 3 && wrong++ == 0) first = 18 * node + port;
                table[at] = 0;
            }
        expect(wrong == 0, "an absent port held", dimension, first);
    }
}
#endif

/* Each bit of the armed channels of each node that the cube lacks. One check for each dimension; where it fails, the first wrong place is named. */
static void absent_nodes_armed(void) {
    for (unsigned dimension = 1; dimension < 8; dimension++) {
        unsigned first = 0;
        fresh_armed(dimension);
        for (unsigned at = here(8449 + (1u << dimension)); at < BYTES; at++)
            for (unsigned channel = 0; channel < 8; channel++) {
                table[at] = (uint8_t)(1u << channel);
                if (maze_unblock(table, BYTES, 0, 0) != 3 && first == 0) first = at;
                table[at] = 0;
            }
        expect(first == 0 && maze_unblock(table, BYTES, 0, 0) == 0, "an absent node armed", dimension, first);
    }
}

int main(void) {
    for (size_t i = 0; i < sizeof sends / sizeof *sends; i++) fresh_armed(sends[i].dimension), run_send(&sends[i]);
    for (size_t i = 0; i < sizeof helix_sends / sizeof *helix_sends; i++) fresh_armed(helix_sends[i].dimension), run_send(&helix_sends[i]);
    for (size_t i = 0; i < sizeof unarmed / sizeof *unarmed; i++) fresh(unarmed[i].dimension), run_send(&unarmed[i]);
    example_7();
    example_8();
    example_9();
    most_scouts();
    receive_channels();
    second_pass();
    held_hops();
    helix_scouts();
    inclusion();
    waiting();
    waiting_edges();
    waiting_choices();
    lowest_armed();
    arming();
    blocking();
    lengths();
    dimensions();
    ranges();
    sweeps();
    long_ones();
    long_lists_and_books();
    buffers();
    long_buffers();
    alignments();
    jobs();
    refused_sends();
    long_jobs();
    books();
    lookups();
    book_alignments();
    soundness();
    absent_nodes_armed();
#ifdef WIDE
    wide_soundness();
    absent_ports();
#endif
    return verdict();
}
