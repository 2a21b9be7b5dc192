/* A second router, written from docs/SPECIFICATION.md alone. It is as plain as that page allows and not quick. Rules are cited as the page cites them. The program
 * that includes this file is tests/second.c. */

#include <stdbool.h>
#include <stddef.h>
#include <stdint.h>
#include <stdio.h>
#include <string.h>

enum { NODES = 256, PORTS = 18, CHANNELS = 8, LONGEST = 9, CIRCUITS = 2048, JOB = 640, LIST_IN = 60000, LIST_OUT = 1440075 };

/* What a table shows (Tables 10). */
typedef struct {
    unsigned dimension, folded;
    uint32_t enabled[NODES];
    uint16_t link[NODES][PORTS];
    uint16_t receive[NODES][CHANNELS];
    uint8_t armed[NODES];
} Shown;

typedef struct {
    unsigned hops, target;
    uint8_t port[LONGEST];
} Path;

/* The number, and the values of the call's row (Calls 1), in that order. */
typedef struct {
    uint16_t number, first, second;
    uint32_t scouts;
} Answer;

static Answer refused(unsigned number) { return (Answer){.number = (uint16_t)number}; }

static unsigned low_first(const uint8_t *at) { return at[0] + 256u * at[1]; }

static void put_low_first(uint8_t *at, unsigned value) {
    at[0] = (uint8_t)(value % 256);
    at[1] = (uint8_t)(value / 256);
}

/* Tables and Wide. */

static size_t table_length(bool wide) { return wide ? 14338 : 8705; }

static void show(bool wide, const uint8_t *at, Shown *s) {
    memset(s, 0, sizeof *s);
    s->dimension = *at++;
    if (wide) s->folded = *at++;
    for (unsigned node = 0; node < NODES; node++)
        for (unsigned byte = 0; byte < (wide ? 3 : 1); byte++) s->enabled[node] |= (uint32_t)*at++ << 8 * byte;
    for (unsigned node = 0; node < NODES; node++)
        for (unsigned port = 0; port < (wide ? 18 : 8); port++, at += 2) s->link[node][port] = (uint16_t)low_first(at);
    for (unsigned node = 0; node < NODES; node++)
        for (unsigned channel = 0; channel < CHANNELS; channel++, at += 2) s->receive[node][channel] = (uint16_t)low_first(at);
    for (unsigned node = 0; node < NODES; node++) s->armed[node] = *at++;
}

static void leave(bool wide, const Shown *s, uint8_t *at) {
    *at++ = (uint8_t)s->dimension;
    if (wide) *at++ = (uint8_t)s->folded;
    for (unsigned node = 0; node < NODES; node++)
        for (unsigned byte = 0; byte < (wide ? 3 : 1); byte++) *at++ = (uint8_t)(s->enabled[node] >> 8 * byte);
    for (unsigned node = 0; node < NODES; node++)
        for (unsigned port = 0; port < (wide ? 18 : 8); port++, at += 2) put_low_first(at, s->link[node][port]);
    for (unsigned node = 0; node < NODES; node++)
        for (unsigned channel = 0; channel < CHANNELS; channel++, at += 2) put_low_first(at, s->receive[node][channel]);
    for (unsigned node = 0; node < NODES; node++) *at++ = s->armed[node];
}

/* Cube. */

static unsigned nodes(const Shown *s) { return 1u << s->dimension; }

static unsigned axis(unsigned port) { return port < 9 ? port : 17 - port; }

static bool cube_has(const Shown *s, unsigned port) {
    return port < PORTS && axis(port) < s->dimension && (port == axis(port) || s->folded >> axis(port) & 1);
}

static unsigned behind(unsigned node, unsigned port) { return node ^ 1u << axis(port); }

static bool blocked(const Shown *s, unsigned node, unsigned port) { return !(s->enabled[node] >> port & 1); }

static bool is_free(const Shown *s, unsigned node, unsigned port) { return !blocked(s, node, port) && s->link[node][port] == 0; }

static bool not_blocked(const Shown *s, unsigned node, unsigned port) { return !blocked(s, node, port); }

static bool available(const Shown *s, unsigned node, unsigned channel) {
    return (s->armed[node] >> channel & 1) && s->receive[node][channel] == 0;
}

static unsigned circuit_number(unsigned node, unsigned channel) { return 8 * node + channel + 1; }

/* The ports of the cube whose axes a mask names, partners too (Paths 3). */
static uint32_t with_partners(const Shown *s, unsigned axes) {
    uint32_t ports = 0;
    for (unsigned port = 0; port < PORTS; port++)
        if (cube_has(s, port) && (axes >> axis(port) & 1)) ports |= 1u << port;
    return ports;
}

static uint32_t uphill(const Shown *s, unsigned node, unsigned target) { return with_partners(s, node ^ target); }

/* Soundness. */

/* From a node on, a permitted path to the target over links of a circuit, as many hops in all as it holds links: then these are its links (Paths 10). */
static bool over_all_links(const Shown *s, unsigned circuit, unsigned links, unsigned node, uint32_t ports, Path *path) {
    for (unsigned port = 0; port < PORTS; port++) {
        if (!(ports >> port & 1) || s->link[node][port] != circuit) continue;
        unsigned next = behind(node, port);
        path->port[path->hops++] = (uint8_t)port;
        if (next == path->target ? path->hops == links : over_all_links(s, circuit, links, next, uphill(s, next, path->target), path)) return true;
        path->hops--;
    }
    return false;
}

/* Soundness 7 of a circuit number that stands in the table. */
static bool path_of(const Shown *s, unsigned circuit, Path *path) {
    unsigned links = 0, channels = 0;
    path->hops = 0;
    for (unsigned node = 0; node < nodes(s); node++) {
        for (unsigned port = 0; port < PORTS; port++) links += s->link[node][port] == circuit;
        for (unsigned channel = 0; channel < CHANNELS; channel++)
            if (s->receive[node][channel] == circuit) {
                channels++;
                path->target = node;
            }
    }
    return links <= LONGEST && channels == 1 && over_all_links(s, circuit, links, (circuit - 1) / 8, with_partners(s, 255), path);
}

/* Calls 17. */
static bool is_open(const Shown *s, unsigned circuit) {
    for (unsigned port = 0; port < PORTS; port++)
        if (s->link[(circuit - 1) / 8][port] == circuit) return true;
    return false;
}

static bool sound(const Shown *s) {
    bool stands[CIRCUITS + 1] = {false};
    Path path;
    const uint32_t ports = with_partners(s, 255);
    if (s->folded >> s->dimension) return false;
    for (unsigned node = 0; node < NODES; node++) {
        bool there = node < nodes(s);
        if ((s->enabled[node] & ~(there ? ports : 0)) || (!there && s->armed[node])) return false;
        for (unsigned port = 0; port < PORTS; port++) {
            unsigned circuit = s->link[node][port];
            if (circuit && (blocked(s, node, port) || circuit > 8 * nodes(s))) return false;
            stands[circuit] = true;
        }
        for (unsigned channel = 0; channel < CHANNELS; channel++) {
            unsigned circuit = s->receive[node][channel];
            if (circuit && (!(s->armed[node] >> channel & 1) || circuit > 8 * nodes(s))) return false;
            stands[circuit] = true;
        }
    }
    for (unsigned circuit = 1; circuit <= CIRCUITS; circuit++)
        if (stands[circuit] && !path_of(s, circuit, &path)) return false;
    return true;
}

/* Tests 1, 2 and 3, and what the table shows. */
static unsigned tested(bool wide, const uint8_t *table, size_t length, Shown *s) {
    if (length != table_length(wide)) return 1;
    show(wide, table, s);
    if (s->dimension < 1 || s->dimension > 8) return 2;
    return sound(s) ? 0 : 3;
}

/* Searches. */

typedef bool Passes(const Shown *s, unsigned node, unsigned port);

/* The ports of a node in helical order, depth first (Order 1, Searches 17). */
static bool pass(const Shown *s, Passes *passes, unsigned node, uint32_t ports, unsigned arrival, Path *path, uint32_t *scouts) {
    for (unsigned step = 1; step <= PORTS; step++) {
        unsigned port = (arrival + step) % PORTS, next = behind(node, port);
        if (!(ports >> port & 1) || !passes(s, node, port)) continue;
        ++*scouts;
        path->port[path->hops++] = (uint8_t)port;
        if (next == path->target || pass(s, passes, next, uphill(s, next, path->target), port, path, scouts)) return true;
        path->hops--;
    }
    return false;
}

/* The helix path that begins with a port (Searches 6), up to the first link that does not pass. */
static bool helix(const Shown *s, Passes *passes, unsigned node, unsigned port, Path *path, uint32_t *scouts) {
    path->hops = 0;
    while (passes(s, node, port)) {
        ++*scouts;
        path->port[path->hops++] = (uint8_t)port;
        node = behind(node, port);
        if (node == path->target) return true;
        uint32_t ports = uphill(s, node, path->target);
        do port = (port + 1) % PORTS;
        while (!(ports >> port & 1));
    }
    return false;
}

/* The attempts of a routing type, one after another, over the links that pass. */
static bool search(const Shown *s, Passes *passes, unsigned source, unsigned type, unsigned vector, Path *path, uint32_t *scouts) {
    path->hops = 0;
    *scouts = 0;
    if (type == 0 || type == 4) {
        unsigned others = (nodes(s) - 1) & ~vector;
        return pass(s, passes, source, with_partners(s, vector), 17, path, scouts) ||
               (type == 4 && pass(s, passes, source, with_partners(s, others), 17, path, scouts));
    }
    for (unsigned port = 0; port < PORTS; port++)
        if (with_partners(s, vector) >> port & 1) {
            if (helix(s, passes, source, port, path, scouts)) return true;
            if (type == 3) return false;
        }
    return false;
}

/* Calls. */

static Answer second_make(bool wide, uint8_t *table, size_t length, unsigned dimension) {
    Shown s = {.dimension = dimension};
    if (length != table_length(wide)) return refused(1);
    if (dimension < 1 || dimension > 8) return refused(2);
    for (unsigned node = 0; node < nodes(&s); node++) s.enabled[node] = nodes(&s) == 256 ? 255 : (1u << dimension) - 1;
    leave(wide, &s, table);
    return refused(0);
}

static Answer second_block(bool wide, uint8_t *table, size_t length, unsigned node, unsigned port) {
    Shown s;
    unsigned number = tested(wide, table, length, &s);
    if (number) return refused(number);
    if (node >= nodes(&s)) return refused(4);
    if (!cube_has(&s, port)) return refused(6);
    if (s.link[node][port]) return refused(13);
    s.enabled[node] &= ~(1u << port);
    leave(wide, &s, table);
    return refused(0);
}

static Answer second_unblock(bool wide, uint8_t *table, size_t length, unsigned node, unsigned port) {
    Shown s;
    unsigned number = tested(wide, table, length, &s);
    if (number) return refused(number);
    if (node >= nodes(&s)) return refused(4);
    if (!cube_has(&s, port)) return refused(6);
    s.enabled[node] |= 1u << port;
    leave(wide, &s, table);
    return refused(0);
}

static Answer second_arm(bool wide, uint8_t *table, size_t length, unsigned node, unsigned channel) {
    Shown s;
    unsigned number = tested(wide, table, length, &s);
    if (number) return refused(number);
    if (node >= nodes(&s)) return refused(4);
    if (channel > 7) return refused(5);
    s.armed[node] = (uint8_t)(s.armed[node] | 1u << channel);
    leave(wide, &s, table);
    return refused(0);
}

static Answer second_disarm(bool wide, uint8_t *table, size_t length, unsigned node, unsigned channel) {
    Shown s;
    unsigned number = tested(wide, table, length, &s);
    if (number) return refused(number);
    if (node >= nodes(&s)) return refused(4);
    if (channel > 7) return refused(5);
    if (s.receive[node][channel]) return refused(21);
    s.armed[node] = (uint8_t)(s.armed[node] & ~(1u << channel));
    leave(wide, &s, table);
    return refused(0);
}

/* Values: hops, receive channel, scouts. The path is handed on for the printed list. */
static Answer opened(bool wide, uint8_t *table, size_t length, unsigned node, unsigned channel, unsigned target, unsigned type, unsigned vector, Path *path) {
    Shown s;
    Answer answer = {0};
    unsigned number = tested(wide, table, length, &s);
    if (number) return refused(number);
    if (node >= nodes(&s) || target >= nodes(&s)) return refused(4);
    if (channel > 7) return refused(5);
    if (type != 0 && type != 1 && type != 3 && type != 4) return refused(7);
    if (vector == 0 || vector >= nodes(&s)) return refused(8);
    unsigned circuit = circuit_number(node, channel);
    if (is_open(&s, circuit)) return refused(9);

    path->target = target;
    if (!search(&s, is_free, node, type, vector, path, &answer.scouts)) {
        uint32_t ignored;
        answer.number = search(&s, not_blocked, node, type, vector, path, &ignored) ? 10 : 22;
        return answer;
    }
    unsigned receive = 0;
    while (receive < CHANNELS && !available(&s, target, receive)) receive++;
    if (receive == CHANNELS) {
        answer.number = 11;
        return answer;
    }
    for (unsigned hop = 0, at = node; hop < path->hops; at = behind(at, path->port[hop]), hop++) s.link[at][path->port[hop]] = (uint16_t)circuit;
    s.receive[target][receive] = (uint16_t)circuit;
    leave(wide, &s, table);
    answer.first = (uint16_t)path->hops;
    answer.second = (uint16_t)receive;
    return answer;
}

static Answer second_open(bool wide, uint8_t *table, size_t length, unsigned node, unsigned channel, unsigned target, unsigned type, unsigned vector) {
    Path path;
    return opened(wide, table, length, node, channel, target, type, vector, &path);
}

static Answer second_close(bool wide, uint8_t *table, size_t length, unsigned node, unsigned channel) {
    Shown s;
    unsigned number = tested(wide, table, length, &s);
    if (number) return refused(number);
    if (node >= nodes(&s)) return refused(4);
    if (channel > 7) return refused(5);
    unsigned circuit = circuit_number(node, channel);
    if (!is_open(&s, circuit)) return refused(12);
    for (unsigned at = 0; at < nodes(&s); at++) {
        for (unsigned port = 0; port < PORTS; port++)
            if (s.link[at][port] == circuit) s.link[at][port] = 0;
        for (unsigned receive = 0; receive < CHANNELS; receive++)
            if (s.receive[at][receive] == circuit) {
                s.receive[at][receive] = 0;
                s.armed[at] = (uint8_t)(s.armed[at] & ~(1u << receive));
            }
    }
    leave(wide, &s, table);
    return refused(0);
}

/* Value: hops. */
static Answer second_trace(bool wide, const uint8_t *table, size_t length, unsigned node, unsigned channel, uint8_t *buffer, size_t room) {
    Shown s;
    Path path;
    unsigned number = tested(wide, table, length, &s);
    if (number) return refused(number);
    if (node >= nodes(&s)) return refused(4);
    if (channel > 7) return refused(5);
    if (!is_open(&s, circuit_number(node, channel))) return refused(12);
    if (room < LONGEST) return refused(14);
    path_of(&s, circuit_number(node, channel), &path);
    memcpy(buffer, path.port, path.hops);
    return (Answer){.first = (uint16_t)path.hops};
}

static Answer second_fold(uint8_t *table, size_t length, unsigned mask) {
    Shown s, before;
    unsigned number = tested(true, table, length, &s);
    if (number) return refused(number);
    if (mask >= nodes(&s)) return refused(6);
    before = s;
    s.folded = mask;
    for (unsigned node = 0; node < nodes(&s); node++)
        for (unsigned port = 9; port < PORTS; port++) {
            if (s.link[node][port] && !cube_has(&s, port)) return refused(13);
            if (cube_has(&s, port) && !cube_has(&before, port)) s.enabled[node] |= 1u << port;
            if (!cube_has(&s, port)) s.enabled[node] &= ~(1u << port);
        }
    leave(true, &s, table);
    return refused(0);
}

/* Jobs. Value: sends. */
static Answer second_open_all(bool wide, uint8_t *table, size_t length, const uint8_t *sends, size_t bytes) {
    Shown s;
    uint8_t copy[14338];
    unsigned number = tested(wide, table, length, &s);
    if (number) return refused(number);
    if (bytes % 10 || bytes > JOB) return refused(28);
    memcpy(copy, table, length);
    for (size_t at = 0; at < bytes; at += 10) {
        unsigned field[5];
        for (unsigned i = 0; i < 5; i++) field[i] = low_first(sends + at + 2 * i);
        Answer answer = second_open(wide, copy, length, field[0], field[1], field[2], field[3], field[4]);
        if (answer.number) return (Answer){.number = answer.number, .first = (uint16_t)(at / 10)};
    }
    memcpy(table, copy, length);
    return (Answer){.first = (uint16_t)(bytes / 10)};
}

/* Books. Values: circuits, hops. */
static Answer second_book(bool wide, const uint8_t *table, size_t length, uint8_t *ports, size_t ports_room, uint8_t *index, size_t index_room) {
    Shown s;
    Path path;
    unsigned number = tested(wide, table, length, &s), circuits = 0, hops = 0;
    if (number) return refused(number);
    for (unsigned circuit = 1; circuit <= 8 * nodes(&s); circuit++) {
        if (!is_open(&s, circuit)) continue;
        path_of(&s, circuit, &path);
        circuits++;
        hops += path.hops;
    }
    if (ports_room < hops || index_room < 6 * circuits) return refused(23);
    Answer answer = {.first = (uint16_t)circuits, .second = (uint16_t)hops};
    for (unsigned circuit = 1, offset = 0; circuit <= 8 * nodes(&s); circuit++) {
        if (!is_open(&s, circuit)) continue;
        path_of(&s, circuit, &path);
        put_low_first(index, circuit);
        put_low_first(index + 2, offset);
        put_low_first(index + 4, path.hops);
        memcpy(ports + offset, path.port, path.hops);
        index += 6;
        offset += path.hops;
    }
    return answer;
}

static bool well_formed(size_t ports_length, const uint8_t *index, size_t index_length, unsigned circuits, unsigned hops) {
    unsigned before = 0, sum = 0;
    if (index_length < 6 * (size_t)circuits || ports_length < hops) return false;
    for (unsigned i = 0; i < circuits; i++, index += 6) {
        unsigned circuit = low_first(index), offset = low_first(index + 2), line = low_first(index + 4);
        if (circuit <= before || circuit > CIRCUITS || line < 1 || line > LONGEST || offset != sum) return false;
        before = circuit;
        sum += line;
    }
    return sum == hops;
}

/* Value: hops. */
static Answer second_lookup(const uint8_t *ports, size_t ports_length, const uint8_t *index, size_t index_length, unsigned circuits, unsigned hops,
                            unsigned circuit, uint8_t *buffer, size_t room) {
    if (!well_formed(ports_length, index, index_length, circuits, hops)) return refused(25);
    for (unsigned i = 0; i < circuits; i++, index += 6)
        if (low_first(index) == circuit) {
            if (room < LONGEST) return refused(14);
            memcpy(buffer, ports + low_first(index + 2), low_first(index + 4));
            return (Answer){.first = (uint16_t)low_first(index + 4)};
        }
    return refused(12);
}

/* The ports of a line of a book as a permitted path of the cube, whatever its first hop: its source, target and hops (Judging 4). */
static bool line_of(const Shown *s, const uint8_t *ports, const uint8_t *line, unsigned *source, Path *path) {
    *source = (low_first(line) - 1) / 8;
    path->hops = low_first(line + 4);
    memcpy(path->port, ports + low_first(line + 2), path->hops);
    if (*source >= nodes(s)) return false;
    path->target = *source;
    for (unsigned hop = 0; hop < path->hops; hop++) {
        if (!cube_has(s, path->port[hop])) return false;
        path->target = behind(path->target, path->port[hop]);
    }
    for (unsigned hop = 0, at = *source; hop < path->hops; at = behind(at, path->port[hop]), hop++)
        if (hop > 0 && !(uphill(s, at, path->target) >> path->port[hop] & 1)) return false;
    return true;
}

static Answer second_judge(bool wide, const uint8_t *table, size_t length, const uint8_t *ports, size_t ports_length, const uint8_t *index,
                           size_t index_length, unsigned circuits, unsigned hops) {
    Shown s;
    Path path;
    unsigned source, number = tested(wide, table, length, &s);
    if (number) return refused(number);
    if (!well_formed(ports_length, index, index_length, circuits, hops)) return refused(25);
    for (unsigned i = 0; i < circuits; i++) {
        if (!line_of(&s, ports, index + 6 * i, &source, &path) || is_open(&s, low_first(index + 6 * i))) return refused(26);
    }
    for (unsigned i = 0; i < circuits; i++) {
        line_of(&s, ports, index + 6 * i, &source, &path);
        for (unsigned hop = 0, at = source; hop < path.hops; at = behind(at, path.port[hop]), hop++) {
            if (!is_free(&s, at, path.port[hop])) return refused(27);
            s.link[at][path.port[hop]] = (uint16_t)low_first(index + 6 * i);
        }
    }
    for (unsigned i = 0; i < circuits; i++) {
        unsigned receive = 0;
        line_of(&s, ports, index + 6 * i, &source, &path);
        while (receive < CHANNELS && !available(&s, path.target, receive)) receive++;
        if (receive == CHANNELS) return refused(11);
        s.receive[path.target][receive] = (uint16_t)low_first(index + 6 * i);
    }
    return refused(0);
}

/* Joining. */
static Answer second_join(const uint8_t *first, size_t first_length, const uint8_t *second, size_t second_length, uint8_t *third, size_t third_length) {
    Shown half[2], whole = {0};
    unsigned number = tested(false, first, first_length, &half[0]);
    if (number == 0) number = tested(false, second, second_length, &half[1]);
    if (number) return refused(number);
    if (third_length != table_length(false)) return refused(1);
    if (half[0].dimension != half[1].dimension || half[0].dimension == 8) return refused(29);
    unsigned size = nodes(&half[0]);
    whole.dimension = half[0].dimension + 1;
    for (unsigned node = 0; node < 2 * size; node++) {
        const Shown *from = &half[node / size];
        unsigned old = node % size, more = node / size * 8 * size;
        whole.enabled[node] = from->enabled[old] | 1u << from->dimension;
        whole.armed[node] = from->armed[old];
        for (unsigned port = 0; port < PORTS; port++)
            if (from->link[old][port]) whole.link[node][port] = (uint16_t)(from->link[old][port] + more);
        for (unsigned channel = 0; channel < CHANNELS; channel++)
            if (from->receive[old][channel]) whole.receive[node][channel] = (uint16_t)(from->receive[old][channel] + more);
    }
    leave(false, &whole, third);
    return refused(0);
}

/* Widen and narrow. */
static Answer second_convert(bool from_wide, const uint8_t *from, size_t from_length, uint8_t *to, size_t to_length) {
    Shown s;
    unsigned number = tested(from_wide, from, from_length, &s);
    if (number) return refused(number);
    if (to_length != table_length(!from_wide)) return refused(1);
    if (s.folded) return refused(24);
    leave(!from_wide, &s, to);
    return refused(0);
}

/* Words. */

/* The largest number that a command carries, or -1 where the command is reserved or none. */
static int carried_most(unsigned command) {
    static const int most[16] = {0, 0, 0, -1, 1, 0, 63, 63, 0, 1, -1, -1, 0, 0, 1, -1};
    return command < 16 ? most[command] : -1;
}

/* Values: command, number carried. */
static Answer second_word_read(unsigned word) {
    unsigned type = word / 1024, command = word / 64 % 16;
    if (word > 4095) return refused(15);
    if (type < 2) return refused(16);
    if (type != (command < 8 ? 2u : 3u)) return refused(17);
    if (carried_most(command) < 0) return refused(18);
    return (Answer){.first = (uint16_t)command, .second = (uint16_t)(word % 64 % (unsigned)(carried_most(command) + 1))};
}

/* Value: word. */
static Answer second_word_write(unsigned command, unsigned carried) {
    if (carried_most(command) < 0) return refused(18);
    if (carried > (unsigned)carried_most(command)) return refused(19);
    return (Answer){.first = (uint16_t)((command < 8 ? 2u : 3u) * 1024 + command * 64 + carried)};
}

/* Arbiter. Value: requester. */
static Answer second_arbitrate(uint16_t *record, uint32_t requests) {
    if (requests >> 26 || *record > 25) return refused(31);
    for (unsigned step = 1; step <= 26; step++) {
        unsigned requester = (*record + step) % 26;
        if (requests >> requester & 1) {
            *record = (uint16_t)requester;
            return (Answer){.first = *record};
        }
    }
    return (Answer){.first = 26};
}

/* Receiver. */

typedef struct {
    uint32_t address, count;
    uint8_t running, overflow, ignores;
} Channel;

static Channel second_receive_start(uint32_t address, uint32_t count, unsigned ignores) {
    return (Channel){.address = address, .count = count, .running = 1, .overflow = 0, .ignores = ignores != 0};
}

static unsigned second_receive_data(Channel *channel) {
    if (!channel->running) return 30;
    channel->overflow = channel->overflow || channel->count == 0;
    if (!channel->overflow) channel->address += 8;
    channel->count -= 1;
    return 0;
}

static unsigned second_receive_word(Channel *channel, unsigned word) {
    Answer read = second_word_read(word);
    if (read.number) return read.number;
    if (!channel->running) return 30;
    if (read.first == 9 || (read.first == 8 && !channel->ignores)) channel->running = 0;
    return 0;
}

static uint32_t second_receive_overshoot(const Channel *channel) { return channel->overflow ? 0 - channel->count : 0; }

/* Listing. */

/* A number of a field (Listing 7), or -1. */
static long number_of(const uint8_t *field, size_t length) {
    long value = 0;
    if (length < 1 || length > 5 || (length > 1 && field[0] == '0')) return -1;
    for (size_t i = 0; i < length; i++) {
        if (field[i] < '0' || field[i] > '9') return -1;
        value = 10 * value + (field[i] - '0');
    }
    return value <= 65535 ? value : -1;
}

/* The numbers behind the letter of a line, as many as its letter takes; false where it cannot be read. */
static bool readable(const uint8_t *line, size_t length, unsigned number[5]) {
    static const char letters[] = "FBERDSCM";
    static const size_t counts[] = {1, 2, 2, 2, 2, 5, 2, 1};
    size_t at = 1, count = 0;
    if (length < 1 || length > 40 || line[0] == 0 || !strchr(letters, line[0])) return false;
    while (at < length) {
        size_t end = at + 1;
        if (line[at] != ' ' || count == 5) return false;
        while (end < length && line[end] != ' ') end++;
        long value = number_of(line + at + 1, end - at - 1);
        if (value < 0) return false;
        number[count++] = (unsigned)value;
        at = end;
    }
    return count == counts[strchr(letters, line[0]) - letters];
}

static size_t print_line(uint8_t *table, unsigned long place, const uint8_t *line, size_t length, char *out) {
    const size_t all = table_length(true);
    unsigned n[5] = {0};
    Answer answer = {0};
    Path path = {0};
    char channel[8] = "-", receive[8] = "-", scouts[12] = "-", ports[LONGEST + 1] = "-";
    if (!readable(line, length, n)) return (size_t)sprintf(out, "%lu - 20 - - - - -\n", place);
    switch (line[0]) {
    case 'F': answer = second_make(true, table, all, n[0]); break;
    case 'B': answer = second_block(true, table, all, n[0], n[1]); break;
    case 'E': answer = second_unblock(true, table, all, n[0], n[1]); break;
    case 'R': answer = second_arm(true, table, all, n[0], n[1]); break;
    case 'D': answer = second_disarm(true, table, all, n[0], n[1]); break;
    case 'S': answer = opened(true, table, all, n[0], n[1], n[2], n[3], n[4], &path); break;
    case 'C': answer = second_close(true, table, all, n[0], n[1]); break;
    default: answer = second_fold(table, all, n[0]);
    }
    if (line[0] == 'F' || line[0] == 'M') return (size_t)sprintf(out, "%lu %c %u - - - - -\n", place, line[0], answer.number);
    if (line[0] == 'B' || line[0] == 'E') return (size_t)sprintf(out, "%lu %c %u %u - - - %u\n", place, line[0], answer.number, n[0], n[1]);
    sprintf(channel, "%u", n[1]);
    if (line[0] == 'S') {
        if (answer.number == 0 || answer.number == 10 || answer.number == 11 || answer.number == 22) sprintf(scouts, "%lu", (unsigned long)answer.scouts);
        if (answer.number == 0) {
            sprintf(receive, "%u", answer.second);
            for (unsigned hop = 0; hop < path.hops; hop++) ports[hop] = "0123456789abcdefgh"[path.port[hop]];
            ports[path.hops] = 0;
        }
    }
    return (size_t)sprintf(out, "%lu %c %u %u %s %s %s %s\n", place, line[0], answer.number, n[0], channel, receive, scouts, ports);
}

/* The list of an input. The output has room for LIST_OUT bytes and a zero that is no part of it. */
static size_t second_list(const uint8_t *input, size_t length, char *out) {
    uint8_t table[14338];
    size_t written, at = 0;
    if (length > LIST_IN) return (size_t)sprintf(out, "too long\n");
    written = (size_t)sprintf(out, "line call answer node channel receive scouts ports\n");
    second_make(true, table, sizeof table, 1);
    for (unsigned long place = 1; at < length; place++) {
        size_t end = at;
        while (end < length && input[end] != '\n') end++;
        written += print_line(table, place, input + at, end - at, out + written);
        at = end + 1;
    }
    return written;
}
