/* The second router (second_router.c), beside the library: answer for answer and byte for byte, on random calls of every kind, with tables that are damaged, books and
 * lists that are wrong, and arguments at every edge; and on all command words.
 *
 *     second [SEED]                runs the streams of calls from that seed on, and prints how many agreed
 *     second calls SEED LINES      prints an input of the listing program
 *     second list < input          prints the second router's list of it */

#include "second_router.c"

#include "draw.h"
#include "expect.h"
#include "near.h"
#include "subject.h"

#include <stdlib.h>

enum { TABLES = 3, ROOM = 14340, PORTS_ROOM = 4200, INDEX_ROOM = 12300, BUFFER_ROOM = 12, RECENT = 16 };

/* What is lent for writing; each router has its own. */
struct lent {
    uint8_t table[TABLES][ROOM], ports[PORTS_ROOM], index[INDEX_ROOM], buffer[BUFFER_ROOM];
};

static struct lent mine, theirs, kept;
static uint8_t sends[JOB + 20];

enum call { MAKE, BLOCK, UNBLOCK, ARM, DISARM, OPEN, CLOSE, TRACE, OPEN_ALL, BOOK, LOOKUP, JUDGE, JOIN, WIDEN, NARROW, FOLD, CALLS };

/* A call's name, and the numbers that it answers (Calls 1), all of which are to be seen. */
static const struct {
    const char *name;
    uint32_t numbers;
} rows[CALLS] = {
#define N(number) | 1u << number
    {"make", 0 N(0) N(1) N(2)},
    {"block", 0 N(0) N(1) N(2) N(3) N(4) N(6) N(13)},
    {"unblock", 0 N(0) N(1) N(2) N(3) N(4) N(6)},
    {"arm", 0 N(0) N(1) N(2) N(3) N(4) N(5)},
    {"disarm", 0 N(0) N(1) N(2) N(3) N(4) N(5) N(21)},
    {"open", 0 N(0) N(1) N(2) N(3) N(4) N(5) N(7) N(8) N(9) N(10) N(11) N(22)},
    {"close", 0 N(0) N(1) N(2) N(3) N(4) N(5) N(12)},
    {"trace", 0 N(0) N(1) N(2) N(3) N(4) N(5) N(12) N(14)},
    {"open_all", 0 N(0) N(1) N(2) N(3) N(28) N(4) N(5) N(7) N(8) N(9) N(10) N(11) N(22)},
    {"book", 0 N(0) N(1) N(2) N(3) N(23)},
    {"lookup", 0 N(0) N(25) N(12) N(14)},
    {"judge", 0 N(0) N(1) N(2) N(3) N(25) N(26) N(27) N(11)},
    {"join", 0 N(0) N(1) N(2) N(3) N(29)},
    {"widen", 0 N(0) N(1) N(2) N(3)},
    {"narrow", 0 N(0) N(1) N(2) N(3) N(24)},
    {"fold", 0 N(0) N(1) N(2) N(3) N(6) N(13)},
#undef N
};

/* The stream: its kind, dimension and fold mask, the sends that were opened last, the counts of the book that was written last. */
static bool wide;
static unsigned dimension, folded, recent[RECENT], recents, book_circuits, book_hops;
static unsigned long calls, answered[2][CALLS][32];

static unsigned of(unsigned count, const unsigned *values) {
    return values[below(count)];
}

static bool one_in(unsigned count) {
    return below(count) == 0;
}

static unsigned some_node(void) {
    const unsigned size = 1u << dimension, edges[] = {size, size + 1, 2 * size, 255, 256, 256 + below(size), 65535, size - 1};
    return one_in(24) ? of(8, edges) : below(size);
}

static unsigned some_channel(void) {
    const unsigned edges[] = {8, 9, 16, 255, 256, 257, 65535, 7};
    return one_in(24) ? of(8, edges) : below(8);
}

static unsigned some_port(void) {
    const unsigned edges[] = {dimension, 17 - dimension, 8, 9, 18, 255, 256, 65535};
    return one_in(16) ? of(8, edges) : wide && one_in(2) ? 17 - below(dimension) : below(dimension);
}

static unsigned some_type(void) {
    const unsigned types[] = {0, 1, 3, 4}, edges[] = {2, 5, 6, 7, 256, 257, 260, 65535};
    return one_in(24) ? of(8, edges) : of(4, types);
}

static unsigned some_vector(void) {
    const unsigned size = 1u << dimension, edges[] = {0, size, size + 1, 1u << below(16), 256, 65535, 65535 - size + 1, size - 1};
    return one_in(24) ? of(8, edges) : 1 + below(size - 1);
}

static unsigned some_circuit(void) {
    const unsigned edges[] = {0, 8u << dimension, (8u << dimension) + 1, 2048, 2049, 65535};
    if (book_circuits && one_in(2)) return low_first(mine.index + 6 * below(book_circuits));
    return one_in(8) ? of(6, edges) : recents && !one_in(4) ? recent[below(recents)] : 1 + below(8u << dimension);
}

static size_t some_length(bool of_wide) {
    const size_t right = table_length(of_wide), edges[] = {0, 1, right - 1, right + 1, table_length(!of_wide), 2};
    return one_in(60) ? edges[below(6)] : right;
}

static size_t some_room(size_t right, size_t most) {
    return one_in(2) ? most : one_in(3) ? right : one_in(2) && right > 0 ? right - 1 : below((unsigned)most + 1);
}

/* A path from a source: most of them are permitted, the others not quite. */
static unsigned some_path(unsigned source, uint8_t port[LONGEST + 1]) {
    unsigned target = below(1u << dimension), at = source, hops = 0, wrong = one_in(6) ? below(4) : 99;
    do {
        unsigned next;
        do next = folded && one_in(2) ? 17 - below(dimension) : below(dimension);
        while ((next > 8 && !(folded >> axis(next) & 1)) || (hops > 0 && hops != wrong && at != target && !((at ^ target) >> axis(next) & 1)));
        port[hops++] = (uint8_t)next;
        at = behind(at, next);
    } while (hops < LONGEST && (at != target || one_in(12)));
    return hops;
}

static void put(uint8_t *in_mine, const uint8_t *bytes, size_t length) {
    memcpy(in_mine, bytes, length);
    memcpy((uint8_t *)&theirs + (in_mine - (uint8_t *)&mine), bytes, length);
}

/* A book that was written by hand. */
static void lay_book(void) {
    uint8_t ports[PORTS_ROOM] = {0}, index[INDEX_ROOM];
    unsigned number = 1 + below(8), offset = 0, circuits = 0;
    for (; circuits < 12 && number <= (8u << dimension) + (one_in(6) ? 9 : 0); circuits++, number += 1 + below(one_in(3) ? 3 : 4u << dimension)) {
        unsigned hops = some_path((number - 1) / 8 % (1u << dimension), ports + offset);
        if (one_in(60)) ports[offset + below(hops)] = (uint8_t)below(20);
        if (one_in(60)) hops = one_in(2) ? 0 : LONGEST + 1;
        put_low_first(index + 6 * circuits, number);
        put_low_first(index + 6 * circuits + 2, offset);
        put_low_first(index + 6 * circuits + 4, hops);
        offset += hops;
    }
    put(mine.ports, ports, offset);
    put(mine.index, index, 6 * circuits);
    book_circuits = circuits;
    book_hops = offset;
}

/* Somebody else writes to a table: a circuit, or a few bytes. */
static void damage(unsigned t) {
    const size_t length = table_length(wide), links = wide ? 770 : 257, ports = wide ? 18 : 8;
    uint8_t bytes[ROOM], port[LONGEST + 1];
    Shown s;
    memcpy(bytes, mine.table[t], ROOM);
    show(wide, bytes, &s);
    if (one_in(2)) {
        unsigned circuit = 1 + below(8u << dimension), at = (circuit - 1) / 8, hops = some_path(at, port), channel = below(8);
        for (unsigned hop = 0; hop < hops; at = behind(at, port[hop]), hop++) {
            s.link[at][port[hop]] = (uint16_t)circuit;
            s.enabled[at] |= 1u << port[hop];
        }
        if (one_in(24)) s.link[below(1u << dimension)][below(dimension)] = (uint16_t)circuit;
        if (one_in(24)) s.receive[below(1u << dimension)][below(8)] = (uint16_t)circuit;
        if (one_in(24)) at = below(1u << dimension);
        if (!one_in(24)) s.receive[at][channel] = (uint16_t)circuit;
        if (!one_in(24)) s.armed[at] = (uint8_t)(s.armed[at] | 1u << channel);
        leave(wide, &s, bytes);
    } else {
        for (unsigned count = 1 + below(2); count > 0; count--) {
            size_t node = below(one_in(6) ? 256 : 1u << dimension), place = below((unsigned)length);
            switch (below(8)) {
            case 0: place = below(2); break;
            case 1: place = (wide ? 2 + 3 * node : 1 + node) + below(wide ? 3 : 1); break;
            case 2:
            case 3: place = links + 2 * (ports * node + below((unsigned)ports)); break;
            case 4: place = links + 512 * ports + 16 * node + 2 * below(8); break;
            case 5: place = length - 256 + node; break;
            case 6: place = links + 2 * (ports * node + below((unsigned)ports)) + 1; break;
            default: break;
            }
            if (one_in(3)) bytes[place] = (uint8_t)below(256);
            else if (one_in(2)) bytes[place] = (uint8_t)(bytes[place] ^ 1u << below(8));
            else bytes[place] = (uint8_t)(recents ? recent[below(recents)] : 0);
        }
    }
    put(mine.table[t], bytes, ROOM);
}

static void lay_sends(size_t bytes) {
    for (size_t at = 0; at + 10 <= bytes; at += 10) {
        unsigned node = some_node();
        put_low_first(sends + at, node);
        put_low_first(sends + at + 2, some_channel());
        put_low_first(sends + at + 4, near_to(folded, node, some_node()));
        put_low_first(sends + at + 6, one_in(8) ? some_type() : 0);
        put_low_first(sends + at + 8, some_vector());
    }
}

/* Both routers make one call. Whether they agree in everything; where not, it is printed. */
static bool agree(enum call call, unsigned t, const unsigned n[5], const size_t length[3]) {
    Answer a = {0};
    unsigned number = 0, first = 0, second = 0;
    unsigned long scouts = 0;
    uint8_t *own = mine.table[t], *lent = theirs.table[t];
    const uint16_t m[5] = {(uint16_t)n[0], (uint16_t)n[1], (uint16_t)n[2], (uint16_t)n[3], (uint16_t)n[4]};
    maze_opened opened;
    maze_opened_all job;
    maze_traced traced;
    maze_booked booked;
    switch (call) {
    case MAKE:
        a = second_make(wide, own, length[0], n[0]);
        number = (wide ? maze_wide_make : maze_make)(lent, length[0], m[0]);
        break;
    case BLOCK:
        a = second_block(wide, own, length[0], n[0], n[1]);
        number = (wide ? maze_wide_block : maze_block)(lent, length[0], m[0], m[1]);
        break;
    case UNBLOCK:
        a = second_unblock(wide, own, length[0], n[0], n[1]);
        number = (wide ? maze_wide_unblock : maze_unblock)(lent, length[0], m[0], m[1]);
        break;
    case ARM:
        a = second_arm(wide, own, length[0], n[0], n[1]);
        number = (wide ? maze_wide_arm : maze_arm)(lent, length[0], m[0], m[1]);
        break;
    case DISARM:
        a = second_disarm(wide, own, length[0], n[0], n[1]);
        number = (wide ? maze_wide_disarm : maze_disarm)(lent, length[0], m[0], m[1]);
        break;
    case OPEN:
        a = second_open(wide, own, length[0], n[0], n[1], n[2], n[3], n[4]);
        opened = (wide ? maze_wide_open : maze_open)(lent, length[0], m[0], m[1], m[2], m[3], m[4]);
        number = opened.number, first = opened.hops, second = opened.receive, scouts = opened.scouts;
        break;
    case CLOSE:
        a = second_close(wide, own, length[0], n[0], n[1]);
        number = (wide ? maze_wide_close : maze_close)(lent, length[0], m[0], m[1]);
        break;
    case TRACE:
        a = second_trace(wide, own, length[0], n[0], n[1], mine.buffer, length[1]);
        traced = (wide ? maze_wide_trace : maze_trace)(lent, length[0], m[0], m[1], theirs.buffer, length[1]);
        number = traced.number, first = traced.hops;
        break;
    case OPEN_ALL:
        a = second_open_all(wide, own, length[0], sends, length[1]);
        job = (wide ? maze_wide_open_all : maze_open_all)(lent, length[0], sends, length[1]);
        number = job.number, first = job.sends;
        break;
    case BOOK:
        a = second_book(wide, own, length[0], mine.ports, length[1], mine.index, length[2]);
        booked = (wide ? maze_wide_book : maze_book)(lent, length[0], theirs.ports, length[1], theirs.index, length[2]);
        number = booked.number, first = booked.circuits, second = booked.hops;
        break;
    case LOOKUP:
        a = second_lookup(mine.ports, length[1], mine.index, length[2], n[0], n[1], n[2], mine.buffer, length[0]);
        traced = maze_book_lookup(theirs.ports, length[1], theirs.index, length[2], m[0], m[1], m[2], theirs.buffer, length[0]);
        number = traced.number, first = traced.hops;
        break;
    case JUDGE:
        a = second_judge(wide, own, length[0], mine.ports, length[1], mine.index, length[2], n[0], n[1]);
        number = (wide ? maze_wide_judge : maze_judge)(lent, length[0], theirs.ports, length[1], theirs.index, length[2], m[0], m[1]);
        break;
    case JOIN:
        a = second_join(mine.table[n[0]], length[0], mine.table[n[1]], length[1], mine.table[2], length[2]);
        number = maze_join(theirs.table[n[0]], length[0], theirs.table[n[1]], length[1], theirs.table[2], length[2]);
        break;
    case WIDEN:
        a = second_convert(false, mine.table[n[0]], length[0], mine.table[n[1]], length[1]);
        number = maze_widen(theirs.table[n[0]], length[0], theirs.table[n[1]], length[1]);
        break;
    case NARROW:
        a = second_convert(true, mine.table[n[0]], length[0], mine.table[n[1]], length[1]);
        number = maze_narrow(theirs.table[n[0]], length[0], theirs.table[n[1]], length[1]);
        break;
    default:
        a = second_fold(own, length[0], n[0]);
        number = maze_wide_fold(lent, length[0], m[0]);
        break;
    }
    calls++;
    answered[wide][call][a.number]++;
    if (a.number == 0 && call == OPEN) {
        recent[recents < RECENT ? recents++ : below(RECENT)] = circuit_number(n[0], n[1]);
    } else if (a.number == 0 && call == BOOK) {
        book_circuits = a.first;
        book_hops = a.second;
    } else if (a.number == 0 && call == FOLD && t == 0) {
        folded = n[0];
    }
    if (a.number == number && a.first == first && a.second == second && a.scouts == scouts && memcmp(&mine, &theirs, sizeof mine) == 0) return true;
    printf("second: they differ, %s, dimension %u, mask %u: %s %u %u %u %u %u, lengths %zu %zu %zu: %u %u %u %lu, and here %u %u %u %lu\n", wide ? "wide" : "narrow", dimension, folded,
           rows[call].name, n[0], n[1], n[2], n[3], n[4], length[0], length[1], length[2], number, first, second, scouts, a.number, a.first, a.second, (unsigned long)a.scouts);
    for (size_t i = 0, shown = 0; i < sizeof mine && shown < 4; i++)
        if (((uint8_t *)&mine)[i] != ((uint8_t *)&theirs)[i]) printf("byte %zu of what is lent: %u, and here %u\n", i, ((uint8_t *)&theirs)[i], ((uint8_t *)&mine)[i]), shown++;
    return false;
}

/* One call of a stream, with arguments drawn for it. */
static bool step(enum call call, unsigned t) {
    unsigned n[5] = {0}, circuit;
    size_t length[3] = {some_length(wide), 0, 0};
    switch (call) {
    case MAKE: n[0] = one_in(3) ? of(5, (const unsigned[]){0, 9, 255, 256 + dimension, 65535}) : dimension; break;
    case BLOCK:
    case UNBLOCK: n[0] = some_node(), n[1] = some_port(); break;
    case ARM:
    case DISARM: n[0] = some_node(), n[1] = some_channel(); break;
    case OPEN:
        n[0] = some_node(), n[1] = some_channel(), n[2] = near_to(folded, n[0], some_node()), n[3] = some_type(), n[4] = some_vector();
        if (one_in(2) && !agree(ARM, t, (const unsigned[5]){n[2], below(8)}, (const size_t[3]){table_length(wide)})) return false;
        break;
    case CLOSE:
    case TRACE:
        circuit = recents && !one_in(4) ? recent[below(recents)] : 0;
        n[0] = circuit ? (circuit - 1) / 8 : some_node(), n[1] = circuit ? (circuit - 1) % 8 : some_channel();
        length[1] = one_in(8) ? below(BUFFER_ROOM + 1) : 9;
        break;
    case OPEN_ALL:
        length[1] = one_in(12) ? below(2) ? 641 + below(19) : below(660) : one_in(16) ? JOB : 10 * below(6);
        lay_sends(length[1]);
        break;
    case BOOK: length[1] = some_room(book_hops, PORTS_ROOM), length[2] = some_room(6 * book_circuits, INDEX_ROOM); break;
    case LOOKUP:
    case JUDGE:
        n[0] = one_in(12) ? of(5, (const unsigned[]){book_circuits + 1, book_circuits - 1u, 0, 65535, 10923}) % 65536 : book_circuits;
        n[1] = one_in(12) ? of(5, (const unsigned[]){book_hops + 1, book_hops - 1u, 0, 65535, 256 + book_hops}) % 65536 : book_hops;
        n[2] = some_circuit();
        length[1] = one_in(16) ? some_room(book_hops, PORTS_ROOM) : PORTS_ROOM, length[2] = one_in(16) ? some_room(6 * book_circuits, INDEX_ROOM) : INDEX_ROOM;
        if (call == LOOKUP) length[0] = one_in(6) ? below(BUFFER_ROOM + 1) : BUFFER_ROOM;
        break;
    case JOIN: n[0] = below(2), n[1] = below(2), length[0] = some_length(false), length[1] = some_length(false), length[2] = some_length(false); break;
    case WIDEN: n[0] = wide ? 2 : t, n[1] = wide ? t : 2, length[0] = some_length(false), length[1] = some_length(true); break;
    case NARROW: n[0] = wide ? t : 2, n[1] = wide ? 2 : t, length[0] = some_length(true), length[1] = some_length(false); break;
    default: n[0] = one_in(6) ? of(6, (const unsigned[]){1u << dimension, 255, 256, 65535, 1u << below(16), 256 + folded}) : one_in(2) ? folded : below(1u << dimension); break;
    }
    return agree(call, t, n, length);
}

/* A stream of so many calls: most of them on one table, some on a second. Whether the routers agree in all of them. */
static bool stream(bool of_wide, unsigned of_dimension, unsigned mask, unsigned count) {
    static const enum call often[] = {BLOCK,  BLOCK,    UNBLOCK,  DISARM, OPEN,  OPEN,  OPEN,   OPEN,   OPEN,  CLOSE, CLOSE, TRACE,
                                      TRACE,  OPEN_ALL, OPEN_ALL, BOOK,   BOOK,  JUDGE, JUDGE,  JUDGE,  JUDGE, LOOKUP, LOOKUP, JOIN,
                                      WIDEN,  NARROW,   FOLD,     ARM,    ARM};
    const unsigned places = sizeof often / sizeof *often;
    wide = of_wide, dimension = of_dimension, folded = mask, recents = 0, book_circuits = 0, book_hops = 0;
    for (size_t i = 0; i < sizeof mine; i++) ((uint8_t *)&mine)[i] = (uint8_t)(i * 7 + 3);
    theirs = mine;
    const bool all_armed = one_in(2);
    for (unsigned t = 0; t < 2; t++) {
        const size_t length[3] = {table_length(wide)};
        if (!agree(MAKE, t, (const unsigned[5]){dimension}, length) || (wide && !agree(FOLD, t, (const unsigned[5]){mask}, length))) return false;
        /* on some tables all channels are armed at first */
        for (unsigned node = 0; all_armed && node < 1u << dimension; node++) put(mine.table[t] + length[0] - NODES + node, &(uint8_t){255}, 1);
    }
    for (unsigned i = 0; i < count; i++) {
        unsigned t = one_in(4);
        enum call call = often[below(places)];
        if ((call == FOLD && !wide) || (call == OPEN_ALL && dimension == 8 && !one_in(4))) continue;
        if ((call == JUDGE || call == LOOKUP) && one_in(3)) lay_book();
        if ((call == JUDGE || call == LOOKUP) && one_in(12) && book_circuits) {
            size_t place = below(6 * book_circuits);
            put(mine.index + place, &(uint8_t){(uint8_t)(mine.index[place] + 1 + below(3))}, 1);
        }
        if (one_in(6)) {
            kept = mine;
            damage(t);
            for (unsigned more = 1 + below(3); more > 0; more--)
                if (!step((enum call)(TRACE + below(2) * (BOOK - TRACE)), t) || !step((enum call)below(CALLS - (wide ? 0 : 1)), t)) return false;
            if (one_in(16) ? false : !one_in(3) || second_trace(wide, mine.table[t], table_length(wide), 0, 8, NULL, 0).number != 5) mine = theirs = kept;
        }
        if (!step(call, t)) return false;
        if (one_in(200) && !step(MAKE, t)) return false;
    }
    return true;
}

static void words(void) {
    for (unsigned high = 0; high < 256; high++) {
        bool same = true;
        for (unsigned word = 256 * high; word < 256 * high + 256; word++) {
            Answer a = second_word_read(word);
            maze_word_read_answer b = maze_word_read((uint16_t)word);
            same = same && a.number == b.number && a.first == b.command && a.second == b.carried;
        }
        expect(same, "reading words", high, 0);
    }
    for (unsigned i = 0; i < 300; i++) {
        const unsigned command = i < 280 ? i : 65535 - (i - 280);
        bool same = true;
        for (unsigned j = 0; j < 300; j++) {
            unsigned carried = j < 280 ? j : 65535 - (j - 280);
            Answer a = second_word_write(command, carried);
            maze_word_written b = maze_word_write((uint16_t)command, (uint16_t)carried);
            same = same && a.number == b.number && a.first == b.word;
        }
        expect(same, "writing words", command, 0);
    }
}

static void arbiter(void) {
    uint16_t record = 0;
    maze_arbiter lent = {0};
    for (unsigned i = 0; i < 200; i++) {
        bool same = true;
        for (unsigned call = 0; call < 100; call++) {
            uint32_t requests = one_in(30) ? random_word() : one_in(20) ? 0 : random_word() & random_word() & (one_in(3) ? random_word() : ~0u) & ((1u << 26) - 1);
            if (one_in(4)) record = lent.last = (uint16_t)(one_in(20) ? below(65536) : below(28));
            Answer a = second_arbitrate(&record, requests);
            maze_served b = maze_arbitrate(&lent, requests);
            same = same && a.number == b.number && a.first == b.requester && record == lent.last;
        }
        expect(same, "arbitrating", i, 0);
    }
}

static bool same_channel(const Channel *a, const maze_receive_channel *b) {
    return a->address == b->address && a->count == b->count && a->running == b->running && a->overflow == b->overflow && a->ignores == b->ignores;
}

static void receiver(void) {
    static const unsigned ends[] = {3648, 3649, 3584, 2048, 2688, 4096, 0, 2240};
    for (unsigned i = 0; i < 1000; i++) {
        uint32_t address = one_in(2) ? 0xfffffff0u : random_word(), count = one_in(4) ? random_word() : below(6);
        uint16_t ignores = (uint16_t)(one_in(2) ? below(2) : 256 * below(4));
        Channel a = second_receive_start(address, count, ignores);
        maze_receive_channel b = maze_receive_start(address, count, ignores);
        bool same = same_channel(&a, &b);
        for (unsigned packet = 0; packet < 40; packet++) {
            maze_received after;
            unsigned number, word = one_in(2) ? of(8, ends) : below(4200);
            if (one_in(8)) {
                a.running = b.running = (uint8_t)below(256), a.overflow = b.overflow = (uint8_t)(below(2) * below(256)), a.ignores = b.ignores = (uint8_t)(below(2) * below(256));
            }
            if (one_in(3)) {
                number = second_receive_word(&a, word);
                after = maze_receive_word(b, (uint16_t)word);
            } else {
                number = second_receive_data(&a);
                after = maze_receive_data(b);
            }
            b = after.channel;
            same = same && number == after.number && same_channel(&a, &b) && second_receive_overshoot(&a) == maze_receive_overshoot(b);
        }
        expect(same, "a receive channel", i, 0);
    }
}

/* An input of the listing program: most lines can be read. */
static void print_calls(unsigned long lines) {
    static const char bad[] = " 0f9\r\t-+x";
    folded = 0, dimension = 1, wide = true;
    for (unsigned long i = 0; i < lines; i++) {
        char line[48];
        unsigned node = some_node(), source = some_node();
        int length;
        if (one_in(60)) {
            dimension = one_in(12) ? 8 : 1 + below(5);
            folded = 0;
            length = sprintf(line, "F %u", one_in(20) ? below(20) : dimension);
        } else if (one_in(20)) {
            folded = below(1u << dimension);
            length = sprintf(line, "M %u", one_in(20) ? below(600) : folded);
        } else if (one_in(5)) length = sprintf(line, "%c %u %u", one_in(3) ? 'E' : 'B', node, some_port());
        else if (one_in(3)) length = sprintf(line, "R %u %u", node, some_channel());
        else if (one_in(20)) length = sprintf(line, "D %u %u", node, some_channel());
        else if (one_in(5)) length = sprintf(line, "C %u %u", node, some_channel());
        else length = sprintf(line, "S %u %u %u %u %u", source, some_channel(), near_to((1u << dimension) - 1, source, node), some_type(), some_vector());
        if (one_in(25)) {
            int place = (int)below((unsigned)length + 1);
            switch (below(4)) {
            case 0: line[place] = (char)below(256); break;
            case 1: line[place] = bad[below(sizeof bad - 1)]; break;
            case 2: length = place; break;
            default: memmove(line + place + 1, line + place, (size_t)(length++ - place)), line[place] = bad[below(sizeof bad - 1)]; break;
            }
        }
        fwrite(line, 1, (size_t)length, stdout);
        if (i + 1 < lines || one_in(2)) putchar('\n');
    }
}

int main(int count, char **argument) {
    const uint64_t seed = count > 1 && argument[1][0] <= '9' ? strtoull(argument[1], NULL, 10) : 1;
    if (count == 4 && strcmp(argument[1], "calls") == 0) {
        random_state = strtoull(argument[2], NULL, 10);
        print_calls(strtoul(argument[3], NULL, 10));
        return 0;
    }
    if (count == 2 && strcmp(argument[1], "list") == 0) {
        static uint8_t input[LIST_IN + 1];
        static char out[LIST_OUT + 1];
        size_t length = fread(input, 1, sizeof input, stdin);
        return fwrite(out, 1, second_list(input, length, out), stdout) == 0;
    }
    random_state = seed;
    words();
    arbiter();
    receiver();
    for (unsigned of_dimension = 1; of_dimension <= 8; of_dimension++) {
        for (unsigned i = 0; i < 25; i++) expect(stream(false, of_dimension, 0, of_dimension == 8 ? 60 : 150), "a narrow stream", of_dimension, i);
        for (unsigned mask = 0; mask < 1u << of_dimension; mask++)
            for (unsigned i = 0; i < (of_dimension < 4 ? 6 : of_dimension < 7 ? 2 : 1); i++)
                expect(stream(true, of_dimension, mask, of_dimension == 8 ? 30 : of_dimension > 4 ? 80 : 150), "a wide stream", of_dimension, mask);
    }
    for (unsigned call = 0; call < CALLS; call++) {
        printf("%s", rows[call].name);
        for (unsigned number = 0; number < 32; number++) {
            const bool may = rows[call].numbers >> number & 1, did = answered[0][call][number] + answered[1][call][number] > 0;
            if (may) printf(", %u: %lu and %lu", number, answered[0][call][number], answered[1][call][number]);
            expect(may == did, "a number that a call answers", call, number);
        }
        putchar('\n');
    }
    printf("%lu calls on tables and books\n", calls);
    return verdict();
}
