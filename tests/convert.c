/* Narrow tables made wide and wide ones narrow, beside vectors worked by hand from Wide 10 to 14: all bytes written, each number at its edge, the order of
 * the tests over both tables, and that a refused conversion alters no byte; full tables and damaged ones of each dimension, there and back; a call of one kind lent a
 * table of the other; and lists of calls on a table and its converted one, which answer and leave the same. Behind everything lent a page lies that is not to be touched.
 *
 *     convert [steps [seed]]
 *
 * makes that many calls on a pair of tables of each dimension for the last part (3000 without an argument). */
#define _DEFAULT_SOURCE
#include "both.h"
#include "draw.h"
#include "expect.h"
#include "guarded.h"

enum { LARGEST = 14338, LONG = 65536 + LARGEST, BESIDE = 256, PORTS_BYTES = 2048, INDEX_BYTES = 12288, END = 256 };

/* What the tables at hand say; in front of it, what is lent. */
static uint8_t tables[KINDS][LARGEST], wanted[LARGEST];
static struct guarded lent[KINDS];

static unsigned other_of(unsigned kind) {
    return 1 - kind;
}

/* ---- a conversion, and what it left ---- */

static void fill(uint8_t *bytes, size_t count) {
    static unsigned times;
    times += 7;
    for (size_t i = 0; i < count; i++) bytes[i] = (uint8_t)(i * (2 * times + 1) + times);
}

/* The answer of a conversion of the table of a kind as it stands, read where it cannot be written. What was written is then in `tables` of the other kind where the
 * answer is 0. 99 where a byte has changed that may not. */
static unsigned converted(const struct calls *calls, unsigned kind, size_t length, size_t other_length) {
    static uint8_t before[BESIDE + LONG];
    const unsigned other = other_of(kind);
    uint8_t *from = last_of(lent[kind], length), *to = last_of(lent[other], other_length);
    const size_t known = length < kinds[kind].bytes ? length : kinds[kind].bytes;
    unsigned number;
    int good;
    fill(from, length);
    memcpy(from, tables[kind], known);
    fill(to - BESIDE, BESIDE + other_length);
    memcpy(before, to - BESIDE, BESIDE + other_length);
    may_be_written(lent[kind], 0);
    number = calls[kind].convert(from, length, to, other_length);
    may_be_written(lent[kind], 1);
    good = memcmp(to - BESIDE, before, BESIDE) == 0 && memcmp(from, tables[kind], known) == 0;
    if (number != 0) good &= memcmp(to, before + BESIDE, other_length) == 0;
    else memcpy(tables[other], to, kinds[other].bytes);
    return good ? number : 99;
}

static unsigned whole(unsigned kind) {
    return converted(library, kind, kinds[kind].bytes, kinds[other_of(kind)].bytes);
}

static void refused(const char *what, unsigned number, unsigned kind, size_t length, size_t other_length) {
    unsigned got = converted(library, kind, length, other_length);
    expect(got == number, what, number, got);
}

/* What a table of a kind says, byte by byte, as one of the other kind: by the layouts of Tables and Wide. */
static void say_as_other(unsigned kind, const uint8_t *table, uint8_t *other) {
    const struct kind *from = &kinds[kind], *to = &kinds[other_of(kind)];
    memset(other, 0, to->bytes);
    other[0] = table[0];
    for (unsigned node = 0; node < 256; node++) {
        other[to->enabled_at + to->mask_bytes * node] = table[from->enabled_at + from->mask_bytes * node];
        for (unsigned byte = 0; byte < 16; byte++) {
            other[to->links_at + 2 * to->ports * node + byte] = table[from->links_at + 2 * from->ports * node + byte];
            other[to->receives_at + 16 * node + byte] = table[from->receives_at + 16 * node + byte];
        }
        other[to->armed_at + node] = table[from->armed_at + node];
    }
}

/* The table of a kind as it stands is converted to these bytes and back to its own. */
static void there_and_back(const char *what, unsigned about, unsigned kind) {
    const unsigned other = other_of(kind);
    static uint8_t kept[LARGEST];
    unsigned got, at = 0;
    memcpy(kept, tables[kind], kinds[kind].bytes);
    got = whole(kind);
    while (at < kinds[other].bytes && tables[other][at] == wanted[at]) at++;
    expect(got == 0 && at == kinds[other].bytes, what, about, got == 0 ? at : got);
    fill(tables[kind], kinds[kind].bytes);
    got = whole(other);
    expect(got == 0 && memcmp(tables[kind], kept, kinds[kind].bytes) == 0, what, about, 1000 + got);
}

/* So from the narrow table, and then from the wide one that it became. */
static void both_ways(const char *what, unsigned about) {
    say_as_other(NARROW_KIND, tables[NARROW_KIND], wanted);
    there_and_back(what, about, NARROW_KIND);
    memcpy(tables[WIDE_KIND], wanted, kinds[WIDE_KIND].bytes);
    say_as_other(WIDE_KIND, tables[WIDE_KIND], wanted);
    there_and_back(what, about, WIDE_KIND);
}

/* ---- vectors by hand ---- */

struct place {
    unsigned at, value;
};

/* Places of a narrow table and of the wide one that it becomes, zero elsewhere. Each list goes up to its first entry of value 256. */
static const struct vector {
    const char *what;
    struct place narrow[24], wide[24];
} vectors[] = {
    {"made, dimension 1", {{0, 1}, {1, 1}, {2, 1}, {0, END}}, {{0, 1}, {2, 1}, {5, 1}, {0, END}}},
    {"made, dimension 2", {{0, 2}, {1, 3}, {2, 3}, {3, 3}, {4, 3}, {0, END}}, {{0, 2}, {2, 3}, {5, 3}, {8, 3}, {11, 3}, {0, END}}},
    {"everything blocked", {{0, 2}, {0, END}}, {{0, 2}, {0, END}}},
    /* example 3, dimension 1: from node 0 to itself, over ports 0 of nodes 0 and 1, to receive channel 3; channel 7 of node 1 armed too */
    {"out and back", {{0, 1}, {1, 1}, {2, 1}, {257, 1}, {273, 1}, {4359, 1}, {8449, 8}, {8450, 128}, {0, END}},
     {{0, 1}, {2, 1}, {5, 1}, {770, 1}, {806, 1}, {9992, 1}, {14082, 8}, {14083, 128}, {0, END}}},
    /* figure 7: links 1 to 5 and 3 to 7 blocked, circuit 1 over port 1 of node 0, 2 of node 2 and 0 of node 6 to channel 0 of node 7 */
    {"figure 7", {{0, 3}, {1, 7}, {2, 3}, {3, 7}, {4, 3}, {5, 7}, {6, 7}, {7, 7}, {8, 7}, {259, 1}, {293, 1}, {353, 1}, {4465, 1}, {8456, 1}, {0, END}},
     {{0, 3}, {2, 7}, {5, 3}, {8, 7}, {11, 3}, {14, 7}, {17, 7}, {20, 7}, {23, 7}, {772, 1}, {846, 1}, {986, 1}, {10098, 1}, {14089, 1}, {0, END}}},
    /* dimension 8, all blocked but port 7 of node 255, which circuit 2,048 = 8 * 256 holds, to channel 7 of node 127, and port 0 of node 200, which circuit 1,604 =
     * 6 * 256 + 68 holds, to channel 0 of node 201 */
    {"circuits of two bytes", {{0, 8}, {256, 128}, {4352, 8}, {6400, 8}, {8576, 128}, {201, 1}, {3457, 68}, {3458, 6}, {7569, 68}, {7570, 6}, {8650, 1}, {0, END}},
     {{0, 8}, {767, 128}, {9965, 8}, {12033, 8}, {14209, 128}, {602, 1}, {7970, 68}, {7971, 6}, {13202, 68}, {13203, 6}, {14283, 1}, {0, END}}},
};

static void run_vectors(void) {
    for (size_t i = 0; i < sizeof vectors / sizeof *vectors; i++) {
        memset(tables, 0, sizeof tables);
        memset(wanted, 0, sizeof wanted);
        for (const struct place *place = vectors[i].narrow; place->value != END; place++) tables[NARROW_KIND][place->at] = (uint8_t)place->value;
        for (const struct place *place = vectors[i].wide; place->value != END; place++) wanted[place->at] = (uint8_t)place->value;
        there_and_back(vectors[i].what, 0, NARROW_KIND);
        memcpy(tables[WIDE_KIND], wanted, kinds[WIDE_KIND].bytes);
        memcpy(wanted, tables[NARROW_KIND], kinds[NARROW_KIND].bytes);
        there_and_back(vectors[i].what, 1, WIDE_KIND);
    }
}

/* ---- tables of each dimension: everything blocked, armed, held ---- */

static void set_entry(uint8_t *table, unsigned at, unsigned circuit) {
    table[at] = (uint8_t)(circuit % 256);
    table[at + 1] = (uint8_t)(circuit / 256);
}

/* A circuit over the link of a port, on the receive channel of that number, in a narrow table. */
static void hold(unsigned node, unsigned port) {
    set_entry(tables[NARROW_KIND], 257 + 16 * node + 2 * port, 8 * node + port + 1);
    set_entry(tables[NARROW_KIND], 4353 + 16 * (node ^ 1u << port) + 2 * port, 8 * node + port + 1);
}

enum { BLOCKED = 1, ARMED = 2, HELD = 4 };

static void fresh(unsigned dimension, unsigned what) {
    uint8_t *table = tables[NARROW_KIND];
    memset(table, 0, 8705);
    table[0] = (uint8_t)dimension;
    for (unsigned node = 0; node < 1u << dimension; node++) {
        table[1 + node] = (uint8_t)(what & BLOCKED ? 0 : (1u << dimension) - 1);
        table[8449 + node] = (uint8_t)(what & (ARMED | HELD) ? 255 : 0);
        for (unsigned port = 0; what & HELD && port < dimension; port++) hold(node, port);
    }
}

static void whole_tables(void) {
    for (unsigned dimension = 1; dimension <= 8; dimension++) {
        static const unsigned all[] = {0, BLOCKED, ARMED, BLOCKED | ARMED, HELD};
        for (size_t i = 0; i < sizeof all / sizeof *all; i++) {
            fresh(dimension, all[i]);
            both_ways("a table of everything", 10 * dimension + all[i]);
        }
        /* one thing of each kind, at each node and slot */
        for (unsigned node = 0; node < 1u << dimension; node += node < 4 || node > (1u << dimension) - 4 ? 1 : 5)
            for (unsigned slot = 0; slot < 8; slot++) {
                fresh(dimension, 0);
                tables[NARROW_KIND][8449 + node] = (uint8_t)(1u << slot);
                if (slot < dimension) {
                    fresh(dimension, ARMED);
                    tables[NARROW_KIND][1 + node] ^= (uint8_t)(1u << slot);
                    if (slot > 0) hold(node, slot - 1);
                }
                both_ways("one thing in a table", 1000 * dimension + 8 * node + slot);
            }
    }
}

/* ---- refusals ---- */

static void lengths(void) {
    static const size_t wrong[] = {0, 1, 257, 770, 8449, 8704, 8706, 14082, 14337, 14339, 16384, 65536, 65536 + 8705, 65536 + 14338};
    for (unsigned kind = 0; kind < KINDS; kind++) {
        const unsigned bytes = kinds[kind].bytes, other = kinds[other_of(kind)].bytes;
        for (unsigned dimension = 1; dimension <= 8; dimension += 7) {
            fresh(dimension, HELD);
            whole(NARROW_KIND);
            for (size_t i = 0; i <= sizeof wrong / sizeof *wrong; i++) {
                /* the last of them is the length of the other kind */
                const size_t length = i < sizeof wrong / sizeof *wrong ? wrong[i] : other, written = i < sizeof wrong / sizeof *wrong ? wrong[i] : bytes;
                refused("a read table of length", 1, kind, length, other);
                refused("both of length", 1, kind, length, written);
                refused("a written table of length", 1, kind, bytes, written);
            }
        }
        refused("exchanged lengths", 1, kind, other, bytes);
        for (unsigned anywhere = 0; anywhere < 2; anywhere++) {
            uint8_t *none = (uint8_t *)(uintptr_t)anywhere;
            expect(library[kind].convert(none, 0, none, 0) == 1, "no tables", kind, anywhere);
            expect(library[kind].convert(tables[kind], bytes, none, 0) == 1, "no table to write", kind, anywhere);
            expect(library[kind].convert(none, 0, tables[other_of(kind)], other) == 1, "no table to read", kind, anywhere);
        }
    }
}

/* 1, 2 and 3 of the table read, 1 of the one written, then 24; each where later ones apply too. */
static void order(void) {
    for (unsigned kind = 0; kind < KINDS; kind++) {
        const unsigned bytes = kinds[kind].bytes, other = kinds[other_of(kind)].bytes;
        for (unsigned value = 0; value < 256; value++) {
            if (value >= 1 && value <= 8) continue;
            fresh(3, HELD);
            whole(NARROW_KIND);
            tables[kind][0] = (uint8_t)value;
            refused("dimension", 2, kind, bytes, other);
            refused("dimension, nowhere to write", 2, kind, bytes, other - 1);
            tables[kind][kinds[kind].armed_at] = 0; /* not sound either */
            if (kind == WIDE_KIND) tables[kind][1] = 1;
            refused("dimension, and not sound", 2, kind, bytes, other + 1);
            refused("a length before a dimension", 1, kind, bytes - 1, other);
        }
        fresh(3, HELD);
        whole(NARROW_KIND);
        tables[kind][kinds[kind].armed_at] ^= 1;
        refused("not sound", 3, kind, bytes, other);
        refused("not sound, nowhere to write", 3, kind, bytes, other - 1);
        if (kind == WIDE_KIND) tables[kind][1] = 4;
        refused("not sound, and folded", 3, kind, bytes, other);
        refused("not sound, folded, nowhere to write", 3, kind, bytes, bytes);
        tables[kind][kinds[kind].armed_at] ^= 1;
        if (kind == WIDE_KIND) refused("folded, nowhere to write", 1, kind, bytes, other - 1), refused("folded, and the other's length", 1, kind, bytes, bytes);
    }
}

/* Each fold mask of each dimension: 24, and the calls on the table keep it; one with a bit at or above the dimension is not sound. */
static void folded(void) {
    for (unsigned dimension = 1; dimension <= 8; dimension++) {
        uint8_t *wide = tables[WIDE_KIND];
        const unsigned last = (1u << dimension) - 1;
        fresh(dimension, HELD);
        whole(NARROW_KIND);
        for (unsigned mask = 255; mask >= 1; mask--) {
            wide[1] = (uint8_t)mask;
            refused("a fold mask", mask <= last ? 24 : 3, WIDE_KIND, 14338, 8705);
            if (mask > last) refused("a fold mask that is not sound, nowhere to write", 3, WIDE_KIND, 14338, 8704);
        }
        wide[1] = 0;
        expect(maze_wide_fold(wide, 14338, (uint16_t)last) == 0 && wide[1] == last, "folded", dimension, wide[1]);
        refused("folded", 24, WIDE_KIND, 14338, 8705);
        expect(maze_wide_close(wide, 14338, 0, 0) == 0 && maze_wide_block(wide, 14338, 0, 0) == 0 && maze_wide_unblock(wide, 14338, 0, 0) == 0, "calls on it", dimension, 0);
        expect(maze_wide_arm(wide, 14338, 1, 0) == 0 && maze_wide_open(wide, 14338, 0, 0, 1, 0, 1).number == 0 && wide[1] == last, "calls keep the mask", dimension, wide[1]);
        refused("a fold mask still", 24, WIDE_KIND, 14338, 8705);
        expect(maze_wide_fold(wide, 14338, 0) == 0 && whole(WIDE_KIND) == 0, "unfolded, and then it is narrow", dimension, wide[1]);
        expect(maze_wide_fold(wide, 14338, (uint16_t)last) == 0, "folded again", dimension, wide[1]);
        expect(maze_wide_make(wide, 14338, (uint16_t)dimension) == 0 && wide[1] == 0, "making clears it", dimension, wide[1]);
        expect(whole(WIDE_KIND) == 0, "and then it is narrow", dimension, 0);
        wide[1] = 255;
        expect(whole(NARROW_KIND) == 0 && wide[1] == 0, "widening clears it", dimension, wide[1]);
    }
}

/* Every call of one kind that is lent a sound table of the other, in as many bytes as that has: 1, nothing beside it, and no byte altered. */
static void other_kind(void) {
    static uint8_t kept[LARGEST], filled[INDEX_BYTES];
    uint8_t *const buffer = last_of(guarded(16), 16), *const ports = last_of(guarded(PORTS_BYTES), PORTS_BYTES), *const index = last_of(guarded(INDEX_BYTES), INDEX_BYTES), *const sends = last_of(guarded(20), 20);
    fill(filled, sizeof filled);
    memcpy(buffer, filled, 16);
    memcpy(ports, filled, PORTS_BYTES);
    memcpy(index, filled, INDEX_BYTES);
    memcpy(sends, filled, 20);
    for (unsigned kind = 0; kind < KINDS; kind++)
        for (unsigned dimension = 1; dimension <= 8; dimension++) {
            const unsigned bytes = kinds[other_of(kind)].bytes;
            uint8_t *table = last_of(lent[other_of(kind)], bytes);
            fresh(dimension, dimension % 2 ? HELD : ARMED);
            whole(NARROW_KIND);
            memcpy(table, tables[other_of(kind)], bytes);
            memcpy(kept, table, bytes);
            for (unsigned call = 0; call < CALLS; call++)
                for (unsigned large = 0; large < 2; large++) {
                    const uint16_t n = (uint16_t)(large ? 65535 : 0), first = (uint16_t)(large ? 65535 : call == MAKING ? dimension : 0);
                    struct arguments a = {(enum call_of)call, {first, n, n, n, (uint16_t)(large ? n : 1)}, sends, buffer, ports, index, 20, 16, PORTS_BYTES, INDEX_BYTES};
                    struct answer got = call_on(&library[kind], table, bytes, &a);
                    const struct answer one = {1, 0, 0, 0, 0};
                    const int same = memcmp(buffer, filled, 16) == 0 && memcmp(ports, filled, PORTS_BYTES) == 0 && memcmp(index, filled, INDEX_BYTES) == 0 && memcmp(sends, filled, 20) == 0;
                    expect(same_answer(&got, &one) && memcmp(table, kept, bytes) == 0 && same, "a call on a table of the other kind", 100 * dimension + call, got.number);
                }
        }
}

/* ---- damaged tables ---- */

/* The library beside the reference, on the table as it stands. */
static unsigned long damaged_sound, damaged_unsound;

static int as_reference(unsigned kind) {
    static uint8_t by_reference[LARGEST];
    const unsigned other = other_of(kind);
    const unsigned want = reference[kind].convert(tables[kind], kinds[kind].bytes, by_reference, kinds[other].bytes), got = whole(kind);
    if (want == 0) damaged_sound++;
    else damaged_unsound++;
    return got == want && (want != 0 || memcmp(tables[other], by_reference, kinds[other].bytes) == 0);
}

/* A table at each of its bytes, one bit or any change of it; of a wide one each bit, too, that is no port's. One check for each table; where it fails, the first wrong
 * place is named. */
static void damaged(void) {
    static uint8_t kept[KINDS][LARGEST];
    for (unsigned dimension = 1; dimension <= 8; dimension++)
        for (unsigned kind = 0; kind < KINDS; kind++) {
            const unsigned bytes = kinds[kind].bytes;
            unsigned long wrong = 0, first = 0;
            /* some circuits over one link each, beside free links and blocked ones; of the channels that are not held some armed */
            fresh(dimension, ARMED);
            for (unsigned node = 0; node < 1u << dimension; node++) {
                if (node % 3 == 1) tables[NARROW_KIND][1 + node] ^= 1;
                else hold(node, node % dimension);
            }
            for (unsigned node = 0; node < 1u << dimension; node++)
                for (unsigned channel = node % 2; channel < 8; channel += 2) {
                    const uint8_t *entry = tables[NARROW_KIND] + 4353 + 16 * node + 2 * channel;
                    if (entry[0] == 0 && entry[1] == 0) tables[NARROW_KIND][8449 + node] ^= (uint8_t)(1u << channel);
                }
            expect(whole(NARROW_KIND) == 0, "a table to damage", dimension, kind);
            memcpy(kept, tables, sizeof kept);
            for (unsigned at = 0; at < bytes; at += dimension < 3 || dimension == 8 ? 1 : 5) {
                memcpy(tables[kind], kept[kind], bytes);
                tables[kind][at] = (uint8_t)(tables[kind][at] ^ (below(3) ? 1u << below(8) : 1 + below(255)));
                if (!as_reference(kind) && wrong++ == 0) first = at;
            }
            expect(wrong == 0, "a damaged table, first wrong place", 10 * dimension + kind, first);
            for (unsigned node = 0; kind == WIDE_KIND && node < 256; node += node < 8 ? 1 : 31)
                for (unsigned bit = 8; bit < 24; bit++) {
                    memcpy(tables[kind], kept[kind], bytes);
                    tables[kind][2 + 3 * node + bit / 8] |= (uint8_t)(1u << bit % 8);
                    if ((whole(kind) != 3 || maze_wide_unblock(tables[kind], bytes, 0, 0) != 3) && wrong++ == 0) first = 24 * node + bit;
                }
            expect(wrong == 0, "bits that are no port's, first wrong one", 10 * dimension + kind, first);
        }
    printf("damaged tables: %lu converted, %lu refused\n", damaged_sound, damaged_unsound);
    expect(damaged_sound > 500 && damaged_unsound > 10000, "damaged tables of both sorts", damaged_sound, damaged_unsound);
}

/* ---- every answer of every call is the same in both ---- */

/* Numbers inside and outside, and those of the ports that a row alone has. */
static uint16_t any_number(unsigned limit) {
    switch (below(12)) {
    case 0: return (uint16_t)(limit + below(3));
    case 1: return (uint16_t)(8 + below(16));
    case 2: return (uint16_t)(256 * (1 + below(255)) + below(limit));
    case 3: return (uint16_t)below(65536);
    default: return (uint16_t)below(limit);
    }
}

static unsigned long same_calls, same_numbers[32];

static void alike(unsigned dimension, unsigned long steps) {
    static struct guarded sends, buffers[KINDS], ports[KINDS], indexes[KINDS];
    unsigned nodes = 1u << dimension, last_circuits = 0, last_hops = 0;
    unsigned long wrong = 0, first = 0;
    if (!sends.end) {
        sends = guarded(660);
        for (unsigned kind = 0; kind < KINDS; kind++) buffers[kind] = guarded(32), ports[kind] = guarded(PORTS_BYTES + 8), indexes[kind] = guarded(INDEX_BYTES + 8);
    }
    fresh(dimension, ARMED);
    whole(NARROW_KIND);
    for (unsigned long step = 0; step < steps && wrong == 0; step++) {
        struct arguments a[KINDS];
        struct answer answer[KINDS];
        struct arguments *one = &a[NARROW_KIND];
        uint16_t source = any_number(nodes), channel = any_number(8);
        static const enum call_of likely[] = {OPENING, OPENING, OPENING, OPENING, OPENING, CLOSING, ARMING, ARMING, ARMING, TRACING, TRACING, BLOCKING, UNBLOCKING};
        memset(a, 0, sizeof a);
        one->call = below(3) ? likely[below(sizeof likely / sizeof *likely)] : (enum call_of)(1 + below(CALLS - 1));
        if (below(400) == 0) one->call = MAKING;
        one->number[0] = source, one->number[1] = channel;
        switch (one->call) {
        case MAKING: one->number[0] = (uint16_t)(below(2) ? dimension : any_number(10)); break;
        case BLOCKING: case UNBLOCKING: one->number[1] = any_number(dimension); break;
        case OPENING:
            one->number[2] = any_number(nodes), one->number[3] = (uint16_t)(below(8) ? below(5) : any_number(5));
            one->number[4] = (uint16_t)(below(8) ? 1 + below(nodes - 1) : below(2) ? 1u << below(16) : any_number(nodes));
            break;
        case JUDGING: one->number[0] = below(20) ? (uint16_t)last_circuits : any_number(2049), one->number[1] = below(20) ? (uint16_t)last_hops : any_number(2049); break;
        default: break;
        }
        one->sends_len = below(8) ? 10 * below(12) : below(660);
        one->buffer_len = below(6) ? 9 + below(8) : below(9);
        one->ports_len = below(6) ? PORTS_BYTES : last_hops + 2 - below(4);
        one->index_len = below(6) ? INDEX_BYTES : 6 * last_circuits + 2 - below(4);
        if (one->ports_len > PORTS_BYTES) one->ports_len = PORTS_BYTES;
        if (one->index_len > INDEX_BYTES) one->index_len = INDEX_BYTES;
        one->sends = last_of(sends, one->sends_len);
        for (size_t i = 0; i < one->sends_len / 10; i++) {
            const uint16_t send[5] = {any_number(nodes), (uint16_t)below(8), (uint16_t)below(nodes), (uint16_t)(4 * below(2)), (uint16_t)(1 + below(nodes - 1))};
            for (unsigned k = 0; k < 5; k++) set_entry(one->sends, (unsigned)(10 * i + 2 * k), send[k]);
        }
        a[WIDE_KIND] = a[NARROW_KIND];
        for (unsigned kind = 0; kind < KINDS; kind++) {
            const unsigned bytes = kinds[kind].bytes;
            uint8_t *table = last_of(lent[kind], bytes);
            a[kind].buffer = last_of(buffers[kind], a[kind].buffer_len);
            a[kind].ports = last_of(ports[kind], a[kind].ports_len);
            a[kind].index = last_of(indexes[kind], a[kind].index_len);
            memcpy(table, tables[kind], bytes);
            answer[kind] = call_on(&library[kind], table, bytes, &a[kind]);
            memcpy(tables[kind], table, bytes);
        }
        same_calls++;
        if (answer[0].number < 32) same_numbers[answer[0].number]++;
        if (!same_answer(&answer[0], &answer[1])) wrong = 1;
        if (memcmp(buffers[0].begin, buffers[1].begin, (size_t)(buffers[0].end - buffers[0].begin)) != 0) wrong = 2;
        if (memcmp(ports[0].begin, ports[1].begin, (size_t)(ports[0].end - ports[0].begin)) != 0) wrong = 3;
        if (memcmp(indexes[0].begin, indexes[1].begin, (size_t)(indexes[0].end - indexes[0].begin)) != 0) wrong = 4;
        if (one->call == BOOKING && answer[0].number == 0) last_circuits = (unsigned)answer[0].circuits, last_hops = (unsigned)answer[0].hops;
        if (one->call == MAKING && answer[0].number == 0) dimension = tables[0][0], nodes = 1u << dimension;
        /* the bytes that they leave convert into each other (Wide 13), by their layouts and, now and then, by the calls themselves */
        say_as_other(NARROW_KIND, tables[NARROW_KIND], wanted);
        if (memcmp(wanted, tables[WIDE_KIND], kinds[WIDE_KIND].bytes) != 0) wrong = 5;
        if (step % 16 == 0) {
            static uint8_t kept[LARGEST];
            memcpy(kept, tables[NARROW_KIND], kinds[NARROW_KIND].bytes);
            if (whole(WIDE_KIND) != 0 || memcmp(kept, tables[NARROW_KIND], kinds[NARROW_KIND].bytes) != 0) wrong = 6;
            if (whole(NARROW_KIND) != 0 || memcmp(wanted, tables[WIDE_KIND], kinds[WIDE_KIND].bytes) != 0) wrong = 7;
        }
        first = 100 * step + one->call;
    }
    expect(wrong == 0, "calls on a table and its converted one, what differs and at which step", wrong, first);
}

int main(int count, char **arguments) {
    const unsigned long steps = count > 1 ? strtoul(arguments[1], NULL, 10) : 3000;
    random_state = count > 2 ? strtoull(arguments[2], NULL, 10) : 1;
    for (unsigned kind = 0; kind < KINDS; kind++) lent[kind] = guarded(BESIDE + LONG);
    run_vectors();
    whole_tables();
    lengths();
    order();
    folded();
    other_kind();
    damaged();
    for (unsigned dimension = 1; dimension <= 8; dimension++) alike(dimension, steps);
    printf("calls on both kinds: %lu;", same_calls);
    for (unsigned number = 0; number < 32; number++)
        if (same_numbers[number]) printf("  %u: %lu", number, same_numbers[number]);
    printf("\n");
    for (unsigned number = 4; number <= 28 && steps >= 3000; number++)
        expect(same_numbers[number] > 0 || (number >= 15 && number <= 20) || number == 24, "a number that never occurred", number, 0);
    return verdict();
}
