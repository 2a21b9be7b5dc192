/* Tables of both kinds together: random lists of calls, foldings, conversions and joinings over four tables, two narrow and two wide, beside the reference, answer for answer and
 * byte for byte of every table and buffer. A call of one kind on a table of the other, and bytes that somebody else writes, stand among them. Behind everything lent a
 * page lies that is not to be touched, and what a call only reads cannot be written while it runs.
 *
 *     store [lists [seed]]
 *
 * runs that many lists of each dimension (12 without an argument), each from a seed of its own. At the first difference it prints the end of the list and stops.
 * Otherwise it prints how often each event has occurred. */
#define _DEFAULT_SOURCE
#include "both.h"
#include "draw.h"
#include "guarded.h"
#include "near.h"

enum { TABLES = 4, LARGEST = 14338, BESIDE = 64, EVENTS = 300, PORTS_BYTES = 2048, INDEX_BYTES = 12288, SENDS = 640, BUFFER = 16, SAID = 12, NUMBERS = 30 };
enum { CONVERT = CALLS, JOIN, LOOK_UP, FOLD, WRITE, SORTS };

static const char *const sorts[SORTS] = {"make", "block", "unblock", "arm", "disarm", "open", "open_all", "close", "trace", "book", "judge", "convert", "join", "look up", "fold", "write"};
static const unsigned kind_of[TABLES] = {NARROW_KIND, WIDE_KIND, NARROW_KIND, WIDE_KIND};

/* The four tables, of the library and of the reference, and the buffers. */
static struct guarded tables[TABLES], buffer, ports, index_of, sends;
static uint8_t others[TABLES][LARGEST], other_buffer[BUFFER], other_ports[PORTS_BYTES], other_index[INDEX_BYTES], beside[TABLES][BESIDE];

static uint8_t *table_of(unsigned i) {
    return last_of(tables[i], kinds[kind_of[i]].bytes);
}

/* What a list is about, and the book that was written last. */
static unsigned dimension, nodes, circuits, hops;

struct event {
    unsigned sort, kind, table, second, third; /* kind: of a call, which may not be the table's */
    struct arguments a;
    size_t length, second_length, third_length; /* of the tables that are lent */
};

static unsigned long seen[SORTS][NUMBERS], other_kind, chains, joined_of_wide, over_partners;
/* How many conversions a table has come through since it was made. */
static unsigned steps[TABLES];

static unsigned one_in(unsigned count) {
    return below(count) == 0;
}

/* ---- an event, on both sides ---- */

static struct answer only(unsigned number) {
    const struct answer answer = {number, 0, 0, 0, 0};
    return answer;
}

static struct answer looked_up(maze_traced traced) {
    const struct answer answer = {traced.number, traced.hops, 0, 0, 0};
    return answer;
}

static int reads_alone(unsigned sort) {
    return sort == TRACING || sort == BOOKING || sort == JUDGING;
}

/* A table is lent so many bytes from its first on; where they are more than it has, in other memory. */
static uint8_t *lent(unsigned i, size_t length) {
    static uint8_t more[TABLES][65536 + LARGEST];
    if (length <= kinds[kind_of[i]].bytes) return table_of(i);
    memcpy(more[i], table_of(i), kinds[kind_of[i]].bytes);
    return more[i];
}

static void run(const struct event *event, struct answer *by_library, struct answer *by_reference) {
    struct arguments a = event->a;
    uint8_t *table = lent(event->table, event->length), *other = others[event->table];
    const size_t length = event->length;
    if (event->sort < CALLS) {
        if (reads_alone(event->sort)) may_be_written(tables[event->table], 0);
        *by_library = call_on(&library[event->kind], table, length, &a);
        may_be_written(tables[event->table], 1);
        a.buffer = other_buffer, a.ports = other_ports, a.index = other_index;
        *by_reference = call_on(&reference[event->kind], other, length, &a);
        return;
    }
    switch (event->sort) {
    case CONVERT:
        may_be_written(tables[event->table], 0);
        *by_library = only(library[event->kind].convert(table, length, lent(event->second, event->second_length), event->second_length));
        may_be_written(tables[event->table], 1);
        *by_reference = only(reference[event->kind].convert(other, length, others[event->second], event->second_length));
        break;
    case JOIN:
        may_be_written(tables[event->table], 0);
        may_be_written(tables[event->second], 0);
        *by_library = only(maze_join(table, length, lent(event->second, event->second_length), event->second_length, lent(event->third, event->third_length), event->third_length));
        may_be_written(tables[event->table], 1);
        may_be_written(tables[event->second], 1);
        *by_reference = only(ref_join(other, length, others[event->second], event->second_length, others[event->third], event->third_length));
        break;
    case LOOK_UP:
        *by_library = looked_up(maze_book_lookup(a.ports, a.ports_len, a.index, a.index_len, a.number[0], a.number[1], a.number[2], a.buffer, a.buffer_len));
        *by_reference = looked_up(ref_book_lookup(other_ports, a.ports_len, other_index, a.index_len, a.number[0], a.number[1], a.number[2], other_buffer, a.buffer_len));
        break;
    case FOLD:
        *by_library = only(maze_wide_fold(table, length, a.number[0]));
        *by_reference = only(ref_wide_fold(other, length, a.number[0]));
        break;
    default:
        table[a.number[0]] = other[a.number[0]] = (uint8_t)a.number[1];
        *by_library = *by_reference = only(0);
    }
}

/* Every byte of every table and of every buffer, and the bytes in front of the tables. */
static int same_bytes(const struct arguments *a) {
    int same = memcmp(a->buffer, other_buffer, a->buffer_len) == 0 && memcmp(a->ports, other_ports, a->ports_len) == 0 && memcmp(a->index, other_index, a->index_len) == 0;
    for (unsigned i = 0; i < TABLES; i++)
        same &= memcmp(table_of(i), others[i], kinds[kind_of[i]].bytes) == 0 && memcmp(table_of(i) - BESIDE, beside[i], BESIDE) == 0;
    return same;
}

/* ---- choosing events ---- */

static uint16_t odd(unsigned limit) {
    switch (below(5)) {
    case 0: return (uint16_t)limit;
    case 1: return (uint16_t)(8 + below(16)); /* a port that a row of a wide table has and no cube */
    case 2: return (uint16_t)(256 * (1 + below(255)) + below(limit));
    case 3: return (uint16_t)below(65536);
    default: return (uint16_t)below(limit);
    }
}

static uint16_t number(unsigned limit) {
    return one_in(25) ? odd(limit) : (uint16_t)below(limit);
}

static size_t length_of(unsigned i) {
    static const size_t wrong[] = {0, 1, 8705, 14338, 8704, 14337, 8706, 14339, 65536 + 8705, 65536 + 14338};
    return one_in(40) ? wrong[below(sizeof wrong / sizeof *wrong)] : kinds[kind_of[i]].bytes;
}

/* The circuit that holds a link or a receive channel, by chance. */
static unsigned any_circuit(unsigned i) {
    const struct kind *kind = &kinds[kind_of[i]];
    for (unsigned tries = 0; tries < 20; tries++) {
        const uint8_t *entry = others[i] + kind->links_at + 2 * (kind->ports * below(nodes) + below(dimension));
        if (entry[0] != 0 || entry[1] != 0) return entry[0] + 256u * entry[1];
    }
    return 1 + below(8 * nodes);
}

static unsigned fold_of(unsigned i) {
    return kind_of[i] == WIDE_KIND ? others[i][1] : 0;
}

/* A byte where a change matters, and what it becomes. */
static void any_change(unsigned i, uint16_t *place, uint16_t *value) {
    const struct kind *kind = &kinds[kind_of[i]];
    switch (below(8)) {
    case 0: *place = (uint16_t)below(kind->enabled_at); break; /* the dimension or the fold mask */
    case 1: *place = (uint16_t)(kind->enabled_at + kind->mask_bytes * below(nodes) + below(kind->mask_bytes)); break;
    case 2: *place = (uint16_t)(kind->links_at + 2 * (kind->ports * below(nodes) + below(kind->ports)) + one_in(4)); break;
    case 3: *place = (uint16_t)(kind->receives_at + 16 * below(nodes) + below(16)); break;
    case 4: case 5: *place = (uint16_t)(kind->armed_at + below(nodes)); break; /* sound more often than not */
    default: *place = (uint16_t)(kind == &kinds[WIDE_KIND] ? 1 : kind->armed_at + below(nodes));
    }
    *value = one_in(3) ? 0 : (uint16_t)below(256);
}

static void put_number(uint8_t *bytes, unsigned value) {
    bytes[0] = (uint8_t)(value % 256);
    bytes[1] = (uint8_t)(value / 256);
}

static struct event any_event(void) {
    static const unsigned likely[] = {OPENING, OPENING, OPENING, OPENING, OPENING, ARMING, ARMING, ARMING, CLOSING, TRACING, BLOCKING, UNBLOCKING, DISARMING, JOB,
                                      BOOKING, JUDGING, LOOK_UP, CONVERT, CONVERT, CONVERT, JOIN, FOLD, FOLD};
    struct event event;
    struct arguments *a = &event.a;
    memset(&event, 0, sizeof event);
    event.sort = likely[below(sizeof likely / sizeof *likely)];
    if (one_in(60)) event.sort = MAKING;
    if (one_in(60)) event.sort = WRITE;
    event.table = below(TABLES), event.second = below(TABLES), event.third = below(TABLES);
    event.kind = kind_of[event.table];
    if (event.sort == JOIN) {
        /* two of the narrow tables, or one twice; never one that is written */
        event.table = 2 * below(2), event.second = one_in(2) ? event.table : 2 - event.table, event.third = event.table == event.second ? 2 - event.table : 1;
        if (event.third == 1 && one_in(2)) event.second = event.table, event.third = 2 - event.table;
        event.kind = NARROW_KIND;
    }
    if (event.sort == CONVERT) event.second = (event.table + (one_in(2) ? 1 : 3)) % TABLES;
    if (event.sort < CALLS && one_in(30)) event.kind = 1 - event.kind;
    event.length = length_of(event.table), event.second_length = length_of(event.second), event.third_length = length_of(event.third);
    if (event.sort == JOIN && event.third == 1 && !one_in(4)) event.third_length = 14338;

    a->call = event.sort < CALLS ? (enum call_of)event.sort : MAKING;
    a->number[0] = number(nodes), a->number[1] = number(8), a->number[2] = number(nodes), a->number[3] = one_in(12) ? odd(5) : (uint16_t)below(5);
    if (a->number[3] == 2 && !one_in(20)) a->number[3] = 4;
    a->number[4] = one_in(20) ? odd(nodes) : (uint16_t)(1 + below(nodes - 1));
    a->buffer_len = one_in(6) ? below(BUFFER + 1) : 9, a->sends_len = one_in(20) ? below(SENDS) : 10 * below(8);
    a->ports_len = one_in(8) ? below(12) : PORTS_BYTES, a->index_len = one_in(8) ? below(48) : INDEX_BYTES;
    if (event.sort == BLOCKING || event.sort == UNBLOCKING) a->number[1] = number(dimension);
    if (event.sort == FOLD) {
        if (event.kind == NARROW_KIND && !one_in(10)) event.table = 1 + 2 * below(2), event.length = length_of(event.table);
        event.kind = WIDE_KIND;
        a->number[0] = one_in(20) ? odd(nodes) : one_in(2) ? (uint16_t)(fold_of(event.table) ^ 1u << below(dimension)) : one_in(3) ? 0 : (uint16_t)below(nodes);
    }
    if ((event.sort == BLOCKING || event.sort == UNBLOCKING) && kind_of[event.table] == WIDE_KIND && one_in(3)) a->number[1] = (uint16_t)(17 - below(dimension));
    if (event.sort == OPENING && !one_in(40)) a->number[2] = (uint16_t)near_to(fold_of(event.table), a->number[0] % nodes, a->number[2]);
    if (event.sort == MAKING) a->number[0] = one_in(5) ? odd(9) : (uint16_t)(one_in(3) ? 1 + below(8) : dimension);
    if ((event.sort == CLOSING || event.sort == TRACING) && !one_in(8)) {
        const unsigned circuit = any_circuit(event.table) - 1;
        a->number[0] = (uint16_t)(circuit / 8), a->number[1] = (uint16_t)(circuit % 8);
    }
    if (event.sort == JUDGING) a->number[0] = (uint16_t)(circuits + one_in(12)), a->number[1] = (uint16_t)(hops + one_in(12));
    if (event.sort == LOOK_UP) a->number[0] = (uint16_t)circuits, a->number[1] = (uint16_t)hops, a->number[2] = (uint16_t)any_circuit(event.table);
    if (event.sort == WRITE) any_change(event.table, &a->number[0], &a->number[1]), event.length = kinds[kind_of[event.table]].bytes;
    a->sends = last_of(sends, a->sends_len);
    for (size_t i = 0; i < a->sends_len / 10; i++) {
        const unsigned node = number(nodes), target = near_to(fold_of(event.table), node % nodes, below(nodes));
        const unsigned send[5] = {node, number(8), target, one_in(12) ? 1 + 2 * below(2) : 4 * below(2), 1 + below(nodes - 1)};
        for (unsigned k = 0; k < 5; k++) put_number(a->sends + 10 * i + 2 * k, send[k]);
    }
    /* each buffer ends at a page; its bytes are those of the reference */
    a->buffer = last_of(buffer, a->buffer_len), a->ports = last_of(ports, a->ports_len), a->index = last_of(index_of, a->index_len);
    memcpy(a->buffer, other_buffer, a->buffer_len);
    memcpy(a->ports, other_ports, a->ports_len);
    memcpy(a->index, other_index, a->index_len);
    return event;
}

/* ---- a list ---- */

static void say(const struct event *event, const struct answer *a, const struct answer *b) {
    printf("%s%s of table %u (%s)", event->kind == WIDE_KIND && (event->sort < CALLS || event->sort == FOLD) ? "wide " : "", sorts[event->sort], event->table, kinds[kind_of[event->table]].name);
    if (event->sort == CONVERT || event->sort == JOIN) printf(" and %u", event->second);
    if (event->sort == JOIN) printf(" and %u", event->third);
    for (unsigned i = 0; i < 5; i++) printf(" %u", (unsigned)event->a.number[i]);
    printf(" / lengths %zu %zu %zu, buffer %zu, ports %zu, index %zu, sends %zu", event->length, event->second_length, event->third_length, event->a.buffer_len, event->a.ports_len,
           event->a.index_len, event->a.sends_len);
    printf(": library %lu %lu %lu %lu %lu, reference %lu %lu %lu %lu %lu\n", a->number, a->hops, a->receive, a->scouts, a->circuits, b->number, b->hops, b->receive, b->scouts,
           b->circuits);
}

/* What has been seen; the reference has answered. */
static void tally(const struct event *event, const struct answer *answer) {
    if (answer->number < NUMBERS) seen[event->sort][answer->number]++;
    if (event->sort < CALLS && event->kind != kind_of[event->table]) other_kind += answer->number == MAZE_BAD_LENGTH;
    if (answer->number != MAZE_ACCEPTED) return;
    if (event->sort == MAKING || event->sort == WRITE) steps[event->table] = 0;
    if (event->sort == CONVERT) chains += (steps[event->second] = steps[event->table] + 1) > 2;
    if (event->sort == JOIN) joined_of_wide += steps[event->table] > 0 || steps[event->second] > 0, steps[event->third] = 0;
    if (event->sort == OPENING)
        for (unsigned hop = 0; hop < ref_last_send.hops; hop++) over_partners += ref_last_send.ports[hop] > 9;
    if (event->sort == BOOKING) circuits = (unsigned)answer->circuits, hops = (unsigned)answer->hops;
}

/* Answers whether the two sides agreed. */
static int run_list(unsigned of) {
    static struct event said[SAID];
    static struct answer answers[SAID][2];
    dimension = of, nodes = 1u << of;
    circuits = hops = 0;
    for (unsigned i = 0; i < TABLES; i++) {
        uint8_t *table = table_of(i);
        for (unsigned k = 0; k < BESIDE; k++) table[(int)k - BESIDE] = beside[i][k] = (uint8_t)below(256);
        for (unsigned k = 0; k < kinds[kind_of[i]].bytes; k++) table[k] = others[i][k] = (uint8_t)below(256);
        steps[i] = 0;
    }
    for (unsigned n = 0; n < EVENTS; n++) {
        struct event event = any_event();
        struct answer *by_library = &answers[n % SAID][0], *by_reference = &answers[n % SAID][1];
        if (n < TABLES && below(4)) event.sort = MAKING, event.a.call = MAKING, event.table = n, event.kind = kind_of[n], event.length = kinds[kind_of[n]].bytes, event.a.number[0] = (uint16_t)of;
        if (event.sort == LOOK_UP || event.sort == JUDGING || event.sort == BOOKING || event.sort == TRACING) memset(other_buffer, (int)below(256), BUFFER), memcpy(event.a.buffer, other_buffer, event.a.buffer_len);
        said[n % SAID] = event;
        run(&event, by_library, by_reference);
        tally(&event, by_reference);
        /* most channels are armed by bytes, as a call for each would take long */
        if (event.sort == MAKING && by_reference->number == MAZE_ACCEPTED && !one_in(4)) {
            const unsigned made = others[event.table][0], at = kinds[event.kind].armed_at;
            memset(table_of(event.table) + at, 255, 1u << made);
            memset(others[event.table] + at, 255, 1u << made);
        }
        if (!same_answer(by_library, by_reference) || !same_bytes(&event.a)) {
            printf("store: a difference at event %u%s:\n", n, same_answer(by_library, by_reference) ? " in the bytes" : "");
            for (unsigned k = n + 1 < SAID ? 0 : n + 1 - SAID; k <= n; k++) say(&said[k % SAID], &answers[k % SAID][0], &answers[k % SAID][1]);
            return 0;
        }
    }
    return 1;
}

int main(int count, char **arguments) {
    const unsigned long lists = count > 1 ? strtoul(arguments[1], NULL, 10) : 12;
    const uint64_t seed = count > 2 ? strtoull(arguments[2], NULL, 10) : 1;
    unsigned long agreed = 0, missing = 0;
    for (unsigned i = 0; i < TABLES; i++) tables[i] = guarded(BESIDE + kinds[kind_of[i]].bytes);
    buffer = guarded(BUFFER), ports = guarded(PORTS_BYTES), index_of = guarded(INDEX_BYTES), sends = guarded(SENDS);
    for (unsigned long list = 0; list < lists; list++)
        for (unsigned of = 1; of <= 8; of++) {
            random_state = seed * 1000000007u + 16 * list + of;
            if (!run_list(of)) {
                printf("dimension %u, list %lu, seed %llu\n%lu passed, 1 failed\n", of, list, (unsigned long long)seed, agreed);
                return 1;
            }
            agreed++;
        }
    printf("events, and the numbers that answered them:\n");
    for (unsigned sort = 0; sort < SORTS; sort++) {
        printf("%s:", sorts[sort]);
        for (unsigned n = 0; n < NUMBERS; n++)
            if (seen[sort][n]) printf("  %u: %lu", n, seen[sort][n]);
        printf("\n");
    }
    printf("calls on a table of the other kind: %lu; tables that came through three conversions or more: %lu; joinings of converted ones: %lu; hops over partners: %lu\n", other_kind, chains,
           joined_of_wide, over_partners);
    /* what never occurs compares nothing */
    {
        static const struct { unsigned sort, number; } wanted[] = {
            {OPENING, 0}, {OPENING, 1}, {OPENING, 2}, {OPENING, 3}, {OPENING, 10}, {OPENING, 11}, {OPENING, 22}, {JOB, 0}, {JOB, 28}, {CLOSING, 0}, {TRACING, 0}, {BOOKING, 0},
            {BOOKING, 23}, {JUDGING, 0}, {JUDGING, 25}, {JUDGING, 26}, {LOOK_UP, 0}, {LOOK_UP, 12}, {CONVERT, 0}, {CONVERT, 1}, {CONVERT, 2}, {CONVERT, 3}, {CONVERT, 24},
            {JOIN, 0}, {JOIN, 1}, {JOIN, 3}, {JOIN, 29}, {FOLD, 0}, {FOLD, 1}, {FOLD, 2}, {FOLD, 3}, {FOLD, 6}, {FOLD, 13},
        };
        for (size_t i = 0; i < sizeof wanted / sizeof *wanted && lists >= 12; i++)
            if (seen[wanted[i].sort][wanted[i].number] == 0) printf("never occurred: %s answered by %u\n", sorts[wanted[i].sort], wanted[i].number), missing++;
        if (lists >= 12 && (other_kind == 0 || chains == 0 || joined_of_wide == 0 || over_partners == 0)) printf("a case never occurred\n"), missing++;
    }
    printf("%lu passed, %lu failed\n", agreed, missing);
    return missing != 0;
}
