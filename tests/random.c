/* The library beside the reference, on random lists of calls and on damaged tables of every dimension: answer for answer and byte for byte. With -DWIDE the tables are
 * wide, of any fold mask, and then there is a stream for each fold mask of each dimension, too; tables of both kinds, and what converts them, are in store.c.
 *
 *     random [streams [seed]]
 *
 * runs that many streams of calls of each kind and dimension (20 without an argument, 10 with -DWIDE), each from a seed of its own. At the first difference it
 * shortens the list of calls as long as they still differ, prints it and stops. Otherwise it prints how often each case has occurred. Calls are
 * written as in the printed list, and beside them `T node channel` traces, `J` opens the sends that follow it together, each as behind S, `K` writes the book of the table,
 * `L circuit circuits hops` looks a circuit up in the book that stands there, `G circuits hops` judges that book, `N 0` joins the table and a second one to a third,
 * `N 1` the second and the table, `N 2` the table with itself, `M mask` sets the fold mask, `P place value` writes one byte of the table, `W place value` one of the book's index and `V place value`
 * one of its ports, `X` exchanges the table and the second one, `Y` puts what was joined in the table's place, and `/ table of N`, `/ buffer of N`, `/ list of N`,
 * `/ ports of N`, `/ index of N`, `/ second of N` or `/ third of N` behind a call says that it was lent N bytes. */
#include "draw.h"
#include "near.h"
#include "reference.h"
#include "subject.h"

#include <stdio.h>
#include <stdlib.h>
#include <string.h>

enum { SPARE = 32, BUFFER = 24, MOST_CALLS = 60000, LETTERS = 19, NUMBERS = MAZE_BAD_HALVES + 1, MOST_JOBS = 4000, LIST = 660 };
/* A folded table of dimension 8 has twice as many links. */
enum { PORTS = (MAZE_PORTS / 8) * MAZE_CIRCUITS_LARGEST + SPARE, INDEX = MAZE_BOOK_LINE_BYTES * MAZE_CIRCUITS_LARGEST + SPARE };

static int one_in(unsigned count) {
    return below(count) == 0;
}

/* ---- calls, and both tables ---- */

static const char letters[] = "FBESCRDTJKLGNMWVPXY";

static size_t letter_place(char letter) {
    return (size_t)(strchr(letters, letter) - letters);
}

struct call {
    char letter;
    uint16_t argument[5];
    uint16_t table_len, buffer_len; /* buffer_len: of a trace's buffer or of a job's list */
    uint16_t job;                   /* which list of sends */
    uint16_t ports_len, index_len;  /* of a book's two buffers */
    uint16_t other_len, joined_len; /* of the second and the third table of a joining */
};

/* The lists of sends of a stream. They go on behind what is lent. */
static uint8_t lists[MOST_JOBS][LIST];
static unsigned jobs;

struct pair {
    uint8_t table[2][MAZE_TABLE_BYTES + SPARE]; /* the library's and the reference's; more bytes than are lent */
    uint8_t buffer[2][BUFFER];
    uint8_t ports[2][PORTS], index[2][INDEX]; /* the book that was written last, or what W made of it */
    uint8_t other[2][MAZE_TABLE_BYTES + SPARE], joined[2][MAZE_TABLE_BYTES + SPARE];
};

/* The answers of one call, of both sides. */
struct answers {
    unsigned long value[2][5]; /* number, hops or sends, receive channel, scouts, circuits of a book */
};

static struct pair now;

/* ---- the ports of the table's cube ---- */

#ifdef WIDE
static unsigned fold_mask(void) {
    return maze_wide_fold_mask(now.table[1]);
}
#else
static unsigned fold_mask(void) {
    return 0;
}
#endif

static unsigned axis(unsigned port) {
    return port < 9 ? port : 17 - port;
}

static int has_port(unsigned dimension, unsigned port) {
    return axis(port) < dimension && (port < 9 || (fold_mask() >> axis(port) & 1));
}

static unsigned any_port(unsigned dimension) {
    unsigned port = below(dimension);
    return (fold_mask() >> port & 1) && one_in(2) ? 17 - port : port;
}

static unsigned behind(unsigned node, unsigned port) {
    return node ^ 1u << axis(port);
}

/* The table and the second one in the order of the call, or the table twice. */
static uint16_t join(uint16_t (*joins)(const uint8_t *, size_t, const uint8_t *, size_t, uint8_t *, size_t), const struct call *call, struct pair *on, int side) {
    const uint8_t *table = on->table[side], *other = on->other[side];
    uint8_t *joined = on->joined[side];
    switch (call->argument[0]) {
    case 0: return joins(table, call->table_len, other, call->other_len, joined, call->joined_len);
    case 1: return joins(other, call->other_len, table, call->table_len, joined, call->joined_len);
    default: return joins(table, call->table_len, table, call->other_len, joined, call->joined_len);
    }
}

static void exchange(struct pair *on) {
    static uint8_t table[2][MAZE_TABLE_BYTES + SPARE];
    memcpy(table, on->table, sizeof table);
    memcpy(on->table, on->other, sizeof table);
    memcpy(on->other, table, sizeof table);
}

static struct answers run(const struct call *call, struct pair *on) {
    struct answers answers;
    const uint16_t *a = call->argument;
    uint8_t *lib = on->table[0], *ref = on->table[1];
    size_t length = call->table_len;
    maze_opened opened[2] = {{0, 0, 0, 0}, {0, 0, 0, 0}};
    maze_traced traced[2] = {{0, 0}, {0, 0}};
    maze_opened_all opened_all[2] = {{0, 0}, {0, 0}};
    maze_booked booked[2] = {{0, 0, 0}, {0, 0, 0}};
    uint16_t number[2] = {0, 0};

    switch (call->letter) {
    case 'F': number[0] = maze_make(lib, length, a[0]), number[1] = ref_make(ref, length, a[0]); break;
    case 'B': number[0] = maze_block(lib, length, a[0], a[1]), number[1] = ref_block(ref, length, a[0], a[1]); break;
    case 'E': number[0] = maze_unblock(lib, length, a[0], a[1]), number[1] = ref_unblock(ref, length, a[0], a[1]); break;
    case 'S':
        opened[0] = maze_open(lib, length, a[0], a[1], a[2], a[3], a[4]);
        opened[1] = ref_open(ref, length, a[0], a[1], a[2], a[3], a[4]);
        break;
    case 'C': number[0] = maze_close(lib, length, a[0], a[1]), number[1] = ref_close(ref, length, a[0], a[1]); break;
    case 'R': number[0] = maze_arm(lib, length, a[0], a[1]), number[1] = ref_arm(ref, length, a[0], a[1]); break;
    case 'D': number[0] = maze_disarm(lib, length, a[0], a[1]), number[1] = ref_disarm(ref, length, a[0], a[1]); break;
    case 'T':
        traced[0] = maze_trace(lib, length, a[0], a[1], on->buffer[0], call->buffer_len);
        traced[1] = ref_trace(ref, length, a[0], a[1], on->buffer[1], call->buffer_len);
        break;
    case 'J':
        opened_all[0] = maze_open_all(lib, length, lists[call->job], call->buffer_len);
        opened_all[1] = ref_open_all(ref, length, lists[call->job], call->buffer_len);
        break;
    case 'K':
        booked[0] = maze_book(lib, length, on->ports[0], call->ports_len, on->index[0], call->index_len);
        booked[1] = ref_book(ref, length, on->ports[1], call->ports_len, on->index[1], call->index_len);
        break;
    case 'L':
        traced[0] = maze_book_lookup(on->ports[0], call->ports_len, on->index[0], call->index_len, a[1], a[2], a[0], on->buffer[0], call->buffer_len);
        traced[1] = ref_book_lookup(on->ports[1], call->ports_len, on->index[1], call->index_len, a[1], a[2], a[0], on->buffer[1], call->buffer_len);
        break;
    case 'G':
        number[0] = maze_judge(lib, length, on->ports[0], call->ports_len, on->index[0], call->index_len, a[0], a[1]);
        number[1] = ref_judge(ref, length, on->ports[1], call->ports_len, on->index[1], call->index_len, a[0], a[1]);
        break;
    case 'N': number[0] = join(maze_join, call, on, 0), number[1] = join(ref_join, call, on, 1); break;
#ifdef WIDE
    case 'M': number[0] = maze_wide_fold(lib, length, a[0]), number[1] = ref_wide_fold(ref, length, a[0]); break;
#endif
    case 'X': exchange(on); break;
    case 'Y': memcpy(on->table, on->joined, sizeof on->table); break;
    case 'W': on->index[0][a[0]] = on->index[1][a[0]] = (uint8_t)a[1]; break;
    case 'V': on->ports[0][a[0]] = on->ports[1][a[0]] = (uint8_t)a[1]; break;
    default: lib[a[0]] = ref[a[0]] = (uint8_t)a[1]; break; /* P */
    }
    for (int i = 0; i < 2; i++) {
        answers.value[i][0] = (unsigned long)number[i] + opened[i].number + traced[i].number + opened_all[i].number + booked[i].number; /* all but one are 0 */
        answers.value[i][1] = (unsigned long)opened[i].hops + traced[i].hops + opened_all[i].sends + booked[i].hops;
        answers.value[i][2] = opened[i].receive;
        answers.value[i][3] = opened[i].scouts;
        answers.value[i][4] = booked[i].circuits;
    }
    return answers;
}

static int same(const struct answers *answers, const struct pair *on) {
    return memcmp(answers->value[0], answers->value[1], sizeof answers->value[0]) == 0 &&
           memcmp(on->table[0], on->table[1], sizeof on->table[0]) == 0 && memcmp(on->buffer[0], on->buffer[1], sizeof on->buffer[0]) == 0 &&
           memcmp(on->ports[0], on->ports[1], sizeof on->ports[0]) == 0 && memcmp(on->index[0], on->index[1], sizeof on->index[0]) == 0 &&
           memcmp(on->other[0], on->other[1], sizeof on->other[0]) == 0 && memcmp(on->joined[0], on->joined[1], sizeof on->joined[0]) == 0;
}

/* Before the first call the bytes lent mean nothing. */
static void start(struct pair *on) {
    for (size_t i = 0; i < sizeof on->table[0]; i++) on->table[0][i] = on->table[1][i] = (uint8_t)(7 * i + 3);
    for (size_t i = 0; i < sizeof on->buffer[0]; i++) on->buffer[0][i] = on->buffer[1][i] = (uint8_t)(0xe0 + i % 16);
    for (size_t i = 0; i < sizeof on->ports[0]; i++) on->ports[0][i] = on->ports[1][i] = (uint8_t)(5 * i + 11);
    for (size_t i = 0; i < sizeof on->index[0]; i++) on->index[0][i] = on->index[1][i] = (uint8_t)(3 * i + 13);
    for (size_t i = 0; i < sizeof on->other[0]; i++) on->other[0][i] = on->other[1][i] = (uint8_t)(9 * i + 17);
    for (size_t i = 0; i < sizeof on->joined[0]; i++) on->joined[0][i] = on->joined[1][i] = (uint8_t)(11 * i + 19);
}

/* ---- the list of a stream, and what is said of a difference ---- */

static struct call list[MOST_CALLS];
static size_t calls;

static void print_call(const struct call *call) {
    static const int arguments[LETTERS] = {1, 2, 2, 5, 2, 2, 2, 2, 0, 0, 3, 2, 1, 1, 2, 2, 2, 0, 0};
    int count = arguments[letter_place(call->letter)];
    printf("%c", call->letter);
    for (int i = 0; i < count; i++) printf(" %u", (unsigned)call->argument[i]);
    for (unsigned i = 0; call->letter == 'J' && i < call->buffer_len / 2u; i++)
        printf("%s%u", i % 5 == 0 && i > 0 ? ", " : " ", lists[call->job][2 * i] + 256u * lists[call->job][2 * i + 1]);
    if (call->letter == 'J') printf(" / list of %u", (unsigned)call->buffer_len);
    if (call->table_len != MAZE_TABLE_BYTES) printf(" / table of %u", (unsigned)call->table_len);
    if (call->letter == 'K' || call->letter == 'L' || call->letter == 'G') printf(" / ports of %u / index of %u", (unsigned)call->ports_len, (unsigned)call->index_len);
    if (call->letter == 'N' && call->other_len != MAZE_TABLE_BYTES) printf(" / second of %u", (unsigned)call->other_len);
    if (call->letter == 'N' && call->joined_len != MAZE_TABLE_BYTES) printf(" / third of %u", (unsigned)call->joined_len);
    if ((call->letter == 'T' || call->letter == 'L') && call->buffer_len != BUFFER) printf(" / buffer of %u", (unsigned)call->buffer_len);
    printf("\n");
}

/* Runs a list from the start; answers how many calls it takes to show a difference, or 0. */
static size_t replay(const struct call *some, size_t count) {
    static struct pair pair;
    start(&pair);
    for (size_t i = 0; i < count; i++) {
        struct answers answers = run(&some[i], &pair);
        if (!same(&answers, &pair)) return i + 1;
    }
    return 0;
}

/* Leaves out runs of calls, long ones first, as long as the rest still shows a difference. */
static void shorten(void) {
    static struct call some[MOST_CALLS];
    unsigned tries = 3000;
    for (size_t run_length = calls / 2; run_length > 0; run_length /= 2)
        for (size_t at = 0; at + run_length <= calls && tries > 0;) {
            size_t shown;
            memcpy(some, list, at * sizeof *some);
            memcpy(some + at, list + at + run_length, (calls - at - run_length) * sizeof *some);
            tries--;
            shown = replay(some, calls - run_length);
            if (shown) memcpy(list, some, shown * sizeof *some), calls = shown;
            else at += run_length;
        }
}

static void report(unsigned dimension, const char *kind, uint64_t seed) {
    static struct pair pair;
    struct answers answers = {{{0}}};
    printf("random: a difference, dimension %u, %s, seed %llu; the calls that show it:\n", dimension, kind, (unsigned long long)seed);
    shorten();
    start(&pair);
    for (size_t i = 0; i < calls; i++) {
        print_call(&list[i]);
        answers = run(&list[i], &pair);
    }
    for (int i = 0; i < 2; i++)
        printf("%s answers %lu, hops or sends %lu, receive channel %lu, scouts %lu, circuits %lu\n", i == 0 ? "library" : "reference", answers.value[i][0],
               answers.value[i][1], answers.value[i][2], answers.value[i][3], answers.value[i][4]);
    for (size_t i = 0, shown = 0; i < sizeof pair.table[0] && shown < 10; i++)
        if (pair.table[0][i] != pair.table[1][i])
            printf("byte %zu of the table: library %u, reference %u\n", i, pair.table[0][i], pair.table[1][i]), shown++;
    for (size_t i = 0; i < sizeof pair.buffer[0]; i++)
        if (pair.buffer[0][i] != pair.buffer[1][i])
            printf("byte %zu of the buffer: library %u, reference %u\n", i, pair.buffer[0][i], pair.buffer[1][i]);
    for (size_t i = 0, shown = 0; i < sizeof pair.ports[0] && shown < 10; i++)
        if (pair.ports[0][i] != pair.ports[1][i]) printf("byte %zu of the ports: library %u, reference %u\n", i, pair.ports[0][i], pair.ports[1][i]), shown++;
    for (size_t i = 0, shown = 0; i < sizeof pair.index[0] && shown < 10; i++)
        if (pair.index[0][i] != pair.index[1][i]) printf("byte %zu of the index: library %u, reference %u\n", i, pair.index[0][i], pair.index[1][i]), shown++;
    for (size_t i = 0, shown = 0; i < sizeof pair.other[0] && shown < 10; i++)
        if (pair.other[0][i] != pair.other[1][i]) printf("byte %zu of the second table: library %u, reference %u\n", i, pair.other[0][i], pair.other[1][i]), shown++;
    for (size_t i = 0, shown = 0; i < sizeof pair.joined[0] && shown < 10; i++)
        if (pair.joined[0][i] != pair.joined[1][i]) printf("byte %zu of the third table: library %u, reference %u\n", i, pair.joined[0][i], pair.joined[1][i]), shown++;
}

/* ---- what has occurred ---- */

/* The ways in which a book that is written line by line is made not well formed; the first is none. */
enum { NO_FAULT, NUMBER_ZERO, NUMBER_LARGE, NUMBERS_EQUAL, NUMBERS_FALL, LENGTH_ZERO, LENGTH_TEN, GAP, OVERLAP, HOPS_SHORT, HOPS_PAST, PORTS_SHORT, INDEX_SHORT, FAULTS };

static const char *const fault_names[FAULTS] = {"none", "a number of 0", "a number above 2,048", "equal numbers", "numbers that fall", "a length of 0", "a length of 10", "a gap",
                                                "an overlap", "fewer hops than the pairs have", "more hops than the pairs have", "more hops than port bytes", "more circuits than lines"};

static struct {
    unsigned long calls, answers[LETTERS][NUMBERS], hops[10], rejected_1000, rejected_10000, most_scouts, second_accepted, second_rejected,
        through_source, to_itself, first_hop_away, nearly_full, nearly_full_accepted, full, all_received, one_changed, one_changed_sound,
        several_changed, several_changed_sound, mask_changed, mask_changed_sound, moved, laid, laid_sound, wrong_length, short_buffer;
    unsigned long receive_ended, receive_ended_no_port, route_then_receive, passed_over, armed_again, armed_held, disarmed_again;
    unsigned long rejected[2][MAZE_TYPE_ALTERNATE_MAZE + 1], no_route_idle, no_route_unscouted, helped_past_blocked; /* 10 and then 22, by type */
    unsigned long book_empty, book_several, book_long, book_whole, book_exact, ports_short, index_short, number_wide, offset_wide;
    unsigned long looked_first, looked_last, looked_absent_short, damaged_books, damaged_formed, fault[FAULTS], laid_books, traced_alike;
    unsigned long joined_circuits, joined_orders[3], joined_long, joined_crossed, joined_damaged, joined_damaged_sound;
    unsigned long judged_several, judged_long, judged_beside, judged_open, judged_unarmed;
    unsigned long job_several, job_long, job_empty, job_first, job_middle, job_last;
    unsigned long folded, unfolded, folded_alike, partner_opened, partner_blocked, from_last, back_by_partner, both_of_pair, full_and_armed, book_folded;
    unsigned long helix_first, helix_later, helix_none, helix_received, helix_received_later, fixed_taken, fixed_rejected, fixed_received, partly_free;
} seen;

static void count_held(unsigned long *held, unsigned long *links, unsigned long *blocked) {
    const uint8_t *table = now.table[1];
    unsigned dimension = MAZE_DIMENSION(table) > MAZE_DIMENSION_LARGEST ? 0 : MAZE_DIMENSION(table);
    *held = *blocked = 0;
    *links = 0;
    for (unsigned node = 0; node < MAZE_NODES; node++)
        for (unsigned port = 0; port < MAZE_PORTS; port++) {
            const int there = node < 1u << dimension && has_port(dimension, port);
            *held += MAZE_LINK_CIRCUIT(table, node, port) != 0;
            *links += (unsigned)there;
            *blocked += there && !MAZE_LINK_ENABLED(table, node, port);
        }
    if (*links == 0) *links = 1;
}

static unsigned circuits_of(const uint8_t *table) {
    unsigned count = 0;
    for (unsigned node = 0; node < MAZE_NODES; node++)
        for (unsigned channel = 0; channel < MAZE_CHANNELS; channel++) count += MAZE_RECEIVE_CIRCUIT(table, node, channel) != 0;
    return count;
}

/* How many circuits and hops the book of the table has, if it is sound: its held receive channels and links. */
static unsigned booked_circuits(void) {
    return circuits_of(now.table[1]);
}

static unsigned booked_hops(void) {
    unsigned count = 0;
    for (unsigned node = 0; node < MAZE_NODES; node++)
        for (unsigned port = 0; port < MAZE_PORTS; port++) count += MAZE_LINK_CIRCUIT(now.table[1], node, port) != 0;
    return count;
}

static unsigned new_port = MAZE_PORTS; /* where the table was joined: the port between its halves */

static void tally(const struct call *call, const struct answers *answers, unsigned long held, unsigned long links, unsigned long blocked) {
    unsigned long number = answers->value[1][0], scouts = answers->value[1][3];
    const uint16_t *a = call->argument;
    seen.calls++;
    seen.answers[letter_place(call->letter)][number]++;
    seen.wrong_length += number == MAZE_BAD_LENGTH;
    seen.short_buffer += number == MAZE_BUFFER_SHORT;
    if (call->letter == 'J') {
        unsigned long sends = call->buffer_len / MAZE_SEND_BYTES, place = answers->value[1][1];
        if (number == MAZE_ACCEPTED) seen.job_empty += sends == 0, seen.job_several += sends > 1, seen.job_long += sends == MAZE_SENDS_LARGEST;
        else if (number >= MAZE_BAD_NODE && number != MAZE_BAD_SEND_LIST && sends > 1)
            *(place == 0 ? &seen.job_first : place + 1 == sends ? &seen.job_last : &seen.job_middle) += 1;
    }
    if (call->letter == 'K') {
        unsigned long circuits = answers->value[1][4], hops = answers->value[1][1];
        if (number == MAZE_ACCEPTED) {
            seen.book_empty += circuits == 0, seen.book_several += circuits > 1, seen.book_long += circuits > 256, seen.book_whole += hops == MAZE_CIRCUITS_LARGEST, seen.book_folded += hops > MAZE_CIRCUITS_LARGEST;
            seen.book_exact += hops > 0 && call->ports_len == hops && call->index_len == MAZE_BOOK_LINE_BYTES * circuits;
            for (unsigned long i = 0; i < circuits; i++) {
                const uint8_t *line = now.index[1] + MAZE_BOOK_LINE_BYTES * i;
                seen.number_wide += line[1] != 0, seen.offset_wide += line[3] != 0;
            }
        }
        if (number == MAZE_BOOK_SHORT) seen.ports_short += call->ports_len < links && call->index_len >= MAZE_BOOK_LINE_BYTES * held, seen.index_short += call->ports_len >= links;
    }
    if (call->letter == 'L') {
        if (number == MAZE_ACCEPTED && a[1] > 1) {
            const uint8_t *last = now.index[1] + MAZE_BOOK_LINE_BYTES * (a[1] - 1u);
            seen.looked_first += a[0] == now.index[1][0] + 256u * now.index[1][1];
            seen.looked_last += a[0] == last[0] + 256u * last[1];
        }
        seen.looked_absent_short += number == MAZE_NO_CIRCUIT && call->buffer_len < MAZE_TRACE_BYTES;
    }
    if (call->letter == 'G' && number == MAZE_ACCEPTED) seen.judged_several += a[0] > 1, seen.judged_long += a[0] > 64, seen.judged_beside += a[0] > 0 && held > 0;
    if (call->letter == 'N' && number == MAZE_ACCEPTED) {
        unsigned all = circuits_of(now.joined[1]), of_table = circuits_of(now.table[1]);
        seen.joined_circuits += of_table > 0 && all > of_table, seen.joined_long += all > 256;
        seen.joined_orders[a[0]]++;
    }
    if (call->letter != 'S') return;
    if (!(number == MAZE_ACCEPTED || number == MAZE_ROUTE_REJECTED || number == MAZE_RECEIVE_REJECTED || number == MAZE_NO_ROUTE)) return;
    if (number == MAZE_ROUTE_REJECTED || number == MAZE_NO_ROUTE) {
        int none = number == MAZE_NO_ROUTE;
        seen.rejected[none][a[3]]++;
        if (none && held == 0) seen.no_route_idle++;
        if (none && held > 0 && scouts == 0) seen.no_route_unscouted++;
        if (!none && blocked > 0) seen.helped_past_blocked++;
    }
    if (scouts > seen.most_scouts) seen.most_scouts = scouts;
    if (number == MAZE_RECEIVE_REJECTED) {
        unsigned channel = 0;
        while (channel < MAZE_CHANNELS && MAZE_RECEIVE_ARMED(now.table[1], a[2], channel)) channel++;
        seen.full_and_armed += channel == MAZE_CHANNELS; /* only where dimensions are folded */
    }
    if (10 * held >= 9 * links) {
        seen.nearly_full++;
        seen.nearly_full_accepted += number == MAZE_ACCEPTED;
        seen.full += held == links;
    }
    if (a[3] == MAZE_TYPE_HELIX) {
        unsigned later = ref_last_send.passes > 1;
        if (number == MAZE_ACCEPTED) *(later ? &seen.helix_later : &seen.helix_first) += 1;
        else if (number == MAZE_RECEIVE_REJECTED) *(later ? &seen.helix_received_later : &seen.helix_received) += 1;
        else seen.helix_none += later;
        seen.partly_free += scouts > ref_last_send.hops;
    } else if (a[3] == MAZE_TYPE_FIXED) {
        *(number == MAZE_ACCEPTED ? &seen.fixed_taken : number == MAZE_RECEIVE_REJECTED ? &seen.fixed_received : &seen.fixed_rejected) += 1;
        seen.partly_free += scouts > ref_last_send.hops;
    } else if (ref_last_send.passes == 2) {
        *(number == MAZE_ACCEPTED ? &seen.second_accepted : &seen.second_rejected) += 1;
        seen.route_then_receive += number == MAZE_RECEIVE_REJECTED;
    } else if (a[3] == MAZE_TYPE_ALTERNATE_MAZE && number == MAZE_RECEIVE_REJECTED) {
        int all_ports = a[4] + 1u == 1u << MAZE_DIMENSION(now.table[1]);
        *(all_ports ? &seen.receive_ended_no_port : &seen.receive_ended) += 1;
    }
    if (number == MAZE_ACCEPTED) {
        unsigned uphill = (a[0] ^ a[2]) >> axis(ref_last_send.ports[0]) & 1, passed_over = 0, at = a[0], partner = 0, shared = 0;
        for (unsigned channel = 0; channel < answers->value[1][2]; channel++) passed_over |= MAZE_RECEIVE_CIRCUIT(now.table[1], a[2], channel) == 0;
        seen.passed_over += passed_over; /* a lower channel that no circuit holds: it is not armed */
        seen.hops[ref_last_send.hops]++;
        seen.first_hop_away += !uphill;
        seen.through_source += ref_last_send.hops > 2 && axis(ref_last_send.ports[0]) == axis(ref_last_send.ports[1]);
        seen.back_by_partner += ref_last_send.hops > 1 && ref_last_send.ports[0] + ref_last_send.ports[1] == 17;
        for (unsigned hop = 0; hop < ref_last_send.hops; at = behind(at, ref_last_send.ports[hop++])) {
            const unsigned port = ref_last_send.ports[hop], other = port < 8 || port > 9 ? MAZE_LINK_CIRCUIT(now.table[1], at, 17 - port) : 0;
            partner |= port > 9;
            shared |= other != 0 && other != MAZE_CIRCUIT(a[0], a[1]);
            seen.from_last += port == 17 && hop + 1u < ref_last_send.hops;
        }
        seen.partner_opened += partner, seen.both_of_pair += shared;
        seen.to_itself += a[0] == a[2];
        for (unsigned hop = 0, crossed = 0; hop < ref_last_send.hops && !crossed; hop++)
            if (ref_last_send.ports[hop] == new_port) crossed = 1, seen.joined_crossed++;
    } else {
        unsigned channel = 0;
        while (channel < MAZE_CHANNELS && MAZE_RECEIVE_CIRCUIT(now.table[1], a[2], channel) != 0) channel++;
        seen.all_received += channel == MAZE_CHANNELS;
        seen.rejected_1000 += scouts >= 1000;
        seen.rejected_10000 += scouts >= 10000;
    }
}

/* Makes a call on both sides and keeps it in the list. */
static int differs;
static unsigned long last_number, last_circuits, last_hops; /* the last two of the book that was written last */

static void make_call(struct call call) {
    struct answers answers;
    unsigned long held = 0, links = 1, blocked = 0;
    unsigned fold;
    int armed = 0;
    if (differs || calls == MOST_CALLS) return;
    fold = fold_mask();
    if (call.letter == 'S') count_held(&held, &links, &blocked);
    if (call.letter == 'K') held = booked_circuits(), links = booked_hops();
    if (call.letter == 'G') held = booked_circuits();
    if ((call.letter == 'R' || call.letter == 'D') && call.argument[0] < MAZE_NODES && call.argument[1] < MAZE_CHANNELS)
        armed = MAZE_RECEIVE_ARMED(now.table[1], call.argument[0], call.argument[1]);
    list[calls++] = call;
    answers = run(&call, &now);
    if (!same(&answers, &now)) {
        differs = 1;
        return;
    }
    last_number = answers.value[1][0];
    if (call.letter == 'K' && last_number == MAZE_ACCEPTED) last_circuits = answers.value[1][4], last_hops = answers.value[1][1];
    if (call.letter == 'R' && last_number == MAZE_ACCEPTED && armed) {
        seen.armed_again++;
        seen.armed_held += MAZE_RECEIVE_CIRCUIT(now.table[1], call.argument[0], call.argument[1]) != 0;
    }
    seen.disarmed_again += call.letter == 'D' && last_number == MAZE_ACCEPTED && !armed;
    if (call.letter == 'M' && last_number == MAZE_ACCEPTED) *(fold == fold_mask() ? &seen.folded_alike : fold & ~fold_mask() ? &seen.unfolded : &seen.folded) += 1;
    seen.partner_blocked += call.letter == 'B' && last_number == MAZE_ACCEPTED && call.argument[1] > 9;
    if (call.letter == 'F') new_port = MAZE_PORTS;
    if (call.letter == 'Y') new_port = MAZE_DIMENSION(now.table[1]) - 1u;
    if (!strchr("PWVXY", call.letter)) tally(&call, &answers, held, links, blocked);
}

/* ---- choosing calls ---- */

static struct call plain(char letter, unsigned a, unsigned b) {
    struct call call = {letter, {(uint16_t)a, (uint16_t)b, 0, 0, 0}, MAZE_TABLE_BYTES, BUFFER, 0, PORTS, INDEX, MAZE_TABLE_BYTES, MAZE_TABLE_BYTES};
    return call;
}

static struct call sending(unsigned node, unsigned channel, unsigned target, unsigned type, unsigned vector) {
    struct call call = plain('S', node, channel);
    call.argument[2] = (uint16_t)target;
    call.argument[3] = (uint16_t)type;
    call.argument[4] = (uint16_t)vector;
    return call;
}

static unsigned any_node(unsigned dimension) {
    return below(1u << dimension);
}

/* The lowest send channel of a node that has no circuit, or one that has. */
static unsigned free_channel(unsigned node) {
    unsigned used = 0, channel = 0;
    for (unsigned port = 0; port < MAZE_PORTS; port++) {
        unsigned circuit = MAZE_LINK_CIRCUIT(now.table[1], node, port);
        if (circuit != 0 && MAZE_CIRCUIT_NODE(circuit) == node) used |= 1u << MAZE_CIRCUIT_CHANNEL(circuit);
    }
    while (channel < 7 && used >> channel & 1) channel++;
    return channel;
}

static unsigned any_vector(unsigned dimension, unsigned node, unsigned target) {
    unsigned all = (1u << dimension) - 1, uphill = node ^ target;
    switch (below(5)) {
    case 0: return all;
    case 1: return uphill ? uphill : all;
    case 2: return 1u << below(dimension);
    case 3: return all & ~uphill ? all & ~uphill : all;
    default: return 1 + below(all);
    }
}

static unsigned good_type(void) {
    static const unsigned types[] = {0, 0, 0, 1, 1, 3, 4, 4, 4, 4};
    return types[below(sizeof types / sizeof *types)];
}

/* One of the four routing types; now and then none of them. */
static unsigned any_type(void) {
    static const unsigned none[] = {2, 5, 6, 7, 8, 257, 259, 65535};
    return one_in(60) ? none[below(sizeof none / sizeof *none)] : good_type();
}

static struct call any_send(unsigned dimension) {
    unsigned node = any_node(dimension), target = one_in(8) ? node : near_to(fold_mask(), node, any_node(dimension));
    return sending(node, one_in(8) ? below(8) : free_channel(node), target, any_type(), any_vector(dimension, node, target));
}

/* A number near a limit, or anywhere. */
static unsigned odd_number(unsigned limit) {
    switch (below(6)) {
    case 0: return limit;
    case 1: return limit - 1;
    case 2: return limit + 1;
    case 3: return 256 * (1 + below(255)) + below(limit); /* its low byte alone would pass */
    case 4: return below(65536);
    default: return below(limit);
    }
}

/* Sends for a job. Those from one node are on channels of their own, but for some; now and then one of them, or the length of the list, is wrong. */
static struct call any_job(unsigned dimension) {
    static const unsigned counts[] = {0, 1, 2, 2, 3, 4, 6, 10};
    unsigned sends = one_in(12) ? 60 + below(5) : counts[below(8)], used[MAZE_NODES] = {0}, wrong = one_in(3) ? below(sends + 1) : sends;
    struct call call = plain('J', 0, 0);
    uint8_t *list = lists[jobs];
    for (unsigned i = 0; i < LIST; i++) list[i] = (uint8_t)below(256);
    for (unsigned i = 0; i < sends; i++) {
        struct call send = any_send(dimension);
        uint16_t *a = send.argument;
        if (sends >= 60 && !one_in(100)) a[2] = (uint16_t)(a[0] ^ (a[4] = (uint16_t)(1u << below(dimension)))), a[3] = 0;
        a[1] = (uint16_t)((a[1] + used[a[0]]) % 8);
        used[a[0]] += !one_in(20);
        if (i == wrong) a[below(5)] = (uint16_t)odd_number(one_in(2) ? 8 : 1u << dimension);
        for (unsigned k = 0; k < 5; k++) list[10 * i + 2 * k] = (uint8_t)a[k], list[10 * i + 2 * k + 1] = (uint8_t)(a[k] >> 8);
    }
    call.buffer_len = (uint16_t)(MAZE_SEND_BYTES * sends);
    if (one_in(20)) call.buffer_len = (uint16_t)(one_in(2) ? below(LIST) : call.buffer_len + 1 + below(9));
    call.job = (uint16_t)jobs;
    if (jobs < MOST_JOBS - 1) jobs++;
    return call;
}

/* A length near the least that does, up to a limit, or the limit. */
static uint16_t near_length(unsigned least, unsigned limit) {
    unsigned length = one_in(2) ? least : one_in(3) ? limit : one_in(2) ? below(least + 1) : least + 2 - below(4);
    return (uint16_t)(length > limit ? least : length);
}

/* A book of the table. */
static struct call any_book(void) {
    struct call call = plain('K', 0, 0);
    call.ports_len = near_length(booked_hops(), PORTS);
    call.index_len = near_length(MAZE_BOOK_LINE_BYTES * booked_circuits(), INDEX);
    return call;
}

/* A lookup in the book that stands there: of one of its circuits or of any number, in most cases with its own counts and buffers that hold it. */
static struct call any_lookup(void) {
    struct call call = plain('L', below(MAZE_CIRCUITS_LARGEST + 2), (unsigned)last_circuits);
    unsigned line = last_circuits == 0 ? 0 : one_in(4) ? 0 : one_in(4) ? (unsigned)last_circuits - 1 : below((unsigned)last_circuits);
    if (!one_in(4)) call.argument[0] = (uint16_t)(now.index[1][MAZE_BOOK_LINE_BYTES * line] + 256u * now.index[1][MAZE_BOOK_LINE_BYTES * line + 1]);
    if (one_in(16)) call.argument[0] = (uint16_t)(call.argument[0] + 256 * (1 + below(255)));
    call.argument[2] = (uint16_t)last_hops;
    if (one_in(16)) call.argument[1] = (uint16_t)(one_in(4) ? odd_number(MAZE_CIRCUITS_LARGEST) : last_circuits + 2 - below(4));
    if (one_in(16)) call.argument[2] = (uint16_t)(one_in(4) ? odd_number(MAZE_CIRCUITS_LARGEST) : last_hops + 2 - below(4));
    call.ports_len = (uint16_t)(one_in(12) ? near_length((unsigned)last_hops, PORTS) : one_in(2) ? last_hops : PORTS);
    call.index_len = (uint16_t)(one_in(12) ? near_length(MAZE_BOOK_LINE_BYTES * (unsigned)last_circuits, INDEX) : one_in(2) ? MAZE_BOOK_LINE_BYTES * last_circuits : INDEX);
    if (one_in(6)) call.buffer_len = (uint16_t)(one_in(3) ? MAZE_TRACE_BYTES : below(MAZE_TRACE_BYTES));
    return call;
}

/* A judging of the book that stands there, in most cases with its own counts and buffers that hold it. */
static struct call any_judging(void) {
    struct call call = plain('G', (unsigned)last_circuits, (unsigned)last_hops);
    if (one_in(16)) call.argument[0] = (uint16_t)(one_in(4) ? odd_number(MAZE_CIRCUITS_LARGEST) : last_circuits + 2 - below(4));
    if (one_in(16)) call.argument[1] = (uint16_t)(one_in(4) ? odd_number(MAZE_CIRCUITS_LARGEST) : last_hops + 2 - below(4));
    if (one_in(12)) call.ports_len = near_length((unsigned)last_hops, PORTS);
    if (one_in(12)) call.index_len = near_length(MAZE_BOOK_LINE_BYTES * (unsigned)last_circuits, INDEX);
    return call;
}

#ifndef WIDE
/* A length of a table: now and then a wrong one. */
static uint16_t any_length(void) {
    static const uint16_t lengths[] = {0, 1, MAZE_ARMED_AT, MAZE_TABLE_BYTES - 1, MAZE_TABLE_BYTES + 1, MAZE_TABLE_BYTES + SPARE};
    return one_in(15) ? lengths[below(sizeof lengths / sizeof *lengths)] : MAZE_TABLE_BYTES;
}

static struct call any_joining(void) {
    struct call call = plain('N', below(5) % 3, 0);
    call.table_len = any_length(), call.other_len = any_length(), call.joined_len = any_length();
    return call;
}
#endif

/* A circuit that is open, by chance; or any node and channel. */
static void any_circuit(unsigned dimension, unsigned *node, unsigned *channel) {
    for (int tries = 0; tries < 20; tries++) {
        unsigned circuit = MAZE_LINK_CIRCUIT(now.table[1], any_node(dimension), any_port(dimension));
        if (circuit != 0) {
            *node = MAZE_CIRCUIT_NODE(circuit);
            *channel = MAZE_CIRCUIT_CHANNEL(circuit);
            return;
        }
    }
    *node = any_node(dimension);
    *channel = below(8);
}

static struct call on_circuit(char letter, unsigned dimension) {
    unsigned node, channel;
    any_circuit(dimension, &node, &channel);
    return plain(letter, node, channel);
}

/* A receive channel that is held, by chance; or any. */
static struct call on_receive(char letter, unsigned dimension) {
    for (int tries = one_in(3) ? 20 : 0; tries > 0; tries--) {
        unsigned node = any_node(dimension), channel = below(4);
        if (MAZE_RECEIVE_CIRCUIT(now.table[1], node, channel) != 0) return plain(letter, node, channel);
    }
    return plain(letter, any_node(dimension), below(8));
}

#ifdef WIDE
static unsigned any_mask(unsigned dimension) {
    switch (below(5)) {
    case 0: return fold_mask();
    case 1: case 2: return fold_mask() ^ 1u << below(dimension);
    case 3: return one_in(2) ? 0 : (1u << dimension) - 1;
    default: return below(1u << dimension);
    }
}
#endif

/* A call some of whose numbers are out of range. */
static struct call odd_call(unsigned dimension) {
    static const uint16_t lengths[] = {0, 1, 256, MAZE_ARMED_AT, MAZE_TABLE_BYTES - 1, MAZE_TABLE_BYTES + 1, MAZE_TABLE_BYTES + SPARE};
    static const unsigned types[] = {0, 4, 1, 2, 3, 5, 6, 7, 8, 256, 257, 259, 260, 65535};
    struct call call = any_send(dimension);
#ifdef WIDE
    if (one_in(10)) {
        call = plain('M', one_in(3) ? any_mask(dimension) : odd_number(1u << dimension), 0);
        if (one_in(4)) call.table_len = lengths[below(sizeof lengths / sizeof *lengths)];
        return call;
    }
#endif
    call.letter = "FBESSSCTRDJKG"[below(13)];
    if (call.letter == 'F') {
        call.argument[0] = (uint16_t)(one_in(4) ? 256 + dimension : one_in(2) ? 0 : 9 + below(60000));
    } else if (call.letter == 'J') {
        call = any_job(dimension);
    } else if (call.letter == 'K') {
        call = any_book();
    } else if (call.letter == 'G') {
        call = any_judging();
    } else if (call.letter == 'S') {
        if (one_in(3)) call.argument[0] = (uint16_t)odd_number(1u << dimension);
        if (one_in(3)) call.argument[1] = (uint16_t)odd_number(8);
        if (one_in(3)) call.argument[2] = (uint16_t)odd_number(1u << dimension);
        if (one_in(3)) call.argument[3] = (uint16_t)types[below(sizeof types / sizeof *types)];
        if (one_in(3)) call.argument[4] = (uint16_t)(one_in(4) ? 0 : odd_number(1u << dimension));
    } else {
        if (call.letter == 'C' || call.letter == 'T') call = on_circuit(call.letter, dimension);
        if (call.letter == 'R' || call.letter == 'D') call = on_receive(call.letter, dimension);
        if (one_in(2)) call.argument[0] = (uint16_t)odd_number(1u << dimension);
        if (one_in(2)) call.argument[1] = (uint16_t)odd_number(call.letter == 'B' || call.letter == 'E' ? dimension : 8);
        if (call.letter == 'T' && one_in(2)) call.buffer_len = (uint16_t)below(12);
    }
    if (one_in(8)) call.table_len = lengths[below(sizeof lengths / sizeof *lengths)];
    return call;
}

static struct call any_call(unsigned dimension) {
    unsigned choice = below(100);
    struct call call;
#ifdef WIDE
    if (one_in(24)) return plain('M', any_mask(dimension), 0);
#endif
    if (choice < 40) return any_send(dimension);
    if (choice < 43) return any_job(dimension);
    if (choice < 44) return one_in(2) ? any_book() : one_in(2) ? any_lookup() : any_judging();
    if (choice < 57) return on_circuit('C', dimension);
    if (choice < 69) {
        call = on_circuit('T', dimension);
        call.buffer_len = (uint16_t)(one_in(3) ? MAZE_TRACE_BYTES : one_in(6) ? below(9) : BUFFER);
        return call;
    }
    if (choice < 80) return on_receive('R', dimension);
    if (choice < 84) return on_receive('D', dimension);
    if (choice < 90) return plain('B', any_node(dimension), any_port(dimension));
    if (choice < 95) return plain('E', any_node(dimension), any_port(dimension));
    return odd_call(dimension);
}

/* ---- the kinds of stream; each begins after an accepted making ---- */

/* Arms channels of a table on which nothing is held: all of a node's in one of `share` nodes, and some or none in the others. Most are written as
 * bytes, since a call for each takes long. */
static void arm_nodes(unsigned dimension, unsigned share) {
    for (unsigned node = 0; node < 1u << dimension; node++) {
        unsigned channels = one_in(share) ? 255 : one_in(4) ? 0 : below(256);
        if (!one_in(60)) make_call(plain('P', MAZE_ARMED_AT + node, channels));
        else
            for (unsigned channel = 0; channel < MAZE_CHANNELS; channel++)
                if (channels >> channel & 1) make_call(plain('R', node, channel));
    }
}

static void mixed(unsigned dimension) {
    unsigned count = 150 + 10 * dimension;
    arm_nodes(dimension, 2);
    for (unsigned i = 0; i < count; i++) make_call(any_call(dimension));
}

static void refusals(unsigned dimension) {
    arm_nodes(dimension, 2);
    for (unsigned i = 0; i < 20; i++) make_call(any_send(dimension));
    for (unsigned i = 0; i < 100; i++) make_call(odd_call(dimension));
}

/* Sends until few links are free, then single hops until none is; then calls on what is so found. */
static void filled(unsigned dimension) {
    unsigned nodes = 1u << dimension, holes = one_in(2) ? 0 : 1 + below(nodes);
    arm_nodes(dimension, 1);
    for (unsigned i = 0; i < nodes; i++) make_call(any_send(dimension));
    for (unsigned node = 0; node < nodes; node++)
        for (unsigned port = 0; port < MAZE_PORTS; port++)
            if (has_port(dimension, port) && MAZE_LINK_CIRCUIT(now.table[1], node, port) == 0)
                make_call(sending(node, free_channel(node), behind(node, port), good_type(), 1u << axis(port)));
    for (unsigned i = 0; i < holes; i++) make_call(on_circuit('C', dimension));
    for (unsigned i = 0; i < 40; i++) make_call(any_send(dimension));
    for (unsigned i = 0; i < 60; i++) make_call(any_call(dimension));
}

/* Many links blocked, so that most searches come back. */
static void thinned(unsigned dimension) {
    unsigned nodes = 1u << dimension, share = 2 + below(4);
    arm_nodes(dimension, 2);
    for (unsigned node = 0; node < nodes; node++)
        for (unsigned port = 0; port < MAZE_PORTS; port++)
            if (has_port(dimension, port) && one_in(share)) make_call(plain('B', node, port));
    for (unsigned i = 0; i < 60; i++) make_call(any_call(dimension));
}

/* The links into a target blocked or held, all or all but one, and sends from afar. */
static void walled(unsigned dimension) {
    unsigned all = (1u << dimension) - 1;
    arm_nodes(dimension, 1 + below(3));
    for (unsigned i = 0; i < 6; i++) {
        unsigned target = any_node(dimension), gap = below(2 * dimension), node;
        int hold = one_in(3);
        if (fold_mask() != 0 && gap < dimension && one_in(2)) gap = 17 - gap;
        for (unsigned port = 0; port < MAZE_PORTS; port++) {
            node = behind(target, port);
            if (port == gap || !has_port(dimension, port)) continue;
            if (hold) make_call(sending(node, free_channel(node), target, 0, 1u << axis(port)));
            else make_call(plain('B', node, port));
        }
        for (unsigned j = 0; j < 3; j++) {
            node = target ^ all;
            if (!one_in(3)) node ^= 1u << below(dimension);
            node = near_to(fold_mask(), target, node);
            make_call(sending(node, free_channel(node), target, any_type(), one_in(2) ? all : any_vector(dimension, node, target)));
        }
        for (unsigned port = 0; port < MAZE_PORTS; port++)
            if (has_port(dimension, port)) make_call(plain('E', behind(target, port), port));
    }
}

/* A place in the table where a change matters: mostly an entry that is held or one near it, of the links or of the receive channels. */
static unsigned place(unsigned dimension) {
    const uint8_t *table = now.table[1];
    if (one_in(8)) return below(MAZE_TABLE_BYTES);
    if (one_in(20)) return MAZE_DIMENSION_AT;
#ifdef WIDE
    if (one_in(20)) return MAZE_WIDE_FOLD_AT;
#endif
    if (one_in(6)) return enabled_at(one_in(4) ? below(MAZE_NODES) : any_node(dimension)) + below(MASK_BYTES);
    if (one_in(12)) return MAZE_ARMED_AT + below(2u << dimension) % MAZE_NODES; /* of a node, or of one just behind the last */
    if (one_in(8)) {
        unsigned node = any_node(dimension);
        for (int tries = 0; tries < 20 && MAZE_RECEIVE_CIRCUIT(table, node, 0) == 0; tries++) node = any_node(dimension);
        return MAZE_ARMED_AT + node;
    }
    for (int tries = 0; tries < 40; tries++) {
        unsigned node = any_node(dimension), slot = below(8);
        unsigned at = one_in(2) ? link_at(node, one_in(4) ? below(MAZE_PORTS) : slot) : receive_at(node, slot);
        if (table[at] != 0 || table[at + 1] != 0 || one_in(20)) return at + (one_in(4) ? 1 : 0);
    }
    return MAZE_LINKS_AT + below(MAZE_ARMED_AT - MAZE_LINKS_AT);
}

/* A made table; where it is wide, with the fold mask that is wanted or, if none is, with any. Written as a byte it comes with every partner link blocked. */
#ifdef WIDE
enum { ANY_MASK = 256 };
static unsigned wanted_mask = ANY_MASK;
#endif

static void make_table(unsigned dimension) {
    make_call(plain('F', dimension, 0));
#ifdef WIDE
    if (wanted_mask != ANY_MASK) make_call(plain('M', wanted_mask, 0));
    else if (one_in(8)) make_call(plain('P', MAZE_WIDE_FOLD_AT, below(1u << dimension)));
    else if (one_in(2)) make_call(plain('M', any_mask(dimension), 0));
#endif
}

/* A made table, channels armed, and some sends. */
static void anew(unsigned dimension) {
    make_table(dimension);
    arm_nodes(dimension, 2);
    for (unsigned i = 0; i < 2 * dimension + 4; i++) make_call(any_send(dimension));
}

/* Changes some bytes, makes a call or two, and puts the bytes back. */
static void changed(unsigned dimension, unsigned bytes) {
    unsigned at[4], old[4];
    struct call call;
    for (unsigned i = 0; i < bytes; i++) {
        at[i] = place(dimension);
        old[i] = now.table[1][at[i]];
        /* one bit, zero, the value of another place, or anything */
        unsigned value = one_in(3) ? old[i] ^ 1u << below(8) : one_in(3) ? 0 : one_in(2) ? now.table[1][place(dimension)] : below(256);
        make_call(plain('P', at[i], value));
    }
    if (bytes == 1 && now.table[1][at[0]] == old[0]) return;
    do call = any_call(dimension);
    while (call.letter == 'F' || call.table_len != MAZE_TABLE_BYTES);
    make_call(call);
    if (differs) return;
    {
        int table_sound = last_number != MAZE_BAD_DIMENSION && last_number != MAZE_NOT_SOUND;
        if (bytes == 1) seen.one_changed++, seen.one_changed_sound += (unsigned)table_sound;
        else seen.several_changed++, seen.several_changed_sound += (unsigned)table_sound;
        if (bytes == 1 && at[0] >= MAZE_ARMED_AT) seen.mask_changed++, seen.mask_changed_sound += (unsigned)table_sound;
        /* A call that was accepted may have altered the table, so that what is put back would mean something else: begin anew instead. */
        if (table_sound) {
            anew(dimension);
            return;
        }
    }
    for (unsigned i = bytes; i-- > 0;) make_call(plain('P', at[i], old[i]));
}

static void damaged(unsigned dimension) {
    unsigned sends = 2 * dimension + 4 + below(1u << dimension);
    arm_nodes(dimension, 2);
    for (unsigned i = 0; i < sends; i++) make_call(any_send(dimension));
    for (unsigned i = 0; i < 200; i++) changed(dimension, one_in(2) ? 1 : 2 + below(3));
}

/* One entry written anew as a whole: a circuit more or less, or in another place. Two such changes may make another sound table. */
static void rewritten(unsigned dimension) {
    anew(dimension);
    for (unsigned i = 0; i < 60; i++) {
        const uint8_t *table = now.table[1];
        unsigned node = any_node(dimension), slot = below(8), other = below(8), from = receive_at(node, slot), to;
        for (int tries = 0; tries < 30 && MAZE_RECEIVE_CIRCUIT(table, node, slot) == 0; tries++)
            node = any_node(dimension), slot = below(8), from = receive_at(node, slot);
        to = receive_at(one_in(10) ? any_node(dimension) : node, other);
        if (from != to && table[to] == 0 && table[to + 1] == 0) {
            /* the receive channel moved: sound if it stays at its node and is armed */
            make_call(plain('P', to, table[from]));
            make_call(plain('P', to + 1, table[from + 1]));
            if (one_in(4)) make_call(any_send(dimension)); /* held twice now */
            make_call(plain('P', from, 0));
            make_call(plain('P', from + 1, 0));
            seen.moved++;
        }
        make_call(any_send(dimension));
        if (last_number == MAZE_NOT_SOUND) anew(dimension);
        make_call(any_call(dimension));
    }
}

static void write_entry(unsigned part, unsigned node, unsigned slot, unsigned circuit) {
    unsigned at = part == MAZE_LINKS_AT ? link_at(node, slot) : receive_at(node, slot);
    make_call(plain('P', at, circuit % 256));
    make_call(plain('P', at + 1, circuit / 256));
}

/* Circuits written into the table entry by entry: along any permitted path, not the first, and on any receive channel; or along one that is
 * not quite permitted, or on one that is not armed. */
static void laid(unsigned dimension) {
    arm_nodes(dimension, 2);
    for (unsigned i = 0; i < 40 && !differs; i++) {
        const uint8_t *table = now.table[1];
        unsigned source = any_node(dimension), circuit = MAZE_CIRCUIT(source, below(8)), hops = 1 + below(dimension + 1), walked = 0;
        unsigned node[MAZE_HOPS_LARGEST + 1], port[MAZE_HOPS_LARGEST], channel = below(8), end, fault = one_in(3) ? 1 + below(6) : 0;
        int clear = 1;
        for (unsigned n = 0; n < MAZE_NODES; n++)
            for (unsigned slot = 0; slot < 8; slot++)
                if (MAZE_LINK_CIRCUIT(table, n, slot) == circuit || MAZE_RECEIVE_CIRCUIT(table, n, slot) == circuit) clear = 0;
        node[0] = source;
        for (unsigned hop = 0; hop < hops; hop++) {
            do port[hop] = any_port(dimension);
            while (hop > 0 && fault != 1 && walked >> axis(port[hop]) & 1);
            if (hop > 0) walked |= 1u << axis(port[hop]);
            if (hop == 1 && one_in(3) && fault != 1) { /* back through the source, by the same port or its partner */
                port[hop] = has_port(dimension, 17 - port[0]) && one_in(2) ? 17 - port[0] : port[0];
                walked = 1u << axis(port[hop]);
            }
            if (MAZE_LINK_CIRCUIT(table, node[hop], port[hop]) != 0 || !MAZE_LINK_ENABLED(table, node[hop], port[hop])) clear = 0;
            node[hop + 1] = behind(node[hop], port[hop]);
        }
        end = node[hops];
        if (!clear || MAZE_RECEIVE_CIRCUIT(table, end, channel) != 0) continue;
        seen.laid++;
        for (unsigned hop = 0; hop < hops; hop++) write_entry(MAZE_LINKS_AT, node[hop], port[hop], circuit);
        write_entry(MAZE_RECEIVES_AT, end, channel, circuit);
        make_call(plain('P', MAZE_ARMED_AT + end, fault == 6 ? table[MAZE_ARMED_AT + end] & ~(1u << channel) : table[MAZE_ARMED_AT + end] | 1u << channel));
        switch (fault) { /* 1 was a port walked twice, 6 a channel that is not armed */
        case 2: write_entry(MAZE_LINKS_AT, node[below(hops)], port[below(hops)], 0); break;
        case 3: write_entry(MAZE_LINKS_AT, any_node(dimension), below(MAZE_PORTS), circuit); break;
        case 4: write_entry(MAZE_RECEIVES_AT, end, channel, 0), write_entry(MAZE_RECEIVES_AT, node[below(hops)], channel, circuit); break;
        case 5: write_entry(MAZE_RECEIVES_AT, any_node(dimension), below(8), circuit); break;
        default: break;
        }
        make_call(plain('T', source, MAZE_CIRCUIT_CHANNEL(circuit)));
        if (last_number == MAZE_NOT_SOUND) {
            make_call(any_call(dimension));
            anew(dimension);
            continue;
        }
        seen.laid_sound++;
        make_call(any_send(dimension));
        if (one_in(2)) make_call(any_call(dimension));
        if (one_in(3)) make_call(plain('C', source, MAZE_CIRCUIT_CHANNEL(circuit)));
    }
}

/* Sends to two targets, whose channels are armed, disarmed and given back in between. */
static void contended(unsigned dimension) {
    unsigned targets[2] = {any_node(dimension), any_node(dimension)}, channels = 1 + below(8);
    for (unsigned i = 0; i < 120; i++) {
        unsigned target = targets[below(2)], channel = below(channels), node = any_node(dimension);
        unsigned circuit = MAZE_RECEIVE_CIRCUIT(now.table[1], target, channel);
        switch (below(8)) {
        case 0: case 1: make_call(plain('R', target, channel)); break;
        case 2: make_call(plain('D', target, channel)); break;
        case 3:
            if (circuit != 0) make_call(plain('C', MAZE_CIRCUIT_NODE(circuit), MAZE_CIRCUIT_CHANNEL(circuit)));
            break;
        default: make_call(sending(node, free_channel(node), target, any_type(), any_vector(dimension, node, target)));
        }
    }
}

/* Every link that is enabled is held, in a table where no circuit is: that of port p by channel p of its node, alone; or, where p is folded, together with the partner link
 * back, which is blocked where the other is. */
static void hold_all(unsigned dimension) {
    for (unsigned node = 0; node < 1u << dimension; node++)
        for (unsigned port = 0; port < dimension; port++) {
            const unsigned circuit = MAZE_CIRCUIT(node, port), other = behind(node, port), partner = 17 - port;
            const int enabled = MAZE_LINK_ENABLED(now.table[1], node, port);
            if (!has_port(dimension, partner)) {
                if (enabled) write_entry(MAZE_LINKS_AT, node, port, circuit), write_entry(MAZE_RECEIVES_AT, other, port, circuit);
            } else if (enabled && MAZE_LINK_ENABLED(now.table[1], other, partner)) {
                write_entry(MAZE_LINKS_AT, node, port, circuit), write_entry(MAZE_LINKS_AT, other, partner, circuit);
                write_entry(MAZE_RECEIVES_AT, node, port, circuit);
            } else {
                make_call(plain('B', node, port));
                make_call(plain('B', other, partner));
            }
        }
}

/* Some links near a source and a target blocked, and all others held: which of 10 and 22 a rejected send gets is not to be read off the links that it meets. Then circuits
 * are closed one by one. */
static void stopped(unsigned dimension) {
    unsigned nodes = 1u << dimension, source = any_node(dimension), target = one_in(6) ? source : near_to(fold_mask(), source, any_node(dimension)), blocks = 1 + below(3 * dimension);
    for (unsigned i = 0; i < blocks; i++) {
        unsigned node = one_in(2) ? source : target, port = any_port(dimension);
        if (one_in(2)) node = behind(node, port); /* into the node */
        if (one_in(3)) node ^= 1u << below(dimension);
        make_call(plain('B', node, port));
    }
    for (unsigned node = 0; node < nodes; node++) make_call(plain('P', MAZE_ARMED_AT + node, 255));
    hold_all(dimension);
    for (unsigned i = 0; i < 80; i++) {
        unsigned node = one_in(3) ? source ^ 1u << below(dimension) : source, port = below(dimension);
        switch (below(6)) {
        case 0: make_call(plain('C', node, port)); break;
        case 1: make_call(plain('C', target ^ 1u << port, port)); break;
        case 2: make_call(on_circuit('C', dimension)); break;
        default: make_call(sending(node, free_channel(node), one_in(8) ? near_to(fold_mask(), node, any_node(dimension)) : target, good_type(), any_vector(dimension, node, target)));
        }
    }
}

/* Jobs. The first has a send over each link of the first nodes, 64 of them where the cube has so many, and is accepted, or refused at one of them. */
static void together(unsigned dimension) {
    struct call call = any_job(dimension);
    unsigned links = dimension << dimension, sends = links < MAZE_SENDS_LARGEST ? links : MAZE_SENDS_LARGEST;
    arm_nodes(dimension, one_in(3) ? 2 : 1);
    for (unsigned i = 0; i < sends; i++) {
        const unsigned node = i / dimension, port = i % dimension, numbers[] = {node, port, node ^ 1u << port, good_type(), 1u << port};
        for (unsigned k = 0; k < 5; k++) lists[call.job][10 * i + 2 * k] = (uint8_t)numbers[k], lists[call.job][10 * i + 2 * k + 1] = 0;
    }
    call.buffer_len = (uint16_t)(MAZE_SEND_BYTES * sends);
    if (one_in(3)) lists[call.job][10 * below(sends) + 2 * below(5)] = (uint8_t)below(256);
    make_call(call);
    for (unsigned i = 0; i < 40; i++) {
        make_call(on_circuit('C', dimension));
        make_call(on_receive('R', dimension));
        make_call(any_job(dimension));
    }
}

/* A book just written: each circuit number of the cube is looked up and traced by the library, and gives the same. It is said here, as the calls of a stream do not
 * show it. */
static void traced_alike(unsigned dimension) {
    for (unsigned circuit = 1; circuit <= 8u << dimension && !differs; circuit++) {
        uint8_t found_ports[BUFFER] = {0}, traced_ports[BUFFER] = {0};
        maze_traced found = maze_book_lookup(now.ports[0], PORTS, now.index[0], INDEX, (uint16_t)last_circuits, (uint16_t)last_hops, (uint16_t)circuit, found_ports, BUFFER);
        maze_traced traced =
            maze_trace(now.table[0], MAZE_TABLE_BYTES, (uint16_t)MAZE_CIRCUIT_NODE(circuit), (uint16_t)MAZE_CIRCUIT_CHANNEL(circuit), traced_ports, BUFFER);
        if (found.number != traced.number || found.hops != traced.hops || memcmp(found_ports, traced_ports, BUFFER) != 0) {
            printf("random: a lookup and a trace of circuit %u differ, dimension %u: %u and %u\n0 passed, 1 failed\n", circuit, dimension, (unsigned)found.number, (unsigned)traced.number);
            exit(1);
        }
        seen.traced_alike += found.number == MAZE_ACCEPTED;
    }
}

static void write_line(unsigned line, unsigned number, unsigned offset, unsigned length) {
    const unsigned numbers[] = {number, offset, length};
    for (unsigned i = 0; i < 3; i++) {
        make_call(plain('W', MAZE_BOOK_LINE_BYTES * line + 2 * i, numbers[i] % 256));
        make_call(plain('W', MAZE_BOOK_LINE_BYTES * line + 2 * i + 1, numbers[i] / 256 % 256));
    }
}

/* Writes a book line by line, well formed or with one fault, and looks circuits up in it. */
static void lay_book(unsigned fault) {
    unsigned circuits = 1 + below(12), number = 0, offset = 0, at = fault == NUMBERS_EQUAL || fault == NUMBERS_FALL ? 1 + below(circuits) : below(circuits);
    circuits += at == circuits;
    for (unsigned line = 0; line < circuits; line++) {
        unsigned length = 1 + below(MAZE_HOPS_LARGEST), last = number, written = offset;
        number += 1 + (one_in(2) ? 0 : below((MAZE_CIRCUITS_LARGEST - number) / (circuits - line) - 1));
        if (line + 1 == circuits && (fault == NUMBER_LARGE || one_in(5))) number = MAZE_CIRCUITS_LARGEST;
        if (line == at) {
            if (fault == LENGTH_ZERO) length = 0;
            if (fault == LENGTH_TEN) length = 10;
            if (fault == GAP) written = ++offset;
            if (fault == OVERLAP && line > 0) written = --offset;
            if (fault == OVERLAP && line == 0) written = 65535, offset = 65535;
            if (fault == NUMBERS_EQUAL) number = last;
            if (fault == NUMBERS_FALL) number = last - 1;
            if (fault == NUMBER_ZERO) number = 0;
        }
        if (fault == NUMBER_LARGE && line + 1 == circuits) number += 1 + (one_in(2) ? 0 : below(60000));
        write_line(line, number, written, length);
        offset = (offset + length) % 65536;
    }
    last_circuits = circuits;
    last_hops = offset - (fault == HOPS_SHORT) + (fault == HOPS_PAST);
    for (unsigned i = 0; i < 4; i++) {
        struct call call = plain('L', 0, circuits);
        const uint8_t *line = now.index[1] + MAZE_BOOK_LINE_BYTES * below(circuits);
        call.argument[0] = (uint16_t)(line[0] + 256u * line[1]);
        call.argument[2] = (uint16_t)last_hops;
        if (one_in(2) || fault == PORTS_SHORT) call.ports_len = (uint16_t)(last_hops - (fault == PORTS_SHORT));
        if (one_in(2) || fault == INDEX_SHORT) call.index_len = (uint16_t)(MAZE_BOOK_LINE_BYTES * circuits - (fault == INDEX_SHORT));
        if (call.ports_len > PORTS) call.ports_len = PORTS;
        make_call(call);
        if (fault == NO_FAULT) seen.laid_books += last_number == MAZE_ACCEPTED;
        else seen.fault[fault] += last_number == MAZE_BAD_BOOK;
        make_call(any_lookup());
    }
}

/* Books of tables with few circuits, many and all that there are; lookups in them, as written and after a byte of the index was changed; and books that no table gave. */
static void booked(unsigned dimension) {
    unsigned nodes = 1u << dimension, rounds = 3 + below(3);
    arm_nodes(dimension, 1);
    for (unsigned round = 0; round < rounds; round++) {
        unsigned sends = below(8 << round);
        if (round + 1 == rounds && one_in(3)) { /* every link held */
            make_table(dimension);
            for (unsigned node = 0; node < nodes; node++) make_call(plain('P', MAZE_ARMED_AT + node, 255));
            hold_all(dimension);
        } else {
            for (unsigned i = 0; i < sends; i++) make_call(any_send(dimension));
            if (one_in(2)) make_call(on_circuit('C', dimension));
        }
        for (unsigned i = 0; i < 3; i++) make_call(any_book());
        make_call(plain('K', 0, 0));
        if (last_number != MAZE_ACCEPTED) return;
        traced_alike(dimension);
        for (unsigned i = 0; i < 12; i++) make_call(any_lookup());
        for (unsigned i = 0; i < 6 && last_circuits > 0; i++) {
            unsigned place = below(MAZE_BOOK_LINE_BYTES * (unsigned)last_circuits), old = now.index[1][place];
            make_call(plain('W', place, one_in(2) ? old + 1 : one_in(2) ? old - 1 : below(256)));
            if (now.index[1][place] == old) continue;
            seen.damaged_books++;
            for (unsigned k = 0; k < 2; k++) {
                struct call call = any_lookup();
                call.argument[1] = (uint16_t)last_circuits, call.argument[2] = (uint16_t)last_hops, call.ports_len = PORTS, call.index_len = INDEX;
                make_call(call);
                if (k == 1) seen.damaged_formed += last_number != MAZE_BAD_BOOK;
            }
            if (one_in(3)) make_call(plain('W', place, old));
        }
        for (unsigned i = 0; i < 6; i++) lay_book(one_in(3) ? NO_FAULT : 1 + below(FAULTS - 1));
    }
}

static struct call own_judging(void) {
    return plain('G', (unsigned)last_circuits, (unsigned)last_hops);
}

enum { ALL, SOME, NO_ARMING };

/* Closes the circuits of the book that stands there and arms their channels again: of all of them, of all but some, or of none. */
static void close_booked(unsigned how) {
    for (unsigned line = 0; line < last_circuits; line++) {
        const unsigned circuit = now.index[1][MAZE_BOOK_LINE_BYTES * line] + 256u * now.index[1][MAZE_BOOK_LINE_BYTES * line + 1];
        const unsigned receive = maze_circuit_receive(now.table[1], circuit);
        if (receive == 0 || (how == SOME && one_in(20))) continue;
        make_call(plain('C', MAZE_CIRCUIT_NODE(circuit), MAZE_CIRCUIT_CHANNEL(circuit)));
        if (how == ALL || (how == SOME && !one_in(10))) make_call(plain('R', MAZE_CIRCUIT_NODE(receive), MAZE_CIRCUIT_CHANNEL(receive)));
    }
}

/* Books judged by the table that they were written of: while its circuits are open, once they are closed, and then with a byte of the book, a link, a channel or a
 * circuit of the table changed. */
static void judged(unsigned dimension) {
    unsigned rounds = 3 + below(3);
    for (unsigned round = 0; round < rounds && !differs; round++) {
        unsigned sends = below(16 << round), how = below(3);
        make_table(dimension);
        if (!one_in(3)) arm_nodes(dimension, 1 + below(2));
        else
            for (unsigned node = 0; node < 1u << dimension; node++) make_call(plain('P', MAZE_ARMED_AT + node, 1u << below(8)));
        for (unsigned i = 0; i < sends; i++) make_call(any_send(dimension));
        make_call(plain('K', 0, 0));
        if (last_number != MAZE_ACCEPTED) return;
        make_call(own_judging());
        seen.judged_open += last_number == MAZE_BAD_BOOK_CIRCUIT;
        close_booked(how);
        make_call(own_judging());
        seen.judged_unarmed += last_number == MAZE_RECEIVE_REJECTED;
        if (how == ALL && !differs && last_number != MAZE_ACCEPTED) {
            printf("random: a book whose circuits are closed and armed again is refused as %lu, dimension %u\n0 passed, 1 failed\n", last_number, dimension);
            exit(1);
        }
        for (unsigned i = 0; i < 12 && last_circuits > 0; i++) {
            unsigned place = below((unsigned)last_hops), old = now.ports[1][place];
            switch (below(7)) {
            case 0: case 1:
                make_call(plain('V', place, one_in(4) ? below(256) : one_in(3) ? (17 - old) % 256 : any_port(dimension)));
                make_call(own_judging());
                make_call(plain('V', place, old));
                break;
            case 2:
                place = below(MAZE_BOOK_LINE_BYTES * (unsigned)last_circuits), old = now.index[1][place];
                make_call(plain('W', place, one_in(2) ? old + 1 : below(256)));
                make_call(own_judging());
                make_call(plain('W', place, old));
                break;
            case 3: make_call(plain('B', any_node(dimension), any_port(dimension))); break;
            case 4: make_call(on_receive('D', dimension)); break;
            case 5: make_call(any_send(dimension)); break;
            default: make_call(any_judging());
            }
            make_call(own_judging());
        }
    }
}

#ifndef WIDE
/* A table with circuits and some links blocked: one to join. */
static void half(unsigned dimension) {
    unsigned sends = one_in(5) ? 0 : below(6u << below(dimension + 1)), blocks = one_in(2) ? 0 : below(1u << dimension);
    make_call(plain('F', dimension, 0));
    arm_nodes(dimension, 1 + below(2));
    for (unsigned i = 0; i < blocks; i++) make_call(plain('B', any_node(dimension), below(dimension)));
    for (unsigned i = 0; i < sends; i++) make_call(any_send(dimension));
}

/* Two tables joined; then, by turns, joined with bytes of either changed, or calls that go on with the joined one. */
static void joined(unsigned dimension) {
    unsigned rounds = 2 + below(3);
    for (unsigned round = 0; round < rounds && !differs; round++) {
        half(dimension);
        make_call(plain('X', 0, 0));
        half(one_in(12) ? 1 + below(MAZE_DIMENSION_LARGEST) : dimension);
        for (unsigned i = 0; i < 4; i++) make_call(any_joining());
        for (unsigned i = 0; i < 16 && round % 2 == 0; i++) {
            unsigned at = place(dimension), old = now.table[1][at];
            make_call(plain('P', at, one_in(3) ? old ^ 1u << below(8) : one_in(3) ? 0 : one_in(2) ? now.table[1][place(dimension)] : below(256)));
            if (now.table[1][at] == old) continue;
            make_call(any_joining());
            seen.joined_damaged++, seen.joined_damaged_sound += last_number == MAZE_ACCEPTED || last_number == MAZE_BAD_HALVES;
            if (!one_in(4)) make_call(plain('P', at, old));
            if (one_in(3)) make_call(plain('X', 0, 0));
        }
        if (round % 2 == 0) continue;
        make_call(plain('N', below(3), 0));
        if (last_number != MAZE_ACCEPTED) continue;
        make_call(plain('Y', 0, 0));
        for (unsigned i = 0; i < 40; i++) make_call(any_call(dimension + 1));
    }
}
#endif

static const struct {
    const char *name;
    void (*run)(unsigned);
} kinds[] = {
    {"mixed", mixed},     {"refusals", refusals},   {"filled", filled}, {"thinned", thinned},     {"walled", walled},
    {"damaged", damaged}, {"rewritten", rewritten}, {"laid", laid},     {"contended", contended}, {"stopped", stopped},
    {"together", together}, {"booked", booked},     {"judged", judged},
#ifndef WIDE
    {"joined", joined},
#endif
};

static void print_seen(void) {
    printf("calls compared: %lu; the numbers that each answered, and how often:\n", seen.calls);
    for (int i = 0; letters[i] != 'W'; i++) {
        printf("%c:", letters[i]);
        for (int number = 0; number < NUMBERS; number++)
            if (seen.answers[i][number]) printf("  %d: %lu", number, seen.answers[i][number]);
        printf("\n");
    }
    printf("accepted opens by hops:");
    for (int hops = 1; hops < 10; hops++) printf("  %d: %lu", hops, seen.hops[hops]);
    printf("\nfirst hop away from the target: %lu; through the source: %lu; to the source itself: %lu\n", seen.first_hop_away,
           seen.through_source, seen.to_itself);
    printf("second pass accepted: %lu; second pass rejected: %lu\n", seen.second_accepted, seen.second_rejected);
    printf("type 4 ended by a receive rejection with a port left for a second pass: %lu; with none: %lu; route and then receive rejected: %lu\n",
           seen.receive_ended, seen.receive_ended_no_port, seen.route_then_receive);
    printf("type 1 accepted on its first path: %lu; on a later one: %lu; none of several free: %lu; receive rejected: %lu; on a later path: %lu\n",
           seen.helix_first, seen.helix_later, seen.helix_none, seen.helix_received, seen.helix_received_later);
    printf("type 3 accepted: %lu; route rejected: %lu; receive rejected: %lu; of types 1 and 3, scouts on a path that is not free: %lu\n",
           seen.fixed_taken, seen.fixed_rejected, seen.fixed_received, seen.partly_free);
    printf("route rejected, and closing circuits may help:");
    for (unsigned type = 0; type <= MAZE_TYPE_ALTERNATE_MAZE; type++)
        if (type != 2) printf("  type %u: %lu", type, seen.rejected[0][type]);
    printf(", of these with a blocked link in the table: %lu\nand it does not:", seen.helped_past_blocked);
    for (unsigned type = 0; type <= MAZE_TYPE_ALTERNATE_MAZE; type++)
        if (type != 2) printf("  type %u: %lu", type, seen.rejected[1][type]);
    printf(", of these with no circuit: %lu; with circuits and no scout: %lu\n", seen.no_route_idle, seen.no_route_unscouted);
    printf("opens that passed over a channel not armed: %lu; armed ones armed again: %lu, of these held: %lu; disarmed ones again: %lu\n",
           seen.passed_over, seen.armed_again, seen.armed_held, seen.disarmed_again);
    printf("jobs of several sends accepted: %lu, of 64: %lu, of none: %lu; of several refused at the first: %lu, at the last: %lu, between: %lu\n",
           seen.job_several, seen.job_long, seen.job_empty, seen.job_first, seen.job_last, seen.job_middle);
    printf("books of no circuit: %lu; of several: %lu; of more than 256: %lu; of 2,048 hops: %lu; in buffers that just hold them: %lu; ports short: %lu; index short: %lu\n",
           seen.book_empty, seen.book_several, seen.book_long, seen.book_whole, seen.book_exact, seen.ports_short, seen.index_short);
    printf("circuit numbers above 255 in them: %lu; offsets: %lu; lookups of the first of several: %lu; of the last: %lu; that gave a trace's ports: %lu\n", seen.number_wide,
           seen.offset_wide, seen.looked_first, seen.looked_last, seen.traced_alike);
    printf("books with a byte of the index changed: %lu, still well formed: %lu; lookups in books written line by line: %lu\n25 of those with", seen.damaged_books,
           seen.damaged_formed, seen.laid_books);
    for (int fault = 1; fault < FAULTS; fault++) printf("%s %s: %lu", fault > 1 ? ";" : "", fault_names[fault], seen.fault[fault]);
    printf("\njudged and accepted: books of several circuits: %lu, of more than 64: %lu, beside open circuits: %lu; refused with their circuits open: %lu; closed and not armed: %lu",
           seen.judged_several, seen.judged_long, seen.judged_beside, seen.judged_open, seen.judged_unarmed);
#ifdef WIDE
    printf("\nfold masks that gained dimensions: %lu, that lost some: %lu, set again: %lu; opens over a partner: %lu, beside another circuit on a pair: %lu, back over the partner: %lu, "
           "on from port 17: %lu\n11 with all eight channels armed: %lu; partners blocked: %lu; books of more than 2,048 hops: %lu",
           seen.folded, seen.unfolded, seen.folded_alike, seen.partner_opened, seen.both_of_pair, seen.back_by_partner, seen.from_last, seen.full_and_armed, seen.partner_blocked,
           seen.book_folded);
#else
    printf("\njoined with circuits in both: %lu, with more than 256 in all: %lu; the table first: %lu, second: %lu, both: %lu; opens over the new port: %lu", seen.joined_circuits,
           seen.joined_long, seen.joined_orders[0], seen.joined_orders[1], seen.joined_orders[2], seen.joined_crossed);
    printf("\njoinings with a byte changed: %lu, still sound: %lu", seen.joined_damaged, seen.joined_damaged_sound);
#endif
    printf("\nrejected after 1,000 scouts or more: %lu; after 10,000 or more: %lu; most scouts of a send: %lu\n", seen.rejected_1000,
           seen.rejected_10000, seen.most_scouts);
    printf("opens with nine tenths of the links held: %lu, accepted: %lu; with all held: %lu; with all receive channels held: %lu\n",
           seen.nearly_full, seen.nearly_full_accepted, seen.full, seen.all_received);
    printf("tables with one byte changed: %lu, still sound: %lu; with two to four: %lu, still sound: %lu; receive channels moved: %lu\n",
           seen.one_changed, seen.one_changed_sound, seen.several_changed, seen.several_changed_sound, seen.moved);
    printf("of these with one byte of armed channels changed: %lu, still sound: %lu\n", seen.mask_changed, seen.mask_changed_sound);
    printf("circuits written entry by entry: %lu, sound: %lu\n", seen.laid, seen.laid_sound);
    printf("wrong lengths: %lu; short buffers: %lu\n", seen.wrong_length, seen.short_buffer);
}

static unsigned long passed;

static void run_stream(size_t kind, unsigned dimension, uint64_t seed) {
    random_state = seed;
    calls = jobs = 0;
    last_circuits = last_hops = 0;
    start(&now);
    make_table(dimension);
    kinds[kind].run(dimension);
    if (differs) {
        report(dimension, kinds[kind].name, seed);
        printf("%lu passed, 1 failed\n", passed);
        exit(1);
    }
    passed++;
}

int main(int count, char **arguments) {
    const unsigned long enough = MAZE_PORTS == 8 ? 20 : 10;
    unsigned long streams = count > 1 ? strtoul(arguments[1], NULL, 10) : enough;
    uint64_t seed = count > 2 ? strtoull(arguments[2], NULL, 10) : 1;
    for (unsigned long stream = 0; stream < streams; stream++)
        for (size_t kind = 0; kind < sizeof kinds / sizeof *kinds; kind++)
            for (unsigned dimension = 1; dimension <= MAZE_DIMENSION_LARGEST; dimension++) run_stream(kind, dimension, seed * 1000000007u + stream * 1009 + kind * 16 + dimension);
#ifdef WIDE
    for (unsigned dimension = 1; dimension <= MAZE_DIMENSION_LARGEST; dimension++)
        for (unsigned mask = 0; mask < 1u << dimension && streams >= enough; mask++) {
            wanted_mask = mask;
            for (unsigned i = 0; i < (dimension < 6 ? 4 : 1); i++) run_stream((mask + dimension + 2 * i) % (sizeof kinds / sizeof *kinds), dimension, seed * 1000000009u + 4096 * i + 256 * dimension + mask);
        }
#endif
    print_seen();
    /* Streams that no longer reach the edges compare nothing worth comparing. */
    if (streams >= enough) {
        const struct {
            const char *what;
            unsigned long times;
        } edges[] = {
            {"a first hop away from the target", seen.first_hop_away},
            {"a path through the source", seen.through_source},
            {"a path to the source itself", seen.to_itself},
            {"a path of nine hops", seen.hops[9]},
            {"a second pass accepted", seen.second_accepted},
            {"a second pass rejected", seen.second_rejected},
            {"a receive rejection", seen.answers[letter_place('S')][MAZE_RECEIVE_REJECTED]},
            {"type 4 ended by a receive rejection with a port left for a second pass", seen.receive_ended},
            {"type 4 ended by a receive rejection with no port left", seen.receive_ended_no_port},
            {"a route rejection and then a receive rejection", seen.route_then_receive},
            {"10 of type 0", seen.rejected[0][0]},
            {"10 of type 1", seen.rejected[0][1]},
            {"10 of type 3", seen.rejected[0][3]},
            {"10 of type 4", seen.rejected[0][4]},
            {"22 of type 0", seen.rejected[1][0]},
            {"22 of type 1", seen.rejected[1][1]},
            {"22 of type 3", seen.rejected[1][3]},
            {"22 of type 4", seen.rejected[1][4]},
            {"10 in a table with a blocked link", seen.helped_past_blocked},
            {"22 in a table with no circuit", seen.no_route_idle},
            {"22 in a table with circuits, without a scout", seen.no_route_unscouted},
            {"type 1 accepted on its first path", seen.helix_first},
            {"type 1 accepted on a later path", seen.helix_later},
            {"type 1 with none of several paths free", seen.helix_none},
            {"type 1 receive rejected on its first path", seen.helix_received},
            {"type 1 receive rejected on a later path", seen.helix_received_later},
            {"type 3 accepted", seen.fixed_taken},
            {"type 3 route rejected", seen.fixed_rejected},
            {"type 3 receive rejected", seen.fixed_received},
            {"scouts on a helix path that is not free", seen.partly_free},
            {"a type that is none of the four", seen.answers[letter_place('S')][MAZE_BAD_ROUTING_TYPE]},
            {"an open that passed over a channel not armed", seen.passed_over},
            {"a channel disarmed", seen.answers[letter_place('D')][MAZE_ACCEPTED] - seen.disarmed_again},
            {"a channel disarmed again", seen.disarmed_again},
            {"a channel armed again", seen.armed_again},
            {"a held channel armed again", seen.armed_held},
            {"a held channel not disarmed", seen.answers[letter_place('D')][MAZE_CHANNEL_HELD]},
            {"armed channels changed, still sound", seen.mask_changed_sound},
            {"armed channels changed, not sound", seen.mask_changed - seen.mask_changed_sound},
            {"a rejection after 1,000 scouts", seen.rejected_1000},
            {"a rejection after 10,000 scouts", seen.rejected_10000},
            {"an open accepted with nine tenths of the links held", seen.nearly_full_accepted},
            {"an open with all links held", seen.full},
            {"an open with all receive channels held", seen.all_received},
            {"an open on a channel in use", seen.answers[letter_place('S')][MAZE_CHANNEL_IN_USE]},
            {"one byte changed, still sound", seen.one_changed_sound},
            {"one byte changed, not sound", seen.one_changed - seen.one_changed_sound},
            {"several bytes changed, still sound", seen.several_changed_sound},
            {"several bytes changed, not sound", seen.several_changed - seen.several_changed_sound},
            {"a receive channel moved", seen.moved},
            {"a circuit written entry by entry, sound", seen.laid_sound},
            {"a circuit written entry by entry, not sound", seen.laid - seen.laid_sound},
            {"a job of several sends accepted", seen.job_several},
            {"a job of 64 sends accepted", seen.job_long},
            {"a job of no send", seen.job_empty},
            {"a job refused at its first send", seen.job_first},
            {"a job refused at its last send", seen.job_last},
            {"a job refused between", seen.job_middle},
            {"a list of a wrong length", seen.answers[letter_place('J')][MAZE_BAD_SEND_LIST]},
            {"a job on a channel in use", seen.answers[letter_place('J')][MAZE_CHANNEL_IN_USE]},
            {"a job that is route rejected", seen.answers[letter_place('J')][MAZE_ROUTE_REJECTED]},
            {"a job that is receive rejected", seen.answers[letter_place('J')][MAZE_RECEIVE_REJECTED]},
            {"a job with a send that no closing helps", seen.answers[letter_place('J')][MAZE_NO_ROUTE]},
            {"a book of no circuit", seen.book_empty},
            {"a book of several circuits", seen.book_several},
            {"a book of more than 256 circuits", seen.book_long},
#ifndef WIDE
            {"a book of 2,048 hops", seen.book_whole},
#endif
            {"a book in buffers that just hold it", seen.book_exact},
            {"a book with short ports alone", seen.ports_short},
            {"a book with a short index alone", seen.index_short},
            {"a circuit number above 255 in a book", seen.number_wide},
            {"an offset above 255 in a book", seen.offset_wide},
            {"a book of a table that is not sound", seen.answers[letter_place('K')][MAZE_NOT_SOUND]},
            {"a book of a table of a wrong length", seen.answers[letter_place('K')][MAZE_BAD_LENGTH]},
            {"a lookup of the first circuit", seen.looked_first},
            {"a lookup of the last circuit", seen.looked_last},
            {"a lookup that gave a trace's ports", seen.traced_alike},
            {"a lookup of a circuit that is not there", seen.answers[letter_place('L')][MAZE_NO_CIRCUIT]},
            {"a lookup of one that is not there, in a short buffer", seen.looked_absent_short},
            {"a lookup in a short buffer", seen.answers[letter_place('L')][MAZE_BUFFER_SHORT]},
            {"a lookup in a book that is not well formed", seen.answers[letter_place('L')][MAZE_BAD_BOOK]},
            {"a book with a byte changed, still well formed", seen.damaged_formed},
            {"a book with a byte changed, not well formed", seen.damaged_books - seen.damaged_formed},
            {"a book written line by line, well formed", seen.laid_books},
            {fault_names[NUMBER_ZERO], seen.fault[NUMBER_ZERO]},
            {fault_names[NUMBER_LARGE], seen.fault[NUMBER_LARGE]},
            {fault_names[NUMBERS_EQUAL], seen.fault[NUMBERS_EQUAL]},
            {fault_names[NUMBERS_FALL], seen.fault[NUMBERS_FALL]},
            {fault_names[LENGTH_ZERO], seen.fault[LENGTH_ZERO]},
            {fault_names[LENGTH_TEN], seen.fault[LENGTH_TEN]},
            {fault_names[GAP], seen.fault[GAP]},
            {fault_names[OVERLAP], seen.fault[OVERLAP]},
            {fault_names[HOPS_SHORT], seen.fault[HOPS_SHORT]},
            {fault_names[HOPS_PAST], seen.fault[HOPS_PAST]},
            {fault_names[PORTS_SHORT], seen.fault[PORTS_SHORT]},
            {fault_names[INDEX_SHORT], seen.fault[INDEX_SHORT]},
            {"a judged book of several circuits, accepted", seen.judged_several},
            {"a judged book of more than 64 circuits, accepted", seen.judged_long},
            {"a judged book, accepted beside open circuits", seen.judged_beside},
            {"a judged book whose circuits are open", seen.judged_open},
            {"a judged book whose circuits are closed and not armed", seen.judged_unarmed},
            {"a judged book that is not well formed", seen.answers[letter_place('G')][MAZE_BAD_BOOK]},
            {"a judged book with a bad circuit", seen.answers[letter_place('G')][MAZE_BAD_BOOK_CIRCUIT]},
            {"a judged book with a bad link", seen.answers[letter_place('G')][MAZE_BAD_BOOK_LINK]},
            {"a judged book with too few channels", seen.answers[letter_place('G')][MAZE_RECEIVE_REJECTED]},
            {"a book judged by a table that is not sound", seen.answers[letter_place('G')][MAZE_NOT_SOUND]},
            {"a book judged by a table of a wrong length", seen.answers[letter_place('G')][MAZE_BAD_LENGTH]},
#ifdef WIDE
            {"a dimension folded", seen.folded},
            {"a dimension unfolded", seen.unfolded},
            {"a fold mask set again", seen.folded_alike},
            {"a fold bit at or above the dimension", seen.answers[letter_place('M')][MAZE_BAD_PORT]},
            {"a held partner not unfolded", seen.answers[letter_place('M')][MAZE_LINK_HELD]},
            {"a fold mask for a table that is not sound", seen.answers[letter_place('M')][MAZE_NOT_SOUND]},
            {"a fold mask for a table of a wrong length", seen.answers[letter_place('M')][MAZE_BAD_LENGTH]},
            {"an open over a partner", seen.partner_opened},
            {"an open beside another circuit on a pair", seen.both_of_pair},
            {"a way back over the partner", seen.back_by_partner},
            {"a hop behind port 17", seen.from_last},
            {"11 with all eight channels armed", seen.full_and_armed},
            {"a partner blocked", seen.partner_blocked},
            {"a book of more than 2,048 hops", seen.book_folded},
#else
            {"a joining of tables with circuits in both", seen.joined_circuits},
            {"a joining with more than 256 circuits", seen.joined_long},
            {"a joining of the table and the second one", seen.joined_orders[0]},
            {"a joining of the second one and the table", seen.joined_orders[1]},
            {"a joining of the table with itself", seen.joined_orders[2]},
            {"an open over the port between the halves", seen.joined_crossed},
            {"a joining with a byte changed, still sound", seen.joined_damaged_sound},
            {"a joining with a byte changed, not sound", seen.joined_damaged - seen.joined_damaged_sound},
            {"a joining of tables of a wrong length", seen.answers[letter_place('N')][MAZE_BAD_LENGTH]},
            {"a joining of tables of no dimension", seen.answers[letter_place('N')][MAZE_BAD_DIMENSION]},
            {"a joining of tables that are not sound", seen.answers[letter_place('N')][MAZE_NOT_SOUND]},
            {"a joining of halves that do not fit", seen.answers[letter_place('N')][MAZE_BAD_HALVES]},
#endif
            {"a wrong length", seen.wrong_length},
            {"a short buffer", seen.short_buffer},
        };
        for (size_t i = 0; i < sizeof edges / sizeof *edges; i++)
            if (edges[i].times == 0) {
                printf("never occurred: %s\n%lu passed, 1 failed\n", edges[i].what, passed);
                return 1;
            }
    }
    printf("streams of calls, %lu for each kind and dimension:\n%lu passed, 0 failed\n", streams, passed);
    return passed == 0;
}
