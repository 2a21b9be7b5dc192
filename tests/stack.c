/* How many bytes of stack a call takes: each is made on a stack of its own, filled before with one byte, and what it changed is measured. The header says that
 * maze_open_all takes less than 16 kilobytes, maze_wide_open_all less than 24, maze_open and maze_wide_open less than 8, maze_judge less than 2, every other call on a wide
 * table and the conversions less than 3, and every other call less than 1. With -DWIDE the
 * calls are those on wide tables. A call takes the most where a search is deepest: nine hops, in a cube of dimension 8. */
#define _GNU_SOURCE
#include "expect.h"
#include "subject.h"

#include <string.h>
#include <ucontext.h>

#ifdef WIDE
enum { JOB_BYTES = 24576, JUDGE_BYTES = 3072, OTHER_BYTES = 3072 };
#else
enum { JOB_BYTES = 16384, JUDGE_BYTES = 2048, OTHER_BYTES = 1024 };
#endif
enum { STACK_BYTES = 65536, FILLED = 0xa5, OPEN_BYTES = 8192, CONVERT_BYTES = 3072 };

static _Alignas(16) unsigned char stack[STACK_BYTES];
static uint8_t table[MAZE_TABLE_BYTES], ports[MAZE_TRACE_BYTES];
static ucontext_t back, there;
static maze_arbiter arbiter;
static volatile unsigned answer;
static uint16_t given[4];

static void nothing(void) {}
static void make(void) { answer = maze_make(table, sizeof table, 8); }
static void block(void) { answer = maze_block(table, sizeof table, 1, 1); }
static void unblock(void) { answer = maze_unblock(table, sizeof table, 1, 1); }
static void arm(void) { answer = maze_arm(table, sizeof table, 1, 1); }
static void disarm(void) { answer = maze_disarm(table, sizeof table, 1, 1); }
static void open_one(void) { answer = maze_open(table, sizeof table, given[0], 0, given[1], given[2], given[3]).number; }
static void open_all(void) {
    uint8_t send[MAZE_SEND_BYTES] = {0};
    send[0] = (uint8_t)given[0], send[4] = (uint8_t)given[1], send[6] = (uint8_t)given[2], send[8] = (uint8_t)given[3];
    answer = maze_open_all(table, sizeof table, send, sizeof send).number;
}
static void close_one(void) { answer = maze_close(table, sizeof table, 0, 0); }
static void trace(void) { answer = maze_trace(table, sizeof table, 0, 0, ports, sizeof ports).number; }
static uint8_t book_ports[MAZE_CIRCUITS_LARGEST], book_index[MAZE_BOOK_LINE_BYTES * MAZE_CIRCUITS_LARGEST];
static maze_booked booked;
static void book(void) {
    booked = maze_book(table, sizeof table, book_ports, sizeof book_ports, book_index, sizeof book_index);
    answer = booked.number;
}
static void lookup(void) {
    answer = maze_book_lookup(book_ports, sizeof book_ports, book_index, sizeof book_index, booked.circuits, booked.hops, 1, ports, sizeof ports).number;
}
static void judge(void) {
    answer = maze_judge(table, sizeof table, book_ports, sizeof book_ports, book_index, sizeof book_index, booked.circuits, booked.hops);
}
#ifdef WIDE
static void fold(void) { answer = maze_wide_fold(table, sizeof table, 255); }
static void convert(void) {
    static uint8_t other[8705];
    answer = maze_narrow(table, sizeof table, other, sizeof other);
}
#else
static void convert(void) {
    static uint8_t other[MAZE_WIDE_TABLE_BYTES];
    answer = maze_widen(table, sizeof table, other, sizeof other);
}
static void join(void) {
    static uint8_t half[MAZE_TABLE_BYTES], whole[MAZE_TABLE_BYTES];
    answer = maze_make(half, sizeof half, 7) + (unsigned)maze_join(half, sizeof half, half, sizeof half, whole, sizeof whole);
}
#endif
static void word_read(void) { answer = maze_word_read(2437).number; }
static void word_write(void) { answer = maze_word_write(6, 5).number; }
static void arbitrate(void) { answer = maze_arbitrate(&arbiter, 0x3ffffffu).number; }
static void receive(void) {
    maze_received taken = maze_receive_data(maze_receive_start(0, 0, 1));
    taken = maze_receive_word(taken.channel, 3648);
    answer = maze_receive_overshoot(taken.channel) != 1;
}

/* The bytes of the stack that a function changes. */
static unsigned long bytes_of(void (*function)(void)) {
    unsigned long untouched = 0;
    memset(stack, FILLED, sizeof stack);
    getcontext(&there);
    there.uc_stack.ss_sp = stack;
    there.uc_stack.ss_size = sizeof stack;
    there.uc_link = &back;
    makecontext(&there, function, 0);
    swapcontext(&back, &there);
    while (untouched < sizeof stack && stack[untouched] == FILLED) untouched++;
    return sizeof stack - untouched;
}

/* What a call takes, without what `nothing` takes; it is made once before, so that it is not measured how the linker finds memset. */
static unsigned long taken_by(void (*function)(void), unsigned expected, const char *name) {
    unsigned long bytes;
    function();
    bytes = bytes_of(function) - bytes_of(nothing);
    expect(answer == expected, name, answer, expected);
    return bytes;
}

static void holds(const char *name, unsigned long bytes, unsigned long limit) {
    printf("%s: %lu bytes\n", name, bytes);
    expect(bytes > 0 && bytes < limit, name, bytes, limit);
}

/* Opens of every routing type and send vector, alone or as a job: accepted, with no receive channel armed, and with every link into the target blocked. */
static unsigned long most_of_opens(void (*open_way)(void)) {
    static const uint16_t types[] = {MAZE_TYPE_MAZE, MAZE_TYPE_HELIX, MAZE_TYPE_FIXED, MAZE_TYPE_ALTERNATE_MAZE};
    unsigned long most = 0;
    unsigned hops[2] = {0, 0};
    for (unsigned round = 0; round < 3; round++) {
        make();
        for (uint16_t channel = 0; channel < 8 && round != 1; channel++) maze_arm(table, sizeof table, 254, channel);
        for (uint16_t port = 0; port < 8 && round == 2; port++) maze_block(table, sizeof table, (uint16_t)(254 ^ 1 << port), port);
        for (unsigned type = 0; type < sizeof types / sizeof *types; type++)
            for (unsigned vector = 1; vector < 256; vector++) {
                given[0] = 0, given[1] = 254, given[2] = types[type], given[3] = (uint16_t)vector;
                unsigned long bytes = bytes_of(open_way);
                expect(round == 0 ? answer == MAZE_ACCEPTED : answer >= MAZE_ROUTE_REJECTED, "an open", round, answer);
                if (bytes > most) most = bytes;
                if (answer != MAZE_ACCEPTED) continue;
                hops[vector & 1] |= 1u << maze_trace(table, sizeof table, 0, 0, ports, sizeof ports).hops;
                close_one();
                maze_arm(table, sizeof table, 254, 0);
            }
    }
    expect(hops[0] == 1u << 7 && hops[1] == 1u << 9, "paths of seven hops, and of nine over port 0", hops[0], hops[1]);
    return most - bytes_of(nothing);
}

int main(void) {
    static const struct {
        const char *name;
        void (*function)(void);
        unsigned expected;
    } calls[] = {
        {"maze_make", make, 0},           {"maze_block", block, 0},         {"maze_unblock", unblock, 0},     {"maze_arm", arm, 0},
        {"maze_disarm", disarm, 0},       {"maze_word_read", word_read, 0}, {"maze_word_write", word_write, 0}, {"maze_arbitrate", arbitrate, 0},
        {"the receive channel", receive, 0},
    };
    for (unsigned at = 0; at < sizeof calls / sizeof *calls; at++) holds(calls[at].name, taken_by(calls[at].function, calls[at].expected, calls[at].name), OTHER_BYTES);
    holds("maze_open", most_of_opens(open_one), OPEN_BYTES);
    holds("maze_open_all", most_of_opens(open_all), JOB_BYTES);
    make();
    maze_arm(table, sizeof table, 254, 0);
    maze_open(table, sizeof table, 0, 0, 254, MAZE_TYPE_MAZE, 1);
    holds("maze_book", taken_by(book, MAZE_ACCEPTED, "maze_book"), OTHER_BYTES);
    expect(booked.circuits == 1 && booked.hops == 9, "a book of nine hops", booked.circuits, booked.hops);
    holds("maze_book_lookup", taken_by(lookup, MAZE_ACCEPTED, "maze_book_lookup"), OTHER_BYTES);
    holds("maze_trace", taken_by(trace, MAZE_ACCEPTED, "maze_trace"), OTHER_BYTES);
    expect(bytes_of(close_one) - bytes_of(nothing) < OTHER_BYTES && answer == MAZE_ACCEPTED, "maze_close", answer, 0);
    maze_arm(table, sizeof table, 254, 0);
    holds("maze_judge", taken_by(judge, MAZE_ACCEPTED, "maze_judge"), JUDGE_BYTES);
    holds("a conversion", taken_by(convert, MAZE_ACCEPTED, "a conversion"), CONVERT_BYTES);
#ifdef WIDE
    make();
    maze_arm(table, sizeof table, 254, 0);
    holds("maze_wide_fold", taken_by(fold, MAZE_ACCEPTED, "maze_wide_fold"), OTHER_BYTES);
    given[0] = 0, given[1] = 254, given[2] = MAZE_TYPE_ALTERNATE_MAZE, given[3] = 1;
    holds("maze_wide_open, nine hops, folded", bytes_of(open_one) - bytes_of(nothing), OPEN_BYTES);
    expect(answer == MAZE_ACCEPTED && maze_trace(table, sizeof table, 0, 0, ports, sizeof ports).hops == 9, "nine hops in a folded cube", answer, 0);
    holds("maze_wide_trace, folded", taken_by(trace, MAZE_ACCEPTED, "maze_wide_trace"), OTHER_BYTES);
    holds("maze_wide_book, folded", taken_by(book, MAZE_ACCEPTED, "maze_wide_book"), OTHER_BYTES);
    close_one();
    for (uint16_t port = 0; port < 8; port++)
        for (uint16_t link = port; link < 18; link = (uint16_t)(link == port ? 17 - port : 18)) maze_block(table, sizeof table, (uint16_t)(254 ^ 1 << port), link);
    given[2] = MAZE_TYPE_MAZE, given[3] = 2;
    holds("maze_wide_open, folded and rejected", bytes_of(open_one) - bytes_of(nothing), OPEN_BYTES);
    expect(answer == MAZE_NO_ROUTE, "a walled target in a folded cube", answer, 0);
    given[2] = MAZE_TYPE_HELIX, given[3] = 255;
    holds("maze_wide_open of type 1, folded and rejected", bytes_of(open_one) - bytes_of(nothing), OPEN_BYTES);
    maze_arm(table, sizeof table, 254, 0);
    holds("maze_wide_judge, folded", taken_by(judge, MAZE_BAD_BOOK_LINK, "maze_wide_judge"), OTHER_BYTES);
#else
    holds("maze_join", taken_by(join, MAZE_ACCEPTED, "maze_join"), OTHER_BYTES);
#endif
    return verdict();
}
