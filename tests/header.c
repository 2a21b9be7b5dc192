/* The header's names: each has the number that docs/SPECIFICATION.md gives it, each answer the layout that the library writes, and each call the type that it has. */
#include "expect.h"

#include <maze.h>
#include <stddef.h>

_Static_assert(sizeof(maze_word_read_answer) == 6 && offsetof(maze_word_read_answer, command) == 2 && offsetof(maze_word_read_answer, carried) == 4, "a reading is three 16-bit numbers");
_Static_assert(sizeof(maze_word_written) == 4 && offsetof(maze_word_written, word) == 2, "a writing is two 16-bit numbers");

_Static_assert(sizeof(maze_opened) == 12 && offsetof(maze_opened, hops) == 2 && offsetof(maze_opened, receive) == 4 && offsetof(maze_opened, scouts) == 8, "an open is three 16-bit numbers and a 32-bit number");
_Static_assert(sizeof(maze_receive_channel) == 12 && offsetof(maze_receive_channel, count) == 4 && offsetof(maze_receive_channel, running) == 8 && offsetof(maze_receive_channel, overflow) == 9 && offsetof(maze_receive_channel, ignores) == 10, "a channel is two 32-bit numbers and three bytes");
_Static_assert(sizeof(maze_received) == 16 && offsetof(maze_received, number) == 12, "a packet's answer is a channel and a 16-bit number");
_Static_assert(sizeof(maze_opened_all) == 4 && offsetof(maze_opened_all, sends) == 2, "a job is two 16-bit numbers");
_Static_assert(sizeof(maze_traced) == 4 && offsetof(maze_traced, hops) == 2, "a trace is two 16-bit numbers");
_Static_assert(sizeof(maze_booked) == 6 && offsetof(maze_booked, circuits) == 2 && offsetof(maze_booked, hops) == 4, "a book's answer is three 16-bit numbers");

_Static_assert(sizeof(maze_arbiter) == 2 && _Alignof(maze_arbiter) == _Alignof(uint16_t), "a record is one 16-bit number");
_Static_assert(sizeof(maze_served) == 4 && offsetof(maze_served, requester) == 2, "what is served is two 16-bit numbers");

#define HAS_TYPE(call, answer, ...) _Static_assert(_Generic(&call, answer (*)(__VA_ARGS__): 1, default: 0), #call)
HAS_TYPE(maze_make, uint16_t, uint8_t *, size_t, uint16_t);
HAS_TYPE(maze_block, uint16_t, uint8_t *, size_t, uint16_t, uint16_t);
HAS_TYPE(maze_unblock, uint16_t, uint8_t *, size_t, uint16_t, uint16_t);
HAS_TYPE(maze_arm, uint16_t, uint8_t *, size_t, uint16_t, uint16_t);
HAS_TYPE(maze_disarm, uint16_t, uint8_t *, size_t, uint16_t, uint16_t);
HAS_TYPE(maze_open, maze_opened, uint8_t *, size_t, uint16_t, uint16_t, uint16_t, uint16_t, uint16_t);
HAS_TYPE(maze_open_all, maze_opened_all, uint8_t *, size_t, const uint8_t *, size_t);
HAS_TYPE(maze_close, uint16_t, uint8_t *, size_t, uint16_t, uint16_t);
HAS_TYPE(maze_trace, maze_traced, const uint8_t *, size_t, uint16_t, uint16_t, uint8_t *, size_t);
HAS_TYPE(maze_book, maze_booked, const uint8_t *, size_t, uint8_t *, size_t, uint8_t *, size_t);
HAS_TYPE(maze_book_lookup, maze_traced, const uint8_t *, size_t, const uint8_t *, size_t, uint16_t, uint16_t, uint16_t, uint8_t *, size_t);
HAS_TYPE(maze_judge, uint16_t, const uint8_t *, size_t, const uint8_t *, size_t, const uint8_t *, size_t, uint16_t, uint16_t);
HAS_TYPE(maze_join, uint16_t, const uint8_t *, size_t, const uint8_t *, size_t, uint8_t *, size_t);
HAS_TYPE(maze_wide_make, uint16_t, uint8_t *, size_t, uint16_t);
HAS_TYPE(maze_wide_block, uint16_t, uint8_t *, size_t, uint16_t, uint16_t);
HAS_TYPE(maze_wide_unblock, uint16_t, uint8_t *, size_t, uint16_t, uint16_t);
HAS_TYPE(maze_wide_arm, uint16_t, uint8_t *, size_t, uint16_t, uint16_t);
HAS_TYPE(maze_wide_disarm, uint16_t, uint8_t *, size_t, uint16_t, uint16_t);
HAS_TYPE(maze_wide_open, maze_opened, uint8_t *, size_t, uint16_t, uint16_t, uint16_t, uint16_t, uint16_t);
HAS_TYPE(maze_wide_open_all, maze_opened_all, uint8_t *, size_t, const uint8_t *, size_t);
HAS_TYPE(maze_wide_close, uint16_t, uint8_t *, size_t, uint16_t, uint16_t);
HAS_TYPE(maze_wide_trace, maze_traced, const uint8_t *, size_t, uint16_t, uint16_t, uint8_t *, size_t);
HAS_TYPE(maze_wide_book, maze_booked, const uint8_t *, size_t, uint8_t *, size_t, uint8_t *, size_t);
HAS_TYPE(maze_wide_fold, uint16_t, uint8_t *, size_t, uint16_t);
HAS_TYPE(maze_wide_judge, uint16_t, const uint8_t *, size_t, const uint8_t *, size_t, const uint8_t *, size_t, uint16_t, uint16_t);
HAS_TYPE(maze_widen, uint16_t, const uint8_t *, size_t, uint8_t *, size_t);
HAS_TYPE(maze_narrow, uint16_t, const uint8_t *, size_t, uint8_t *, size_t);
HAS_TYPE(maze_arbitrate, maze_served, maze_arbiter *, uint32_t);
HAS_TYPE(maze_receive_start, maze_receive_channel, uint32_t, uint32_t, uint16_t);
HAS_TYPE(maze_receive_data, maze_received, maze_receive_channel);
HAS_TYPE(maze_receive_word, maze_received, maze_receive_channel, uint16_t);
HAS_TYPE(maze_receive_overshoot, uint32_t, maze_receive_channel);

static const struct {
    const char *name;
    int number, document;
} names[] = {
#define NAME(name, document) {#name, name, document}
    NAME(MAZE_ACCEPTED, 0),
    NAME(MAZE_BAD_LENGTH, 1),
    NAME(MAZE_BAD_DIMENSION, 2),
    NAME(MAZE_NOT_SOUND, 3),
    NAME(MAZE_BAD_NODE, 4),
    NAME(MAZE_BAD_CHANNEL, 5),
    NAME(MAZE_BAD_PORT, 6),
    NAME(MAZE_BAD_ROUTING_TYPE, 7),
    NAME(MAZE_BAD_SEND_VECTOR, 8),
    NAME(MAZE_CHANNEL_IN_USE, 9),
    NAME(MAZE_ROUTE_REJECTED, 10),
    NAME(MAZE_RECEIVE_REJECTED, 11),
    NAME(MAZE_NO_CIRCUIT, 12),
    NAME(MAZE_LINK_HELD, 13),
    NAME(MAZE_BUFFER_SHORT, 14),
    NAME(MAZE_WORD_TOO_LARGE, 15),
    NAME(MAZE_NOT_A_COMMAND, 16),
    NAME(MAZE_WRONG_TYPE, 17),
    NAME(MAZE_RESERVED_COMMAND, 18),
    NAME(MAZE_CARRIED_TOO_LARGE, 19),
    NAME(MAZE_UNREADABLE_LINE, 20),
    NAME(MAZE_CHANNEL_HELD, 21),
    NAME(MAZE_NO_ROUTE, 22),
    NAME(MAZE_BOOK_SHORT, 23),
    NAME(MAZE_FOLDED, 24),
    NAME(MAZE_BAD_BOOK, 25),
    NAME(MAZE_BAD_BOOK_CIRCUIT, 26),
    NAME(MAZE_BAD_BOOK_LINK, 27),
    NAME(MAZE_BAD_SEND_LIST, 28),
    NAME(MAZE_BAD_HALVES, 29),
    NAME(MAZE_CHANNEL_STOPPED, 30),
    NAME(MAZE_BAD_REQUESTER, 31),
    NAME(MAZE_TABLE_BYTES, 8705),
    NAME(MAZE_NODES, 256),
    NAME(MAZE_PORTS, 8),
    NAME(MAZE_CHANNELS, 8),
    NAME(MAZE_DIMENSION_LARGEST, 8),
    NAME(MAZE_DIMENSION_AT, 0),
    NAME(MAZE_ENABLED_AT, 1),
    NAME(MAZE_LINKS_AT, 1 + 256),
    NAME(MAZE_RECEIVES_AT, 1 + 256 + 4096),
    NAME(MAZE_ARMED_AT, 1 + 256 + 4096 + 4096),
    NAME(MAZE_WIDE_TABLE_BYTES, 14338),
    NAME(MAZE_WIDE_PORTS, 18),
    NAME(MAZE_WIDE_MASK_BYTES, 3),
    NAME(MAZE_WIDE_DIMENSION_AT, 0),
    NAME(MAZE_WIDE_FOLD_AT, 1),
    NAME(MAZE_WIDE_ENABLED_AT, 1 + 1),
    NAME(MAZE_WIDE_LINKS_AT, 1 + 1 + 768),
    NAME(MAZE_WIDE_RECEIVES_AT, 1 + 1 + 768 + 9216),
    NAME(MAZE_WIDE_ARMED_AT, 1 + 1 + 768 + 9216 + 4096),
    NAME(MAZE_WIDE_LINKS_LARGEST, 256 * (8 + 8)),
    NAME(MAZE_WIDE_SCOUTS_LARGEST, 35099560),
    NAME(MAZE_TYPE_MAZE, 0),
    NAME(MAZE_TYPE_HELIX, 1),
    NAME(MAZE_TYPE_FIXED, 3),
    NAME(MAZE_TYPE_ALTERNATE_MAZE, 4),
    NAME(MAZE_HOPS_LARGEST, 9),
    NAME(MAZE_SCOUTS_LARGEST, 123300),
    NAME(MAZE_TRACE_BYTES, 9),
    NAME(MAZE_SEND_BYTES, 10),
    NAME(MAZE_SENDS_LARGEST, 64),
    NAME(MAZE_BOOK_LINE_BYTES, 6),
    NAME(MAZE_CIRCUITS_LARGEST, 2048),
    NAME(MAZE_WORD_TYPE_PLACE, 1024),
    NAME(MAZE_WORD_COMMAND_PLACE, 64),
    NAME(MAZE_WORD_LARGEST, 4095),
    NAME(MAZE_PACKET_ACKNOWLEDGE, 0),
    NAME(MAZE_ROUTE_ACKNOWLEDGE, 1),
    NAME(MAZE_ROUTE_REJECTED_COMMAND, 2),
    NAME(MAZE_RECEIVE_REJECTED_COMMAND, 4),
    NAME(MAZE_FORWARDED_ROUTE_REJECTED, 5),
    NAME(MAZE_END_TO_END_ACKNOWLEDGE, 6),
    NAME(MAZE_END_TO_END_NOT_ACKNOWLEDGED, 7),
    NAME(MAZE_END_OF_MESSAGE, 8),
    NAME(MAZE_END_OF_TRANSMISSION, 9),
    NAME(MAZE_RESET_CPU, 12),
    NAME(MAZE_RESET_NODE, 13),
    NAME(MAZE_FLUSH_PATH, 14),
    NAME(MAZE_STATUS_RECEIVE_REJECTED, 0),
    NAME(MAZE_STATUS_PARITY_ERROR_BACK, 1),
    NAME(MAZE_STATUS_NO_END_TO_END, 0),
    NAME(MAZE_STATUS_END_TO_END, 1),
    NAME(MAZE_STATUS_FLUSH_PATH, 0),
    NAME(MAZE_STATUS_PARITY_ERROR_FORWARD, 1),
    NAME(MAZE_STATUS_CODE_PLACE, 16),
    NAME(MAZE_REQUESTERS, 26),
    NAME(MAZE_REQUESTER_PORTS, 18),
    NAME(MAZE_REQUESTER_NOBODY, 26),
};

/* What the macros read in a table, beside the layout of Tables and Wide: each byte is the rest of its place by 251, plus 1, so that neighbours differ, and
 * so do the bytes of two parts for one node. */
static int reads_table(void) {
    static uint8_t table[MAZE_TABLE_BYTES];
    int good = 1;
    for (unsigned at = 0; at < sizeof table; at++) table[at] = (uint8_t)(at % 251 + 1);
    good &= MAZE_DIMENSION(table) == 1;
    for (unsigned node = 0; node < 256; node++)
        for (unsigned slot = 0; slot < 8; slot++) {
            unsigned link = 1 + 256 + 2 * (8 * node + slot), receive = link + 4096, circuit = 8 * node + slot + 1;
            good &= MAZE_LINK_ENABLED(table, node, slot) == (table[1 + node] >> slot & 1);
            good &= MAZE_LINK_CIRCUIT(table, node, slot) == table[link] + 256u * table[link + 1];
            good &= MAZE_RECEIVE_CIRCUIT(table, node, slot) == table[receive] + 256u * table[receive + 1];
            good &= MAZE_RECEIVE_ARMED(table, node, slot) == (table[8449 + node] >> slot & 1);
            good &= MAZE_CIRCUIT(node, slot) == circuit && MAZE_CIRCUIT_NODE(circuit) == node && MAZE_CIRCUIT_CHANNEL(circuit) == slot;
        }
    return good;
}

/* The same of a wide table, by its functions. Its dimension is 1 and its fold mask 2, a bit that no cube of that dimension has. */
static int reads_wide_table(void) {
    static uint8_t table[MAZE_WIDE_TABLE_BYTES];
    int good = 1;
    for (unsigned at = 0; at < sizeof table; at++) table[at] = (uint8_t)(at % 251 + 1);
    good &= maze_wide_dimension(table) == 1 && maze_wide_fold_mask(table) == 2 && maze_wide_node_count(table) == 2;
    for (unsigned node = 0; node < 256; node++) {
        for (unsigned port = 0; port < 18; port++) {
            unsigned mask = 2 + 3 * node, link = 2 + 768 + 2 * (18 * node + port);
            good &= maze_wide_link_enabled(table, node, port) == (int)((table[mask] + 256u * table[mask + 1] + 65536u * table[mask + 2]) >> port & 1);
            good &= maze_wide_link_circuit(table, node, port) == table[link] + 256u * table[link + 1];
            good &= maze_wide_link_node(table, node, port) == (node < 2 && port < 1 ? 1 - node : MAZE_NODES);
        }
        for (unsigned channel = 0; channel < 8; channel++) {
            unsigned receive = 2 + 768 + 9216 + 2 * (8 * node + channel);
            good &= maze_wide_receive_circuit(table, node, channel) == table[receive] + 256u * table[receive + 1];
            good &= maze_wide_receive_armed(table, node, channel) == (table[14082 + node] >> channel & 1);
        }
    }
    return good;
}

int main(void) {
    maze_word_read_answer (*read)(uint16_t) = maze_word_read;
    maze_word_written (*write)(uint16_t, uint16_t) = maze_word_write;
    for (unsigned i = 0; i < sizeof names / sizeof *names; i++)
        expect(names[i].number == names[i].document, names[i].name, (unsigned long)names[i].number, (unsigned long)names[i].document);
    maze_word_written written = write(MAZE_END_OF_TRANSMISSION, MAZE_STATUS_END_TO_END);
    maze_word_read_answer back = read(written.word);
    expect(written.number == MAZE_ACCEPTED && back.command == MAZE_END_OF_TRANSMISSION && back.carried == MAZE_STATUS_END_TO_END, "the names read back", written.word, back.carried);
    expect(reads_table(), "the macros read the layout of a table", 0, 0);
    expect(reads_wide_table(), "the functions read the layout of a wide table", 0, 0);
    return verdict();
}
