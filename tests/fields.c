/* The type of each field of the header's structs, which a size does not tell where padding follows; and its macros over arguments that are expressions. */
#include "expect.h"

#include <maze.h>

#define FIELD(type, field, kind) expect(_Generic(((type *)0)->field, kind: 1, default: 0), #type "." #field, sizeof((type *)0)->field, sizeof(kind))

int main(void) {
    FIELD(maze_opened, number, uint16_t);
    FIELD(maze_opened, hops, uint16_t);
    FIELD(maze_opened, receive, uint16_t);
    FIELD(maze_opened, scouts, uint32_t);
    FIELD(maze_opened_all, number, uint16_t);
    FIELD(maze_opened_all, sends, uint16_t);
    FIELD(maze_traced, number, uint16_t);
    FIELD(maze_traced, hops, uint16_t);
    FIELD(maze_booked, number, uint16_t);
    FIELD(maze_booked, circuits, uint16_t);
    FIELD(maze_booked, hops, uint16_t);
    FIELD(maze_word_read_answer, number, uint16_t);
    FIELD(maze_word_read_answer, command, uint16_t);
    FIELD(maze_word_read_answer, carried, uint16_t);
    FIELD(maze_word_written, number, uint16_t);
    FIELD(maze_word_written, word, uint16_t);
    FIELD(maze_arbiter, last, uint16_t);
    FIELD(maze_served, number, uint16_t);
    FIELD(maze_served, requester, uint16_t);
    FIELD(maze_receive_channel, address, uint32_t);
    FIELD(maze_receive_channel, count, uint32_t);
    FIELD(maze_receive_channel, running, uint8_t);
    FIELD(maze_receive_channel, overflow, uint8_t);
    FIELD(maze_receive_channel, ignores, uint8_t);
    FIELD(maze_received, channel, maze_receive_channel);
    FIELD(maze_received, number, uint16_t);

    /* circuit 1604 is channel 3 of node 200 */
    unsigned node = 192, channel = 1, circuit = 1600;
    expect(MAZE_CIRCUIT(node | 8, channel | 2) == 1604, "MAZE_CIRCUIT", MAZE_CIRCUIT(node | 8, channel | 2), 1604);
    expect(MAZE_CIRCUIT(node + 8, channel + 2) == 1604, "MAZE_CIRCUIT", MAZE_CIRCUIT(node + 8, channel + 2), 1604);
    expect(MAZE_CIRCUIT_NODE(circuit | 4) == 200, "MAZE_CIRCUIT_NODE", MAZE_CIRCUIT_NODE(circuit | 4), 200);
    expect(MAZE_CIRCUIT_CHANNEL(circuit | 4) == 3, "MAZE_CIRCUIT_CHANNEL", MAZE_CIRCUIT_CHANNEL(circuit | 4), 3);
    expect(10 * MAZE_CIRCUIT_NODE(circuit + 4) == 2000, "MAZE_CIRCUIT_NODE within a product", 10 * MAZE_CIRCUIT_NODE(circuit + 4), 2000);
    expect(10 * MAZE_CIRCUIT_CHANNEL(circuit + 4) == 30, "MAZE_CIRCUIT_CHANNEL within a product", 10 * MAZE_CIRCUIT_CHANNEL(circuit + 4), 30);
    expect(10 * MAZE_CIRCUIT(node + 8, channel + 2) == 16040, "MAZE_CIRCUIT within a product", 10 * MAZE_CIRCUIT(node + 8, channel + 2), 16040);
    return verdict();
}
