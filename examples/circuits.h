/* The open circuits of a table as the maps draw them: in order of number, with the hop at which each takes a link. */
#ifndef CIRCUITS_H
#define CIRCUITS_H

#include "any_table.h"
#include <string.h>

struct circuits {
    unsigned count, links, held, blocked, armed;         /* `armed` receive channels that no circuit holds */
    uint16_t number[MAZE_CIRCUITS_LARGEST];              /* the circuits, rising */
    uint16_t place[MAZE_CIRCUITS_LARGEST + 1];           /* of a circuit number in that list */
    uint16_t receive[MAZE_CIRCUITS_LARGEST + 1];         /* of a circuit number: its receive channel, numbered as send channels are; 0 where it is not open */
    uint8_t hops[MAZE_CIRCUITS_LARGEST + 1];             /* of a circuit number */
    uint8_t ports[MAZE_CIRCUITS_LARGEST + 1][MAZE_TRACE_BYTES];
    uint8_t hop[MAZE_NODES][MAZE_WIDE_PORTS];            /* of a link: which hop of its circuit it is, from 1; 0 where it is not held */
};

static void find_circuits(const struct any_table *table, struct circuits *found) {
    memset(found, 0, sizeof *found);
    for (unsigned node = 0; node < any_node_count(table); node++) {
        for (unsigned port = 0; port < MAZE_WIDE_PORTS; port++) {
            if (!any_has_port(table, port)) continue;
            found->links++;
            found->held += any_link_circuit(table, node, port) != 0;
            found->blocked += !any_link_enabled(table, node, port);
        }
        for (unsigned channel = 0; channel < MAZE_CHANNELS; channel++) {
            unsigned circuit = any_receive_circuit(table, node, channel);
            found->armed += circuit == 0 && any_receive_armed(table, node, channel);
            if (circuit != 0) found->receive[circuit] = (uint16_t)maze_circuit(node, channel);
        }
    }
    for (unsigned circuit = 1; circuit <= MAZE_CIRCUITS_LARGEST; circuit++) {
        unsigned node = maze_circuit_node(circuit), channel = maze_circuit_channel(circuit);
        if (found->receive[circuit] == 0) continue;
        found->place[circuit] = (uint16_t)found->count;
        found->number[found->count++] = (uint16_t)circuit;
        found->hops[circuit] = (uint8_t)ANY_CALL(table, trace, (uint16_t)node, (uint16_t)channel, found->ports[circuit], MAZE_TRACE_BYTES).hops;
        for (unsigned hop = 0; hop < found->hops[circuit]; hop++) {
            found->hop[node][found->ports[circuit][hop]] = (uint8_t)(hop + 1);
            node = any_link_node(table, node, found->ports[circuit][hop]);
        }
    }
}

#endif
