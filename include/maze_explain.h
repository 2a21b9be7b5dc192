/* Why would this open be refused, and what would have it acknowledged?
 *
 * Functions over the calls of maze.h, inline and static as those of the header itself are. They
 * make their calls on copies of the table, which is only read, so that each thing that they say
 * would help has been tried. What they say is tested (tests/explain.c) and not proved; the calls
 * that they rest on are proved.
 *
 * An explanation may make some thousands of calls, each of which may take some tenth of a second
 * where many dimensions of a wide table are folded: it is for a console, and not for a board that
 * routes. Each function takes some 30 kilobytes of stack. */
#ifndef MAZE_EXPLAIN_H
#define MAZE_EXPLAIN_H

#include <maze.h>
#include <string.h>

#ifdef __cplusplus
extern "C" {
#endif

typedef struct {
    uint16_t node;
    uint16_t port;
} maze_explained_link;

typedef struct {
    uint16_t number;          /* what maze_open answers now, 0 if it accepts, with its scouts; */
    uint32_t scouts;          /* all else is 0 but after 9, 10, 11 and 22 */
    uint16_t held;            /* after 10 and 22: held links at which its scouts turned back */
    uint16_t blocked;         /* and blocked ones; a link counts once */
    uint16_t nearest_circuit; /* who holds the nearest of the held ones, 0 where none is held: */
    uint16_t nearest_hops;    /* so many hops from the source, where that is equal the one of */
    maze_explained_link nearest; /* the lowest node and then port */
    uint16_t types;    /* after 10 and 22: bit t, of type t it would be accepted */
    uint16_t ports;    /* bit p: of type MAZE_TYPE_MAZE with the vector of port p alone it would */
    uint16_t circuit;  /* after 9: the circuit that the send channel has */
    uint16_t channels; /* after 9: bit c, from send channel c it would be accepted */
    uint16_t arms;     /* after 11: bit k, it would be once receive channel k of the target is */
} maze_explained;      /* armed; after 10 and 22: one of these has to be armed besides, since */
                       /* none is that no circuit holds */

/* ---- What the functions below share ---- */

/* A table that is read. */
typedef struct {
    const uint8_t *bytes;
    int wide;
} maze_explain_table;

/* A copy that calls are made on; a narrow table is its first bytes. */
typedef struct {
    uint8_t bytes[MAZE_WIDE_TABLE_BYTES];
} maze_explain_copy;

/* What the open is of which is asked. */
typedef struct {
    uint16_t node, channel, target, type, vector;
} maze_explain_send;

/* Where scouts turned back: the links that are not free out of nodes where a scout came. */
typedef struct {
    uint32_t ports[MAZE_NODES]; /* bit p of a node */
    maze_explained_link nearest;
    uint16_t nearest_circuit;
    uint16_t nearest_hops;
} maze_explain_turns;

/* The reading functions and the calls, of either kind of table. */
MAZE_INLINE unsigned maze_explain_ports(maze_explain_table table) {
    return table.wide ? MAZE_WIDE_PORTS : MAZE_PORTS;
}

MAZE_INLINE unsigned maze_explain_next(maze_explain_table table, unsigned node, unsigned port) {
    return table.wide ? maze_wide_link_node(table.bytes, node, port)
                      : maze_link_node(table.bytes, node, port);
}

MAZE_INLINE int maze_explain_enabled(maze_explain_table table, unsigned node, unsigned port) {
    return table.wide ? maze_wide_link_enabled(table.bytes, node, port)
                      : maze_link_enabled(table.bytes, node, port);
}

MAZE_INLINE unsigned maze_explain_holder(maze_explain_table table, unsigned node, unsigned port) {
    return table.wide ? maze_wide_link_circuit(table.bytes, node, port)
                      : maze_link_circuit(table.bytes, node, port);
}

MAZE_INLINE int maze_explain_armed(maze_explain_table table, unsigned node, unsigned channel) {
    return table.wide ? maze_wide_receive_armed(table.bytes, node, channel)
                      : maze_receive_armed(table.bytes, node, channel);
}

MAZE_INLINE unsigned maze_explain_receiver(maze_explain_table table, unsigned node,
                                           unsigned channel) {
    return table.wide ? maze_wide_receive_circuit(table.bytes, node, channel)
                      : maze_receive_circuit(table.bytes, node, channel);
}

MAZE_INLINE void maze_explain_load(maze_explain_copy *copy, maze_explain_table table) {
    memcpy(copy->bytes, table.bytes, table.wide ? MAZE_WIDE_TABLE_BYTES : MAZE_TABLE_BYTES);
}

MAZE_INLINE unsigned maze_explain_arm_one(maze_explain_copy *copy, int wide, unsigned node,
                                          unsigned channel) {
    return wide ? maze_wide_arm(copy->bytes, MAZE_WIDE_TABLE_BYTES, (uint16_t)node,
                                (uint16_t)channel)
                : maze_arm(copy->bytes, MAZE_TABLE_BYTES, (uint16_t)node, (uint16_t)channel);
}

MAZE_INLINE unsigned maze_explain_close(maze_explain_copy *copy, int wide, unsigned circuit) {
    uint16_t node = (uint16_t)maze_circuit_node(circuit);
    uint16_t channel = (uint16_t)maze_circuit_channel(circuit);
    return wide ? maze_wide_close(copy->bytes, MAZE_WIDE_TABLE_BYTES, node, channel)
                : maze_close(copy->bytes, MAZE_TABLE_BYTES, node, channel);
}

MAZE_INLINE unsigned maze_explain_unblock(maze_explain_copy *copy, int wide, unsigned node,
                                          unsigned port) {
    return wide ? maze_wide_unblock(copy->bytes, MAZE_WIDE_TABLE_BYTES, (uint16_t)node,
                                    (uint16_t)port)
                : maze_unblock(copy->bytes, MAZE_TABLE_BYTES, (uint16_t)node, (uint16_t)port);
}

/* What an open answers on the copy, which it alters where it is accepted. */
MAZE_INLINE maze_opened maze_explain_try(maze_explain_copy *copy, int wide,
                                         maze_explain_send send) {
    return wide ? maze_wide_open(copy->bytes, MAZE_WIDE_TABLE_BYTES, send.node, send.channel,
                                 send.target, send.type, send.vector)
                : maze_open(copy->bytes, MAZE_TABLE_BYTES, send.node, send.channel, send.target,
                            send.type, send.vector);
}

/* As that, on a copy of a table. */
MAZE_INLINE maze_opened maze_explain_open(maze_explain_copy *copy, maze_explain_table table,
                                          maze_explain_send send) {
    maze_explain_load(copy, table);
    return maze_explain_try(copy, table.wide, send);
}

/* The table with all receive channels of the target armed: whether one is, is another question
 * than whether a path is free. */
MAZE_INLINE void maze_explain_arm(maze_explain_copy *copy, maze_explain_table table,
                                  unsigned target) {
    unsigned channel;
    maze_explain_load(copy, table);
    for (channel = 0; channel < MAZE_CHANNELS; channel++)
        if (maze_explain_arm_one(copy, table.wide, target, channel) != 0) return;
}

MAZE_INLINE int maze_explain_free(maze_explain_table table, unsigned node, unsigned port) {
    return maze_explain_enabled(table, node, port) && maze_explain_holder(table, node, port) == 0;
}

/* The receive channels of a node that are not armed, or 0 where one is that no circuit holds. */
MAZE_INLINE unsigned maze_explain_unarmed(maze_explain_table table, unsigned node) {
    unsigned channel, mask = 0;
    for (channel = 0; channel < MAZE_CHANNELS; channel++) {
        if (!maze_explain_armed(table, node, channel)) mask |= 1u << channel;
        else if (maze_explain_receiver(table, node, channel) == 0) return 0;
    }
    return mask;
}

MAZE_INLINE void maze_explain_turn(maze_explain_table table, unsigned node, unsigned port,
                                   unsigned hops, maze_explain_turns *turns) {
    unsigned holder = maze_explain_holder(table, node, port);
    maze_explained_link *nearest = &turns->nearest;
    turns->ports[node] |= (uint32_t)1 << port;
    if (holder == 0) return;
    if (turns->nearest_circuit != 0) {
        if (hops > turns->nearest_hops) return;
        if (hops == turns->nearest_hops &&
            (node > nearest->node || (node == nearest->node && port > nearest->port)))
            return;
    }
    turns->nearest_circuit = (uint16_t)holder;
    turns->nearest_hops = (uint16_t)hops;
    nearest->node = (uint16_t)node;
    nearest->port = (uint16_t)port;
}

/* Whether the cube has a port that changes one of some bits of a node: a port and its partner
 * change the same one. */
MAZE_INLINE int maze_explain_changes(maze_explain_table table, unsigned node, unsigned port,
                                     unsigned bits) {
    unsigned next = maze_explain_next(table, node, port);
    return next < MAZE_NODES && ((node ^ next) & bits) != 0;
}

/* Of a helix path: its first link that is not free, if there is one before the target. */
MAZE_INLINE void maze_explain_helix(maze_explain_table table, unsigned node, unsigned target,
                                    unsigned port, maze_explain_turns *turns) {
    unsigned hops = 0, ports = maze_explain_ports(table);
    for (;;) {
        if (!maze_explain_free(table, node, port)) {
            maze_explain_turn(table, node, port, hops, turns);
            return;
        }
        node = maze_explain_next(table, node, port);
        hops++;
        if (node == target) return;
        do port = port + 1 == ports ? 0 : port + 1;
        while (!maze_explain_changes(table, node, port, node ^ target));
    }
}

/* Of a search that is route rejected, so that it comes wherever free links lead: nodes in the order
 * of their hops. The source comes first, with the ports of the vector; it may come again. */
MAZE_INLINE void maze_explain_search(maze_explain_table table, unsigned source, unsigned target,
                                     unsigned vector, maze_explain_turns *turns) {
    uint16_t queue[MAZE_NODES + 1], hops[MAZE_NODES + 1];
    uint8_t seen[MAZE_NODES];
    unsigned first = 0, last = 1, port, ports = maze_explain_ports(table);
    memset(seen, 0, sizeof seen);
    queue[0] = (uint16_t)source;
    hops[0] = 0;
    for (first = 0; first < last; first++) {
        unsigned node = queue[first], bits = first == 0 ? vector : node ^ target;
        for (port = 0; port < ports; port++) {
            unsigned next = maze_explain_next(table, node, port);
            if (!maze_explain_changes(table, node, port, bits)) continue;
            if (!maze_explain_free(table, node, port)) {
                maze_explain_turn(table, node, port, hops[first], turns);
            } else if (next != target && !seen[next]) {
                seen[next] = 1;
                queue[last] = (uint16_t)next;
                hops[last++] = (uint16_t)(hops[first] + 1);
            }
        }
    }
}

/* Where the scouts of an open turned back that was answered 10 or 22. */
MAZE_INLINE void maze_explain_all_turns(maze_explain_table table, maze_explain_send send,
                                        maze_explain_turns *turns) {
    unsigned port;
    memset(turns, 0, sizeof *turns);
    if (send.type == MAZE_TYPE_MAZE || send.type == MAZE_TYPE_ALTERNATE_MAZE) {
        /* of the alternate type both passes */
        unsigned vector = send.type == MAZE_TYPE_MAZE ? send.vector : MAZE_NODES - 1;
        maze_explain_search(table, send.node, send.target, vector, turns);
        return;
    }
    for (port = 0; port < maze_explain_ports(table); port++) {
        if (!maze_explain_changes(table, send.node, port, send.vector)) continue;
        maze_explain_helix(table, send.node, send.target, port, turns);
        if (send.type == MAZE_TYPE_FIXED) return;
    }
}

MAZE_INLINE maze_explained maze_explain_told(maze_explain_table table, maze_explain_send send) {
    maze_explained told;
    maze_explain_copy copy;
    maze_explain_send other = send;
    maze_opened opened = maze_explain_open(&copy, table, send);
    unsigned n, i;
    memset(&told, 0, sizeof told);
    told.number = opened.number;
    told.scouts = opened.scouts;
    if (told.number == MAZE_CHANNEL_IN_USE) {
        told.circuit = (uint16_t)maze_circuit(send.node, send.channel);
        for (i = 0; i < MAZE_CHANNELS; i++) {
            other.channel = (uint16_t)i;
            if (maze_explain_open(&copy, table, other).number == MAZE_ACCEPTED)
                told.channels = (uint16_t)(told.channels | 1u << i);
        }
    }
    if (told.number == MAZE_RECEIVE_REJECTED)
        for (i = 0; i < MAZE_CHANNELS; i++) {
            if (maze_explain_armed(table, send.target, i)) continue;
            maze_explain_load(&copy, table);
            if (maze_explain_arm_one(&copy, table.wide, send.target, i) != 0) continue;
            if (maze_explain_try(&copy, table.wide, send).number == MAZE_ACCEPTED)
                told.arms = (uint16_t)(told.arms | 1u << i);
        }
    if (told.number == MAZE_ROUTE_REJECTED || told.number == MAZE_NO_ROUTE) {
        maze_explain_turns turns;
        maze_explain_all_turns(table, send, &turns);
        told.arms = (uint16_t)maze_explain_unarmed(table, send.target);
        for (n = 0; n < MAZE_NODES; n++)
            for (i = 0; i < maze_explain_ports(table); i++) {
                if ((turns.ports[n] >> i & 1) == 0) continue;
                if (maze_explain_holder(table, n, i) != 0) told.held++;
                else told.blocked++;
            }
        told.nearest_circuit = turns.nearest_circuit;
        told.nearest_hops = turns.nearest_hops;
        told.nearest = turns.nearest;
        for (i = 0; i <= MAZE_TYPE_ALTERNATE_MAZE; i++) {
            other.type = (uint16_t)i;
            maze_explain_arm(&copy, table, send.target);
            if (maze_explain_try(&copy, table.wide, other).number == MAZE_ACCEPTED)
                told.types = (uint16_t)(told.types | 1u << i);
        }
        other.type = MAZE_TYPE_MAZE;
        for (i = 0; i < MAZE_DIMENSION_LARGEST; i++) {
            other.vector = (uint16_t)(1u << i); /* 8 where the cube lacks the port */
            maze_explain_arm(&copy, table, send.target);
            if (maze_explain_try(&copy, table.wide, other).number == MAZE_ACCEPTED)
                told.ports = (uint16_t)(told.ports | 1u << i);
        }
    }
    return told;
}

MAZE_INLINE unsigned maze_explain_closed(maze_explain_table table, maze_explain_send send,
                                         uint16_t *circuits, unsigned most) {
    unsigned found = 0, n, i, circuit, number;
    uint8_t holds[MAZE_CIRCUITS_LARGEST + 1]; /* circuits that may stand in the way */
    maze_explain_copy copy;
    number = maze_explain_open(&copy, table, send).number;
    memset(holds, 0, sizeof holds);
    if (number == MAZE_CHANNEL_IN_USE) {
        holds[maze_circuit(send.node, send.channel)] = 1;
    } else if (number == MAZE_RECEIVE_REJECTED) {
        for (i = 0; i < MAZE_CHANNELS; i++) holds[maze_explain_receiver(table, send.target, i)] = 1;
    } else if (number == MAZE_ROUTE_REJECTED) {
        maze_explain_turns turns;
        maze_explain_all_turns(table, send, &turns);
        for (n = 0; n < MAZE_NODES; n++)
            for (i = 0; i < maze_explain_ports(table); i++)
                if (turns.ports[n] >> i & 1) holds[maze_explain_holder(table, n, i)] = 1;
    }
    for (circuit = 1; circuit <= MAZE_CIRCUITS_LARGEST; circuit++) {
        unsigned receive;
        if (!holds[circuit]) continue;
        receive = table.wide ? maze_wide_circuit_receive(table.bytes, circuit)
                             : maze_circuit_receive(table.bytes, circuit);
        if (number == MAZE_ROUTE_REJECTED) maze_explain_arm(&copy, table, send.target);
        else maze_explain_load(&copy, table);
        if (maze_explain_close(&copy, table.wide, circuit) != 0) continue;
        if (maze_circuit_node(receive) == send.target &&
            maze_explain_arm_one(&copy, table.wide, send.target,
                                 maze_circuit_channel(receive)) != 0)
            continue;
        if (maze_explain_try(&copy, table.wide, send).number != MAZE_ACCEPTED) continue;
        if (found < most) circuits[found] = (uint16_t)circuit;
        found++;
    }
    return found;
}

MAZE_INLINE unsigned maze_explain_repaired(maze_explain_table table, maze_explain_send send,
                                           maze_explained_link *links, unsigned most) {
    maze_explain_turns turns;
    maze_explain_copy copy;
    unsigned found = 0, n, i, number;
    number = maze_explain_open(&copy, table, send).number;
    if (number != MAZE_ROUTE_REJECTED && number != MAZE_NO_ROUTE) return 0;
    maze_explain_all_turns(table, send, &turns);
    for (n = 0; n < MAZE_NODES; n++)
        for (i = 0; i < maze_explain_ports(table); i++) {
            if ((turns.ports[n] >> i & 1) == 0 || maze_explain_enabled(table, n, i)) continue;
            maze_explain_arm(&copy, table, send.target);
            if (maze_explain_unblock(&copy, table.wide, n, i) != 0) continue;
            if (maze_explain_try(&copy, table.wide, send).number != MAZE_ACCEPTED) continue;
            if (found < most) {
                links[found].node = (uint16_t)n;
                links[found].port = (uint16_t)i;
            }
            found++;
        }
    return found;
}

MAZE_INLINE maze_explain_table maze_explain_of(const uint8_t *bytes, int wide) {
    maze_explain_table table;
    table.bytes = bytes;
    table.wide = wide;
    return table;
}

MAZE_INLINE maze_explain_send maze_explain_asked(uint16_t node, uint16_t channel, uint16_t target,
                                                 uint16_t type, uint16_t vector) {
    maze_explain_send send;
    send.node = node;
    send.channel = channel;
    send.target = target;
    send.type = type;
    send.vector = vector;
    return send;
}

/* Of a table that is not sound, number 1, 2 or 3. */
MAZE_INLINE maze_explained maze_explain_unsound(unsigned number) {
    maze_explained told;
    memset(&told, 0, sizeof told);
    told.number = (uint16_t)number;
    return told;
}

/* ---- The explanations ---- */

/* What maze_open would answer with these arguments, and what to know of it. */
MAZE_ANSWER MAZE_LENT(read_only, 1, 2)
MAZE_INLINE maze_explained maze_explain(const uint8_t *table, size_t table_len, uint16_t node,
                                        uint16_t channel, uint16_t target, uint16_t type,
                                        uint16_t vector) {
    unsigned tested = maze_check_table(table, table_len);
    if (tested != MAZE_ACCEPTED) return maze_explain_unsound(tested);
    return maze_explain_told(maze_explain_of(table, 0),
                             maze_explain_asked(node, channel, target, type, vector));
}

/* The circuits of which one alone, closed, would have the open accepted: after 9 and 11 in the
 * table as it is, after 10 once a receive channel of the target is armed, as `arms` tells. Where
 * the circuit ends at that target its own channel, which the close disarms, is armed again first.
 * Writes their numbers in rising order, `most` of them at most, and answers how many there are in
 * all. */
MAZE_ANSWER MAZE_LENT(read_only, 1, 2) MAZE_LENT(write_only, 8, 9)
MAZE_INLINE unsigned maze_explain_closes(const uint8_t *table, size_t table_len, uint16_t node,
                                         uint16_t channel, uint16_t target, uint16_t type,
                                         uint16_t vector, uint16_t *circuits, unsigned most) {
    if (maze_check_table(table, table_len) != MAZE_ACCEPTED) return 0;
    return maze_explain_closed(maze_explain_of(table, 0),
                               maze_explain_asked(node, channel, target, type, vector), circuits,
                               most);
}

/* The blocked links of which one alone, unblocked, would have the open accepted once a receive
 * channel of the target is armed. Writes them by node and port, `most` of them at most, and answers
 * how many there are in all. */
MAZE_ANSWER MAZE_LENT(read_only, 1, 2) MAZE_LENT(write_only, 8, 9)
MAZE_INLINE unsigned maze_explain_repairs(const uint8_t *table, size_t table_len, uint16_t node,
                                          uint16_t channel, uint16_t target, uint16_t type,
                                          uint16_t vector, maze_explained_link *links,
                                          unsigned most) {
    if (maze_check_table(table, table_len) != MAZE_ACCEPTED) return 0;
    return maze_explain_repaired(maze_explain_of(table, 0),
                                 maze_explain_asked(node, channel, target, type, vector), links,
                                 most);
}

/* ---- Of a wide table ----
 *
 * The same, with links over partners where dimensions are folded. `ports` names ports below the
 * dimension, as send vectors do, each with its partner. After 10 and 22 `arms` is 0 also where
 * circuits hold all eight receive channels of the target, so that one of these has to be closed. */
MAZE_ANSWER MAZE_LENT(read_only, 1, 2)
MAZE_INLINE maze_explained maze_wide_explain(const uint8_t *table, size_t table_len, uint16_t node,
                                             uint16_t channel, uint16_t target, uint16_t type,
                                             uint16_t vector) {
    unsigned tested = maze_wide_check_table(table, table_len);
    if (tested != MAZE_ACCEPTED) return maze_explain_unsound(tested);
    return maze_explain_told(maze_explain_of(table, 1),
                             maze_explain_asked(node, channel, target, type, vector));
}

MAZE_ANSWER MAZE_LENT(read_only, 1, 2) MAZE_LENT(write_only, 8, 9)
MAZE_INLINE unsigned maze_wide_explain_closes(const uint8_t *table, size_t table_len, uint16_t node,
                                              uint16_t channel, uint16_t target, uint16_t type,
                                              uint16_t vector, uint16_t *circuits, unsigned most) {
    if (maze_wide_check_table(table, table_len) != MAZE_ACCEPTED) return 0;
    return maze_explain_closed(maze_explain_of(table, 1),
                               maze_explain_asked(node, channel, target, type, vector), circuits,
                               most);
}

MAZE_ANSWER MAZE_LENT(read_only, 1, 2) MAZE_LENT(write_only, 8, 9)
MAZE_INLINE unsigned maze_wide_explain_repairs(const uint8_t *table, size_t table_len,
                                               uint16_t node, uint16_t channel, uint16_t target,
                                               uint16_t type, uint16_t vector,
                                               maze_explained_link *links, unsigned most) {
    if (maze_wide_check_table(table, table_len) != MAZE_ACCEPTED) return 0;
    return maze_explain_repaired(maze_explain_of(table, 1),
                                 maze_explain_asked(node, channel, target, type, vector), links,
                                 most);
}

#ifdef __cplusplus
}
#endif

#endif
