/* A table of either kind, narrow or wide: its length says which it is. */
#ifndef ANY_TABLE_H
#define ANY_TABLE_H

#include <maze.h>

struct any_table {
    size_t length;
    uint8_t bytes[MAZE_WIDE_TABLE_BYTES];
};

static inline int any_is_wide(const struct any_table *table) {
    return table->length == MAZE_WIDE_TABLE_BYTES;
}

/* A call on the table, by its name without `maze_`, with what it is given behind the table; and a reading function of the header. */
#define ANY_CALL(table, call, ...) (any_is_wide(table) ? maze_wide_##call((table)->bytes, (table)->length, __VA_ARGS__) : maze_##call((table)->bytes, (table)->length, __VA_ARGS__))
#define ANY_READ(table, reading, ...) (any_is_wide(table) ? maze_wide_##reading((table)->bytes, __VA_ARGS__) : maze_##reading((table)->bytes, __VA_ARGS__))

/* 0 for a sound table of its length, or else 1, 2 or 3; nothing behind the bytes that there is room for is looked at. */
static inline unsigned any_check(const struct any_table *table) {
    return any_is_wide(table) ? maze_wide_check_table(table->bytes, table->length) : maze_check_table(table->bytes, table->length);
}

static inline unsigned any_dimension(const struct any_table *table) { return maze_dimension(table->bytes); }
static inline unsigned any_node_count(const struct any_table *table) { return maze_node_count(table->bytes); }
static inline unsigned any_fold_mask(const struct any_table *table) { return any_is_wide(table) ? maze_wide_fold_mask(table->bytes) : 0; }
static inline unsigned any_link_node(const struct any_table *table, unsigned node, unsigned port) { return ANY_READ(table, link_node, node, port); }
static inline unsigned any_link_circuit(const struct any_table *table, unsigned node, unsigned port) { return ANY_READ(table, link_circuit, node, port); }
static inline int any_link_enabled(const struct any_table *table, unsigned node, unsigned port) { return ANY_READ(table, link_enabled, node, port); }
static inline unsigned any_receive_circuit(const struct any_table *table, unsigned node, unsigned channel) { return ANY_READ(table, receive_circuit, node, channel); }
static inline int any_receive_armed(const struct any_table *table, unsigned node, unsigned channel) { return ANY_READ(table, receive_armed, node, channel); }

/* Whether the nodes of the cube have a port: one below the dimension, or the partner of one that is folded. */
static inline int any_has_port(const struct any_table *table, unsigned port) {
    return port < MAZE_PORTS ? port < any_dimension(table) : any_is_wide(table) && maze_wide_port_exists(table->bytes, port);
}

/* A port of a path, as the printed list writes it: a to h for 10 to 17. */
static inline char any_port_sign(unsigned port) {
    return "0123456789abcdefgh?"[port < MAZE_WIDE_PORTS ? port : MAZE_WIDE_PORTS];
}

#endif
