/* What a version of the calls declares, under names that begin with its own: DECLARE_VERSION(base) gives base_make, base_wide_make and so on. Signatures and answers
 * are those of maze.h. */
#ifndef VERSIONS_H
#define VERSIONS_H

#include <maze.h>

/* The calls that each kind of table has; the name has its last underline. */
#define DECLARE_KIND(of) \
    uint16_t of##make(uint8_t *table, size_t table_len, uint16_t dimension); \
    uint16_t of##block(uint8_t *table, size_t table_len, uint16_t node, uint16_t port); \
    uint16_t of##unblock(uint8_t *table, size_t table_len, uint16_t node, uint16_t port); \
    uint16_t of##arm(uint8_t *table, size_t table_len, uint16_t node, uint16_t channel); \
    uint16_t of##disarm(uint8_t *table, size_t table_len, uint16_t node, uint16_t channel); \
    maze_opened of##open(uint8_t *table, size_t table_len, uint16_t node, uint16_t channel, uint16_t target, uint16_t type, uint16_t vector); \
    maze_opened_all of##open_all(uint8_t *table, size_t table_len, const uint8_t *sends, size_t sends_len); \
    uint16_t of##close(uint8_t *table, size_t table_len, uint16_t node, uint16_t channel); \
    maze_traced of##trace(const uint8_t *table, size_t table_len, uint16_t node, uint16_t channel, uint8_t *buffer, size_t buffer_len); \
    maze_booked of##book(const uint8_t *table, size_t table_len, uint8_t *ports, size_t ports_len, uint8_t *index, size_t index_len); \
    uint16_t of##judge(const uint8_t *table, size_t table_len, const uint8_t *ports, size_t ports_len, const uint8_t *index, size_t index_len, uint16_t circuits, \
                       uint16_t hops);

#define DECLARE_VERSION(version) \
    DECLARE_KIND(version##_) \
    DECLARE_KIND(version##_wide_) \
    uint16_t version##_wide_fold(uint8_t *table, size_t table_len, uint16_t mask); \
    maze_traced version##_book_lookup(const uint8_t *ports, size_t ports_len, const uint8_t *index, size_t index_len, uint16_t circuits, uint16_t hops, \
                                      uint16_t circuit, uint8_t *buffer, size_t buffer_len); \
    uint16_t version##_join(const uint8_t *first, size_t first_len, const uint8_t *second, size_t second_len, uint8_t *joined, size_t joined_len); \
    uint16_t version##_widen(const uint8_t *narrow, size_t narrow_len, uint8_t *wide, size_t wide_len); \
    uint16_t version##_narrow(const uint8_t *wide, size_t wide_len, uint8_t *narrow, size_t narrow_len);

/* The calls that know of no table. */
#define DECLARE_OTHERS(version) \
    maze_word_read_answer version##_word_read(uint16_t word); \
    maze_word_written version##_word_write(uint16_t command, uint16_t carried); \
    maze_served version##_arbitrate(maze_arbiter *arbiter, uint32_t requests); \
    maze_receive_channel version##_receive_start(uint32_t address, uint32_t count, uint16_t ignores); \
    maze_received version##_receive_data(maze_receive_channel channel); \
    maze_received version##_receive_word(maze_receive_channel channel, uint16_t word); \
    uint32_t version##_receive_overshoot(maze_receive_channel channel);

#endif
