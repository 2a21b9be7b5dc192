/* What a test of the calls is compiled against: the library, or one of the two C versions, to try the tests on themselves. A test that is for either kind of table
 * is written in the names of narrow tables; compiled with -DWIDE, the same names stand for the calls on wide tables and for what wide tables have. */
#ifndef SUBJECT_H
#define SUBJECT_H

#include <maze.h>

#if defined SUBJECT_BASELINE || defined SUBJECT_REFERENCE
#include "../bench/baseline.h"
#define maze_word_read base_word_read
#define maze_word_write base_word_write
#define maze_arbitrate base_arbitrate
#define maze_receive_start base_receive_start
#define maze_receive_data base_receive_data
#define maze_receive_word base_receive_word
#define maze_receive_overshoot base_receive_overshoot
#endif

#if defined SUBJECT_BASELINE
#define VERSION(call) base_##call
#elif defined SUBJECT_REFERENCE
#include "reference.h"
#define VERSION(call) ref_##call
#else
#define VERSION(call) maze_##call
#endif

#define maze_book_lookup VERSION(book_lookup)
#define maze_join VERSION(join)
#define maze_widen VERSION(widen)
#define maze_narrow VERSION(narrow)
#define maze_wide_fold VERSION(wide_fold)

/* The calls that each kind has. */
#ifdef WIDE
#define OF_KIND(call) VERSION(wide_##call)
#else
#define OF_KIND(call) VERSION(call)
#define maze_wide_make VERSION(wide_make)
#define maze_wide_block VERSION(wide_block)
#define maze_wide_unblock VERSION(wide_unblock)
#define maze_wide_arm VERSION(wide_arm)
#define maze_wide_disarm VERSION(wide_disarm)
#define maze_wide_open VERSION(wide_open)
#define maze_wide_open_all VERSION(wide_open_all)
#define maze_wide_close VERSION(wide_close)
#define maze_wide_trace VERSION(wide_trace)
#define maze_wide_book VERSION(wide_book)
#define maze_wide_judge VERSION(wide_judge)
#endif
#define maze_make OF_KIND(make)
#define maze_block OF_KIND(block)
#define maze_unblock OF_KIND(unblock)
#define maze_arm OF_KIND(arm)
#define maze_disarm OF_KIND(disarm)
#define maze_open OF_KIND(open)
#define maze_open_all OF_KIND(open_all)
#define maze_close OF_KIND(close)
#define maze_trace OF_KIND(trace)
#define maze_book OF_KIND(book)
#define maze_judge OF_KIND(judge)

/* What a table of the kind has, and the header's functions that read it. */
#ifdef WIDE
#undef MAZE_TABLE_BYTES
#undef MAZE_PORTS
#undef MAZE_ENABLED_AT
#undef MAZE_LINKS_AT
#undef MAZE_RECEIVES_AT
#undef MAZE_ARMED_AT
#define MAZE_TABLE_BYTES MAZE_WIDE_TABLE_BYTES
#define MAZE_PORTS MAZE_WIDE_PORTS
#define MAZE_ENABLED_AT MAZE_WIDE_ENABLED_AT
#define MAZE_LINKS_AT MAZE_WIDE_LINKS_AT
#define MAZE_RECEIVES_AT MAZE_WIDE_RECEIVES_AT
#define MAZE_ARMED_AT MAZE_WIDE_ARMED_AT
#define MASK_BYTES MAZE_WIDE_MASK_BYTES
#define maze_check_table maze_wide_check_table
#define maze_dimension maze_wide_dimension
#define maze_node_count maze_wide_node_count
#define maze_link_node maze_wide_link_node
#define maze_link_enabled maze_wide_link_enabled
#define maze_link_circuit maze_wide_link_circuit
#define maze_receive_armed maze_wide_receive_armed
#define maze_receive_circuit maze_wide_receive_circuit
#define maze_circuit_receive maze_wide_circuit_receive
/* and the reference's calls */
#define ref_make ref_wide_make
#define ref_block ref_wide_block
#define ref_unblock ref_wide_unblock
#define ref_arm ref_wide_arm
#define ref_disarm ref_wide_disarm
#define ref_open ref_wide_open
#define ref_open_all ref_wide_open_all
#define ref_close ref_wide_close
#define ref_trace ref_wide_trace
#define ref_book ref_wide_book
#define ref_judge ref_wide_judge
#else
#define MASK_BYTES 1
#endif

/* Places of a table's bytes: the first of a node's enabled links, the first of an entry, and a node's armed channels. */
MAZE_INLINE unsigned enabled_at(unsigned node) {
    return MAZE_ENABLED_AT + MASK_BYTES * node;
}

MAZE_INLINE unsigned link_at(unsigned node, unsigned port) {
    return MAZE_LINKS_AT + 2 * (MAZE_PORTS * node + port);
}

MAZE_INLINE unsigned receive_at(unsigned node, unsigned channel) {
    return MAZE_RECEIVES_AT + 2 * (MAZE_CHANNELS * node + channel);
}

MAZE_INLINE unsigned armed_at(unsigned node) {
    return MAZE_ARMED_AT + node;
}

/* Vectors worked by hand give the places of a narrow table, by its layout in Tables: where a table of the kind has the same thing. A narrow table has no other,
 * and bytes behind the one stand behind the other. */
MAZE_INLINE unsigned here(unsigned place) {
    if (place == 0) return 0;
    if (place < 257) return enabled_at(place - 1);
    if (place < 4353) return link_at((place - 257) / 16, (place - 257) / 2 % 8) + (place - 257) % 2;
    if (place < 8449) return MAZE_RECEIVES_AT + (place - 4353);
    return armed_at(place - 8449);
}

#endif
