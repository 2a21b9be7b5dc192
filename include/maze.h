/* The maze router's calls for C and C++: the table of one cube, narrow or wide, its circuits,
 * command words, the routing arbiter, and a receive channel.
 *
 * Every call finishes, takes any numbers, and answers MAZE_ACCEPTED or a refusal number;
 * maze_receive_start and maze_receive_overshoot, which refuse nothing, answer a channel and a
 * count. The tests of a call run in rising order of number, and the first that applies is the
 * answer; but a job (maze_open_all) tests its list, 28, before its sends, a lookup
 * (maze_book_lookup) tests its book, 25, before 12 and 14, maze_judge tests receive channels, 11,
 * last, and maze_join, maze_widen and maze_narrow test one table after another. A refused call
 * alters no byte lent to it and answers zero beside its number; only 10, 11 and 22 of maze_open
 * carry their scouts, a job tells which of its sends was refused, and a receive channel comes back
 * as it was. Numbers are tested at their whole width and never cut: node 256 is not node 0. But C
 * itself cuts a number that is wider than the parameter before the call is made, so that 65536
 * arrives as 0; the warning -Wconversion tells.
 *
 * A table is narrow, with 8 ports at a node, or wide, with 18. What is said of the calls on a
 * narrow table holds of their twins on a wide one, maze_wide_make and so on ("Wide tables", below),
 * and "Folded links" tells what more a wide table can have.
 *
 * What the caller sees to:
 * - A pointer to bytes comes with a length, and points to at least that many bytes that stay valid
 *   during the call. With length 0 the pointer may be anything, also null. No alignment is asked
 *   for.
 * - The memory of a table is writable, for every call but maze_trace, maze_book and maze_judge, and
 *   but for the first two tables of maze_join and the first of maze_widen and maze_narrow: an open
 *   writes to the table while it searches, also where it is rejected in the end. Those three calls
 *   and the reading functions only read it, maze_join only reads its first two and a conversion its
 *   first, and maze_judge and maze_book_lookup only read their book. The memory of a buffer that a
 *   call may write is writable.
 * - The buffer of maze_trace does not overlap the table, nor does the list of maze_open_all. The
 *   two buffers of maze_book overlap neither the table nor each other, and the buffer of
 *   maze_book_lookup does not overlap the book. The third table of maze_join overlaps neither of
 *   the first two; these may overlap, and may be the same. The two tables of maze_widen and of
 *   maze_narrow do not overlap. What is lent to maze_judge may overlap.
 * - The arbiter lent to maze_arbitrate is a maze_arbiter of the caller's, aligned as C aligns one
 *   and never null, that nobody else reads or writes during the call.
 * - While a call that may write a table runs, nobody else reads or writes that table: a search
 *   marks the links of its path as it goes and frees each of them again where it goes back, so a
 *   table looked at meanwhile may show circuits that are never opened. Nobody else uses a buffer
 *   that is written. Several threads may read, trace or book one table, judge books against it,
 *   join it to another as the first or the second, convert it, or look up in one book or judge it,
 *   at the same time if nobody changes it. Calls on different tables may run at the same time: the
 *   library keeps nothing of its own between calls.
 * - Nobody but the calls writes bytes of a table. Where somebody does, also by lending a table as a
 *   buffer of a call on another one, what its earlier calls promised ends there, until it is next
 *   made, or written by a joining or a conversion: it may be refused as 3, and one that is sound
 *   has the circuits, blocked links and armed channels that its bytes then show.
 * The padding of an answer struct has no meaning.
 *
 * A table that outlives the process: where a call is stopped inside, the table is half written, and
 * every call refuses it as 3 from then on, as of an open that marks the links of its path while it
 * searches. So for a table in a file, or in memory that is mapped or shared, a program makes its
 * calls on a copy in memory of its own, and replaces the file by the copy as a whole: a new file
 * beside it, fsync, rename. No handler of a signal jumps out of a call (longjmp), no thread is
 * cancelled in one, and no second process reads or writes a table that is shared while a call runs.
 * examples/table_file.h does all that.
 *
 * Linking: the library is for x86-64 with SSE2, by the System V rules for calls, so the stack is
 * aligned to 16 bytes where a call is made. It needs memset and memcpy and nothing else, has no
 * data of its own that is written, and defines no symbol but the calls below. maze_open_all takes
 * less than 16 kilobytes of stack, maze_wide_open_all, which keeps 14,338 bytes there, less than
 * 24, maze_open and maze_wide_open less than 8, every other call on a wide table and the
 * conversions less than 3, maze_judge less than 2, and every other call less than 1. Each may use
 * the 128 bytes below the stack pointer, the red zone. The archive links into programs at a fixed
 * place, into programs at any place (PIE) and into shared objects. */
#ifndef MAZE_H
#define MAZE_H

#include <stddef.h>
#include <stdint.h>

#define MAZE_VERSION "0.15.0" /* CHANGELOG.md says what each version changes for a caller */
#define MAZE_VERSION_NUMBER 1500 /* the same as a number: 10,000, 100 and 1 for its three */

/* The functions of this header are inline and static, so that they ask nothing of the library. The
 * shared library has them as symbols too, for other languages. */
#if defined MAZE_INLINE
#elif defined __cplusplus || (defined __STDC_VERSION__ && __STDC_VERSION__ >= 199901L)
#define MAZE_INLINE static inline
#elif defined __GNUC__
#define MAZE_INLINE static __inline__
#else
#define MAZE_INLINE static
#endif

/* Tells gcc which pointer goes with which length, so that it warns of a table or a buffer that is
 * shorter than the length lent with it. Other compilers see nothing. */
#if defined __has_attribute
#if __has_attribute(access)
#define MAZE_LENT(mode, pointer, length) __attribute__((access(mode, pointer, length)))
#endif
#endif
#ifndef MAZE_LENT
#define MAZE_LENT(mode, pointer, length)
#endif

/* A program that defines MAZE_CHECK_ANSWERS before it includes this header is warned, by gcc and
 * clang, of each call whose answer it does not look at. */
#if defined MAZE_CHECK_ANSWERS && defined __GNUC__
#define MAZE_ANSWER __attribute__((warn_unused_result))
#else
#define MAZE_ANSWER
#endif

#ifdef __cplusplus
extern "C" {
#endif

/* Answer numbers. maze_refusal_text gives the same words, up to the semicolon. */
#define MAZE_ACCEPTED 0
#define MAZE_BAD_LENGTH 1         /* the table is not 8,705 bytes long, or 14,338 if it is wide */
#define MAZE_BAD_DIMENSION 2      /* the dimension, given or stored, is not 1 to 8 */
#define MAZE_NOT_SOUND 3          /* the table is not sound */
#define MAZE_BAD_NODE 4           /* a node, source or target, is not in the cube */
#define MAZE_BAD_CHANNEL 5        /* the channel is above 7 */
#define MAZE_BAD_PORT 6           /* no port of the cube, or a fold bit at or above its dimension */
#define MAZE_BAD_ROUTING_TYPE 7   /* the routing type is none of 0, 1, 3 and 4 */
#define MAZE_BAD_SEND_VECTOR 8    /* the send vector is zero or has a port that the cube lacks */
#define MAZE_CHANNEL_IN_USE 9     /* the send channel has an open circuit */
#define MAZE_ROUTE_REJECTED 10    /* no path that the type may try is free; closing may help */
#define MAZE_RECEIVE_REJECTED 11  /* too few receive channels of a node are armed and not held */
#define MAZE_NO_CIRCUIT 12        /* the send channel has no open circuit; or none in a book */
#define MAZE_LINK_HELD 13         /* a circuit holds the link; or a partner link to be unfolded */
#define MAZE_BUFFER_SHORT 14      /* the buffer is shorter than 9 bytes; whatever the path */
#define MAZE_WORD_TOO_LARGE 15    /* the word is above 4,095 */
#define MAZE_NOT_A_COMMAND 16     /* the packet type is 0 or 1 */
#define MAZE_WRONG_TYPE 17        /* the packet type does not go with the command */
#define MAZE_RESERVED_COMMAND 18  /* the command is reserved or, in writing, above 15 */
#define MAZE_CARRIED_TOO_LARGE 19 /* the command cannot carry the number */
#define MAZE_UNREADABLE_LINE 20   /* the line cannot be read; the printed list alone gives it */
#define MAZE_CHANNEL_HELD 21      /* a circuit holds the receive channel */
#define MAZE_NO_ROUTE 22          /* every path that the type may try crosses a blocked link */
#define MAZE_BOOK_SHORT 23        /* a buffer cannot hold its part of the book */
#define MAZE_FOLDED 24            /* the fold mask is not zero, so no narrow table says the same */
#define MAZE_BAD_BOOK 25          /* the book is not well formed */
#define MAZE_BAD_BOOK_CIRCUIT 26  /* a circuit of a book has a bad source, path or send channel */
#define MAZE_BAD_BOOK_LINK 27     /* a link of the book is blocked, taken or shared */
#define MAZE_BAD_SEND_LIST 28     /* the list of sends is no multiple of ten bytes or above 640 */
#define MAZE_BAD_HALVES 29        /* the halves differ in dimension, or theirs is 8 */
#define MAZE_CHANNEL_STOPPED 30   /* the receive channel is stopped */
#define MAZE_BAD_REQUESTER 31     /* a request bit is at 26 or above, or the record is above 25 */

/* ---- The table of one cube: a narrow table ----
 *
 * In a cube of dimension D nodes are numbered from 0 to 2^D - 1, and each has D ports, numbered
 * from 0. The link out of port p goes to port p of the node whose number has bit p changed; the
 * link back is another one, with a state of its own. Each node has 8 send channels and 8 receive
 * channels, numbered from 0. Send channel c of node s has at most one circuit, whose number is
 * 8 * s + c + 1; 0 stands for none. A circuit holds the links of its path and one armed receive
 * channel of its target.
 *
 * The table is MAZE_TABLE_BYTES bytes of the caller's, first written by maze_make:
 *   1 byte                             the dimension
 *   256 bytes from MAZE_ENABLED_AT     for each node, bit p set where the link out of port p is
 *                                      enabled
 *   4,096 bytes from MAZE_LINKS_AT     for each node and port 0 to 7, the circuit that holds the
 *                                      link, two bytes, low byte first
 *   4,096 bytes from MAZE_RECEIVES_AT  for each node and receive channel, the circuit that holds
 *                                      it, two bytes, low byte first
 *   256 bytes from MAZE_ARMED_AT       for each node, bit k set where receive channel k is armed
 * Rows run node by node. A link is free if it is enabled and held by no circuit.
 *
 * A path is permitted if its first hop is over a port of the send vector, each later hop over a
 * port in whose bit the node and the target differ, and it ends where it first arrives at the
 * target, after at least one hop.
 *
 * A table is sound if what it says of nodes and ports that the cube lacks is zero, every held link
 * is enabled, every held receive channel is armed, no circuit number is above 8 * 2^D, and every
 * circuit in it holds all links of one path from its source that is permitted for some send vector,
 * one receive channel at the end of that path, and nothing else. Every call refuses a table that is
 * not sound, but for one that maze_make, maze_join or maze_narrow writes anew. */
#define MAZE_TABLE_BYTES 8705
#define MAZE_NODES 256         /* nodes that have a row, present in the cube or not */
#define MAZE_PORTS 8           /* ports in a row */
#define MAZE_CHANNELS 8        /* send channels, and receive channels, of a node */
#define MAZE_DIMENSION_LARGEST 8
#define MAZE_DIMENSION_AT 0
#define MAZE_ENABLED_AT 1
#define MAZE_LINKS_AT 257
#define MAZE_RECEIVES_AT 4353
#define MAZE_ARMED_AT 8449

/* Routing types of maze_open, which tells what a helix path is. */
#define MAZE_TYPE_MAZE 0           /* one pass over all permitted paths of the send vector */
#define MAZE_TYPE_HELIX 1          /* the helix path of each port of the vector in turn */
#define MAZE_TYPE_FIXED 3          /* the helix path of the lowest port of the vector alone */
#define MAZE_TYPE_ALTERNATE_MAZE 4 /* as 0; if that is route rejected, a second pass */

#define MAZE_HOPS_LARGEST 9        /* a permitted path has 1 to dimension + 1 hops */
#define MAZE_SCOUTS_LARGEST 123300 /* no send sends more where no dimension is folded; of type 3 at
                                    * most 9, of type 1 72 */
#define MAZE_TRACE_BYTES 9         /* what maze_trace and maze_book_lookup ask of their buffer */
#define MAZE_SEND_BYTES 10         /* of a send in a list of maze_open_all */
#define MAZE_SENDS_LARGEST 64      /* sends in such a list */
#define MAZE_BOOK_LINE_BYTES 6     /* of a circuit in the index of a book */
#define MAZE_CIRCUITS_LARGEST 2048 /* no circuit number is larger, and no book has more circuits */

typedef struct {
    uint16_t number;
    uint16_t hops;    /* links of the path */
    uint16_t receive; /* the receive channel taken at the target */
    uint32_t scouts;  /* address packets sent, in all passes or over all paths tried */
} maze_opened;

typedef struct {
    uint16_t number;
    uint16_t sends; /* accepted: how many sends; else the place, from 0, of the one refused, or 0
                     * with 1, 2, 3 and 28, where no send was looked at */
} maze_opened_all;

typedef struct {
    uint16_t number;
    uint16_t hops; /* bytes written to the buffer */
} maze_traced;

typedef struct {
    uint16_t number;
    uint16_t circuits; /* in the book: MAZE_BOOK_LINE_BYTES bytes of the index each */
    uint16_t hops;     /* of all of them together: one byte of the ports each */
} maze_booked;

/* Writes all 8,705 bytes: the dimension, all links of the cube enabled, nothing held, no receive
 * channel armed. What they were before does not matter.
 * Answers 0, 1 or 2. */
MAZE_ANSWER MAZE_LENT(write_only, 1, 2)
uint16_t maze_make(uint8_t *table, size_t table_len, uint16_t dimension);

/* Blocks the link out of a port of a node, in that direction alone. Blocking a blocked link changes
 * nothing. Alters the node's byte of enabled links and leaves the rest alone.
 * Answers 0, or the first of 1, 2, 3, 4, 6 and 13 that applies. */
MAZE_ANSWER MAZE_LENT(read_write, 1, 2)
uint16_t maze_block(uint8_t *table, size_t table_len, uint16_t node, uint16_t port);

/* Enables the link out of a port of a node, in that direction alone. Unblocking an enabled link,
 * held or not, changes nothing. Alters the node's byte of enabled links and leaves the rest alone.
 * Answers 0, or the first of 1, 2, 3, 4 and 6 that applies. */
MAZE_ANSWER MAZE_LENT(read_write, 1, 2)
uint16_t maze_unblock(uint8_t *table, size_t table_len, uint16_t node, uint16_t port);

/* Arms a receive channel of a node: an open may take it. Arming an armed channel, held or not,
 * changes nothing. Alters the node's byte of armed channels and leaves the rest alone.
 * Answers 0, or the first of 1, 2, 3, 4 and 5 that applies. */
MAZE_ANSWER MAZE_LENT(read_write, 1, 2)
uint16_t maze_arm(uint8_t *table, size_t table_len, uint16_t node, uint16_t channel);

/* Disarms a receive channel of a node that no circuit holds. Disarming one that is not armed
 * changes nothing. Alters the node's byte of armed channels and leaves the rest alone.
 * Answers 0, or the first of 1, 2, 3, 4, 5 and 21 that applies. */
MAZE_ANSWER MAZE_LENT(read_write, 1, 2)
uint16_t maze_disarm(uint8_t *table, size_t table_len, uint16_t node, uint16_t channel);

/* Opens the circuit of a send channel of a node.
 *
 * With MAZE_TYPE_MAZE a pass looks for the first permitted path to the target, for the send vector
 * (bit p for port p), whose links are all free. The source tries the ports of the vector from 0
 * upward. A node that was reached on port a tries, of the ports in whose bit it and the target
 * differ, those above a upward and then those from 0 up to a: the helical order. Each time a free
 * link is tried, a scout, an address packet, goes over it; where there is no way on it goes back,
 * and the next port is tried. With no such path the pass is route rejected. With one, the target
 * takes its lowest receive channel that is armed and that no circuit holds; where there is none the
 * pass is receive rejected, with the scouts sent up to the end of that path. With
 * MAZE_TYPE_ALTERNATE_MAZE, if this pass is route rejected, a second one begins with the ports
 * below the dimension that the vector left out; the answer is then that of the second pass, with
 * the scouts of both. A second pass that no port is left for is route rejected.
 *
 * The helix path of a port begins with that port, whether it leads towards the target or away from
 * it, and goes on at each node by the first port of the helical order there, up to the target. It
 * is a permitted path. MAZE_TYPE_FIXED tries that of the lowest port of the vector alone: where it
 * is not free, the open is route rejected at once. MAZE_TYPE_HELIX tries that of each port of the
 * vector, from the lowest up, until one is free, and is route rejected where none is. A scout goes
 * over each link of a path that is tried, up to the first link that is not free: a path adds the
 * number of its free hops before that one, and all its hops where it is free. Of opens alike but
 * for the type, in one table, MAZE_TYPE_HELIX accepts all that MAZE_TYPE_FIXED does, and
 * MAZE_TYPE_MAZE all that MAZE_TYPE_HELIX does.
 *
 * Whatever the type, a receive rejection ends the open: a second pass, or another path, would come
 * to the same target. An accepted open holds the links of the path and that receive channel, which
 * stays armed; maze_trace tells the path. Alters the entries of those and leaves the rest alone.
 *
 * An open that is route rejected is answered by 10 or by 22. 10: one of the paths that it may try
 * has no blocked link, so it may be accepted once circuits are closed; with every circuit closed
 * and a receive channel of the target armed it is. 22: each of them crosses a blocked link, so the
 * same open stays so until a link is unblocked, the table is made anew or the fold mask of a wide
 * one is set. The paths that it may try are, with MAZE_TYPE_ALTERNATE_MAZE, those of both passes;
 * which of them the search came to does not matter. Either number carries the scouts of the search.
 *
 * More freedom never hurts: an open that a table would accept, it would accept too after any calls
 * that close circuits, unblock links or arm channels; the path may be another one then. That is
 * said of one open: of several opens one after another a later one may be rejected then, since an
 * earlier one takes other links. And an open with MAZE_TYPE_MAZE all of whose ports lead towards
 * the target looks only between source and target: it answers and takes the same in any two sound
 * tables of one dimension that have the same links free, held and blocked between nodes whose
 * number has, in each bit, the source's or the target's, the same channels of the target armed and
 * the same held, and its send channel open in both or in neither.
 *
 * Answers 0 with hops, receive channel and scouts, or the first of 1, 2, 3, 4, 5, 7, 8, 9, 10, 11
 * and 22 that applies; 10, 11 and 22 with scouts. A target whose eight channels are all armed never
 * gives 11: where a link into it is free, one of them is not held. (That is so while at most eight
 * links lead into a node: always, but for folded links.) */
MAZE_ANSWER MAZE_LENT(read_write, 1, 2)
maze_opened maze_open(uint8_t *table, size_t table_len, uint16_t node, uint16_t channel,
                      uint16_t target, uint16_t type, uint16_t vector);

/* A job: opens the circuits of all sends of a list, or none of them.
 *
 * The list has MAZE_SEND_BYTES bytes for each send and MAZE_SENDS_LARGEST sends at most. The ten
 * bytes are the five numbers of maze_open in its order, node, channel, target, type and vector, two
 * bytes each, low byte first. The sends are opened one after another as maze_open does it, each on
 * the table that those before it left. If all are accepted, the table is the one after them. At the
 * first that is refused the job ends, and each byte of the table is as it was before the job. The
 * list is only read.
 * Answers 0 with the number of sends, or the first of 1, 2, 3 and 28 that applies, with 0, or the
 * number that maze_open gives the first send refused, with the place of that send in the list, from
 * 0, and without its scouts. An empty list is accepted, with 0. */
MAZE_ANSWER MAZE_LENT(read_write, 1, 2) MAZE_LENT(read_only, 3, 4)
maze_opened_all maze_open_all(uint8_t *table, size_t table_len, const uint8_t *sends,
                              size_t sends_len);

/* Writes one send of such a list, the one at a place from 0. */
MAZE_INLINE void maze_put_send(uint8_t *sends, unsigned place, uint16_t node, uint16_t channel,
                               uint16_t target, uint16_t type, uint16_t vector) {
    uint8_t *at = sends + (size_t)MAZE_SEND_BYTES * place;
    at[0] = (uint8_t)(node & 255), at[1] = (uint8_t)(node >> 8);
    at[2] = (uint8_t)(channel & 255), at[3] = (uint8_t)(channel >> 8);
    at[4] = (uint8_t)(target & 255), at[5] = (uint8_t)(target >> 8);
    at[6] = (uint8_t)(type & 255), at[7] = (uint8_t)(type >> 8);
    at[8] = (uint8_t)(vector & 255), at[9] = (uint8_t)(vector >> 8);
}

/* Closes the circuit of a send channel of a node: frees its links and its receive channel, disarms
 * that channel, and leaves the rest alone. The channel has to be armed again before another circuit
 * can take it.
 * Answers 0, or the first of 1, 2, 3, 4, 5 and 12 that applies. */
MAZE_ANSWER MAZE_LENT(read_write, 1, 2)
uint16_t maze_close(uint8_t *table, size_t table_len, uint16_t node, uint16_t channel);

/* Writes the ports of the circuit of a send channel of a node to the start of the buffer, one byte
 * for each hop in path order. Later bytes of the buffer keep their content, and so does the table.
 * Answers 0 with the number of hops, or the first of 1, 2, 3, 4, 5, 12 and 14 that applies. */
MAZE_ANSWER MAZE_LENT(read_only, 1, 2) MAZE_LENT(write_only, 5, 6)
maze_traced maze_trace(const uint8_t *table, size_t table_len, uint16_t node, uint16_t channel,
                       uint8_t *buffer, size_t buffer_len);

/* ---- A book of all circuits ----
 *
 * A book is two buffers and two counts. The ports buffer has one byte for each hop: the ports of
 * all circuits end to end, in order of circuit number, each circuit's as maze_trace gives them. The
 * index has, in that order, MAZE_BOOK_LINE_BYTES bytes for each circuit: its number, where its
 * ports begin in the other buffer, and how many they are, two bytes each, low byte first. The
 * counts are how many circuits the book has, and how many hops in all. A sound narrow table has at
 * most MAZE_CIRCUITS_LARGEST (2,048) of either, so that 2,048 bytes for the ports and 12,288 for
 * the index hold the book of any. A wide one with folded links has no more circuits, but it may
 * have MAZE_WIDE_LINKS_LARGEST (4,096) hops: 4,096 bytes for the ports then.
 *
 * A book is well formed if both counts fit their buffers, the circuit numbers rise within 1 to
 * 2,048, each length is 1 to 9, and the pairs of offset and length run from 0 to the count of hops
 * without gap or overlap; with no circuit there is no hop. Ports may be any bytes. */

/* Writes the book of a table, which has all its open circuits: ports and index, each to the start
 * of its buffer. Later bytes of both buffers keep their content, and so does the table.
 * Answers 0 with both counts, or the first of 1, 2, 3 and 23 that applies: 23 where the ports
 * buffer has fewer bytes than there are hops or the index fewer than 6 for each circuit. */
MAZE_ANSWER MAZE_LENT(read_only, 1, 2) MAZE_LENT(write_only, 3, 4)
MAZE_LENT(write_only, 5, 6)
maze_booked maze_book(const uint8_t *table, size_t table_len, uint8_t *ports, size_t ports_len,
                      uint8_t *index, size_t index_len);

/* Writes the ports that a book has for a circuit number to the start of the buffer, one byte for
 * each hop. Later bytes of the buffer keep their content, and so does the book, which may come from
 * anywhere. Of a book just written the answer and the bytes are those of maze_trace for the
 * circuit's node and channel, where the node is in the cube. Any other circuit number, as 0, gives
 * 12.
 * Answers 0 with the number of hops, or the first of 25, 12 and 14 that applies, in this order. */
MAZE_ANSWER MAZE_LENT(read_only, 1, 2) MAZE_LENT(read_only, 3, 4)
MAZE_LENT(write_only, 8, 9)
maze_traced maze_book_lookup(const uint8_t *ports, size_t ports_len, const uint8_t *index,
                             size_t index_len, uint16_t circuits, uint16_t hops,
                             uint16_t circuit, uint8_t *buffer, size_t buffer_len);

/* Of the circuit at a place of a book, from 0: its number, where its ports begin, and how many they
 * are. The place is below the count of circuits. */
MAZE_INLINE unsigned maze_book_circuit(const uint8_t *index, unsigned place) {
    const uint8_t *at = index + (size_t)MAZE_BOOK_LINE_BYTES * place;
    return at[0] + 256u * at[1];
}

MAZE_INLINE unsigned maze_book_at(const uint8_t *index, unsigned place) {
    const uint8_t *at = index + (size_t)MAZE_BOOK_LINE_BYTES * place;
    return at[2] + 256u * at[3];
}

MAZE_INLINE unsigned maze_book_hops(const uint8_t *index, unsigned place) {
    const uint8_t *at = index + (size_t)MAZE_BOOK_LINE_BYTES * place;
    return at[4] + 256u * at[5];
}

/* Judges a book, which may come from anywhere, against a table; both are only read. 0 means exactly
 * that the book is well formed, that each circuit has its source in the cube, ports of the cube
 * that make a permitted path for some send vector, and a send channel without an open circuit, that
 * all links of the circuits are free and no two share one, and that each node has at least as many
 * receive channels armed and not held as circuits of the book end there. Of a sound table and a
 * well-formed book that is so exactly where a sound table of the same dimension (and fold mask),
 * with the same links blocked and receive channels armed, can have these circuits open, over these
 * ports, beside those that are. Each test looks at the whole book before the next one does:
 *   25: the book is not well formed.
 *   26: the source of a circuit is not in the cube, or a port of it is no port of the cube; or its
 *       ports are no permitted path, for any send vector, to the node where they lead; or its send
 *       channel has an open circuit in the table.
 *   27: a link of a circuit is blocked, or held in the table, or is a link of another circuit of
 *       the book too.
 *   11: more circuits of the book end at a node than it has receive channels armed and not held.
 * A book of no circuit and no hop is accepted by every sound table. A book that maze_book wrote is
 * accepted by its table once each of its circuits is closed and then its receive channel armed
 * again.
 * Answers 0, or the first of 1, 2, 3, 25, 26, 27 and 11 that applies, in this order. */
MAZE_ANSWER MAZE_LENT(read_only, 1, 2) MAZE_LENT(read_only, 3, 4)
MAZE_LENT(read_only, 5, 6)
uint16_t maze_judge(const uint8_t *table, size_t table_len, const uint8_t *ports, size_t ports_len,
                    const uint8_t *index, size_t index_len, uint16_t circuits, uint16_t hops);

/* ---- Two cubes joined into one ---- */

/* Joins two tables of one dimension D, 1 to 7, as halves of a third, of dimension D + 1: the bit of
 * port D tells the half. Writes all 8,705 bytes of the third, whatever they were before:
 *   Nodes and circuits of the first keep their numbers. Node n of the second becomes node n + 2^D,
 *   and circuit c of it circuit c + 8 * 2^D, which is the circuit of the same send channel of the
 *   node as it is numbered now.
 *   Each circuit holds the links and the receive channel that it held, under the new numbers, so
 *   that maze_trace gives the same ports. Links that were blocked and receive channels that were
 *   armed are so in the third, and no others.
 *   The new links, those out of port D of every node, are enabled, and no circuit holds them.
 * The third is sound then, and any call goes on with it. The first and the second are only read;
 * they may be the same bytes, two times the same half.
 * Answers 0, or the first of 1, 2 and 3 of the first table, 1, 2 and 3 of the second, 1 of the
 * third and 29 that applies, in this order. 29: the first two have different dimensions, or both
 * have dimension 8, and no cube is larger. */
MAZE_ANSWER MAZE_LENT(read_only, 1, 2) MAZE_LENT(read_only, 3, 4)
MAZE_LENT(write_only, 5, 6)
uint16_t maze_join(const uint8_t *first, size_t first_len, const uint8_t *second,
                   size_t second_len, uint8_t *joined, size_t joined_len);

/* ---- Reading a table between calls ----
 *
 * A table is bytes and has no pointer in it: it may be copied, stored and loaded, on any machine,
 * and the calls go on with the copy. maze_check_table tells of bytes that come from elsewhere
 * whether they are a sound table: it answers 0 for one, and otherwise the first of 1, 2 and 3 that
 * applies. The other functions ask nothing of a table but its MAZE_TABLE_BYTES bytes, and believe
 * what it says. Of a node, port or channel that no table has they answer 0: nothing is held,
 * enabled or armed there. The macros at the end are other names for the same functions. */
MAZE_ANSWER MAZE_LENT(read_only, 1, 2)
MAZE_INLINE unsigned maze_check_table(const uint8_t *table, size_t table_len) {
    /* No trace writes to a buffer of no bytes: a sound table gives 12 or 14. */
    uint8_t nothing = 0;
    maze_traced traced = maze_trace(table, table_len, 0, 0, &nothing, 0);
    return traced.number <= MAZE_NOT_SOUND ? traced.number : MAZE_ACCEPTED;
}

MAZE_INLINE unsigned maze_dimension(const uint8_t *table) {
    return table[MAZE_DIMENSION_AT];
}

/* How many nodes the cube has; 0 where the stored dimension is not 1 to 8. */
MAZE_INLINE unsigned maze_node_count(const uint8_t *table) {
    unsigned dimension = maze_dimension(table);
    return dimension == 0 || dimension > MAZE_DIMENSION_LARGEST ? 0 : 1u << dimension;
}

/* The node behind a port; MAZE_NODES, which is no node, where the cube has no such node or port. */
MAZE_INLINE unsigned maze_link_node(const uint8_t *table, unsigned node, unsigned port) {
    return node < maze_node_count(table) && port < maze_dimension(table) ? node ^ 1u << port
                                                                         : MAZE_NODES;
}

/* Whether the link out of a port is enabled, 1 or 0: a link that is not is blocked. */
MAZE_INLINE int maze_link_enabled(const uint8_t *table, unsigned node, unsigned port) {
    return node < MAZE_NODES && port < MAZE_PORTS &&
           (table[MAZE_ENABLED_AT + node] >> port & 1) != 0;
}

/* The circuit that holds the link out of a port; 0 for none. */
MAZE_INLINE unsigned maze_link_circuit(const uint8_t *table, unsigned node, unsigned port) {
    unsigned at = MAZE_LINKS_AT + 2 * (MAZE_PORTS * node + port);
    return node < MAZE_NODES && port < MAZE_PORTS ? table[at] + 256u * table[at + 1] : 0;
}

/* Whether a receive channel is armed, 1 or 0. */
MAZE_INLINE int maze_receive_armed(const uint8_t *table, unsigned node, unsigned channel) {
    return node < MAZE_NODES && channel < MAZE_CHANNELS &&
           (table[MAZE_ARMED_AT + node] >> channel & 1) != 0;
}

/* The circuit that holds a receive channel; 0 for none. Each open circuit holds exactly one, so
 * that a walk over the receive channels meets every open circuit once. */
MAZE_INLINE unsigned maze_receive_circuit(const uint8_t *table, unsigned node, unsigned channel) {
    unsigned at = MAZE_RECEIVES_AT + 2 * (MAZE_CHANNELS * node + channel);
    return node < MAZE_NODES && channel < MAZE_CHANNELS ? table[at] + 256u * table[at + 1] : 0;
}

/* The number of the circuit of a send channel, and back: source and send channel of a circuit
 * number that is not zero. The macros may stand where C asks for a constant. */
#define MAZE_CIRCUIT(node, channel) (8u * (unsigned)(node) + (unsigned)(channel) + 1u)
#define MAZE_CIRCUIT_NODE(circuit) (((circuit) - 1) / 8)
#define MAZE_CIRCUIT_CHANNEL(circuit) (((circuit) - 1) % 8)
MAZE_INLINE unsigned maze_circuit(unsigned node, unsigned channel) {
    return 8 * node + channel + 1;
}
MAZE_INLINE unsigned maze_circuit_node(unsigned circuit) {
    return MAZE_CIRCUIT_NODE(circuit);
}
MAZE_INLINE unsigned maze_circuit_channel(unsigned circuit) {
    return MAZE_CIRCUIT_CHANNEL(circuit);
}

/* The receive channel that a circuit holds, numbered as send channels are: maze_circuit_node gives
 * the target of it and maze_circuit_channel the channel there. 0 where the circuit is not open. It
 * looks at the receive channels one by one; to list all circuits, walk over those instead. */
MAZE_INLINE unsigned maze_circuit_receive(const uint8_t *table, unsigned circuit) {
    unsigned node, channel, nodes = maze_node_count(table);
    if (circuit == 0) return 0;
    for (node = 0; node < nodes; node++)
        for (channel = 0; channel < MAZE_CHANNELS; channel++)
            if (maze_receive_circuit(table, node, channel) == circuit)
                return maze_circuit(node, channel);
    return 0;
}

#define MAZE_DIMENSION(table) maze_dimension(table)
#define MAZE_LINK_ENABLED(table, node, port) maze_link_enabled(table, node, port)
#define MAZE_LINK_CIRCUIT(table, node, port) maze_link_circuit(table, node, port)
#define MAZE_RECEIVE_CIRCUIT(table, node, channel) maze_receive_circuit(table, node, channel)
#define MAZE_RECEIVE_ARMED(table, node, channel) maze_receive_armed(table, node, channel)

/* ---- Wide tables ----
 *
 * A wide table has rows for the 18 ports of a node of the next board. It is MAZE_WIDE_TABLE_BYTES
 * bytes of the caller's, first written by maze_wide_make or maze_widen. Its parts stand in the
 * order of a narrow table, with a fold mask behind the dimension:
 *   1 byte                                  the dimension
 *   1 byte at MAZE_WIDE_FOLD_AT             the fold mask
 *   768 bytes from MAZE_WIDE_ENABLED_AT     for each node three bytes, low byte first: bit p set
 *                                           where the link out of port p is enabled
 *   9,216 bytes from MAZE_WIDE_LINKS_AT     for each node and port 0 to 17, the circuit that holds
 *                                           the link, two bytes, low byte first
 *   4,096 bytes from MAZE_WIDE_RECEIVES_AT  for each node and receive channel, the circuit that
 *                                           holds it, two bytes, low byte first
 *   256 bytes from MAZE_WIDE_ARMED_AT       for each node, bit k set where receive channel k is
 *                                           armed
 *
 * All else is alike. A wide table says the same kind of things: nodes, channels, circuit numbers,
 * what a path, a free link and a sound table are, and which order a search follows. Each call
 * maze_X on one narrow table has a twin maze_wide_X, with the same arguments, tests, answers and
 * changes, for any numbers, and one list of sends or one book serves both kinds: maze_book_lookup
 * looks up in the book of either. What differs:
 * - Number 1 goes by the kind of the call: a call that is lent a table of the other kind answers 1.
 * - Dimensions may be folded ("Folded links", below). Where none is, the cube has the ports below
 *   its dimension alone, and all is as in a narrow table.
 * - A sound table has zero for the ports that the cube lacks, and in bits 18 to 23 of the three
 *   bytes of a node, which are no port's.
 * There is no joining of wide tables: narrow two that have no dimension folded, join them, and
 * widen the third. */
#define MAZE_WIDE_TABLE_BYTES 14338
#define MAZE_WIDE_PORTS 18      /* ports in a row */
#define MAZE_WIDE_MASK_BYTES 3  /* for the enabled links of a node */
#define MAZE_WIDE_DIMENSION_AT 0
#define MAZE_WIDE_FOLD_AT 1
#define MAZE_WIDE_ENABLED_AT 2
#define MAZE_WIDE_LINKS_AT 770
#define MAZE_WIDE_RECEIVES_AT 9986
#define MAZE_WIDE_ARMED_AT 14082
#define MAZE_WIDE_LINKS_LARGEST 4096 /* links of the largest cube with every dimension folded */
#define MAZE_WIDE_SCOUTS_LARGEST 35099560 /* no send sends more, whatever is folded; of type 3 at
                                           * most 9, of type 1 144 */

/* The twins, each with the numbers of its narrow call. */
MAZE_ANSWER MAZE_LENT(write_only, 1, 2)
uint16_t maze_wide_make(uint8_t *table, size_t table_len, uint16_t dimension);
MAZE_ANSWER MAZE_LENT(read_write, 1, 2)
uint16_t maze_wide_block(uint8_t *table, size_t table_len, uint16_t node, uint16_t port);
MAZE_ANSWER MAZE_LENT(read_write, 1, 2)
uint16_t maze_wide_unblock(uint8_t *table, size_t table_len, uint16_t node, uint16_t port);
MAZE_ANSWER MAZE_LENT(read_write, 1, 2)
uint16_t maze_wide_arm(uint8_t *table, size_t table_len, uint16_t node, uint16_t channel);
MAZE_ANSWER MAZE_LENT(read_write, 1, 2)
uint16_t maze_wide_disarm(uint8_t *table, size_t table_len, uint16_t node, uint16_t channel);
MAZE_ANSWER MAZE_LENT(read_write, 1, 2)
maze_opened maze_wide_open(uint8_t *table, size_t table_len, uint16_t node, uint16_t channel,
                           uint16_t target, uint16_t type, uint16_t vector);
MAZE_ANSWER MAZE_LENT(read_write, 1, 2) MAZE_LENT(read_only, 3, 4)
maze_opened_all maze_wide_open_all(uint8_t *table, size_t table_len, const uint8_t *sends,
                                   size_t sends_len);
MAZE_ANSWER MAZE_LENT(read_write, 1, 2)
uint16_t maze_wide_close(uint8_t *table, size_t table_len, uint16_t node, uint16_t channel);
MAZE_ANSWER MAZE_LENT(read_only, 1, 2) MAZE_LENT(write_only, 5, 6)
maze_traced maze_wide_trace(const uint8_t *table, size_t table_len, uint16_t node,
                            uint16_t channel, uint8_t *buffer, size_t buffer_len);
MAZE_ANSWER MAZE_LENT(read_only, 1, 2) MAZE_LENT(write_only, 3, 4)
MAZE_LENT(write_only, 5, 6)
maze_booked maze_wide_book(const uint8_t *table, size_t table_len, uint8_t *ports,
                           size_t ports_len, uint8_t *index, size_t index_len);
MAZE_ANSWER MAZE_LENT(read_only, 1, 2) MAZE_LENT(read_only, 3, 4)
MAZE_LENT(read_only, 5, 6)
uint16_t maze_wide_judge(const uint8_t *table, size_t table_len, const uint8_t *ports,
                         size_t ports_len, const uint8_t *index, size_t index_len,
                         uint16_t circuits, uint16_t hops);

/* Writes all 14,338 bytes of a wide table that says what a narrow one says, whatever they were
 * before: the dimension, which links are enabled and which receive channels armed, and which
 * circuit holds what; the fold mask is zero. The narrow table is only read. Any call on the one and
 * its twin on the other answer the same and write the same to their buffers, and what they leave
 * converts into each other: the same is so of any calls one after another.
 * Answers 0, or the first of 1, 2 and 3 of the narrow table and 1 of the wide one that applies, in
 * this order. */
MAZE_ANSWER MAZE_LENT(read_only, 1, 2) MAZE_LENT(write_only, 3, 4)
uint16_t maze_widen(const uint8_t *narrow, size_t narrow_len, uint8_t *wide, size_t wide_len);

/* Writes all 8,705 bytes of a narrow table that says what a wide one says, whatever they were
 * before. The wide table is only read. There and back gives the same bytes, whichever kind comes
 * first, where both conversions are accepted.
 * Answers 0, or the first of 1, 2 and 3 of the wide table, 1 of the narrow one and 24 that applies,
 * in this order. 24: the fold mask of the wide table is not zero. */
MAZE_ANSWER MAZE_LENT(read_only, 1, 2) MAZE_LENT(write_only, 3, 4)
uint16_t maze_narrow(const uint8_t *wide, size_t wide_len, uint8_t *narrow, size_t narrow_len);

/* ---- Folded links ----
 *
 * Bit p of the fold mask folds dimension p: it doubles the links of that dimension throughout the
 * cube. Beside port p each node then has its partner, port 17 - p, which leads to the same node,
 * and whoever goes over it arrives on port 17 - p. The two links of such a pair have a state each:
 * one may be free while the other is blocked or held, and two circuits may hold the two. The axis
 * of a port is the bit of a node that it changes: port p itself below 9, and 17 - p above that. So
 * the nodes of a cube of dimension D have the ports below D and, for each p below D whose bit is
 * set in the fold mask, port 17 - p. Ports 10 to 17 are the partners of 7 to 0; no cube has 8 or 9.
 *
 * What the other sections say of ports is so of partners, with the axis of a port where they speak
 * of its bit:
 * - A hop behind the first is over a port in whose axis the node and the target differ, over either
 *   link of a pair. So behind its first hop a path takes each axis at most once, and where it comes
 *   back to its source it does so over the port of its first hop or over the partner of that.
 * - A send vector names ports below the dimension; a bit above them is no partner, and is refused
 *   as 8. It gains the partners of the folded ports that it names. With MAZE_TYPE_ALTERNATE_MAZE
 *   the second pass begins with the ports below the dimension that it left out, and their partners.
 * - The helical order runs over all 18 ports: a node reached on port a tries those above a up to 17
 *   and then those from 0 up to a. Reached on port 7 it tries partners before ports 0 to 6. A
 *   source tries from 0 upward: with dimensions 0 and 1 folded, vector 3 is tried in the order 0,
 *   1, 16, 17. So the lowest port of a vector, which MAZE_TYPE_FIXED takes, is never a partner.
 * - A sound table has no fold bit at or above its dimension, and zero for the partners of
 *   dimensions that are not folded.
 * - Blocking and unblocking take partners too; any other port at or above the dimension is refused
 *   as 6. A trace or a book tells the port of each hop, up to 17, and in judging a book it is 26
 *   where the cube lacks a port.
 * - Where the dimension and the number of folded dimensions are 9 or more together, more than eight
 *   links lead into a node. Then 11 can come although all eight channels of the target are armed:
 *   eight circuits hold them, and a further link into it is free.
 * - MAZE_SCOUTS_LARGEST holds where nothing is folded. With folded dimensions a send sends no more
 *   than MAZE_WIDE_SCOUTS_LARGEST scouts; one that is answered 10 or 22 no more than 13,810,600. So
 *   many are sent at dimension 8 with all dimensions folded and the links into the target blocked,
 *   in some 50 milliseconds.
 * - What maze_open promises of an open that looks only between source and target, it promises where
 *   nothing is folded.
 * - An open with MAZE_TYPE_MAZE or MAZE_TYPE_ALTERNATE_MAZE that a table would accept it would
 *   accept too once more dimensions are folded. One with MAZE_TYPE_HELIX or MAZE_TYPE_FIXED may be
 *   refused then: the helix path of a port may be another one. */

/* Sets the fold mask. The partner links of each dimension that is newly folded are enabled, at
 * every node, and no circuit holds one; those of each dimension that is not folded any longer are
 * gone, enabled or blocked; those of a dimension that keeps its bit stay as they are, and so does
 * all else. The same mask as before changes nothing. Alters the fold mask and the bytes of enabled
 * links and leaves the rest alone.
 * Answers 0, or the first of 1, 2, 3, 6 and 13 that applies. 6: the mask has a bit at or above the
 * dimension. 13: a circuit holds a partner link of a dimension that would be unfolded. */
MAZE_ANSWER MAZE_LENT(read_write, 1, 2)
uint16_t maze_wide_fold(uint8_t *table, size_t table_len, uint16_t mask);

/* The axis of a port, and the partner that it has where its dimension is folded; MAZE_WIDE_PORTS,
 * which is no port, where no row has the port. */
MAZE_INLINE unsigned maze_wide_axis(unsigned port) {
    return port < 9 ? port : port < MAZE_WIDE_PORTS ? 17 - port : MAZE_WIDE_PORTS;
}

MAZE_INLINE unsigned maze_wide_partner(unsigned port) {
    return port < MAZE_WIDE_PORTS ? 17 - port : MAZE_WIDE_PORTS;
}

/* Whether the nodes of the cube have a port, 1 or 0. */
MAZE_INLINE int maze_wide_port_exists(const uint8_t *table, unsigned port) {
    unsigned axis = maze_wide_axis(port), dimension = table[MAZE_WIDE_DIMENSION_AT];
    return dimension <= MAZE_DIMENSION_LARGEST && axis < dimension &&
           (axis == port || (table[MAZE_WIDE_FOLD_AT] >> axis & 1) != 0);
}

/* What a wide table shows, and whether its bytes are one: as the functions of the same names
 * without `wide`. */
MAZE_ANSWER MAZE_LENT(read_only, 1, 2)
MAZE_INLINE unsigned maze_wide_check_table(const uint8_t *table, size_t table_len) {
    uint8_t nothing = 0;
    maze_traced traced = maze_wide_trace(table, table_len, 0, 0, &nothing, 0);
    return traced.number <= MAZE_NOT_SOUND ? traced.number : MAZE_ACCEPTED;
}

MAZE_INLINE unsigned maze_wide_dimension(const uint8_t *table) {
    return table[MAZE_WIDE_DIMENSION_AT];
}

MAZE_INLINE unsigned maze_wide_fold_mask(const uint8_t *table) {
    return table[MAZE_WIDE_FOLD_AT];
}

MAZE_INLINE unsigned maze_wide_node_count(const uint8_t *table) {
    return maze_node_count(table); /* which reads the dimension alone */
}

MAZE_INLINE unsigned maze_wide_link_node(const uint8_t *table, unsigned node, unsigned port) {
    return node < maze_wide_node_count(table) && maze_wide_port_exists(table, port)
               ? node ^ 1u << maze_wide_axis(port)
               : MAZE_NODES;
}

MAZE_INLINE int maze_wide_link_enabled(const uint8_t *table, unsigned node, unsigned port) {
    unsigned at = MAZE_WIDE_ENABLED_AT + MAZE_WIDE_MASK_BYTES * node + port / 8;
    return node < MAZE_NODES && port < MAZE_WIDE_PORTS && (table[at] >> port % 8 & 1) != 0;
}

MAZE_INLINE unsigned maze_wide_link_circuit(const uint8_t *table, unsigned node, unsigned port) {
    unsigned at = MAZE_WIDE_LINKS_AT + 2 * (MAZE_WIDE_PORTS * node + port);
    return node < MAZE_NODES && port < MAZE_WIDE_PORTS ? table[at] + 256u * table[at + 1] : 0;
}

MAZE_INLINE int maze_wide_receive_armed(const uint8_t *table, unsigned node, unsigned channel) {
    return node < MAZE_NODES && channel < MAZE_CHANNELS &&
           (table[MAZE_WIDE_ARMED_AT + node] >> channel & 1) != 0;
}

MAZE_INLINE unsigned maze_wide_receive_circuit(const uint8_t *table, unsigned node,
                                               unsigned channel) {
    unsigned at = MAZE_WIDE_RECEIVES_AT + 2 * (MAZE_CHANNELS * node + channel);
    return node < MAZE_NODES && channel < MAZE_CHANNELS ? table[at] + 256u * table[at + 1] : 0;
}

MAZE_INLINE unsigned maze_wide_circuit_receive(const uint8_t *table, unsigned circuit) {
    unsigned node, channel, nodes = maze_wide_node_count(table);
    if (circuit == 0) return 0;
    for (node = 0; node < nodes; node++)
        for (channel = 0; channel < MAZE_CHANNELS; channel++)
            if (maze_wide_receive_circuit(table, node, channel) == circuit)
                return maze_circuit(node, channel);
    return 0;
}

/* ---- Command words ----
 *
 * A command word is type * 1024 + command * 64 + status. Commands 0 to 7 go with packet type 2,
 * commands 8 to 15 with 3. */
#define MAZE_WORD_TYPE_PLACE 1024
#define MAZE_WORD_COMMAND_PLACE 64
#define MAZE_WORD_LARGEST 4095

/* The commands, and what each carries; those with no remark carry 0. 3, 10, 11 and 15 are
 * reserved. */
#define MAZE_PACKET_ACKNOWLEDGE 0
#define MAZE_ROUTE_ACKNOWLEDGE 1
#define MAZE_ROUTE_REJECTED_COMMAND 2
#define MAZE_RECEIVE_REJECTED_COMMAND 4    /* 0 or 1 */
#define MAZE_FORWARDED_ROUTE_REJECTED 5
#define MAZE_END_TO_END_ACKNOWLEDGE 6      /* a receive code of 0 to 63 */
#define MAZE_END_TO_END_NOT_ACKNOWLEDGED 7 /* code * 16 + error: code 0 to 3, error 0 to 15 */
#define MAZE_END_OF_MESSAGE 8
#define MAZE_END_OF_TRANSMISSION 9         /* 0 or 1 */
#define MAZE_RESET_CPU 12
#define MAZE_RESET_NODE 13
#define MAZE_FLUSH_PATH 14                 /* 0 or 1 */

/* What those that carry something carry. */
#define MAZE_STATUS_RECEIVE_REJECTED 0     /* of MAZE_RECEIVE_REJECTED_COMMAND */
#define MAZE_STATUS_PARITY_ERROR_BACK 1    /* of MAZE_RECEIVE_REJECTED_COMMAND */
#define MAZE_STATUS_NO_END_TO_END 0        /* of MAZE_END_OF_TRANSMISSION */
#define MAZE_STATUS_END_TO_END 1           /* of MAZE_END_OF_TRANSMISSION */
#define MAZE_STATUS_FLUSH_PATH 0           /* of MAZE_FLUSH_PATH */
#define MAZE_STATUS_PARITY_ERROR_FORWARD 1 /* of MAZE_FLUSH_PATH */
#define MAZE_STATUS_CODE_PLACE 16          /* of MAZE_END_TO_END_NOT_ACKNOWLEDGED: of the code */

typedef struct {
    uint16_t number;
    uint16_t command;
    uint16_t carried;
} maze_word_read_answer;

typedef struct {
    uint16_t number;
    uint16_t word;
} maze_word_written;

/* Reads any number as a command word. Status bits that the command does not carry are ignored.
 * Answers 0, or the first of 15, 16, 17 and 18 that applies. */
MAZE_ANSWER
maze_word_read_answer maze_word_read(uint16_t word);

/* The word of a command that carries a number; what is written reads back as given.
 * Answers 0, or the first of 18 and 19 that applies. */
MAZE_ANSWER
maze_word_written maze_word_write(uint16_t command, uint16_t carried);

/* ---- The routing arbiter ----
 *
 * It serves one of 26 requesters at a time: the input ports 0 to 17 as requesters 0 to 17, the send
 * channels 0 to 7 as 18 to 25. Requester r asks in a call where bit r of its requests is set. The
 * record is the last requester served; the caller keeps it, 0 to 25 at the start. */
#define MAZE_REQUESTERS 26
#define MAZE_REQUESTER_PORTS 18   /* those below are input ports; send channel c is 18 + c */
#define MAZE_REQUESTER_NOBODY 26  /* answered where nobody asks */

typedef struct {
    uint16_t last; /* the last requester served */
} maze_arbiter;

typedef struct {
    uint16_t number;
    uint16_t requester; /* who is served, or MAZE_REQUESTER_NOBODY */
} maze_served;

/* Serves the first requester after the record that asks: those above the record upward, then those
 * from 0 up to the record itself. The record is then that requester. Where nobody asks, nobody is
 * served, and the record stays. A requester that asks in every call is served within 26 accepted
 * calls, as long as nobody but these calls writes the record.
 * Answers 0, or 31. */
MAZE_ANSWER
maze_served maze_arbitrate(maze_arbiter *arbiter, uint32_t requests);

/* ---- A receive channel ----
 *
 * One receive channel, such as maze_open answers, takes the packets of its circuit: data packets,
 * of one doubleword each, and command words. Its state is a struct that goes in by value and comes
 * back in the answer; the library keeps none of it. Any state may be handed in: a flag is a number
 * of which 0 alone says no. A state that is all zero is stopped. */
typedef struct {
    uint32_t address; /* where the next doubleword goes */
    uint32_t count;   /* doublewords still to come; below zero it wraps and keeps counting down */
    uint8_t running;  /* 0: stopped */
    uint8_t overflow; /* the overflow mark; 0: clear */
    uint8_t ignores;  /* 0: an end of message stops the channel */
} maze_receive_channel;

typedef struct {
    maze_receive_channel channel; /* after the packet; as it was, where the packet is refused */
    uint16_t number;
} maze_received;

/* A channel that runs, its overflow mark clear. Any `ignores` but 0 has it ignore ends of
 * message. */
maze_receive_channel maze_receive_start(uint32_t address, uint32_t count, uint16_t ignores);

/* A data packet takes one from the count, which wraps, and adds 8 to the address, which wraps too.
 * One that finds the count zero sets the overflow mark; from that packet on the address stands,
 * whatever the count, and the count goes on down.
 * Answers 0, or 30. */
MAZE_ANSWER
maze_received maze_receive_data(maze_receive_channel channel);

/* A command word: an end of transmission (MAZE_END_OF_TRANSMISSION) stops the channel, and so does
 * an end of message (MAZE_END_OF_MESSAGE) unless the channel ignores those. Any other word that can
 * be read changes nothing.
 * Answers 0, or the first of 15, 16, 17, 18 and 30 that applies. */
MAZE_ANSWER
maze_received maze_receive_word(maze_receive_channel channel, uint16_t word);

/* How many doublewords came too many, modulo 2^32: 0 while the overflow mark is clear, and
 * otherwise how far the count is below zero. */
uint32_t maze_receive_overshoot(maze_receive_channel channel);

/* ---- The version ----
 *
 * MAZE_VERSION of the header that a program was compiled with; of the shared library, called by its
 * name, that of the library. */
MAZE_INLINE const char *maze_version(void) {
    return MAZE_VERSION;
}

/* ---- Words for numbers ----
 *
 * What an answer number says, for a message; any other number gives "unknown number". */
MAZE_INLINE const char *maze_refusal_text(unsigned number) {
    switch (number) {
    case MAZE_ACCEPTED: return "accepted";
    case MAZE_BAD_LENGTH: return "the table is not 8,705 bytes long, or 14,338 if it is wide";
    case MAZE_BAD_DIMENSION: return "the dimension, given or stored, is not 1 to 8";
    case MAZE_NOT_SOUND: return "the table is not sound";
    case MAZE_BAD_NODE: return "a node, source or target, is not in the cube";
    case MAZE_BAD_CHANNEL: return "the channel is above 7";
    case MAZE_BAD_PORT: return "no port of the cube, or a fold bit at or above its dimension";
    case MAZE_BAD_ROUTING_TYPE: return "the routing type is none of 0, 1, 3 and 4";
    case MAZE_BAD_SEND_VECTOR: return "the send vector is zero or has a port that the cube lacks";
    case MAZE_CHANNEL_IN_USE: return "the send channel has an open circuit";
    case MAZE_ROUTE_REJECTED: return "no path that the type may try is free";
    case MAZE_RECEIVE_REJECTED: return "too few receive channels of a node are armed and not held";
    case MAZE_NO_CIRCUIT: return "the send channel has no open circuit";
    case MAZE_LINK_HELD: return "a circuit holds the link";
    case MAZE_BUFFER_SHORT: return "the buffer is shorter than 9 bytes";
    case MAZE_WORD_TOO_LARGE: return "the word is above 4,095";
    case MAZE_NOT_A_COMMAND: return "the packet type is 0 or 1";
    case MAZE_WRONG_TYPE: return "the packet type does not go with the command";
    case MAZE_RESERVED_COMMAND: return "the command is reserved or, in writing, above 15";
    case MAZE_CARRIED_TOO_LARGE: return "the command cannot carry the number";
    case MAZE_UNREADABLE_LINE: return "the line cannot be read";
    case MAZE_CHANNEL_HELD: return "a circuit holds the receive channel";
    case MAZE_NO_ROUTE: return "every path that the type may try crosses a blocked link";
    case MAZE_BOOK_SHORT: return "a buffer cannot hold its part of the book";
    case MAZE_FOLDED: return "the fold mask is not zero, so no narrow table says the same";
    case MAZE_BAD_BOOK: return "the book is not well formed";
    case MAZE_BAD_BOOK_CIRCUIT: return "a circuit of a book has a bad source, path or send channel";
    case MAZE_BAD_BOOK_LINK: return "a link of the book is blocked, taken or shared";
    case MAZE_BAD_SEND_LIST: return "the list of sends is no multiple of ten bytes or above 640";
    case MAZE_BAD_HALVES: return "the halves differ in dimension, or theirs is 8";
    case MAZE_CHANNEL_STOPPED: return "the receive channel is stopped";
    case MAZE_BAD_REQUESTER: return "a request bit is at 26 or above, or the record is above 25";
    default: return "unknown number";
    }
}

/* The name of a command. Two of them mean one thing or another by what they carry. */
MAZE_INLINE const char *maze_command_text(unsigned command) {
    switch (command) {
    case MAZE_PACKET_ACKNOWLEDGE: return "packet acknowledge";
    case MAZE_ROUTE_ACKNOWLEDGE: return "route acknowledge";
    case MAZE_ROUTE_REJECTED_COMMAND: return "route rejected";
    case MAZE_RECEIVE_REJECTED_COMMAND: return "receive rejected or parity error flushed back";
    case MAZE_FORWARDED_ROUTE_REJECTED: return "forwarded route rejected";
    case MAZE_END_TO_END_ACKNOWLEDGE: return "end-to-end acknowledge";
    case MAZE_END_TO_END_NOT_ACKNOWLEDGED: return "end-to-end not acknowledged";
    case MAZE_END_OF_MESSAGE: return "end of message";
    case MAZE_END_OF_TRANSMISSION: return "end of transmission";
    case MAZE_RESET_CPU: return "reset CPU";
    case MAZE_RESET_NODE: return "reset node";
    case MAZE_FLUSH_PATH: return "flush path or parity error flushed forward";
    case 3: case 10: case 11: case 15: return "reserved command";
    default: return "unknown command";
    }
}

/* What a word says that maze_word_read took apart: the name of its command, told by what it carries
 * where that decides. */
MAZE_INLINE const char *maze_word_text(unsigned command, unsigned carried) {
    if (command == MAZE_RECEIVE_REJECTED_COMMAND)
        return carried == MAZE_STATUS_RECEIVE_REJECTED ? "receive rejected"
                                                       : "parity error flushed back";
    if (command == MAZE_FLUSH_PATH)
        return carried == MAZE_STATUS_FLUSH_PATH ? "flush path" : "parity error flushed forward";
    return maze_command_text(command);
}

#ifdef __cplusplus
}
#endif

#endif
