/* The same calls once more, with rows of the table compared by vector instructions: baseline.c under other names. */
#define BASELINE_SSE
#define base_make sse_make
#define base_block sse_block
#define base_unblock sse_unblock
#define base_arm sse_arm
#define base_disarm sse_disarm
#define base_open sse_open
#define base_open_all sse_open_all
#define base_close sse_close
#define base_trace sse_trace
#define base_book sse_book
#define base_book_lookup sse_book_lookup
#define base_judge sse_judge
#define base_join sse_join
#define base_widen sse_widen
#define base_word_read sse_word_read
#define base_word_write sse_word_write
#define base_arbitrate sse_arbitrate
#define base_receive_start sse_receive_start
#define base_receive_data sse_receive_data
#define base_receive_word sse_receive_word
#define base_receive_overshoot sse_receive_overshoot
#include "baseline.c"
