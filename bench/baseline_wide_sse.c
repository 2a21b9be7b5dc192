/* The calls on wide tables once more, with rows of the table compared by vector instructions: baseline.c under other names. */
#define BASELINE_SSE
#define BASELINE_WIDE
#define base_make sse_wide_make
#define base_block sse_wide_block
#define base_unblock sse_wide_unblock
#define base_arm sse_wide_arm
#define base_disarm sse_wide_disarm
#define base_open sse_wide_open
#define base_open_all sse_wide_open_all
#define base_close sse_wide_close
#define base_trace sse_wide_trace
#define base_book sse_wide_book
#define base_judge sse_wide_judge
#define base_narrow sse_narrow
#define base_wide_fold sse_wide_fold
#include "baseline.c"
