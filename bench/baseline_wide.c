/* The calls on wide tables: baseline.c under other names. Compiled with -DBASELINE_SSE rows are compared by vector instructions. */
#define BASELINE_WIDE
#define base_make base_wide_make
#define base_block base_wide_block
#define base_unblock base_wide_unblock
#define base_arm base_wide_arm
#define base_disarm base_wide_disarm
#define base_open base_wide_open
#define base_open_all base_wide_open_all
#define base_close base_wide_close
#define base_trace base_wide_trace
#define base_book base_wide_book
#define base_judge base_wide_judge
#include "baseline.c"
