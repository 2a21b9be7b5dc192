/* C versions of the calls, on the same tables: what the library's speed is measured against. The first, base_, is portable; the second, sse_, compares rows of the
 * table by vector instructions. */
#ifndef BASELINE_H
#define BASELINE_H

#include "versions.h"

DECLARE_VERSION(base)
DECLARE_OTHERS(base)
DECLARE_VERSION(sse)
DECLARE_OTHERS(sse)

#endif
