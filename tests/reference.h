/* The calls on tables once more, written for checking: an independent reading of docs/SPECIFICATION.md, which shares nothing with the library but the header's
 * names. */
#ifndef REFERENCE_H
#define REFERENCE_H

#include "../bench/versions.h"

DECLARE_VERSION(ref)

/* What the last open that came to its search did; for counting which cases a test has seen. */
struct ref_send {
    unsigned passes;                  /* 1 or 2; a second one follows a route rejection alone. Of types 1 and 3: the paths tried */
    unsigned hops;                    /* of the path found last; 0 if there is none */
    uint8_t ports[MAZE_HOPS_LARGEST];
};
extern struct ref_send ref_last_send;

#endif
