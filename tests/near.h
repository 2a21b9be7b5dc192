/* Targets near enough for the reference, which lists every beginning of every path: in a large folded cube there are too many. */
#ifndef NEAR_H
#define NEAR_H

#include "draw.h"

/* A node that differs from `node` in no bit in which `target` does not, and in so few that there are some hundred beginnings, where dimensions are folded; now and then more. */
static unsigned near_to(unsigned fold, unsigned node, unsigned target) {
    unsigned long most = fold == 0 ? 1000000 : below(400) == 0 ? 200000 : 400;
    for (unsigned p = 0; p < 8; p++) {
        unsigned long ways = 1;
        for (unsigned q = 0, k = 0; q < 8; q++)
            if ((node ^ target) >> q & 1) ways *= ++k << (fold >> q & 1);
        if (ways <= most) break;
        target ^= (node ^ target) & 1u << p;
    }
    return target;
}

#endif
