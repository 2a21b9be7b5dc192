/* The map of links as text, 84 columns wide at dimension 8: each node has four characters in one line or two, for its ports from 0. A . is a free link, an x a blocked one, and a digit one
 * that is held: which hop of its circuit it is. With one circuit singled out, the links of the others are an o. Where a dimension is folded, each of these lines has another one below it, in which
 * the partner of a port stands under the port. */
#ifndef MAP_TEXT_H
#define MAP_TEXT_H

#include "circuits.h"
#include <stdio.h>

enum { TEXT_CELLS = 4 };

/* One character for a link. With colours, of the 256 that terminals have, that of its circuit: the nearest to those of Okabe and Ito, and seven more; people who lack one of the three kinds of cones tell
 * them apart (tests/colours.c). */
static void draw_link_text(const struct any_table *table, const struct circuits *open, unsigned node, unsigned port, unsigned only, int colours) {
    static const uint8_t palette[] = {214, 75, 36, 227, 33, 202, 175, 195, 163, 107, 49, 189, 113, 131};
    unsigned circuit = any_link_circuit(table, node, port);
    if (!any_has_port(table, port)) printf(" ");
    else if (circuit != 0 && (only == 0 || only == circuit)) {
        if (colours) printf("\033[30;48;5;%um%u\033[0m", (unsigned)palette[open->place[circuit] % sizeof palette], (unsigned)open->hop[node][port]);
        else printf("%u", (unsigned)open->hop[node][port]);
    } else if (circuit != 0) printf(colours ? "\033[90mo\033[0m" : "o");
    else if (!any_link_enabled(table, node, port)) printf(colours ? "\033[1;97;41mx\033[0m" : "x");
    else printf(colours ? "\033[90m.\033[0m" : ".");
}

/* The map; `only` is the number of the circuit that is singled out, or 0. */
static void draw_map_text(const struct any_table *table, unsigned only, int colours) {
    static struct circuits open;
    unsigned dimension = any_dimension(table), columns = 1u << (dimension + 1) / 2, rows = any_node_count(table) / columns, folded = any_fold_mask(table);
    find_circuits(table, &open);
    printf("%u links, %u held by %u circuit%s, %u blocked; %u receive channel%s free\n", open.links, open.held, open.count, open.count == 1 ? "" : "s", open.blocked, open.armed,
           open.armed == 1 ? "" : "s");
    if (folded != 0) {
        printf("folded:");
        for (unsigned port = 0; port < dimension; port++)
            if (folded >> port & 1) printf(" %u", port);
        printf("; under each of these ports its partner\n");
    }
    printf("    ");
    for (unsigned column = 0; column < columns; column++) printf(column + 1 < columns ? " +%-3u" : " +%u", column);
    printf("\n");
    for (unsigned row = 0; row < rows; row++)
        for (unsigned from = 0; from < dimension; from += TEXT_CELLS)
            for (unsigned partners = 0; partners <= (folded != 0); partners++) {
                if (from == 0 && !partners) printf("%3u ", row * columns);
                else printf("    ");
                for (unsigned column = 0; column < columns; column++) {
                    printf(" ");
                    for (unsigned port = from; port < from + TEXT_CELLS; port++)
                        if (port < dimension || column + 1 < columns) draw_link_text(table, &open, row * columns + column, partners ? maze_wide_partner(port) : port, only, colours);
                }
                printf("\n");
            }
}

#endif
