/* Draws a saved table, narrow or wide, as one picture: reads its bytes from standard input, or from a file, and writes an SVG to standard output.
 *
 *     map_svg [FILE] > map.svg
 *
 * The nodes stand in rows, 16 by 16 of them at dimension 8. Each has a cell for every port, with its partner right under it where its dimension is folded, which shows the link out of it: white where it is free, with a cross where it is blocked, and
 * where it is held in the colour of its circuit, with the number of the hop that it is there. Below a node stand boxes for its armed receive channels, in the colour of the circuit that holds
 * one. All open circuits are listed beside the map or, where they are many, below it. The colours are those of Okabe and Ito and seven more, which people tell apart who lack one of the three kinds of
 * cones (tests/colours.c). Where the pointer rests on a cell, a box or a line of the list, a browser shows that circuit alone, and tells what it is; there is no script in the picture. What is no sound
 * table is refused, and ends the program with status 1. */
#include "circuits.h"
#include <stdio.h>

enum { CELL = 17, PAIR = 2 * CELL + 3, CELLS_IN_A_ROW = 4, BOX = 8, LABEL = 13, GAP = 9, TOP = 62, LINE = 14, COLUMN = 284, NARROWEST = 820 };

static struct any_table table;
static struct circuits open;

static const struct {
    const char *fill, *ink;
} colours[] = {
    {"#e69f00", "#000000"}, {"#56b4e9", "#000000"}, {"#009e73", "#000000"}, {"#f0e442", "#000000"}, {"#0072b2", "#ffffff"}, {"#d55e00", "#000000"}, {"#cc79a7", "#000000"},
    {"#781848", "#ffffff"}, {"#a0e878", "#000000"}, {"#481878", "#ffffff"}, {"#e81848", "#000000"}, {"#184818", "#ffffff"}, {"#a018e8", "#ffffff"}, {"#1818a0", "#ffffff"},
};
enum { COLOURS = sizeof colours / sizeof *colours };

/* The place of things: of the nodes in their rows, and of the list. */
static struct {
    unsigned dimension, fold, cell_height, columns, node_width, node_height, list_left, list_top, list_rows, width, height;
} plan;

static void lay_out(void) {
    unsigned cells = plan.dimension < CELLS_IN_A_ROW ? plan.dimension : CELLS_IN_A_ROW, cell_rows = (plan.dimension + CELLS_IN_A_ROW - 1) / CELLS_IN_A_ROW, map_right, map_bottom, list_columns;
    plan.columns = 1u << (plan.dimension + 1) / 2;
    plan.node_width = (cells * CELL > MAZE_CHANNELS * BOX ? cells * CELL : MAZE_CHANNELS * BOX) + GAP;
    /* a port and its partner share a border, with space under the two */
    plan.cell_height = plan.fold != 0 ? PAIR : CELL;
    plan.node_height = LABEL + cell_rows * plan.cell_height + 2 + BOX + GAP;
    map_right = GAP + plan.columns * plan.node_width;
    map_bottom = TOP + any_node_count(&table) / plan.columns * plan.node_height;
    plan.list_left = map_right + GAP;
    plan.list_top = TOP;
    plan.list_rows = (map_bottom - TOP) / LINE;
    plan.height = map_bottom + GAP;
    list_columns = (open.count + plan.list_rows - 1) / plan.list_rows;
    if (list_columns > 2 || (list_columns > 1 && plan.dimension < 6)) {
        /* below the map */
        list_columns = (map_right > NARROWEST ? map_right : NARROWEST) / COLUMN;
        plan.list_left = GAP;
        plan.list_top = map_bottom + LINE;
        plan.list_rows = (open.count + list_columns - 1) / list_columns;
        plan.height = plan.list_top + plan.list_rows * LINE + GAP;
    }
    plan.width = plan.list_left + list_columns * COLUMN;
    if (plan.width < map_right + GAP) plan.width = map_right + GAP;
    if (plan.width < NARROWEST) plan.width = NARROWEST;
}

static unsigned node_left(unsigned node) { return GAP + node % plan.columns * plan.node_width; }
static unsigned node_top(unsigned node) { return TOP + node / plan.columns * plan.node_height; }

/* A circuit as people say it: its source and send channel, its target and receive channel. */
static void put_circuit(unsigned circuit) {
    unsigned receive = open.receive[circuit];
    printf("%u.%u -&gt; %u.%u", maze_circuit_node(circuit), maze_circuit_channel(circuit), maze_circuit_node(receive), maze_circuit_channel(receive));
}

/* The link out of a port: its cell, with a text for the pointer, and what stands in it. */
static void draw_link(unsigned node, unsigned port) {
    unsigned axis = maze_wide_axis(port), left = node_left(node) + axis % CELLS_IN_A_ROW * CELL, top = node_top(node) + LABEL + axis / CELLS_IN_A_ROW * plan.cell_height + (port != axis ? CELL - 1 : 0);
    unsigned circuit = any_link_circuit(&table, node, port);
    unsigned colour = open.place[circuit] % COLOURS;
    int enabled = any_link_enabled(&table, node, port);
    printf("<rect class=\"link\" x=\"%u\" y=\"%u\" width=\"%d\" height=\"%d\" fill=\"%s\"><title>node %u port %u, to node %u: ", left, top, CELL - 1, CELL - 1,
           circuit != 0 ? colours[colour].fill : enabled ? "#ffffff" : "#dddddd", node, port, any_link_node(&table, node, port));
    if (circuit == 0) printf(enabled ? "free" : "blocked");
    else {
        printf("hop %u of circuit %u, ", (unsigned)open.hop[node][port], circuit);
        put_circuit(circuit);
    }
    printf("</title></rect>");
    if (circuit != 0) printf("<text class=\"hop\" x=\"%u\" y=\"%u\" fill=\"%s\">%u</text>", left + CELL / 2, top + 12, colours[colour].ink, (unsigned)open.hop[node][port]);
    else if (!enabled) printf("<path class=\"cross\" d=\"M%u %ul%d %dm0 %dl%d %d\"/>", left + 3, top + 3, CELL - 7, CELL - 7, 7 - CELL, 7 - CELL, CELL - 7);
    printf("\n");
}

static void draw_receive(unsigned node, unsigned channel) {
    unsigned circuit = any_receive_circuit(&table, node, channel), top = node_top(node) + LABEL + (plan.dimension + CELLS_IN_A_ROW - 1) / CELLS_IN_A_ROW * plan.cell_height + 2;
    printf("<rect class=\"receive\" x=\"%u\" y=\"%u\" width=\"%d\" height=\"%d\" fill=\"%s\"><title>node %u, receive channel %u: ", node_left(node) + channel * BOX, top, BOX - 2, BOX - 2,
           circuit != 0 ? colours[open.place[circuit] % COLOURS].fill : "#ffffff", node, channel);
    if (circuit == 0) printf("armed");
    else put_circuit(circuit);
    printf("</title></rect>\n");
}

/* What no circuit holds, with the numbers of the nodes. */
static void draw_nodes(void) {
    for (unsigned node = 0; node < any_node_count(&table); node++) {
        printf("<text x=\"%u\" y=\"%u\">%u</text>\n", node_left(node), node_top(node) + LABEL - 3, node);
        for (unsigned port = 0; port < MAZE_WIDE_PORTS; port++)
            if (any_has_port(&table, port) && any_link_circuit(&table, node, port) == 0) draw_link(node, port);
        for (unsigned channel = 0; channel < MAZE_CHANNELS; channel++)
            if (any_receive_armed(&table, node, channel) && any_receive_circuit(&table, node, channel) == 0) draw_receive(node, channel);
    }
}

/* All of a circuit: its links, its receive channel, its line of the list. */
static void draw_circuit(unsigned circuit) {
    unsigned node = maze_circuit_node(circuit), receive = open.receive[circuit], place = open.place[circuit];
    unsigned left = plan.list_left + place / plan.list_rows * COLUMN, top = plan.list_top + place % plan.list_rows * LINE;
    printf("<g class=\"circuit\">\n");
    for (unsigned hop = 0; hop < open.hops[circuit]; hop++) {
        draw_link(node, open.ports[circuit][hop]);
        node = any_link_node(&table, node, open.ports[circuit][hop]);
    }
    draw_receive(maze_circuit_node(receive), maze_circuit_channel(receive));
    printf("<rect class=\"line\" x=\"%u\" y=\"%u\" width=\"%d\" height=\"%d\"/><rect x=\"%u\" y=\"%u\" width=\"11\" height=\"11\" fill=\"%s\"/><text class=\"path\" x=\"%u\" y=\"%u\">", left, top, COLUMN - 4,
           LINE, left, top + 1, colours[place % COLOURS].fill, left + 16, top + 10);
    put_circuit(circuit);
    printf(" ports");
    for (unsigned hop = 0; hop < open.hops[circuit]; hop++) printf(" %c", any_port_sign(open.ports[circuit][hop]));
    printf("</text>\n</g>\n");
}

static void draw_map(void) {
    printf("<?xml version=\"1.0\" encoding=\"UTF-8\"?>\n<svg xmlns=\"http://www.w3.org/2000/svg\" width=\"%u\" height=\"%u\" viewBox=\"0 0 %u %u\" font-family=\"sans-serif\" font-size=\"10\">\n", plan.width,
           plan.height, plan.width, plan.height);
    printf("<title>Links of a cube of dimension %u</title>\n<style>\n.link { stroke: #b0b8c0 } .receive { stroke: #444444; stroke-width: .7 } .line { fill: #ffffff }\n"
           ".cross { stroke: #000000; stroke-width: 2.5 } .hop { font-size: 11px; font-weight: bold; text-anchor: middle } .path { font-family: monospace; font-size: 10.5px }\n"
           ".hop, .cross { pointer-events: none } .circuits:hover .circuit:not(:hover) { opacity: .1 }\n</style>\n<rect width=\"%u\" height=\"%u\" fill=\"#ffffff\"/>\n",
           plan.dimension, plan.width, plan.height);
    printf("<text x=\"%d\" y=\"18\" font-size=\"14\" font-weight=\"bold\">dimension %u: of %u links %u held by %u circuit%s, %u blocked; %u receive channel%s free</text>\n", GAP, plan.dimension,
           open.links, open.held, open.count, open.count == 1 ? "" : "s", open.blocked, open.armed, open.armed == 1 ? "" : "s");
    printf("<text x=\"%d\" y=\"36\">a cell for each port, from 0, four to a row%s: white is free, a cross is blocked, a colour is a circuit of the list, a digit the hop there</text>\n", GAP,
           plan.fold != 0 ? ", its partner under it" : "");
    printf("<text x=\"%d\" y=\"50\">a box for each armed receive channel, in the colour of the circuit that holds it; rest on a cell, a box or a line of the list to see one circuit</text>\n", GAP);
    draw_nodes();
    printf("<g class=\"circuits\">\n");
    for (unsigned place = 0; place < open.count; place++) draw_circuit(open.number[place]);
    printf("</g>\n</svg>\n");
}

int main(int count, char **names) {
    FILE *from = count > 1 ? fopen(names[1], "rb") : stdin;
    uint8_t more;
    unsigned number;
    int failed;
    table.length = from ? fread(table.bytes, 1, sizeof table.bytes, from) : 0;
    /* a longer input is no table */
    number = from && fread(&more, 1, 1, from) == 1 ? MAZE_BAD_LENGTH : any_check(&table);
    failed = !from || ferror(from);
    if (failed || number != MAZE_ACCEPTED) {
        fprintf(stderr, "map_svg: %s\n", failed ? "reading failed" : maze_refusal_text(number));
        return 1;
    }
    find_circuits(&table, &open);
    plan.dimension = any_dimension(&table);
    plan.fold = any_fold_mask(&table);
    lay_out();
    draw_map();
    if (ferror(stdout) || fflush(stdout) != 0) {
        fprintf(stderr, "map_svg: writing failed\n");
        return 1;
    }
    return 0;
}
