/* The functions of the headers as symbols of the shared library, for languages that do not read C. */
#define MAZE_INLINE
#include <maze.h>
#include <maze_explain.h>
