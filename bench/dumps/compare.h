/* The library against the check and the repair by pairs, on small boards of every kind. */
#ifndef COMPARE_H
#define COMPARE_H
#include <stddef.h>

/* So many boards. Ends the program where the two differ, where a kind of board did not come, or where a difference that is
 * planted is not found. */
void compare(size_t boards);

#endif
