/* columns.h -- two packets side by side, a line for each item */
#ifndef COLUMNS_H
#define COLUMNS_H

#include "screen.h"

enum { LEFT, RIGHT, SIDES };

/* What the two are called: over their columns, and after "only" in the legend. */
struct titles {
    const char *heads[SIDES];
    const char *only[SIDES];
};

/* How many lines are marked, and how many of them for a form or an order. */
struct marks {
    size_t all, forms, orders;
};

/* Prints two packets as their sheets have them, and the legend. Items are matched by target and tag, in the left one's order and
 * then the right one's own. */
struct marks print_columns(const struct packet *packets, const struct titles *titles, enum colour colour);

#endif
