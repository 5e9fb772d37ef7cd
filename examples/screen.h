/* screen.h -- lines of five columns: target, tag, name, and a cell for each of two packets */
#ifndef SCREEN_H
#define SCREEN_H

#include "packets.h"

enum colour { COLOUR_AUTO, COLOUR_ALWAYS, COLOUR_NEVER };

/* Whether a word is --colour=auto, --colour=always or --colour=never; then that is the colour. */
int colour_of(const char *word, enum colour *colour);

/* The widths of the columns, and whether a marked line is red. */
struct screen {
    int red;
    size_t target, tag, name, cell;
};

struct line {
    char sign; /* ' ', or in red: '!', '<' or '>' */
    char target[24];
    char tag[8];
    const char *name;
    const struct words *cells[2];
    char tails[2][48]; /* what ends the cell, for it does not fit; "" where an ellipsis will do */
};

/* Lays the columns out for two packets: 100 columns wide, or as wide as a wider terminal. */
void screen_open(struct screen *screen, enum colour colour, const struct packet *packets);

/* Prints the names of the columns, of the two packets by their titles, and of their files. */
void screen_head(const struct screen *screen, const struct packet *packets, const char *const titles[2]);

/* Prints a line. A cell that does not fit is cut. */
void screen_line(const struct screen *screen, const struct line *line);

/* Whether the first difference of two cells is on the screen, or in what is cut off one of them. */
int screen_shows(const struct screen *screen, const struct words *left, const struct words *right);

#endif
