/* two_columns.c -- a detector's and a reviewer's packet side by side, a line for each item
 *
 *   two_columns [--colour=always|never|auto] DETECTOR REVIEWER
 *
 * Compares what the packets mean: their sheets. Ends with 0 if they mean the same, 1 if not, 2 if one is refused or cannot
 * be read. Items are matched by target and tag, in the detector's order and then the reviewer's own.
 */
#include <stdio.h>
#include <string.h>
#include "columns.h"

#define PROGRAM "two_columns"
#define USAGE "usage: two_columns [--colour=always|never|auto] DETECTOR REVIEWER\n"

static struct packet packets[SIDES];
static const struct titles titles = {{"detector", "reviewer"}, {"the detector's", "the reviewer's"}};

/* In words what the two sheets are to each other: 0 if equal, 1 if not. */
static int verdict(const struct marks *marks)
{
    const struct packet *left = &packets[LEFT], *right = &packets[RIGHT];

    if (left->sheet_size == right->sheet_size && memcmp(left->sheet, right->sheet, left->sheet_size) == 0) {
        printf("the two packets mean the same%s\n",
               left->size == right->size && memcmp(left->bytes, right->bytes, left->size) == 0
                   ? "" : "; only how lengths and numbers are coded differs");
        return 0;
    }
    if (marks->all == marks->forms + marks->orders)
        printf("the same items in another %s%s%s: ", marks->forms > 0 ? "form" : "",
               marks->forms > 0 && marks->orders > 0 ? " and another " : "", marks->orders > 0 ? "order" : "");
    printf(marks->all == 1 ? "%zu line differs\n" : "%zu lines differ\n", marks->all);
    return 1;
}

int main(int count, char **words)
{
    enum colour colour = COLOUR_AUTO;
    struct marks marks;
    int first = 1, status;

    while (first < count && colour_of(words[first], &colour))
        first++;
    if (first < count && strcmp(words[first], "--") == 0)
        first++;
    if (count - first != SIDES) {
        fputs(USAGE, stderr);
        return 2;
    }
    status = packet_load(&packets[LEFT], PROGRAM, words[first]);
    status |= packet_load(&packets[RIGHT], PROGRAM, words[first + 1]);
    if (status != 0)
        return 2;
    marks = print_columns(packets, &titles, colour);
    status = verdict(&marks);
    if (fflush(stdout) != 0 || ferror(stdout)) {
        perror(PROGRAM);
        return 2;
    }
    return status;
}
