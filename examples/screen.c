/* screen.c -- the widths of the columns, the cutting of cells, and the red */
#define _POSIX_C_SOURCE 200809L
#include <inttypes.h>
#include <stdio.h>
#include <stdlib.h>
#include <string.h>
#include <sys/ioctl.h>
#include <unistd.h>
#include "screen.h"

#define WIDTH_MIN 100
#define WIDTH_MAX 400
#define CELL_MIN 25 /* room for the longest tail, and beside it for the longest name */
#define ELLIPSIS "..."
#define ELLIPSIS_LEN 3

#define BOLD "\033[1m"
#define RED "\033[31m"
#define PLAIN "\033[0m"

static size_t screen_width(void)
{
    const char *columns = getenv("COLUMNS");
    struct winsize size;
    unsigned long width = columns == NULL ? 0 : strtoul(columns, NULL, 10);

    if (isatty(STDOUT_FILENO) && ioctl(STDOUT_FILENO, TIOCGWINSZ, &size) == 0 && size.ws_col > 0)
        width = size.ws_col;
    return width < WIDTH_MIN ? WIDTH_MIN : width > WIDTH_MAX ? WIDTH_MAX : (size_t)width;
}

static void widen(size_t *width, size_t to)
{
    if (*width < to)
        *width = to;
}

static void widen_for(struct screen *screen, const struct group *group)
{
    char digits[24];
    size_t i;

    if (group->level == VMTI_TARGET)
        widen(&screen->target, (size_t)snprintf(digits, sizeof digits, "%" PRIu64, group->id));
    for (i = 0; i < group->count; i++) {
        widen(&screen->tag, (size_t)snprintf(digits, sizeof digits, "%u", group->items[i].tag));
        widen(&screen->name, strlen(item_name(group->level, group->items[i].tag)));
    }
}

void screen_open(struct screen *screen, enum colour colour, const struct packet *packets)
{
    size_t side, i, beside;

    screen->red = colour == COLOUR_ALWAYS || (colour == COLOUR_AUTO && isatty(STDOUT_FILENO));
    screen->target = strlen("target");
    screen->tag = strlen("tag");
    screen->name = strlen("order of targets");
    for (side = 0; side < 2; side++)
        for (i = 0; i < packets[side].group_count; i++)
            widen_for(screen, &packets[side].groups[i]);
    /* the sign and what stands between the columns, as in screen_line */
    beside = screen_width() - (2 + screen->target + 1 + screen->tag + 2 + 2 + 2);
    if (screen->name + 2 * CELL_MIN > beside)
        screen->name = beside - 2 * CELL_MIN;
    screen->cell = (beside - screen->name) / 2;
}

/* Adds a text in just so many columns: filled with blanks, or cut and ended by the tail. */
static void add_fitted(struct words *line, const char *text, size_t width, const char *tail)
{
    int kept;

    if (tail[0] == '\0' && strlen(text) > width)
        tail = ELLIPSIS;
    kept = (int)(width - strlen(tail));
    words_add(line, "%-*.*s%s", kept, kept, text, tail);
}

static void print_line(const struct screen *screen, struct words *line, const char *look)
{
    while (line->len > 0 && line->text[line->len - 1] == ' ')
        line->text[--line->len] = '\0';
    if (screen->red && look[0] != '\0')
        printf("%s%s%s\n", look, line->text, PLAIN);
    else
        printf("%s\n", line->text);
}

void screen_line(const struct screen *screen, const struct line *line)
{
    static struct words whole;

    words_clear(&whole);
    words_add(&whole, "%c %-*s %*s  ", line->sign, (int)screen->target, line->target, (int)screen->tag, line->tag);
    add_fitted(&whole, line->name, screen->name, "");
    words_add(&whole, "  ");
    add_fitted(&whole, line->cells[0]->text, screen->cell, line->tails[0]);
    words_add(&whole, "  ");
    add_fitted(&whole, line->cells[1]->text, screen->cell, line->tails[1]);
    print_line(screen, &whole, line->sign == ' ' ? "" : RED);
}

/* A path that does not fit loses its beginning. */
static void add_path(struct words *line, const char *path, size_t width)
{
    static struct words words;

    words_clear(&words);
    words_add_text(&words, path, strlen(path));
    if (words.len > width)
        words_add(line, ELLIPSIS "%s", words.text + words.len - (width - ELLIPSIS_LEN));
    else
        words_add(line, "%-*s", (int)width, words.text);
}

void screen_head(const struct screen *screen, const struct packet *packets, const char *const titles[2])
{
    static struct words line;
    int before = (int)(2 + screen->target + 1 + screen->tag + 2);

    words_clear(&line);
    words_add(&line, "  %-*s %*s  %-*s  ", (int)screen->target, "target", (int)screen->tag, "tag", (int)screen->name, "name");
    words_add(&line, "%-*s  %s", (int)screen->cell, titles[0], titles[1]);
    print_line(screen, &line, BOLD);
    words_clear(&line);
    words_add(&line, "%*s%-*s  ", before, "", (int)screen->name, "");
    add_path(&line, packets[0].path, screen->cell);
    words_add(&line, "  ");
    add_path(&line, packets[1].path, screen->cell);
    print_line(screen, &line, BOLD);
}

int screen_shows(const struct screen *screen, const struct words *left, const struct words *right)
{
    size_t first = 0;

    while (left->text[first] != '\0' && left->text[first] == right->text[first])
        first++;
    return (left->len <= screen->cell || first < screen->cell - ELLIPSIS_LEN)
        && (right->len <= screen->cell || first < screen->cell - ELLIPSIS_LEN);
}

int colour_of(const char *word, enum colour *colour)
{
    static const char *const words[] = {"--colour=auto", "--colour=always", "--colour=never"};
    int i;

    for (i = 0; i < 3; i++)
        if (strcmp(word, words[i]) == 0) {
            *colour = (enum colour)i;
            return 1;
        }
    return 0;
}
