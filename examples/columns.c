/* columns.c -- the lines of two packets side by side: what is alike, what differs, and what one of them alone has */
#include <inttypes.h>
#include <stdio.h>
#include <string.h>
#include "columns.h"

static const struct packet *packets;
static struct words cells[SIDES];
static struct screen screen;
static struct marks marks;

/* Tags or target ids, in the order of a packet. */
struct keys {
    uint64_t key[ENTRIES_MAX];
    size_t count;
};

/* A line with both cells empty. The target is that of the group, or the set. */
static struct line new_line(const struct group *group, const char *name)
{
    struct line line = {' ', "set", "", name, {&cells[LEFT], &cells[RIGHT]}, {"", ""}};

    if (group != NULL && group->level == VMTI_TARGET)
        snprintf(line.target, sizeof line.target, "%" PRIu64, group->id);
    words_clear(&cells[LEFT]);
    words_clear(&cells[RIGHT]);
    return line;
}

static void finish(struct line *line, char sign)
{
    line->sign = sign;
    marks.all += sign != ' ';
    screen_line(&screen, line);
}

static void form_line(void)
{
    struct line line = new_line(NULL, "form");
    int side, other = packets[LEFT].form != packets[RIGHT].form;

    strcpy(line.target, "packet");
    for (side = 0; side < SIDES; side++)
        words_add(&cells[side], "%s", form_name(packets[side].form));
    marks.forms += other;
    finish(&line, other ? '!' : ' ');
}

static char sign_of(int at_left, int at_right, int same)
{
    return !at_right ? '<' : !at_left ? '>' : same ? ' ' : '!';
}

static void target_line(const struct group *const groups[SIDES])
{
    struct line line = new_line(groups[LEFT] != NULL ? groups[LEFT] : groups[RIGHT], "targetId");
    int side;

    for (side = 0; side < SIDES; side++)
        if (groups[side] != NULL)
            words_add(&cells[side], "%" PRIu64, groups[side]->id);
    finish(&line, sign_of(groups[LEFT] != NULL, groups[RIGHT] != NULL, 1));
}

static int is_series(const struct group *group, const struct item *item)
{
    return group->level == VMTI_SET && item->tag == SERIES_TAG;
}

/* The series stands for how many targets it has; each has lines of its own. */
static void item_cell(int side, const struct group *group, const struct item *item, const char *between)
{
    size_t targets = packets[side].group_count - 1;

    words_clear(&cells[side]);
    if (item == NULL)
        return;
    if (is_series(group, item))
        words_add(&cells[side], targets == 1 ? "%zu target" : "%zu targets", targets);
    else
        words_add_value(&cells[side], group->level, item->tag, item->value, item->len, between);
}

static size_t first_difference(const struct item *left, const struct item *right)
{
    size_t i = 0;

    while (i < left->len && i < right->len && left->value[i] == right->value[i])
        i++;
    return i;
}

static int same_items(const struct group *group, const struct item *left, const struct item *right)
{
    if (is_series(group, left))
        return packets[LEFT].group_count == packets[RIGHT].group_count;
    return left->len == right->len && first_difference(left, right) == left->len;
}

/* Where the difference is in what was cut off, each cell ends with the first byte that differs and its place. */
static void tell_hidden(struct line *line, const struct item *const items[SIDES])
{
    size_t at = first_difference(items[LEFT], items[RIGHT]);
    int side;

    if (screen_shows(&screen, &cells[LEFT], &cells[RIGHT]))
        return;
    for (side = 0; side < SIDES; side++) {
        if (at < items[side]->len)
            snprintf(line->tails[side], sizeof line->tails[side], "... differs at +%zu: %02X", at, items[side]->value[at]);
        else
            snprintf(line->tails[side], sizeof line->tails[side], "... ends at +%zu", at);
    }
}

static void item_line(const struct group *group, const struct item *left, const struct item *right)
{
    const struct item *const items[SIDES] = {left, right};
    unsigned tag = left != NULL ? left->tag : right->tag;
    struct line line = new_line(group, item_name(group->level, tag));
    int same = left != NULL && right != NULL && same_items(group, left, right);

    snprintf(line.tag, sizeof line.tag, "%u", tag);
    item_cell(LEFT, group, left, " ");
    item_cell(RIGHT, group, right, " ");
    if (cells[LEFT].len > screen.cell || cells[RIGHT].len > screen.cell) {
        item_cell(LEFT, group, left, "");
        item_cell(RIGHT, group, right, "");
    }
    if (left != NULL && right != NULL && !same)
        tell_hidden(&line, items);
    finish(&line, sign_of(left != NULL, right != NULL, same));
}

/* A line if what both packets have does not stand in the same order: from the first that is out of order. */
static void order_line(const struct group *group, const char *name, const struct keys keys[SIDES])
{
    struct line line = new_line(group, name);
    size_t from = 0, i;
    int side;

    while (from < keys[LEFT].count && keys[LEFT].key[from] == keys[RIGHT].key[from])
        from++;
    if (from == keys[LEFT].count)
        return;
    for (side = 0; side < SIDES; side++)
        for (i = from; i < keys[side].count; i++)
            words_add(&cells[side], "%s%" PRIu64, i > from ? " " : from > 0 ? "... " : "", keys[side].key[i]);
    marks.orders++;
    finish(&line, '!');
}

static void order_of_items(const struct group *const groups[SIDES])
{
    static struct keys keys[SIDES];
    size_t i;
    int side;

    for (side = 0; side < SIDES; side++) {
        keys[side].count = 0;
        for (i = 0; groups[side] != NULL && i < groups[side]->count; i++)
            if (find_item(groups[1 - side], groups[side]->items[i].tag) != NULL)
                keys[side].key[keys[side].count++] = groups[side]->items[i].tag;
    }
    order_line(groups[LEFT], "order of items", keys);
}

static void order_of_targets(void)
{
    static struct keys keys[SIDES];
    size_t i;
    int side;

    for (side = 0; side < SIDES; side++) {
        keys[side].count = 0;
        for (i = 1; i < packets[side].group_count; i++)
            if (find_target(&packets[1 - side], packets[side].groups[i].id) != NULL)
                keys[side].key[keys[side].count++] = packets[side].groups[i].id;
    }
    order_line(NULL, "order of targets", keys);
}

/* The lines of the set or of one target; a side that does not have it is NULL. */
static void group_lines(const struct group *left, const struct group *right)
{
    const struct group *const groups[SIDES] = {left, right};
    size_t i;

    if ((left != NULL ? left : right)->level == VMTI_TARGET) {
        printf("\n");
        target_line(groups);
    }
    for (i = 0; left != NULL && i < left->count; i++)
        item_line(left, &left->items[i], find_item(right, left->items[i].tag));
    for (i = 0; right != NULL && i < right->count; i++)
        if (find_item(left, right->items[i].tag) == NULL)
            item_line(right, NULL, &right->items[i]);
    order_of_items(groups);
}

static void all_lines(void)
{
    const struct packet *left = &packets[LEFT], *right = &packets[RIGHT];
    size_t i;

    form_line();
    group_lines(&left->groups[0], &right->groups[0]);
    order_of_targets();
    for (i = 1; i < left->group_count; i++)
        group_lines(&left->groups[i], find_target(right, left->groups[i].id));
    for (i = 1; i < right->group_count; i++)
        if (find_target(left, right->groups[i].id) == NULL)
            group_lines(NULL, &right->groups[i]);
}

struct marks print_columns(const struct packet *both, const struct titles *titles, enum colour colour)
{
    packets = both;
    memset(&marks, 0, sizeof marks);
    screen_open(&screen, colour, packets);
    screen_head(&screen, packets, titles->heads);
    all_lines();
    printf("\n  ! differs   < only %s   > only %s   [hex]   ... cut here, compared whole\n", titles->only[LEFT],
           titles->only[RIGHT]);
    return marks;
}
