/* add_value.c -- adds or corrects values that a detector missed, or removes some
 *
 *   add_value PACKET OUT TARGET CHANGE [CHANGE]     TARGET is a target's id, or the word set
 *
 *   TAG=HEX         puts a value
 *   --remove=TAG    removes an item
 *
 * Two changes are made in the order given and judged as one: a centroid is a row and a column, 19=0211 20=0583. Writes the edited
 * packet to OUT and prints each item before and after. OUT may be PACKET. Ends with 0, or with 2 if anything is refused or fails:
 * OUT is then as it was.
 */
#include <inttypes.h>
#include <stdio.h>
#include <stdlib.h>
#include <string.h>
#include "arguments.h"
#include "save.h"

#define PROGRAM "add_value"
#define USAGE "usage: add_value PACKET OUT TARGET|set TAG=HEX|--remove=TAG [TAG=HEX|--remove=TAG]\n"

enum { CHANGES = 2 };

struct edit {
    int level;
    uint64_t target;
    int count;
    struct change changes[CHANGES];
};

static struct packet before, after;

static int parse_change(const char *word, struct change *change)
{
    static const char removal[] = "--remove=";

    if (strncmp(word, removal, sizeof removal - 1) == 0) {
        change->removal = VMTI_REMOVE;
        word += sizeof removal - 1;
        return parse_number(word, word + strlen(word), &change->tag);
    }
    return parse_put(word, change);
}

/* TARGET, and one or two changes. */
static int parse_edit(char **words, int count, struct edit *edit)
{
    memset(edit, 0, sizeof *edit);
    edit->level = strcmp(words[0], "set") == 0 ? VMTI_SET : VMTI_TARGET;
    if (edit->level == VMTI_TARGET && parse_number(words[0], words[0] + strlen(words[0]), &edit->target) != 0)
        return -1;
    for (edit->count = 0; edit->count < count - 1; edit->count++)
        if (parse_change(words[1 + edit->count], &edit->changes[edit->count]) != 0)
            return -1;
    return 0;
}

static uint64_t call_edit(const struct edit *edit)
{
    const struct change *one = &edit->changes[0], *two = &edit->changes[1];

    if (edit->count == 1)
        return vmti_edit(before.form, before.bytes, before.size, (uint64_t)edit->level, edit->target, one->tag, one->removal,
                         one->value, one->len, after.bytes, VMTI_PACKET_MAX);
    return vmti_edit_two(before.form, before.bytes, before.size, (uint64_t)edit->level, edit->target, one->tag, one->removal,
                         one->value, one->len, two->tag, two->removal, two->value, two->len, after.bytes, VMTI_PACKET_MAX);
}

static int make_edit(const struct edit *edit, const char *out)
{
    uint64_t answer = call_edit(edit);

    if (VMTI_NUMBER(answer) != 0) {
        say_refusal(PROGRAM, "the edit", answer);
        return -1;
    }
    after.size = (size_t)VMTI_PLACE(answer);
    return packet_read(&after, PROGRAM, out);
}

static void print_item(const char *when, const struct packet *packet, const struct edit *edit, uint64_t tag)
{
    const struct group *group = edit->level == VMTI_SET ? &packet->groups[0] : find_target(packet, edit->target);
    const struct item *item = find_item(group, tag);
    static struct words words;

    words_clear(&words);
    if (item != NULL)
        words_add_value(&words, edit->level, tag, item->value, item->len, " ");
    else
        words_add(&words, "none");
    printf("  %-6s  %s\n", when, words.text);
}

static void print_packet(const struct packet *packet)
{
    static struct words words;

    words_clear(&words);
    words_add_text(&words, packet->path, strlen(packet->path));
    printf("%s: %s, %zu bytes\n", words.text, form_name(packet->form), packet->size);
}

static void print_change(const struct edit *edit, uint64_t tag)
{
    if (edit->level == VMTI_SET)
        printf("  set, ");
    else
        printf("  target %" PRIu64 ", ", edit->target);
    printf("tag %" PRIu64 ", %s\n", tag, item_name(edit->level, tag));
    print_item("before", &before, edit, tag);
    print_item("after", &after, edit, tag);
}

static void print_edit(const struct edit *edit)
{
    int i;

    print_packet(&before);
    for (i = 0; i < edit->count; i++)
        print_change(edit, edit->changes[i].tag);
    print_packet(&after);
}

int main(int count, char **words)
{
    struct edit edit;
    int i, status;

    if (count < 5 || count > 4 + CHANGES || parse_edit(words + 3, count - 3, &edit) != 0) {
        fputs(USAGE, stderr);
        return 2;
    }
    status = packet_load(&before, PROGRAM, words[1]);
    if (status == 0)
        status = make_edit(&edit, words[2]);
    if (status == 0)
        status = packet_save(&after, PROGRAM);
    if (status == 0)
        print_edit(&edit);
    for (i = 0; i < CHANGES; i++)
        free(edit.changes[i].value);
    return status == 0 && fflush(stdout) == 0 ? 0 : 2;
}
