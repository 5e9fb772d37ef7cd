/* add_target.c -- adds a target that a detector missed, or drops one with all its items
 *
 *   add_target [--colour=always|never|auto] PACKET OUT TARGET [TAG=HEX ..]
 *   add_target [--colour=always|never|auto] --drop PACKET OUT TARGET
 *
 * TARGET is the target's id. A missed animal by its location, its centroid (row and column) and its box (top left and bottom
 * right, as numbers of pixels):
 *
 *   add_target examples/standalone.vmti found.vmti 9 17=2B3C2A40A55107501202 19=0211 20=0583 2=0F507A 3=0FAA8C
 *
 * The target goes at the series' end, its items in the order given, and the packet's count of targets follows. Writes the packet
 * to OUT and prints it before and after, side by side. OUT may be PACKET. Ends with 0, or with 2 if anything is refused or fails:
 * OUT is then as it was.
 */
#include <inttypes.h>
#include <stdio.h>
#include <stdlib.h>
#include <string.h>
#include "arguments.h"
#include "columns.h"
#include "save.h"

#define PROGRAM "add_target"
#define USAGE                                                                          \
    "usage: add_target [--colour=always|never|auto] PACKET OUT TARGET [TAG=HEX ..]\n" \
    "       add_target [--colour=always|never|auto] --drop PACKET OUT TARGET\n"       \
    "a missed animal by its location, centroid and box:\n"                             \
    "       add_target examples/standalone.vmti found.vmti 9 17=2B3C2A40A55107501202 19=0211 20=0583 2=0F507A 3=0FAA8C\n"

/* The bytes of a record TG, and of a TI before its value. */
enum { TG_SIZE = 10, TI_SIZE = 6 };

/* A target to add, as a sheet has it; to drop one its id is enough. */
struct target {
    uint64_t id;
    uint8_t *records;
    size_t size;
};

static struct packet packets[SIDES];
static struct packet *const before = &packets[LEFT], *const after = &packets[RIGHT];

/* Adds a number to the records, high byte first. */
static void add_number(struct target *target, uint64_t number, int bytes)
{
    while (bytes-- > 0)
        target->records[target->size++] = (uint8_t)(number >> (8 * bytes));
}

static void add_mark(struct target *target, const char *mark)
{
    memcpy(target->records + target->size, mark, 2);
    target->size += 2;
}

/* TAG=HEX, as a record TI. */
static int add_item(struct target *target, const char *word)
{
    struct change item = {0, VMTI_PUT, NULL, 0};
    int status = -1;

    if (parse_put(word, &item) != 0) {
        fputs(USAGE, stderr);
    } else if (item.tag > UINT16_MAX || item.len > UINT16_MAX) {
        say(PROGRAM, word, "refused: a tag is 1 to 16,383, and a record has room for 65,535 bytes");
    } else {
        add_mark(target, "TI");
        add_number(target, item.tag, 2);
        add_number(target, item.len, 2);
        memcpy(target->records + target->size, item.value, item.len);
        target->size += item.len;
        status = 0;
    }
    free(item.value);
    return status;
}

/* TARGET, and its items. */
static int parse_target(char **words, int count, struct target *target)
{
    size_t room = TG_SIZE;
    int i;

    for (i = 1; i < count; i++)
        room += TI_SIZE + strlen(words[i]);
    target->records = malloc(room);
    target->size = 0;
    if (target->records == NULL || parse_number(words[0], words[0] + strlen(words[0]), &target->id) != 0) {
        fputs(USAGE, stderr);
        return -1;
    }
    add_mark(target, "TG");
    add_number(target, target->id, 8);
    for (i = 1; i < count; i++)
        if (add_item(target, words[i]) != 0)
            return -1;
    return 0;
}

/* The call's own refusals are at 0, for they are no faults of the packet. */
static void say_own(const char *what, unsigned number, const char *words)
{
    say(PROGRAM, what, "refused: %s (number %u, at no byte of the packet)", words, number);
}

static void say_record(const struct target *target, const uint8_t *record, unsigned number)
{
    static struct words what;
    uint64_t tag = number_of(record + 2, 2);
    const char *words = refusal_words(number);

    words_clear(&what);
    words_add(&what, "target %" PRIu64, target->id);
    if (record == target->records) {
        words = "a target's id is at most 9223372036854775807";
    } else {
        words_add(&what, ", tag %" PRIu64 ", %s", tag, item_name(VMTI_TARGET, tag));
        if (number == VMTI_BAD_RECORD)
            words = tag == 0 || tag > 16383 ? "a tag is 1 to 16,383" : "a number has no zero bytes before it, and 0 is one byte";
    }
    say_own(what.text, number, words);
}

static void say_target(const struct target *target, unsigned number)
{
    static struct words words;

    words_clear(&words);
    if (number == VMTI_ID_REPEATED)
        words_add(&words, "target %" PRIu64 " is there already", target->id);
    else if (number == VMTI_ABSENT)
        words_add(&words, "there is no target %" PRIu64, target->id);
    else if (number == VMTI_HALF_CENTROID)
        words_add(&words, "target %" PRIu64 " has a row without a column, or a column without a row: tags 19 and 20 stand together",
                  target->id);
    else if (number == VMTI_MISSING)
        words_add(&words, "target %" PRIu64 " has no location, tag 17, and each target of a standalone packet has one", target->id);
    else if (number == VMTI_OVER_LIMIT)
        words_add(&words, "with target %" PRIu64 " the packet would be over the limit of 8,192 bytes", target->id);
    else
        words_add(&words, "%s", refusal_words(number));
    say_own(before->path, number, words.text);
}

/* Whether a number is the answer to one record: those on the target as a whole come after. The packet has been accepted. */
static int is_of_record(unsigned number)
{
    return number == VMTI_BAD_RECORD || number == VMTI_EMPTY_VALUE || number == VMTI_TAG_REPEATED || number == VMTI_MAY_NOT_STAND
        || number == VMTI_LENGTH_NOT_ALLOWED || number == VMTI_PIXEL_ZERO;
}

/* The call, with so many bytes of the records. */
static uint64_t call_add(const struct target *target, size_t size, uint8_t *out, size_t room)
{
    return vmti_add_target(before->form, before->bytes, before->size, target->records, size, out, room);
}

/* Says what is wrong, and with which record: the call is made with TG alone, and then with a TI more each time. */
static void say_refused(const struct target *target, unsigned number)
{
    size_t at = 0, next = TG_SIZE;

    if (!is_of_record(number)) {
        say_target(target, number);
        return;
    }
    while (next < target->size && !is_of_record(VMTI_NUMBER(call_add(target, next, NULL, 0)))) {
        at = next;
        next += TI_SIZE + (size_t)number_of(target->records + at + 4, 2);
    }
    say_record(target, target->records + at, number);
}

static int make_change(const struct target *target, int drop, const char *out)
{
    uint64_t answer = drop ? vmti_drop_target(before->form, before->bytes, before->size, target->id, after->bytes, VMTI_PACKET_MAX)
                           : call_add(target, target->size, after->bytes, VMTI_PACKET_MAX);

    if (!VMTI_OK(answer)) {
        say_refused(target, VMTI_NUMBER(answer));
        return -1;
    }
    after->size = VMTI_COUNT(answer);
    return packet_read(after, PROGRAM, out);
}

static void print_change(const struct target *target, int drop, enum colour colour)
{
    static const struct titles titles = {{"before", "after"}, {"before", "after"}};

    print_columns(packets, &titles, colour);
    printf("target %" PRIu64 " %s: %zu bytes before, %zu after\n", target->id, drop ? "dropped" : "added", before->size,
           after->size);
}

/* Takes the words that are no names, numbers or items, and answers with how many there are. */
static int take_options(char **words, int count, enum colour *colour, int *drop)
{
    int taken = 0;

    for (; taken < count && strcmp(words[taken], "--") != 0; taken++) {
        if (strcmp(words[taken], "--drop") == 0)
            *drop = 1;
        else if (!colour_of(words[taken], colour))
            return taken;
    }
    return taken < count ? taken + 1 : taken;
}

int main(int count, char **words)
{
    struct target target = {0, NULL, 0};
    enum colour colour = COLOUR_AUTO;
    int drop = 0, status;

    words += 1 + take_options(words + 1, count - 1, &colour, &drop);
    for (count = 0; words[count] != NULL;)
        count++;
    if (count < 3 || (drop && count > 3)) {
        fputs(USAGE, stderr);
        return 2;
    }
    status = parse_target(words + 2, count - 2, &target);
    if (status == 0)
        status = packet_load(before, PROGRAM, words[0]);
    if (status == 0)
        status = make_change(&target, drop, words[1]);
    if (status == 0)
        status = packet_save(after, PROGRAM);
    if (status == 0)
        print_change(&target, drop, colour);
    free(target.records);
    return status == 0 && fflush(stdout) == 0 ? 0 : 2;
}
