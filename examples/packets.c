/* packets.c -- a file read to a packet, its sheet, and the sheet's records taken apart */
#include <errno.h>
#include <inttypes.h>
#include <stdarg.h>
#include <stdio.h>
#include <string.h>
#include "packets.h"

static const uint8_t key[16] = {0x06, 0x0E, 0x2B, 0x34, 0x02, 0x0B, 0x01, 0x01, 0x0E, 0x01, 0x03, 0x03, 0x06, 0x00, 0x00, 0x00};

const char *form_name(uint64_t form)
{
    return form == VMTI_EMBEDDED ? "embedded" : "standalone";
}

void say(const char *program, const char *what, const char *format, ...)
{
    static struct words words;
    va_list rest;

    words_clear(&words);
    words_add_text(&words, what, strlen(what));
    fprintf(stderr, "%s: %s: ", program, words.text);
    va_start(rest, format);
    vfprintf(stderr, format, rest);
    va_end(rest);
    fputc('\n', stderr);
}

void say_refusal(const char *program, const char *what, uint64_t answer)
{
    say(program, what, "refused: %s (number %u, at byte %" PRIu64 ")", refusal_words(VMTI_NUMBER(answer)), VMTI_NUMBER(answer),
        VMTI_PLACE(answer));
}

/* Reads one byte more than a packet may have, so that a longer file is refused as one. */
static int read_file(struct packet *packet, const char *path)
{
    FILE *file = fopen(path, "rb");
    int failed;

    if (file == NULL)
        return -1;
    packet->size = fread(packet->bytes, 1, sizeof packet->bytes, file);
    failed = ferror(file) ? errno : 0;
    fclose(file);
    errno = failed;
    return failed == 0 ? 0 : -1;
}

static void open_group(struct packet *packet, int level, uint64_t id)
{
    struct group *group = &packet->groups[packet->group_count++];

    group->level = level;
    group->id = id;
    group->items = packet->items + packet->item_count;
    group->count = 0;
}

static void add_item(struct packet *packet, unsigned tag, const uint8_t *value, size_t len)
{
    struct item *item = &packet->items[packet->item_count++];

    item->tag = tag;
    item->value = value;
    item->len = len;
    packet->groups[packet->group_count - 1].count++;
}

/* Takes the record at a place of the sheet if it is of this level, and answers with the place after it. */
static size_t take_record(struct packet *packet, size_t at, int level)
{
    const uint8_t *record = packet->sheet + at;
    size_t len;

    if (memcmp(record, "TS", 2) == 0) {
        if (level == VMTI_SET)
            add_item(packet, SERIES_TAG, NULL, 0);
        return at + 2;
    }
    if (memcmp(record, "TG", 2) == 0) {
        if (level == VMTI_TARGET)
            open_group(packet, VMTI_TARGET, number_of(record + 2, 8));
        return at + 10;
    }
    len = (size_t)number_of(record + 4, 2);
    if (level == (memcmp(record, "TI", 2) == 0 ? VMTI_TARGET : VMTI_SET))
        add_item(packet, (unsigned)number_of(record + 2, 2), record + 6, len);
    return at + 6 + len;
}

/* The set's records first and then the targets', so that each group's items stand together. */
static void take_sheet(struct packet *packet)
{
    size_t at;

    packet->item_count = 0;
    packet->group_count = 0;
    open_group(packet, VMTI_SET, 0);
    for (at = 3; at < packet->sheet_size;)
        at = take_record(packet, at, VMTI_SET);
    for (at = 3; at < packet->sheet_size;)
        at = take_record(packet, at, VMTI_TARGET);
}

int packet_read(struct packet *packet, const char *program, const char *path)
{
    uint64_t answer;

    packet->path = path;
    packet->form = packet->size >= sizeof key && memcmp(packet->bytes, key, sizeof key) == 0 ? VMTI_STANDALONE : VMTI_EMBEDDED;
    answer = vmti_read(packet->form, packet->bytes, packet->size, packet->sheet, sizeof packet->sheet);
    if (VMTI_NUMBER(answer) != 0) {
        say_refusal(program, path, answer);
        return -1;
    }
    packet->sheet_size = (size_t)VMTI_PLACE(answer);
    take_sheet(packet);
    return 0;
}

int packet_load(struct packet *packet, const char *program, const char *path)
{
    if (read_file(packet, path) != 0) {
        say(program, path, "cannot be read: %s", strerror(errno));
        return -1;
    }
    return packet_read(packet, program, path);
}

const struct group *find_target(const struct packet *packet, uint64_t id)
{
    size_t i;

    for (i = 1; i < packet->group_count; i++)
        if (packet->groups[i].id == id)
            return &packet->groups[i];
    return NULL;
}

const struct item *find_item(const struct group *group, uint64_t tag)
{
    size_t i;

    for (i = 0; group != NULL && i < group->count; i++)
        if (group->items[i].tag == tag)
            return &group->items[i];
    return NULL;
}
