/* packets.h -- a packet from a file, with its items as its sheet has them */
#ifndef PACKETS_H
#define PACKETS_H

#include "items.h"

/* An item takes three bytes of a packet at least, a target two. */
#define ENTRIES_MAX (VMTI_PACKET_MAX / 2)

struct item {
    unsigned tag;
    const uint8_t *value; /* in the sheet; the series of targets has none */
    size_t len;
};

/* The set, or a target: its items in the packet's order. */
struct group {
    int level; /* VMTI_SET or VMTI_TARGET */
    uint64_t id;
    const struct item *items;
    size_t count;
};

struct packet {
    const char *path;
    uint64_t form;
    uint8_t bytes[VMTI_PACKET_MAX + 1];
    size_t size;
    uint8_t sheet[VMTI_SHEET_MAX];
    size_t sheet_size;
    struct item items[ENTRIES_MAX];
    size_t item_count;
    struct group groups[ENTRIES_MAX + 1]; /* the set, then the targets in the packet's order */
    size_t group_count;
};

/* Reads a file to a packet and its items. The form is standalone if the key opens the file, else embedded. If the file cannot
 * be read or the packet is refused, says why on standard error and answers -1. */
int packet_load(struct packet *packet, const char *program, const char *path);

/* The same of bytes that stand in packet->bytes already. */
int packet_read(struct packet *packet, const char *program, const char *path);

/* Says on standard error what is wrong with a file or an edit, by which program; a refusal with number and place. */
void say(const char *program, const char *what, const char *format, ...) __attribute__((format(printf, 3, 4)));
void say_refusal(const char *program, const char *what, uint64_t answer);

const char *form_name(uint64_t form);

/* The target with this id, or the group's item with this tag; NULL if there is none. A group may be NULL too. */
const struct group *find_target(const struct packet *packet, uint64_t id);
const struct item *find_item(const struct group *group, uint64_t tag);

#endif
