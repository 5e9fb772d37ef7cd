/* items.h -- what a screen says of VMTI items: their names, their values and the refusals, in words */
#ifndef ITEMS_H
#define ITEMS_H

#include <stddef.h>
#include <stdint.h>
#include "vmti.h"

/* The tag of the set's series of targets. */
#define SERIES_TAG 101

/* Text that grows, of printing ASCII alone. There is room for any value of a packet; what would go beyond is left out. */
#define WORDS_ROOM (8 * VMTI_PACKET_MAX)

struct words {
    size_t len;
    char text[WORDS_ROOM];
};

void words_clear(struct words *words);
void words_add(struct words *words, const char *format, ...) __attribute__((format(printf, 2, 3)));

/* Adds bytes as text: a byte that does not print is \xNN, a backslash or quotation mark has a backslash before it. */
void words_add_text(struct words *words, const void *bytes, size_t len);

/* A number, high byte first. */
uint64_t number_of(const uint8_t *bytes, size_t len);

/* The name of ST 0903.6 for a tag of the set (VMTI_SET) or of a target (VMTI_TARGET). */
const char *item_name(int level, uint64_t tag);

/* Adds a value: first as a number, text or time if document 01 has it so, then its bytes in hex, as 872 [03 68].
 *
 *   between   stands between two bytes: " " or ""
 */
void words_add_value(struct words *words, int level, uint64_t tag, const uint8_t *value, size_t len, const char *between);

/* What a refusal number of vmti.h says. */
const char *refusal_words(unsigned number);

#endif
