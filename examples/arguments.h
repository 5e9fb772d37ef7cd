/* arguments.h -- what a command line says of an item: its tag, and its value or that it goes */
#ifndef ARGUMENTS_H
#define ARGUMENTS_H

#include <stddef.h>
#include <stdint.h>
#include "vmti.h"

struct change {
    uint64_t tag, removal; /* VMTI_PUT or VMTI_REMOVE */
    uint8_t *value;        /* whoever has the change frees it; NULL where there is none */
    size_t len;
};

/* Each answers 0, or -1 if the word is not what it should be. */

/* A number in decimal digits alone, up to `end`, that fits. */
int parse_number(const char *word, const char *end, uint64_t *number);

/* TAG=HEX: pairs of hex digits, with blanks between pairs where one likes. */
int parse_put(const char *word, struct change *change);

#endif
