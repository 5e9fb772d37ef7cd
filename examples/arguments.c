/* arguments.c -- numbers in decimal, and values in hex, taken from the command line */
#include <stdlib.h>
#include <string.h>
#include "arguments.h"

int parse_number(const char *word, const char *end, uint64_t *number)
{
    *number = 0;
    if (word == end)
        return -1;
    for (; word != end; word++) {
        uint64_t digit = (uint64_t)(*word - '0');

        if (*word < '0' || *word > '9' || *number > (UINT64_MAX - digit) / 10)
            return -1;
        *number = *number * 10 + digit;
    }
    return 0;
}

/* Pairs of hex digits, with blanks between pairs where one likes. */
static int parse_hex(const char *word, struct change *change)
{
    static const char digits[] = "0123456789ABCDEFabcdef";
    char pair[3] = "";

    change->len = 0;
    change->value = malloc(strlen(word) / 2 + 1);
    if (change->value == NULL)
        return -1;
    while (*(word += strspn(word, " ")) != '\0') {
        if (strspn(word, digits) < 2)
            return -1;
        memcpy(pair, word, 2);
        change->value[change->len++] = (uint8_t)strtoul(pair, NULL, 16);
        word += 2;
    }
    return 0;
}

int parse_put(const char *word, struct change *change)
{
    const char *end = strchr(word, '=');

    if (end == NULL || parse_number(word, end, &change->tag) != 0)
        return -1;
    change->removal = VMTI_PUT;
    return parse_hex(end + 1, change);
}
