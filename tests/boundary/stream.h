/* A stream of cases on standard input, read case by case: tests/compare/src/bin/boundary.rs says how it goes. */
#ifndef STREAM_H
#define STREAM_H

#include <stdio.h>
#include <stdlib.h>
#include "vmti.h"

enum { PAGE = 4096, SPAN = 64 * PAGE, ROOMS = 2 };

enum { READ, WRITE, NORMALISE, EDIT, EDIT_TWO, ADD, DROP, CALLS };

static const char *const names[CALLS] = {"vmti_read", "vmti_write", "vmti_normalise", "vmti_edit", "vmti_edit_two",
                                         "vmti_add_target", "vmti_drop_target"};

/* What a call is made on, but for the buffers lent; an edit alone looks at level and those after it, one of two changes at the last.
 * A drop looks at the target; a new target's records are lent as the value. */
struct question {
    uint64_t which, form, level, target, tag, removal, tag2, removal2;
};

static void die(const char *why)
{
    fprintf(stderr, "%s\n", why);
    exit(2);
}

static void get(void *to, size_t count)
{
    if (fread(to, 1, count, stdin) != count)
        die("the stream breaks off");
}

static uint64_t get_number(size_t width)
{
    uint8_t bytes[8];
    uint64_t n = 0;
    get(bytes, width);
    while (width-- > 0)
        n = n << 8 | bytes[width];
    return n;
}

static struct question get_question(void)
{
    struct question q;
    q.which = get_number(8);
    q.form = get_number(8);
    q.level = get_number(8);
    q.target = get_number(8);
    q.tag = get_number(8);
    q.removal = get_number(8);
    q.tag2 = get_number(8);
    q.removal2 = get_number(8);
    if (q.which >= CALLS)
        die("no such call");
    return q;
}

static size_t get_bytes(uint8_t *to)
{
    size_t count = get_number(4);
    if (count > SPAN)
        die("a case is too long");
    get(to, count);
    return count;
}

#endif
