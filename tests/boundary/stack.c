/* How much of the stack the calls use: makes those of a stream of cases, and prints for each call the most bytes, those of its
 * return address with them, and the case that took them.
 *
 *   stack < STREAM
 *
 * A call is made on a stack of its own, filled with a pattern, over a page that may not be touched. What the test lays on it
 * before the call is taken off: as much as a call takes that does nothing. Link with -Wl,-z,now, or the first call of a
 * function is looked up on that stack too. */
#define _GNU_SOURCE
#include <string.h>
#include <sys/mman.h>
#include <ucontext.h>
#include "stream.h"

enum { ROOM = 4 * PAGE, ADDRESS = sizeof(void *) };

static struct question q;
static uint8_t input[SPAN], value[SPAN], value2[SPAN], out[SPAN], answer[SPAN];
static size_t input_len, value_len, value2_len, room;
static ucontext_t here, there;

typedef uint64_t edit_fn(uint64_t, const uint8_t *, size_t, uint64_t, uint64_t, uint64_t, uint64_t, const uint8_t *, size_t,
                         uint8_t *, size_t);
typedef uint64_t edit_two_fn(uint64_t, const uint8_t *, size_t, uint64_t, uint64_t, uint64_t, uint64_t, const uint8_t *, size_t,
                             uint64_t, uint64_t, const uint8_t *, size_t, uint8_t *, size_t);
typedef uint64_t add_fn(uint64_t, const uint8_t *, size_t, const uint8_t *, size_t, uint8_t *, size_t);
typedef uint64_t drop_fn(uint64_t, const uint8_t *, size_t, uint64_t, uint8_t *, size_t);
typedef uint64_t on_packet_fn(uint64_t, const uint8_t *, size_t, uint8_t *, size_t);
typedef uint64_t on_sheet_fn(const uint8_t *, size_t, uint8_t *, size_t);

static uint64_t no_edit(uint64_t form, const uint8_t *in, size_t in_len, uint64_t level, uint64_t target, uint64_t tag,
                        uint64_t removal, const uint8_t *given, size_t given_len, uint8_t *to, size_t to_len)
{
    return form + in_len + level + target + tag + removal + given_len + to_len + (in != given) + (to != NULL);
}

static uint64_t no_edit_two(uint64_t form, const uint8_t *in, size_t in_len, uint64_t level, uint64_t target, uint64_t tag,
                            uint64_t removal, const uint8_t *given, size_t given_len, uint64_t tag2, uint64_t removal2,
                            const uint8_t *given2, size_t given2_len, uint8_t *to, size_t to_len)
{
    return form + in_len + level + target + tag + removal + given_len + tag2 + removal2 + given2_len + to_len + (in != given)
        + (given != given2) + (to != NULL);
}

static uint64_t no_add(uint64_t form, const uint8_t *in, size_t in_len, const uint8_t *given, size_t given_len, uint8_t *to,
                       size_t to_len)
{
    return form + in_len + given_len + to_len + (in != given) + (to != NULL);
}

static uint64_t no_drop(uint64_t form, const uint8_t *in, size_t in_len, uint64_t target, uint8_t *to, size_t to_len)
{
    return form + in_len + target + to_len + (in != to);
}

static uint64_t no_packet(uint64_t form, const uint8_t *in, size_t in_len, uint8_t *to, size_t to_len)
{
    return form + in_len + to_len + (in != to);
}

static uint64_t no_sheet(const uint8_t *in, size_t in_len, uint8_t *to, size_t to_len)
{
    return in_len + to_len + (in != to);
}

/* Called by what stands here, so that no call is put in line. */
static edit_fn *volatile edit;
static edit_two_fn *volatile edit_two;
static add_fn *volatile add;
static drop_fn *volatile drop;
static on_packet_fn *volatile on_packet;
static on_sheet_fn *volatile on_sheet;

static void choose(uint64_t which, int nothing)
{
    edit = nothing ? no_edit : vmti_edit;
    edit_two = nothing ? no_edit_two : vmti_edit_two;
    add = nothing ? no_add : vmti_add_target;
    drop = nothing ? no_drop : vmti_drop_target;
    on_packet = nothing ? no_packet : which == READ ? vmti_read : vmti_normalise;
    on_sheet = nothing ? no_sheet : vmti_write;
}

static void call(void)
{
    if (q.which == EDIT)
        edit(q.form, input, input_len, q.level, q.target, q.tag, q.removal, value, value_len, out, room);
    else if (q.which == EDIT_TWO)
        edit_two(q.form, input, input_len, q.level, q.target, q.tag, q.removal, value, value_len, q.tag2, q.removal2, value2,
                 value2_len, out, room);
    else if (q.which == ADD)
        add(q.form, input, input_len, value, value_len, out, room);
    else if (q.which == DROP)
        drop(q.form, input, input_len, q.target, out, room);
    else if (q.which == WRITE)
        on_sheet(input, input_len, out, room);
    else
        on_packet(q.form, input, input_len, out, room);
}

/* The bytes from the deepest that no longer has the pattern. */
static size_t touched(uint8_t *stack, int pattern)
{
    size_t left = 0;
    memset(stack, pattern, ROOM);
    if (getcontext(&there) != 0)
        die("no context");
    there.uc_stack.ss_sp = stack;
    there.uc_stack.ss_size = ROOM;
    there.uc_link = &here;
    makecontext(&there, call, 0);
    if (swapcontext(&here, &there) != 0)
        die("no context");
    while (left < ROOM && stack[left] == pattern)
        left++;
    return ROOM - left;
}

/* A byte that is written may be as the pattern was, but not as both. */
static size_t used(uint8_t *stack)
{
    const size_t one = touched(stack, 0xA5), other = touched(stack, 0x5A);
    return one < other ? other : one;
}

int main(void)
{
    uint8_t *all = mmap(NULL, PAGE + ROOM, PROT_READ | PROT_WRITE, MAP_PRIVATE | MAP_ANONYMOUS, -1, 0);
    size_t nothing[CALLS] = {0}, most[CALLS] = {0};
    uint64_t deepest[CALLS] = {0}, inputs, index;
    unsigned r;

    if (all == MAP_FAILED || mprotect(all, PAGE, PROT_NONE) != 0)
        die("no memory");
    inputs = get_number(8);
    for (index = 0; index < inputs; index++) {
        q = get_question();
        value_len = get_bytes(value);
        value2_len = get_bytes(value2);
        input_len = get_bytes(input);
        for (r = 0; r < ROOMS; r++) {
            size_t bytes;
            room = get_number(4);
            get_number(8);
            get_bytes(answer);
            if (nothing[q.which] == 0) {
                choose(q.which, 1);
                nothing[q.which] = used(all + PAGE);
            }
            choose(q.which, 0);
            bytes = used(all + PAGE) - nothing[q.which] + ADDRESS;
            if (bytes > most[q.which]) {
                most[q.which] = bytes;
                deepest[q.which] = index;
            }
        }
    }
    for (index = 0; index < CALLS; index++)
        printf("%s\t%zu\tcase %llu\n", names[index], most[index], (unsigned long long)deepest[index]);
    return 0;
}
