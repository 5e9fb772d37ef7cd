/* Makes the calls of a stream of cases and holds the number, every lent byte and the bytes around them to it. A number that a
 * call can answer and that never came up is a failure too.
 *
 *   boundary [heap] < STREAM
 *
 * Input and output each end right before a page that may not be touched or, every other case, start right
 * after one. With 'heap' each is an exact allocation instead, for valgrind to watch. */
#define _GNU_SOURCE
#include <setjmp.h>
#include <signal.h>
#include <string.h>
#include <sys/mman.h>
#include "stream.h"

enum { AROUND = 64, SHOWN = 5 };

/* The numbers that each call can answer: a sign for each of document 01's table from 0 on, '+' where it can. */
static const char *const answers[CALLS] = {"+++++++++++++++++...+", "++.....+.++++++.++..+", "+++++++++++++++++...+", "+++++++++++++++++.+++",
                                            "+++++++++++++++++.+++", "++++++++++++++++++..+", "+++++++++++++++++.+.+"};

/* What the output is filled with, and what stands around both: no two bytes near each other are alike. */
static uint8_t pattern[SPAN + 256];

static int heap;
static sigjmp_buf touched;

/* A lent buffer, and where it may be put. */
struct lent {
    uint8_t *span;          /* SPAN bytes between two pages that may not be touched */
    uint8_t *at;            /* the buffer, or NULL for one of no bytes, now and then */
    size_t size;
    uint8_t *around;        /* the AROUND bytes on the side that faces no such page */
};

static void on_touch(int signal)
{
    (void)signal;
    siglongjmp(touched, 1);
}

static void map(struct lent *l)
{
    uint8_t *all = mmap(NULL, SPAN + 2 * PAGE, PROT_NONE, MAP_PRIVATE | MAP_ANONYMOUS, -1, 0);
    if (all == MAP_FAILED || mprotect(all + PAGE, SPAN, PROT_READ | PROT_WRITE) != 0)
        die("no memory");
    l->span = all + PAGE;
}

static void lend(struct lent *l, size_t size, int at_start, const uint8_t *content)
{
    if (size + AROUND > SPAN)
        die("a case is too long");
    l->size = size;
    l->around = NULL;
    if (heap) {
        l->at = malloc(size);
    } else {
        l->at = at_start ? l->span : l->span + SPAN - size;
        l->around = at_start ? l->at + size : l->at - AROUND;
        memcpy(l->around, pattern, AROUND);
    }
    if (size > 0)
        memcpy(l->at, content, size);
    else if (at_start) {
        if (heap)
            free(l->at);
        l->at = NULL;
    }
}

static int is_as_lent(const struct lent *l, const uint8_t *content)
{
    return (l->size == 0 || memcmp(l->at, content, l->size) == 0)
        && (l->around == NULL || memcmp(l->around, pattern, AROUND) == 0);
}

static void take_back(struct lent *l)
{
    if (heap)
        free(l->at);
}

static uint64_t answer_of(const struct question *q, const struct lent *in, const struct lent values[2], const struct lent *out)
{
    switch (q->which) {
    case READ:
        return vmti_read(q->form, in->at, in->size, out->at, out->size);
    case WRITE:
        return vmti_write(in->at, in->size, out->at, out->size);
    case NORMALISE:
        return vmti_normalise(q->form, in->at, in->size, out->at, out->size);
    case EDIT:
        return vmti_edit(q->form, in->at, in->size, q->level, q->target, q->tag, q->removal, values[0].at, values[0].size,
                         out->at, out->size);
    case EDIT_TWO:
        return vmti_edit_two(q->form, in->at, in->size, q->level, q->target, q->tag, q->removal, values[0].at, values[0].size,
                             q->tag2, q->removal2, values[1].at, values[1].size, out->at, out->size);
    case ADD:
        return vmti_add_target(q->form, in->at, in->size, values[0].at, values[0].size, out->at, out->size);
    default:
        return vmti_drop_target(q->form, in->at, in->size, q->target, out->at, out->size);
    }
}

/* 0 if the call touched a page that it may not. */
static int call(const struct question *q, const struct lent *in, const struct lent values[2], const struct lent *out, uint64_t *answer)
{
    if (sigsetjmp(touched, 0) != 0)
        return 0;
    *answer = answer_of(q, in, values, out);
    return 1;
}

static void show(const char *why, const struct question *q, const uint8_t *input, size_t input_len, size_t room,
                 uint64_t wanted, uint64_t got)
{
    size_t i;
    printf("%s, %s: form %llu, level %llu, target %llu, tag %llu, removal %llu, then tag %llu, removal %llu, room %zu, input of %zu:",
           names[q->which], why, (unsigned long long)q->form, (unsigned long long)q->level, (unsigned long long)q->target,
           (unsigned long long)q->tag, (unsigned long long)q->removal, (unsigned long long)q->tag2, (unsigned long long)q->removal2,
           room, input_len);
    for (i = 0; i < input_len && i < 200; i++)
        printf(" %02X", input[i]);
    printf("%s\n  expected %u at %llu, got %u at %llu\n", i < input_len ? " .." : "", VMTI_NUMBER(wanted),
           (unsigned long long)VMTI_PLACE(wanted), VMTI_NUMBER(got), (unsigned long long)VMTI_PLACE(got));
}

/* What came up as expected; 1 if a number never did that the call can answer. */
static int report(uint64_t which, const uint64_t *seen)
{
    uint64_t all = 0;
    int missing = 0;
    size_t n;
    for (n = 0; n < 256; n++)
        all += seen[n];
    printf("%s answered %llu as expected: success %llu", names[which], (unsigned long long)all, (unsigned long long)seen[0]);
    for (n = 1; n < strlen(answers[which]); n++)
        if (answers[which][n] == '+')
            printf(", %zu: %llu", n, (unsigned long long)seen[n]);
    printf("\n");
    for (n = 0; n < strlen(answers[which]); n++)
        if (answers[which][n] == '+' && seen[n] == 0) {
            printf("%zu never came up\n", n);
            missing = 1;
        }
    return missing;
}

/* A question with what is lent for it, and where that is lent. */
static struct question q;
static uint8_t input[SPAN], given[2][SPAN], after[SPAN];
static size_t input_len, given_len[2];
static struct lent in, values[2], out;
static uint64_t seen[CALLS][256];
static unsigned long cases, failed;

static void prepare(void)
{
    struct sigaction action;
    size_t n;
    for (n = 0; n < sizeof pattern; n++)
        pattern[n] = (uint8_t)(0xA5 + 29 * n + n / 256);
    map(&in);
    map(&values[0]);
    map(&values[1]);
    map(&out);
    memset(&action, 0, sizeof action);
    action.sa_handler = on_touch;
    action.sa_flags = SA_NODEFER;
    if (!heap && (sigaction(SIGSEGV, &action, NULL) != 0 || sigaction(SIGBUS, &action, NULL) != 0))
        die("no handler");
}

/* The question in one of its rooms; each bit of the turn says at which end of its pages a buffer is lent. */
static void ask(unsigned turn)
{
    const size_t room = get_number(4);
    const uint64_t wanted = get_number(8);
    const size_t written = get_bytes(after);
    const uint8_t *filled = pattern + cases % 256;
    const char *why = NULL;
    uint64_t got = 0;

    if (room > SPAN || written > room)
        die("a case is too long");
    memcpy(after + written, filled + written, room - written);
    lend(&in, input_len, turn & 1, input);
    lend(&out, room, turn >> 1 & 1, filled);
    lend(&values[0], given_len[0], turn >> 2 & 1, given[0]);
    lend(&values[1], given_len[1], turn >> 3 & 1, given[1]);
    if (!call(&q, &in, values, &out, &got))
        why = "a byte beyond what was lent was touched";
    else if (got != wanted)
        why = "another number";
    else if (!is_as_lent(&out, after))
        why = "another output, or a byte around it changed";
    else if (!is_as_lent(&in, input) || !is_as_lent(&values[0], given[0]) || !is_as_lent(&values[1], given[1]))
        why = "the input, or a byte around it, changed";
    take_back(&in);
    take_back(&values[0]);
    take_back(&values[1]);
    take_back(&out);
    cases++;
    if (why == NULL)
        seen[q.which][VMTI_NUMBER(got)]++;
    else if (failed++ < SHOWN)
        show(why, &q, input, input_len, room, wanted, got);
}

int main(int argc, char **argv)
{
    uint64_t inputs, index;
    int missing = 0;

    heap = argc > 1 && strcmp(argv[1], "heap") == 0;
    prepare();
    inputs = get_number(8);
    for (index = 0; index < inputs; index++) {
        /* both ends of each, whatever the room and the kind of input: the turns are strewn */
        const unsigned turn = (unsigned)((uint32_t)index * 2654435761u >> 16);
        unsigned r;
        q = get_question();
        given_len[0] = get_bytes(given[0]);
        given_len[1] = get_bytes(given[1]);
        input_len = get_bytes(input);
        for (r = 0; r < ROOMS; r++)
            ask(turn + r);
    }
    if (getchar() != EOF)
        die("the stream goes on");

    for (index = 0; index < CALLS; index++)
        missing |= report(index, seen[index]);
    printf("boundary: %lu cases, %lu failed\n", cases, failed);
    return failed > 0 || missing;
}
