/* Times the calls: prints for each call and input their names, the input's bytes and the nanoseconds of one call. An input is a
 * file, NAME.packet or NAME.sheet. Where NAME.records is beside a packet, the target that they are is added to it, and where
 * NAME.target is, eight bytes, the high one first, that target is dropped.
 *
 *   bench FILE..
 *   bench count CALL TIMES FILE    makes one call so many times, for who counts its instructions */
#define _POSIX_C_SOURCE 199309L
#include <stdio.h>
#include <stdlib.h>
#include <string.h>
#include <time.h>
#include "vmti.h"

/* As in tests/compare/src/bin/bench.rs. */
enum { ROUNDS = 4, ROUND = 10000000 };

struct input {
    char name[64];
    uint64_t form;
    size_t size;    /* 0 of a sheet */
    uint8_t bytes[VMTI_PACKET_MAX];
    size_t sheet_size;
    uint8_t sheet[VMTI_SHEET_MAX];
    size_t records_size;
    uint8_t records[256];
    size_t target_size;
    uint64_t target;
};

/* Room for what a call writes; it is not cleared between calls. */
static uint8_t out[VMTI_SHEET_OF_PACKET_MAX];

static void die(const char *why, const char *of)
{
    fprintf(stderr, "%s: %s\n", of, why);
    exit(2);
}

/* 0 if there is no such file. */
static size_t get_some(uint8_t *bytes, size_t room, const char *path)
{
    FILE *file = fopen(path, "rb");
    size_t size;

    if (file == NULL)
        return 0;
    size = fread(bytes, 1, room, file);
    if (getc(file) != EOF)
        die("too long", path);
    fclose(file);
    return size;
}

static size_t get_bytes(uint8_t *bytes, size_t room, const char *path)
{
    const size_t size = get_some(bytes, room, path);
    if (size == 0)
        die("no such file, or empty", path);
    return size;
}

/* The file of another kind beside this one. */
static size_t get_beside(uint8_t *bytes, size_t room, const char *path, const char *kind)
{
    char other[512];
    const char *dot = strrchr(path, '.');
    if (snprintf(other, sizeof other, "%.*s%s", (int)(dot - path), path, kind) >= (int)sizeof other)
        die("too long a name", path);
    return get_some(bytes, room, other);
}

/* The target to add, and the one to drop. */
static void get_targets(struct input *p, const char *path)
{
    uint8_t id[8] = {0};
    size_t i;
    p->records_size = get_beside(p->records, sizeof p->records, path, ".records");
    p->target_size = get_beside(id, sizeof id, path, ".target");
    p->target = 0;
    for (i = 0; i < sizeof id; i++)
        p->target = p->target << 8 | id[i];
}

/* A packet is standalone if the key opens it, else embedded; it must be accepted. */
static void get_packet(struct input *p, const char *path)
{
    static const uint8_t key[16] = {0x06, 0x0E, 0x2B, 0x34, 0x02, 0x0B, 0x01, 0x01,
                                    0x0E, 0x01, 0x03, 0x03, 0x06, 0x00, 0x00, 0x00};
    uint64_t answer;

    p->size = get_bytes(p->bytes, sizeof p->bytes, path);
    p->form = p->size >= sizeof key && memcmp(p->bytes, key, sizeof key) == 0 ? VMTI_STANDALONE : VMTI_EMBEDDED;
    answer = vmti_read(p->form, p->bytes, p->size, p->sheet, sizeof p->sheet);
    if (!VMTI_OK(answer))
        die("refused", path);
    p->sheet_size = VMTI_COUNT(answer);
}

static void get_input(struct input *p, const char *path)
{
    const char *slash = strrchr(path, '/'), *name = slash != NULL ? slash + 1 : path, *dot = strrchr(name, '.');
    const size_t letters = dot != NULL ? (size_t)(dot - name) : 0;

    if (letters == 0 || letters >= sizeof p->name)
        die("no such input", path);
    memcpy(p->name, name, letters);
    p->name[letters] = 0;
    if (strcmp(dot, ".packet") == 0) {
        get_packet(p, path);
        get_targets(p, path);
    } else {
        p->size = 0;
        p->sheet_size = get_bytes(p->sheet, sizeof p->sheet, path);
    }
}

/* The calls, each made on the packet or on its sheet, and given room. The edits put set tag 9, and tag 4 of the target 1. */
static uint64_t call_read(const struct input *p)
{
    return vmti_read(p->form, p->bytes, p->size, out, sizeof out);
}

static uint64_t call_write(const struct input *p)
{
    return vmti_write(p->sheet, p->sheet_size, out, sizeof out);
}

static uint64_t call_normalise(const struct input *p)
{
    return vmti_normalise(p->form, p->bytes, p->size, out, sizeof out);
}

static uint64_t call_edit(const struct input *p)
{
    static const uint8_t value[] = {1, 0};
    return vmti_edit(p->form, p->bytes, p->size, VMTI_SET, 0, 9, VMTI_PUT, value, sizeof value, out, sizeof out);
}

/* Puts the row and the column, tags 19 and 20, of the target 1. */
static uint64_t call_edit_two(const struct input *p)
{
    static const uint8_t row[] = {2, 17}, column[] = {5, 131};
    return vmti_edit_two(p->form, p->bytes, p->size, VMTI_TARGET, 1, 19, VMTI_PUT, row, sizeof row, 20, VMTI_PUT, column,
                         sizeof column, out, sizeof out);
}

static uint64_t call_edit_target(const struct input *p)
{
    static const uint8_t value[] = {1};
    return vmti_edit(p->form, p->bytes, p->size, VMTI_TARGET, 1, 4, VMTI_PUT, value, sizeof value, out, sizeof out);
}

static uint64_t call_add_target(const struct input *p)
{
    return vmti_add_target(p->form, p->bytes, p->size, p->records, p->records_size, out, sizeof out);
}

static uint64_t call_drop_target(const struct input *p)
{
    return vmti_drop_target(p->form, p->bytes, p->size, p->target, out, sizeof out);
}

enum { WRITE, READ, NORMALISE, EDIT, EDIT_TARGET, EDIT_TWO, ADD_TARGET, DROP_TARGET, CALLS };

static const struct {
    const char *name;
    uint64_t (*make)(const struct input *p);
} calls[CALLS] = {{"write", call_write}, {"read", call_read}, {"normalise", call_normalise}, {"edit", call_edit},
                  {"edit-target", call_edit_target}, {"edit-two", call_edit_two}, {"add-target", call_add_target},
                  {"drop-target", call_drop_target}};

/* Whether a call is made on an input, and the bytes that it is given. */
static int is_for(const struct input *p, int which)
{
    if (which == ADD_TARGET || which == DROP_TARGET) {
        if (p->size == 0 || (which == ADD_TARGET ? p->records_size : p->target_size) == 0)
            return 0;
        if (!VMTI_OK(calls[which].make(p)))
            die("refused", calls[which].name);
        return 1;
    }
    return p->size > 0 || which == WRITE;
}

static size_t given(const struct input *p, int which)
{
    return which == WRITE ? p->sheet_size : p->size;
}

static struct input p;

/* Nanoseconds of so many calls. */
static double round_of(int which, unsigned long times)
{
    struct timespec start, end;
    clock_gettime(CLOCK_MONOTONIC, &start);
    while (times-- > 0)
        calls[which].make(&p);
    clock_gettime(CLOCK_MONOTONIC, &end);
    return 1e9 * (double)(end.tv_sec - start.tv_sec) + (double)(end.tv_nsec - start.tv_nsec);
}

/* The least of the rounds, for one call. */
static double time_of(int which)
{
    unsigned long times = 1;
    double one, least = 1e30;
    int r;

    while (round_of(which, times) < ROUND / 8)
        times *= 2;
    one = round_of(which, times) / (double)times;
    times = one < ROUND ? (unsigned long)(ROUND / one) : 1;
    for (r = 0; r < ROUNDS; r++) {
        const double all = round_of(which, times);
        if (all < least)
            least = all;
    }
    return least / (double)times;
}

static int count(const char *call, unsigned long times, const char *path)
{
    int which;
    get_input(&p, path);
    for (which = 0; which < CALLS; which++)
        if (strcmp(calls[which].name, call) == 0 && is_for(&p, which))
            round_of(which, times);
    return 0;
}

int main(int argc, char **argv)
{
    int i, which;
    if (argc == 5 && strcmp(argv[1], "count") == 0)
        return count(argv[2], strtoul(argv[3], NULL, 10), argv[4]);
    for (i = 1; i < argc; i++) {
        get_input(&p, argv[i]);
        for (which = 0; which < CALLS; which++) {
            if (!is_for(&p, which))
                continue;
            printf("%s %s %zu %.1f\n", calls[which].name, p.name, given(&p, which), time_of(which));
            fflush(stdout);
        }
    }
    return 0;
}
