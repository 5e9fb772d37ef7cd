/* Runs the examples of vmti.h on those of document 01. tests/example takes them out of the header, to examples.h. */
#include <stdio.h>
#include <string.h>
#include <vmti.h>
#include "examples.h"

static int failed;

static void hold(int is_so, const char *what)
{
    failed += !is_so;
    printf("%s: %s\n", is_so ? "so" : "NOT SO", what);
}

static int is(uint64_t answer, const uint8_t *out, const void *wanted, size_t count)
{
    return answer == (uint64_t)count * 256 && memcmp(out, wanted, count) == 0;
}

int main(void)
{
    static const uint8_t a[] = {5, 1, 2, 0x65, 10, 9, 1, 19, 2, 3, 0x68, 20, 2, 4, 0x71};
    static const uint8_t b[] = {5, 0x81, 1, 2}, b_too[] = {5, 3, 0, 0, 2}, d[] = {3, 2, 0, 'A'}, not_d[] = {3, 1, 'A'};
    static const uint8_t h[] = {6, 0x0E, 0x2B, 0x34, 2, 0x0B, 1, 1, 0x0E, 1, 3, 3, 6, 0, 0, 0,
                                0x0E, 2, 8, 0, 0, 0, 0, 0, 0, 0, 0, 1, 2, 0x63, 0x55};
    static const uint8_t i[] = {5, 1, 2, 0x65, 9, 8, 1, 19, 1, 5, 20, 2, 4, 0x71};
    static const uint8_t bare[] = {0x65, 2, 1, 7}, centred[] = {0x65, 8, 7, 7, 19, 1, 5, 20, 1, 5}, row_alone[] = {0x65, 5, 4, 7, 19, 1, 5};
    static const uint8_t zeros[10] = {0}, five[4] = {0, 0, 0, 5};
    static const uint8_t counted[] = {6, 1, 9, 0x65, 2, 1, 7};
    static const uint8_t added[22] = {6, 1, 2, 0x65, 17, 1, 7, 14, 0x81, 0, 17, 10};
    static const uint8_t only[20] = {6, 1, 1, 0x65, 15, 14, 0x81, 0, 17, 10};
    static uint8_t sheet[VMTI_SHEET_OF_PACKET_MAX], out[VMTI_PACKET_MAX];
    uint64_t answer = vmti_read(VMTI_EMBEDDED, a, sizeof a, NULL, 0);
    size_t at = 0, targets = 0;
    char version[32];

    hold(VMTI_NUMBER(answer) == VMTI_ROOM_TOO_SHORT && VMTI_PLACE(answer) == 38, "no room at all: 16, and the size of A's sheet");
    answer = vmti_read(VMTI_EMBEDDED, a, sizeof a, sheet, VMTI_PLACE(answer));
    for (; VMTI_OK(answer) && at < VMTI_COUNT(answer); at += record_size(sheet + at))
        targets += memcmp(sheet + at, "TG", 2) == 0;
    hold(at == 38 && targets == 1, "record_size steps through A's sheet");

    hold(is(write_stamp(zeros, out), out, h, sizeof h), "write_stamp writes H");
    hold(mean_the_same(VMTI_EMBEDDED, b, sizeof b, b_too, sizeof b_too), "both packets of B mean the same");
    hold(!mean_the_same(VMTI_EMBEDDED, d, sizeof d, not_d, sizeof not_d), "D and a shorter name do not");
    hold(is(put_row(VMTI_EMBEDDED, a, sizeof a, 1, five, out), out, i, sizeof i), "put_row makes I of A");
    hold(put_row(VMTI_EMBEDDED, a, sizeof a, 2, five, out) == VMTI_ABSENT, "put_row of an absent target is 18 at 0");
    hold(put_row(VMTI_EMBEDDED, bare, sizeof bare, 7, five, out) == VMTI_HALF_CENTROID, "put_row alone is 20 at 0");
    hold(is(put_centre(VMTI_EMBEDDED, bare, sizeof bare, 7, five, five, out), out, centred, sizeof centred), "put_centre puts both");
    answer = vmti_read(VMTI_EMBEDDED, row_alone, sizeof row_alone, NULL, 0);
    hold(VMTI_NUMBER(answer) == VMTI_HALF_CENTROID && VMTI_PLACE(answer) == 2, "a packet with a row alone is 20 at 2");

    answer = add_missed(VMTI_EMBEDDED, counted, sizeof counted, 128, zeros, out);
    hold(is(answer, out, added, sizeof added), "add_missed adds a target, and tag 6 counts it");
    answer = add_missed(VMTI_EMBEDDED, added, sizeof added, 128, zeros, out);
    hold(answer == VMTI_ID_REPEATED, "add_missed of a target that is there is 10 at 0");
    hold(is(drop_false(VMTI_EMBEDDED, added, sizeof added, 7, out), out, only, sizeof only), "drop_false drops one");
    hold(drop_false(VMTI_EMBEDDED, added, sizeof added, 8, out) == VMTI_ABSENT, "drop_false of an absent target is 18 at 0");
    hold(is(drop_false(VMTI_EMBEDDED, bare, sizeof bare, 7, out), out, "", 0), "drop_false of the last takes the series along");
    hold(vmti_add_target(VMTI_EMBEDDED, NULL, 0, NULL, 0, NULL, 0) == VMTI_BAD_RECORD, "no record at all is 17 at 0");

    /* set tag 6 put to the value of its tag 5, lent as a part of the packet itself */
    answer = vmti_edit(VMTI_EMBEDDED, b, sizeof b, VMTI_SET, 0, 6, VMTI_PUT, b + 3, 1, out, sizeof out);
    hold(is(answer, out, "\x05\x81\x01\x02\x06\x01\x02", 7), "two inputs may overlap");
    answer = vmti_edit(VMTI_EMBEDDED, b, sizeof b, VMTI_SET, 0, 5, VMTI_REMOVE, NULL, 0, out, sizeof out);
    hold(is(answer, out, "", 0), "a removal takes NULL and 0");

    snprintf(version, sizeof version, "%d.%d.%d", VMTI_VERSION_NUMBER / 1000000, VMTI_VERSION_NUMBER / 1000 % 1000,
             VMTI_VERSION_NUMBER % 1000);
    hold(strcmp(version, VMTI_VERSION) == 0, "the version's number is its text");
    return failed > 0;
}
