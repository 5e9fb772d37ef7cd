/* items.c -- one table of the tags, one of the refusals, and how a value is put in words */
#include <inttypes.h>
#include <stdarg.h>
#include <stdio.h>
#include <time.h>
#include "items.h"

/* What a value is. Only numbers lose leading zeros; the time stamp is bytes, and is shown as a time besides. */
enum kind { BYTES, NUMBER, TEXT, TIME };

/* Names: ST 0903.6, Tables 9 and 10. Kinds: document 01, Items. */
static const struct tagged {
    int level;
    unsigned tag;
    enum kind kind;
    const char *name;
} table[] = {
    {VMTI_SET, 1, BYTES, "checksum"},
    {VMTI_SET, 2, TIME, "precisionTimeStamp"},
    {VMTI_SET, 3, TEXT, "vmtiSystemName"},
    {VMTI_SET, 4, NUMBER, "vmtiLsVersionNum"},
    {VMTI_SET, 5, NUMBER, "totalNumTargetsDetected"},
    {VMTI_SET, 6, NUMBER, "numTargetsReported"},
    {VMTI_SET, 7, BYTES, "(deprecated)"},
    {VMTI_SET, 8, NUMBER, "frameWidth"},
    {VMTI_SET, 9, NUMBER, "frameHeight"},
    {VMTI_SET, 10, TEXT, "vmtiSourceSensor"},
    {VMTI_SET, 11, BYTES, "vmtiHorizontalFov"},
    {VMTI_SET, 12, BYTES, "vmtiVerticalFov"},
    {VMTI_SET, 13, BYTES, "miisId"},
    {VMTI_SET, SERIES_TAG, BYTES, "vTargetSeries"},
    {VMTI_SET, 102, BYTES, "algorithmSeries"},
    {VMTI_SET, 103, BYTES, "ontologySeries"},
    {VMTI_TARGET, 1, NUMBER, "targetCentroid"},
    {VMTI_TARGET, 2, NUMBER, "boundingBoxTopLeft"},
    {VMTI_TARGET, 3, NUMBER, "boundingBoxBottomRight"},
    {VMTI_TARGET, 4, BYTES, "targetPriority"},
    {VMTI_TARGET, 5, BYTES, "targetConfidenceLevel"},
    {VMTI_TARGET, 6, NUMBER, "targetHistory"},
    {VMTI_TARGET, 7, BYTES, "percentageOfTargetPixels"},
    {VMTI_TARGET, 8, BYTES, "targetColor"},
    {VMTI_TARGET, 9, NUMBER, "targetIntensity"},
    {VMTI_TARGET, 10, BYTES, "targetLocationOffsetLat"},
    {VMTI_TARGET, 11, BYTES, "targetLocationOffsetLon"},
    {VMTI_TARGET, 12, BYTES, "targetHae"},
    {VMTI_TARGET, 13, BYTES, "boundingBoxTopLeftLatOffset"},
    {VMTI_TARGET, 14, BYTES, "boundingBoxTopLeftLonOffset"},
    {VMTI_TARGET, 15, BYTES, "boundingBoxBottomRightLatOffset"},
    {VMTI_TARGET, 16, BYTES, "boundingBoxBottomRightLonOffset"},
    {VMTI_TARGET, 17, BYTES, "targetLocation"},
    {VMTI_TARGET, 18, BYTES, "geospatialContourSeries"},
    {VMTI_TARGET, 19, NUMBER, "centroidPixRow"},
    {VMTI_TARGET, 20, NUMBER, "centroidPixCol"},
    {VMTI_TARGET, 21, BYTES, "(deprecated)"},
    {VMTI_TARGET, 22, NUMBER, "algorithmId"},
    {VMTI_TARGET, 23, BYTES, "detectionStatus"},
    {VMTI_TARGET, 101, BYTES, "vMask"},
    {VMTI_TARGET, 102, BYTES, "(deprecated)"},
    {VMTI_TARGET, 103, BYTES, "(deprecated)"},
    {VMTI_TARGET, 104, BYTES, "vTracker"},
    {VMTI_TARGET, 105, BYTES, "vChip"},
    {VMTI_TARGET, 106, BYTES, "vChipSeries"},
    {VMTI_TARGET, 107, BYTES, "vObjectSeries"},
};

static const struct tagged not_listed = {VMTI_SET, 0, BYTES, "(private)"};

/* By number, from 0 on. */
static const char *const refusals[] = {
    "accepted",
    "over the limit of 8,192 bytes",
    "not the key of a standalone packet",
    "a tag, a target id or a length is cut off",
    "not a tag",
    "not a length, or the checksum's length is not in one byte",
    "a value runs past the end of what holds it, or the packet's own length is not exact",
    "a value has no bytes",
    "not a target id",
    "a tag stands twice in the set or in one target",
    "a target id stands twice",
    "a value is longer or shorter than its tag allows",
    "a pixel is 0, and pixels count from 1",
    ("an item may not stand there: a checksum in an embedded packet or before the end, "
     "or an offset from the frame centre in a standalone packet"),
    "a standalone packet must begin with its time stamp, end with its checksum, and have a location for each target",
    "the checksum differs",
    "the room for the answer is too short",
    "not a sheet",
    "there is no such target, or no such item to remove",
    ("an edit may not name this tag: the set's 1 and 101, and 0 and those above 16,383; "
     "nor make two changes to the set, or to one item"),
    "a centroid has a row without a column, or a column without a row: tags 19 and 20 stand together",
};

void words_clear(struct words *words)
{
    words->len = 0;
    words->text[0] = '\0';
}

void words_add(struct words *words, const char *format, ...)
{
    size_t room = sizeof words->text - words->len;
    va_list rest;
    int added;

    va_start(rest, format);
    added = vsnprintf(words->text + words->len, room, format, rest);
    va_end(rest);
    if (added > 0)
        words->len += (size_t)added < room ? (size_t)added : room - 1;
}

void words_add_text(struct words *words, const void *bytes, size_t len)
{
    const uint8_t *byte = bytes;
    size_t i;

    for (i = 0; i < len; i++) {
        if (byte[i] == '\\' || byte[i] == '"')
            words_add(words, "\\%c", byte[i]);
        else if (byte[i] >= 0x20 && byte[i] < 0x7F)
            words_add(words, "%c", byte[i]);
        else
            words_add(words, "\\x%02X", byte[i]);
    }
}

static const struct tagged *listed(int level, uint64_t tag)
{
    size_t i;

    for (i = 0; i < sizeof table / sizeof table[0]; i++)
        if (table[i].level == level && table[i].tag == tag)
            return &table[i];
    return &not_listed;
}

const char *item_name(int level, uint64_t tag)
{
    return listed(level, tag)->name;
}

uint64_t number_of(const uint8_t *bytes, size_t len)
{
    uint64_t number = 0;

    while (len-- > 0)
        number = number << 8 | *bytes++;
    return number;
}

/* Microseconds from 1970 on, as 2026-06-14T09:31:05.25Z. */
static void add_time(struct words *words, uint64_t microseconds)
{
    time_t seconds = (time_t)(microseconds / 1000000);
    unsigned part = (unsigned)(microseconds % 1000000);
    int digits = 6;
    struct tm *utc = gmtime(&seconds);

    if (utc == NULL)
        return;
    words_add(words, "%d-%02d-%02dT%02d:%02d:%02d", utc->tm_year + 1900, utc->tm_mon + 1, utc->tm_mday, utc->tm_hour,
              utc->tm_min, utc->tm_sec);
    for (; part != 0 && part % 10 == 0; digits--)
        part /= 10;
    if (part != 0)
        words_add(words, ".%0*u", digits, part);
    words_add(words, "Z ");
}

void words_add_value(struct words *words, int level, uint64_t tag, const uint8_t *value, size_t len, const char *between)
{
    size_t i;

    switch (listed(level, tag)->kind) {
    case NUMBER:
        words_add(words, "%" PRIu64 " ", number_of(value, len));
        break;
    case TEXT:
        words_add(words, "\"");
        words_add_text(words, value, len);
        words_add(words, "\" ");
        break;
    case TIME:
        add_time(words, number_of(value, len));
        break;
    case BYTES:
        break;
    }
    for (i = 0; i < len; i++)
        words_add(words, "%s%02X", i == 0 ? "[" : between, value[i]);
    words_add(words, "]");
}

const char *refusal_words(unsigned number)
{
    return number < sizeof refusals / sizeof refusals[0] ? refusals[number] : "refused";
}
