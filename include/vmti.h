/* vmti.h -- VMTI packets (MISB ST 0903.6) for C and C++
 *
 * The library reads, writes and edits the packets that aerial detectors send:
 * lists of targets, in one of two forms.
 *
 *   embedded     only the value, as ST 0601 carries it in Item 74
 *   standalone   the 16-byte key, a BER length, and exactly that many bytes
 *
 * Seven calls:
 *
 *   vmti_read        a packet to its sheet, a row of plain records
 *   vmti_write       a sheet to its packet
 *   vmti_normalise   a packet to its normal form, to compare or to keep
 *   vmti_edit        a packet with one item put or removed, and every other
 *                    byte kept
 *   vmti_edit_two    the same with two items of one target, judged as one
 *   vmti_add_target  a packet with a target added, at the series' end
 *   vmti_drop_target a packet with a target removed, and all its items
 *
 * They are for x86-64 Linux, and need no other library. `make install` of the
 * source tree puts them in place; then
 *
 *   cc viewer.c $(pkg-config --cflags --libs vmti)
 *
 * A whole program: prints the sheet of a packet in hex.
 *
 *     #include <stdio.h>
 *     #include <vmti.h>
 *
 *     int main(void)
 *     {
 *         static const uint8_t packet[] = {0x05, 0x01, 0x02, 0x65, 0x0A, 0x09, 0x01, 0x13,
 *                                          0x02, 0x03, 0x68, 0x14, 0x02, 0x04, 0x71};
 *         static uint8_t sheet[VMTI_SHEET_MAX];
 *         uint64_t answer = vmti_read(VMTI_EMBEDDED, packet, sizeof packet, sheet, sizeof sheet);
 *         size_t i;
 *
 *         if (!VMTI_OK(answer)) {
 *             printf("refused %u at %zu\n", VMTI_NUMBER(answer), VMTI_PLACE(answer));
 *             return 1;
 *         }
 *         for (i = 0; i < VMTI_COUNT(answer); i++)
 *             printf("%02X ", sheet[i]);
 *         puts("");
 *         return 0;
 *     }
 *
 * It prints, in one line,
 *
 *     50 4B 00 49 54 00 05 00 01 02 54 53 54 47 00 00 00 00 00
 *     00 00 01 54 49 00 13 00 02 03 68 54 49 00 14 00 02 04 71
 *
 *
 * The one number
 * --------------
 *
 * A call answers with one number: 256 times a place or count, plus a refusal
 * number. Take it apart with
 *
 *   VMTI_OK(answer)       whether it is a success
 *   VMTI_COUNT(answer)    on success how many bytes were written
 *   VMTI_NUMBER(answer)   0 for success, else a refusal number, as below
 *   VMTI_PLACE(answer)    on a refusal its place, as below
 *
 * The first fault of the input, left to right, is the one that is answered.
 *
 *
 * What is lent
 * ------------
 *
 * A buffer is a pointer and a length in bytes.
 *
 *   NULL         may be lent where the length is 0: the pointer is then not
 *                used. Nowhere else
 *   alignment    any
 *   overlap      the output may not overlap an input. Two inputs may overlap
 *   inputs       are never changed
 *   output       what stood in it before does not matter
 *     success    its first VMTI_COUNT(answer) bytes are written, and those
 *                after them are as they were
 *     refusal    every byte is as it was
 *
 * Nothing outside the lengths given is read or written. No pointer is kept
 * after the call. Packets and sheets are bytes, with their numbers high byte
 * first: the order of bytes in this machine's numbers does not matter.
 *
 *
 * What a call does not do
 * -----------------------
 *
 * It does not allocate, print, lock, set errno, raise a signal or call any
 * other library (C's memset is all that the archive needs), and there is no
 * state: nothing to start, end or free. So every call may be made from any
 * thread at any time, and from a signal handler, as long as no one changes the
 * lent bytes while it runs.
 *
 * It takes at most 3,808 bytes of stack, whatever the input: its return address
 * and all below it, summed up over the compiled code (a signal stack of
 * MINSIGSTKSZ may have fewer; a linker that looks memset up at its first call
 * takes more, so link with -z now where the stack is small). It ends for every
 * input. Usual packets take microseconds, and the worst packets timed under
 * half a millisecond; only where thousands of target ids are alike in their
 * last 14 bits does the time grow with the square of their count.
 *
 * The calls were proved: what is said here of numbers, places and bytes holds
 * for all inputs. What is said of NULL and alignment is tested, not proved.
 */
#ifndef VMTI_H
#define VMTI_H

#include <stddef.h>
#include <stdint.h>

#ifdef __cplusplus
extern "C" {
#endif

/* The version of the library, as text and as a number: 1,000,000 times the
 * first part, plus 1,000 times the second, plus the third. */
#define VMTI_VERSION "1.2.0"
#define VMTI_VERSION_NUMBER 1002000

/* Sizes that always suffice. */
#define VMTI_PACKET_MAX 8192           /* bytes of a packet. A longer one is refused with 1, and none is written */
#define VMTI_SHEET_MAX 65536           /* bytes of a sheet. A longer one is refused with 1, and none is written */
#define VMTI_SHEET_OF_PACKET_MAX 40963 /* bytes of the sheet that vmti_read writes: never more, so less room will do */
#define VMTI_ROWS_MAX 4096             /* items and packs of a packet, checksum and series with them: the rows that
                                        * vmtirows prints. No accepted sheet has more records, so a table of your own
                                        * with so many entries has one for each */

/* The parts of the one number. VMTI_NUMBER is an unsigned, VMTI_PLACE and
 * VMTI_COUNT are a size_t, VMTI_OK is true or false. Each uses its argument
 * once. */
#define VMTI_NUMBER(answer) VMTI_CAST_(unsigned, (answer) & 255u)
#define VMTI_PLACE(answer) VMTI_CAST_(size_t, (answer) >> 8)
#define VMTI_COUNT(answer) VMTI_PLACE(answer)
#define VMTI_OK(answer) (VMTI_NUMBER(answer) == 0u)

#ifdef __cplusplus
#define VMTI_CAST_(type, value) static_cast<type>(value)
#else
#define VMTI_CAST_(type, value) ((type)(value))
#endif

/* The choices. Each is a number: 0 is the first, any other number the second. */
#define VMTI_EMBEDDED 0   /* form: the value alone */
#define VMTI_STANDALONE 1 /* form: the key, a length and the value */
#define VMTI_SET 0        /* an edit's level: an item of the set */
#define VMTI_TARGET 1     /* an edit's level: an item of a target */
#define VMTI_PUT 0        /* an edit's removal: a value is put */
#define VMTI_REMOVE 1     /* an edit's removal: the item is removed */

/* The refusal numbers: when each is answered, and its place.
 *
 * A place is counted in bytes from the input's first byte. In the table it is
 *
 *   item     in a packet where the item's tag begins; in a sheet where its
 *            record IT or TI begins
 *   pack     in a packet where the pack's length begins; in a sheet where the
 *            target's record TG begins
 *   end      the input's length
 *
 * and never the faulty byte within. A fault of the outer length, the one after
 * the key, is at 0. So are an edit's own refusals and those of a target added or
 * dropped, which are no faults of a packet (see vmti_edit), but for 16.
 *
 *                                    when                                                    place
 *                                    ------------------------------------------------------  ---------------------- */
#define VMTI_OVER_LIMIT 1          /* packet over VMTI_PACKET_MAX or sheet over               0
                                    * VMTI_SHEET_MAX; or the packet to be written would be                           */
#define VMTI_NOT_THE_KEY 2         /* standalone: not this key, or under 16 bytes             0                      */
#define VMTI_CUT_OFF 3             /* tag, id or length cut off by the end of what holds it   item, pack or 0        */
#define VMTI_BAD_TAG 4             /* tag: first byte 80, value 0, or a third byte needed     item                   */
#define VMTI_BAD_LENGTH 5          /* length: first byte 80 or 85..FF; or the length of set   item, pack or 0
                                    * tag 1 not in one byte                                                          */
#define VMTI_PAST_END 6            /* value past the end of what holds it; outer length not   item, pack or 0
                                    * exact                                                                          */
#define VMTI_EMPTY_VALUE 7         /* value of length 0                                       item                   */
#define VMTI_BAD_ID 8              /* id: first byte 80, or a tenth byte needed               pack                   */
#define VMTI_TAG_REPEATED 9        /* tag repeated in its level                               item, the second
                                    * sheet: a second TS                                      that TS                */
#define VMTI_ID_REPEATED 10        /* id repeated                                             pack, the second
                                    * added target: its id stands already                     0                      */
#define VMTI_LENGTH_NOT_ALLOWED 11 /* length not allowed for the tag                          item                   */
#define VMTI_PIXEL_ZERO 12         /* value 0 of a number that counts from 1                  item                   */
#define VMTI_MAY_NOT_STAND 13      /* set tag 1 in embedded, or not at the very end; pack     item
                                    * tag 10, 11 or 13 to 16 in standalone                                           */
#define VMTI_MISSING 14            /* standalone: the first item is not tag 2                 item, or TS in a sheet
                                    * no tag 1 at the packet's end; nothing after PK          end
                                    * a pack without tag 17                                   pack
                                    * edit, added target: the packet would be so              0                      */
#define VMTI_CHECKSUM_DIFFERS 15   /* checksum differs                                        item, the set's tag 1  */
#define VMTI_ROOM_TOO_SHORT 16     /* the output is too short, and nothing else is wrong      none: the bytes needed */
#define VMTI_BAD_RECORD 17         /* sheet: cut or unknown record, bad form byte, record     the record
                                    * where it may not stand, TS with no TG next, tag 0 or
                                    * above 16,383, IT with 1 or 101, id of 2^63 or more, or
                                    * a number that is not shortest
                                    * added target: the same of its records, or they are not  0
                                    * one TG with its TIs                                                            */
#define VMTI_ABSENT 18             /* edit: no such target, or removal of an absent item      0
                                    * drop: no such target                                    0                      */
#define VMTI_NOT_EDITABLE 19       /* edit: tag 0 or above 16,383, or the set's 1 or 101; a   0
                                    * second change with the first's tag, or to the set                              */
#define VMTI_HALF_CENTROID 20      /* a pack with one of tags 19 and 20 without the other     pack
                                    * edit, added target: the target would be so              0                      */

/* Reads a packet to its sheet.
 *
 *   form         VMTI_EMBEDDED or VMTI_STANDALONE
 *   packet       packet_len bytes
 *   sheet        room for sheet_room bytes; VMTI_SHEET_MAX always suffices
 *
 * Answers
 *
 *   success      VMTI_COUNT(answer) bytes of sheet were written
 *   1 to 15, 20  the packet is refused; 2, 14 and 15 only in standalone
 *   16           it is not, and the sheet needs VMTI_PLACE(answer) bytes
 *
 * So a call with no room at all, sheet NULL and sheet_room 0, only checks: it
 * answers 16 and the sheet's size for an accepted packet, else its refusal.
 *
 * The sheet is a row of records, each after a mark of two letters, its numbers
 * high byte first; in brackets, their bytes:
 *
 *   PK form (1)                          once, first: 0 embedded, 1 standalone
 *   IT tag (2), length (2), value        an item of the set, never tag 1 or 101
 *   TS                                   where the series of targets stands
 *   TG id (8)                            a target
 *   TI tag (2), length (2), value        an item of the target before it
 *
 * Items stand in the packet's order. A value that is a number has no leading
 * zero bytes, but 0 is one byte; any other is as it stood, byte for byte. Two
 * packets mean the same exactly when their sheets are equal.
 *
 * An example: the bytes of one record, to step from each to the next.
 *
 *     size_t record_size(const uint8_t *record)
 *     {
 *         switch (record[1]) {
 *         case 'K': return 3;
 *         case 'S': return 2;
 *         case 'G': return 10;
 *         default: return 6u + record[4] * 256u + record[5]; // IT and TI
 *         }
 *     }
 */
uint64_t vmti_read(uint64_t form, const uint8_t *packet, size_t packet_len, uint8_t *sheet, size_t sheet_room);

/* Writes a sheet to its packet, in the form that the sheet names.
 *
 *   sheet        sheet_len bytes, records as vmti_read writes them
 *   packet       room for packet_room bytes; VMTI_PACKET_MAX always suffices
 *
 * Answers
 *
 *   success      VMTI_COUNT(answer) bytes of packet were written
 *   1            sheet_len is over VMTI_SHEET_MAX, or the packet would have
 *                over VMTI_PACKET_MAX bytes
 *   7, 9 to 14   a record breaks the rules for items, which are a packet's
 *   20           a target has one of tags 19 and 20 without the other
 *   17           a record is not one, or may not stand there
 *   16           no fault, and the packet needs VMTI_PLACE(answer) bytes
 *
 * The packet has shortest lengths and a fresh checksum. Reading it gives the
 * very sheet again.
 *
 * An example: the shortest standalone packet, a time stamp and nothing else.
 *
 *     uint64_t write_stamp(const uint8_t stamp[8], uint8_t packet[VMTI_PACKET_MAX])
 *     {
 *         uint8_t sheet[] = {'P', 'K', VMTI_STANDALONE, 'I', 'T', 0, 2, 0, 8, 0, 0, 0, 0, 0, 0, 0, 0};
 *
 *         memcpy(sheet + sizeof sheet - 8, stamp, 8);
 *         return vmti_write(sheet, sizeof sheet, packet, VMTI_PACKET_MAX);
 *     }
 */
uint64_t vmti_write(const uint8_t *sheet, size_t sheet_len, uint8_t *packet, size_t packet_room);

/* Writes a packet's normal form: what vmti_write makes of the sheet that
 * vmti_read gives, with no sheet between.
 *
 *   form         VMTI_EMBEDDED or VMTI_STANDALONE
 *   packet       packet_len bytes
 *   out          room for out_room bytes; packet_len always suffices, and so
 *                does VMTI_PACKET_MAX
 *
 * Answers
 *
 *   success      VMTI_COUNT(answer) bytes of out were written
 *   1 to 15, 20  the packet is refused, as vmti_read refuses it
 *   16           it is not, and the normal form needs VMTI_PLACE(answer) bytes
 *
 * Two accepted packets of one form mean the same exactly when their normal
 * forms are equal. Lengths become shortest, and only values that are numbers
 * lose leading zero bytes: of the set's tags 4 to 6, 8 and 9, of a pack's 1 to
 * 3, 6, 9, 19, 20 and 22.
 *
 * An example: whether two packets mean the same.
 *
 *     int mean_the_same(uint64_t form, const uint8_t *one, size_t one_len, const uint8_t *other, size_t other_len)
 *     {
 *         uint8_t a[VMTI_PACKET_MAX], b[VMTI_PACKET_MAX];
 *         uint64_t answer = vmti_normalise(form, one, one_len, a, sizeof a);
 *
 *         return VMTI_OK(answer) && vmti_normalise(form, other, other_len, b, sizeof b) == answer
 *             && memcmp(a, b, VMTI_COUNT(answer)) == 0;
 *     }
 */
uint64_t vmti_normalise(uint64_t form, const uint8_t *packet, size_t packet_len, uint8_t *out, size_t out_room);

/* Puts or removes one item of a packet, and keeps every other byte.
 *
 *   form         VMTI_EMBEDDED or VMTI_STANDALONE
 *   packet       packet_len bytes
 *   level        VMTI_SET, or VMTI_TARGET for the target with the id `target`
 *   target       a target's id; not looked at for the set
 *   tag          the item's tag
 *   removal      VMTI_PUT or VMTI_REMOVE
 *   value        value_len bytes to put; for a removal not looked at, NULL and 0
 *   out          room for out_room bytes; VMTI_PACKET_MAX always suffices
 *
 * Putting over an item replaces it in its place; a new one is added at the end
 * of its level, before the checksum. A number is first shortened. The lengths
 * of the item, of its pack, of the series and of the packet are written
 * shortest, and the checksum is fresh; all other bytes are kept, in order.
 *
 * Answers, in this order
 *
 *   1 to 15, 20  the packet is refused, as vmti_read refuses it
 *   19           the tag cannot be edited
 *   18           no target has that id; removal: the item is not there
 *   7            put: value_len is 0
 *   13           put: the item may not stand there, in standalone
 *   11, 12       put: the length is not allowed, or the value may not be 0
 *   20           the target would have one of tags 19 and 20 without the other:
 *                put or remove both with vmti_edit_two
 *   14           removal: the item may not be missing, in standalone
 *   1            the edited packet would have over VMTI_PACKET_MAX bytes
 *   16           no fault, and it needs VMTI_PLACE(answer) bytes
 *   success      VMTI_COUNT(answer) bytes of out were written
 *
 * From 19 on the place is 0, but for 16. The packet's own refusal may be at 0
 * too: vmti_read with no room tells, by 16, that the packet has no fault.
 *
 * For one edit after another let two buffers take turns as packet and out.
 *
 * An example: corrects the row of a target's centre, tag 19, as four bytes.
 *
 *     uint64_t put_row(uint64_t form, const uint8_t *packet, size_t packet_len, uint64_t target,
 *                      const uint8_t row[4], uint8_t out[VMTI_PACKET_MAX])
 *     {
 *         return vmti_edit(form, packet, packet_len, VMTI_TARGET, target, 19, VMTI_PUT, row, 4,
 *                          out, VMTI_PACKET_MAX);
 *     }
 */
uint64_t vmti_edit(uint64_t form, const uint8_t *packet, size_t packet_len, uint64_t level, uint64_t target, uint64_t tag,
                   uint64_t removal, const uint8_t *value, size_t value_len, uint8_t *out, size_t out_room);

/* Makes two changes to one target, each a put or a removal, with two different
 * tags, and keeps every other byte. Between the two nothing is judged but the
 * second change itself: so a centroid, tags 19 and 20, is added or removed.
 *
 *   form to target   as for vmti_edit. There is no second change to the set:
 *                    VMTI_SET is answered 19 in the second change's turn
 *   tag to value_len the first change, as for vmti_edit
 *   tag2, removal2, value2, value2_len
 *                    the second, made after it
 *   out              room for out_room bytes; VMTI_PACKET_MAX always suffices
 *
 * Two new items are added in the order given. All else is as vmti_edit has it.
 *
 * Answers, in this order
 *
 *   1 to 15, 20  the packet is refused, as vmti_read refuses it
 *   19, 18, 7, 13, 11, 12
 *                the first change, as vmti_edit answers it
 *   19, 18, 7, 13, 11, 12
 *                the second change; 19 also if its tag is the first's, or the
 *                level is the set
 *   20           the target would have one of tags 19 and 20 without the other
 *   14           an item that may not be missing would be, in standalone
 *   1            the edited packet would have over VMTI_PACKET_MAX bytes
 *   16           no fault, and it needs VMTI_PLACE(answer) bytes
 *   success      VMTI_COUNT(answer) bytes of out were written
 *
 * From the first 19 on the place is 0, but for 16. Where two calls of vmti_edit
 * go through, one after the other, they write the very bytes of this one.
 *
 * An example: puts a target's centre, its row and its column as four bytes each.
 *
 *     uint64_t put_centre(uint64_t form, const uint8_t *packet, size_t packet_len, uint64_t target,
 *                         const uint8_t row[4], const uint8_t column[4], uint8_t out[VMTI_PACKET_MAX])
 *     {
 *         return vmti_edit_two(form, packet, packet_len, VMTI_TARGET, target, 19, VMTI_PUT, row, 4,
 *                              20, VMTI_PUT, column, 4, out, VMTI_PACKET_MAX);
 *     }
 */
uint64_t vmti_edit_two(uint64_t form, const uint8_t *packet, size_t packet_len, uint64_t level, uint64_t target, uint64_t tag,
                       uint64_t removal, const uint8_t *value, size_t value_len, uint64_t tag2, uint64_t removal2,
                       const uint8_t *value2, size_t value2_len, uint8_t *out, size_t out_room);

/* Adds a target to a packet, after its last one, and keeps every other byte.
 *
 *   form         VMTI_EMBEDDED or VMTI_STANDALONE
 *   packet       packet_len bytes
 *   records      records_len bytes: the target as a sheet has it, one record TG
 *                and then its records TI, none or more. There is no limit but
 *                that of the packet with the target
 *   out          room for out_room bytes; VMTI_PACKET_MAX always suffices
 *
 * The target's pack is added at the end of the series. Where there is no series,
 * one comes with its first target: tag 101, at the end of the set, before the
 * checksum. The set's tag 6, if it is there, becomes the number of packs, in its
 * place; tag 5 is not touched. The lengths of the pack, of tag 6, of the series
 * and of the packet are written shortest, and the checksum is fresh; all other
 * bytes are kept, in order.
 *
 * Answers, in this order
 *
 *   1 to 15, 20  the packet is refused, as vmti_read refuses it
 *   17, 7, 9, 13, 11, 12, 17
 *                a record of the target, one after another: it is not one, or may
 *                not stand there; it breaks the rules for items; last, it has a
 *                number that is not shortest. No record at all is 17 too
 *   10           a target of the packet has that id already
 *   20           the target has one of tags 19 and 20 without the other
 *   14           it has no tag 17, in standalone
 *   1            the packet would have over VMTI_PACKET_MAX bytes
 *   16           no fault, and it needs VMTI_PLACE(answer) bytes
 *   success      VMTI_COUNT(answer) bytes of out were written
 *
 * From the first 17 on the place is 0, but for 16. The packet's own refusal may
 * be at 0 too: vmti_read with no room tells, by 16, that the packet has no fault.
 * Which record has one the call itself tells: made with TG alone and then with
 * one TI more each time, it first answers 7, 9, 11, 12, 13 or 17 with that one.
 *
 * An example: adds a missed animal by its location, tag 17, as ten bytes.
 *
 *     uint64_t add_missed(uint64_t form, const uint8_t *packet, size_t packet_len, uint64_t target,
 *                         const uint8_t location[10], uint8_t out[VMTI_PACKET_MAX])
 *     {
 *         uint8_t records[26] = {'T', 'G', 0, 0, 0, 0, 0, 0, 0, 0, 'T', 'I', 0, 17, 0, 10};
 *         int i;
 *
 *         for (i = 0; i < 8; i++)
 *             records[2 + i] = (target >> (56 - 8 * i)) & 255;
 *         memcpy(records + 16, location, 10);
 *         return vmti_add_target(form, packet, packet_len, records, sizeof records, out, VMTI_PACKET_MAX);
 *     }
 */
uint64_t vmti_add_target(uint64_t form, const uint8_t *packet, size_t packet_len, const uint8_t *records, size_t records_len,
                         uint8_t *out, size_t out_room);

/* Drops a target of a packet, with all its items, and keeps every other byte.
 *
 *   form         VMTI_EMBEDDED or VMTI_STANDALONE
 *   packet       packet_len bytes
 *   target       the target's id
 *   out          room for out_room bytes; VMTI_PACKET_MAX always suffices
 *
 * The last target takes the series along, tag 101. The set's tag 6, if it is
 * there, becomes the number of packs that are left, 0 with the last, in its
 * place; all else is as vmti_add_target has it.
 *
 * Answers, in this order
 *
 *   1 to 15, 20  the packet is refused, as vmti_read refuses it
 *   18           no target has that id
 *   16           one has, and the packet without it needs VMTI_PLACE(answer) bytes
 *   success      VMTI_COUNT(answer) bytes of out were written
 *
 * The place of 18 is 0. A packet without a target is never over the limit: 1 is
 * the packet's own.
 *
 * An example: drops a target that is no animal.
 *
 *     uint64_t drop_false(uint64_t form, const uint8_t *packet, size_t packet_len, uint64_t target,
 *                         uint8_t out[VMTI_PACKET_MAX])
 *     {
 *         return vmti_drop_target(form, packet, packet_len, target, out, VMTI_PACKET_MAX);
 *     }
 */
uint64_t vmti_drop_target(uint64_t form, const uint8_t *packet, size_t packet_len, uint64_t target, uint8_t *out,
                          size_t out_room);

#ifdef __cplusplus
}
#endif

#endif
