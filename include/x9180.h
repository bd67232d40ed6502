/* The proved reader and writer of X9.100-180 image cash letters: their calls for C. Link with libx9180.a.
 *
 * Every call takes any bytes and gives a definite answer. The numbers are those of docs/NUMBERS.md:
 * 0 ACCEPTED, 1 SIZE, 2 ROOM, 3 CUT, 4 LENGTH, 5 TYPE, 6 PLACE, 7 FIELD, 8 LINK, 9 TOTAL, 10 OPEN, 11 AFTER,
 * 12 DUPLICATE, 13 FULL, 15 NOENTRY, 16 RANGE, 17 NOTHING, 18 TAGORDER, 19 TAGVALUE, 20 BOOK.
 *
 * A pointer must not be null, must be aligned for what it points to, and must point to as many elements as the length beside it says;
 * with length 0 it may point anywhere. What is lent to be written must not overlap what is lent to be read. The calls keep nothing and
 * write only the arrays that are lent for it. */
#ifndef X9180_H
#define X9180_H

#include <stddef.h>
#include <stdint.h>

/* The version of these calls, which the wrapper, the tool and pkg-config share (rust/Cargo.toml decides it). A number of an answer keeps its meaning and
 * its place: answers grow at their end, and then the minor number does. */
#define X9180_VERSION_MAJOR 0
#define X9180_VERSION_MINOR 1
#define X9180_VERSION_PATCH 0
#define X9180_VERSION "0.1.0"

#ifdef __cplusplus
extern "C" {
#endif

/* The reading of a whole file. `table_len` counts numbers, not rows: a row is seven numbers, and the rows available are the whole
 * sevens. Returns the number and fills `answer` with
 *   [0] the number   [1] the record, from 1   [2] the field, 0 for the whole record   [3] the offset of the record's length field
 *   [4] records   [5] cash letters   [6] bundles   [7] items: checks, returns and credits (types 25, 31 and 61)   [8] views   [9] debit cents
 *   [10] credits: 61s whose usage indicator is not 9   [11] credit cents
 * Accepted: the record is the record count, the field 0, the offset the file's length; the totals are those of the whole file; and the
 * table has a row for each record: record type; offset of the record's length field; the length; cash letter ordinal in the file; bundle
 * ordinal in its cash letter; item ordinal in its bundle; amount in cents. An ordinal is 0 where the record lies outside that level: a 61
 * directly in a cash letter, with its views, has bundle and item ordinal 0. The amount of a 25, 31 or 61 is its own, that of a 70, 90 or 99
 * the debit cents as added up, any other 0. Numbers after the last row are untouched.
 * Refused: the totals are 0 and the whole table is untouched. ROOM gives the rows needed as the record. */
uint64_t x9_read(const uint8_t *file, size_t file_len, uint64_t *table, size_t table_len, uint64_t answer[12]);

/* The reading of a file of up to 65,536 bytes by the slow reader, which follows the figures of the standard by calls in a cycle and shares no decision with
 * the first. SIZE (0, 0, 0), the table untouched, for no byte and for 65,537 and more; otherwise the number, the answer and the table of x9_read, proved for
 * every file and table. A call lies on the stack for each record read. */
uint64_t x9_read_slowly(const uint8_t *file, size_t file_len, uint64_t *table, size_t table_len, uint64_t answer[12]);

/* The picture call. In the file, at `offset`, the four-byte length of an Image View Data record (type 52) is to stand. Returns the
 * number and fills `place` with
 *   [0] the number   [1] the field at fault, 0 unless FIELD
 *   [2] where the Image Data part starts within the file   [3] its length
 * Refused: [2] and [3] are 0. An accepted image of length 0: where the part would start, and 0. */
uint64_t x9_picture(const uint8_t *file, size_t file_len, uint64_t offset, uint64_t place[4]);

/* One record judged alone, from its body (the bytes after the four-byte length). Returns the number and fills `answer` with
 *   [0] the number   [1] the field at fault, 0 unless FIELD */
uint64_t x9_record(const uint8_t *body, size_t body_len, uint64_t answer[2]);

/* The same in the character set that is told: 1 is EBCDIC (code page 037), any other number ASCII. A body does not tell its set, and
 * x9_record judges it as ASCII. A file does: x9_read and x9_picture take it as EBCDIC where its bytes 5 and 6, the first two characters
 * after the first length, are F0 F1, and as ASCII otherwise. An EBCDIC file gets the answer and the rows of its copy in ASCII, in which
 * the Binary parts of a 52 are as they were. A byte for which code page 037 has none of the 95 printable characters of clause 5 is in no
 * data type. */
uint64_t x9_record_in(const uint8_t *body, size_t body_len, uint64_t set, uint64_t answer[2]);

/* The making out of a whole file from a draft: a text of bytes, and rows of ten numbers, one for each record in the order of the file. `draft_len`
 * counts numbers, not rows; numbers after the last whole ten are not looked at. A row:
 *   [0] the record type
 *   [1] where the record's fixed part begins in the text; its parts follow there, in the order of their fields
 *   [2] for a 70, 1 asks for a blank MICR total (70.4); any other number, and in any other row, asks for nothing
 *   [3] to [9] the sizes of the parts: of a 27 or 34 six (fields 13 to 18), of a 52 seven (fields 22 to 28, [8] the picture)
 * Worked out, and not looked at in the text (nor need they lie in it): the length before each record; field 1 of every record; the lengths that
 * size parts (27.6 to 11, 34.6 to 11, 52.15 to 21); the addendum counts 25.12 and 31.8; the record numbers 26.2, 28.2, 32.2 and 35.2; 70.2 to 7;
 * 90.2 to 5, 8 and 9; 99.2 to 5 and 8. Everything else is given. The fields of a 52 that repeat its header and its item (2 to 5) are given and judged.
 * Returns the number and fills `answer` as x9_read does: 0, the records, 0, the bytes written, and the totals of the file. Only then is `out` written,
 * and only as far as the file goes. Refused, record by record, with the record, the field and the offset that the record's length field would have:
 *   PLACE   the type may not follow (nor is one that is not carried, nor anything behind a 99); where the rows end before a 99, the record after the last
 *   FIELD   the lowest field that breaks its rule or does not lie in the text; a length field that its part outgrows; 25.12 or 31.8, where more addenda
 *           follow than it can state
 *   LINK    as x9_read; field 2, where a record number is too long
 *   TOTAL   the lowest control field whose sum is too long
 * then SIZE (0, 0, 0), where the file would pass 268,435,456 bytes; then ROOM, with the bytes needed as the record. What is written x9_read accepts.
 * The text is EBCDIC (code page 037) where the two bytes at which the first row's fixed part begins are F0 F1; ASCII is written. */
uint64_t x9_write(const uint8_t *text, size_t text_len, const uint64_t *draft, size_t draft_len, uint8_t *out, size_t out_len,
                  uint64_t answer[12]);

/* The draft of an accepted file, the file itself being the text: x9_write makes the same bytes of it (of an EBCDIC file, its copy in ASCII).
 * `draft_len` counts numbers; the rows available are the whole tens. Returns the number and fills `answer` as x9_read does. Accepted: the draft has a
 * row for each record, with 0 for what x9_write does not look at; numbers after the last row are untouched. Refused: the whole draft is untouched.
 * ROOM gives the rows needed as the record. */
uint64_t x9_draft(const uint8_t *file, size_t file_len, uint64_t *draft, size_t draft_len, uint64_t answer[12]);

/* The salvage of a torn file: what is sound of it, made out as a new file, and a list of what became of each record. A record is *walked* where the lengths
 * frame it from the start: until the bytes end, fewer are left than a length says, a length is below 2, or behind the first 99, which is walked itself.
 * Its type is told by its first two characters alone, in the file's set, whether it is sound or not.
 *   Under a 10 are the records behind it, up to the next 10, 90 or 99 or the end of the walk. A *run* is, among these, what stands from a 20 to the first 70
 *   behind it with no other 20 between; or a 61 that no 20 before it has taken in, with the 50s, 52s and 54s right behind it. A run is sound where x9_read,
 *   having read a sound 01 and that 10 and nothing else, would read it through without a fault and, of a 61's run, not end behind a 50.
 *   Kept: the 01; each 10 that is sound alone (as x9_record_in judges it) with its sound runs, unless its field 8 is E, I or F and no sound run of a 20 is
 *   under it: such a cash letter is dropped whole. They are written as they stand, a blank 70.4 too.
 *   Made new: the 90 that ends the records under a kept 10, and the 99. One is written whether or not it was walked: counts and sums worked out; 90.6, 90.7,
 *   99.6 and 99.7 each as in the one walked where that field lies within its record and keeps its rule, else blank.
 *   Dropped: everything else.
 * `list_len` counts numbers, not rows: a row is four numbers, and the rows available are the whole fours. On success it has a row for each record walked, in
 * the order of the file:
 *   [0] the offset of the record's length field   [1] the record type, 0 where its first two characters are no digits
 *   [2] 0 kept, 1 made new, 2 dropped
 *   [3] 0 unless dropped; of a record in an unsound run under a 10 that is sound alone, the number of the run's first fault (LENGTH, TYPE, PLACE, FIELD, LINK
 *       or TOTAL; PLACE too where a 61's run ends behind a 50), whatever the record itself is; of any other dropped record PLACE
 * Numbers after the last row filled are untouched. So a caller learns how many were filled by lending zeros: no row but the first has offset 0.
 * Returns the number and fills `answer` as x9_write does: 0, the records written, 0, the bytes written, and the totals of the new file. Refused, in this order:
 *   SIZE      (0, 0, 0) the torn file has no byte, or more than 268,435,456
 *   NOTHING   (0, 0, 0) the first record walked is no 01 that is sound alone, or none was walked, or no cash letter is left
 *   TOTAL     as x9_write, with record, field and offset in the file being written: the lowest field of a new control whose sum is too long
 *   SIZE      (0, 0, 0) the file being written would pass 268,435,456 bytes: a new control may be more than was walked
 *   ROOM      the buffer is too short: the bytes needed as the record
 *   ROOM      the list is too short: the rows needed as the record
 * `out` and `list` are untouched on every refusal, and `out` always behind the file. What is written x9_read accepts, with the same answer; salvaged again it
 * is the same. An accepted file is written as the same bytes (of an EBCDIC file, its copy in ASCII), every record kept or made new. ASCII is written. */
uint64_t x9_salvage(const uint8_t *file, size_t file_len, uint8_t *out, size_t out_len, uint64_t *list, size_t list_len, uint64_t answer[12]);

/* The tags of one image, declared as TIFF, against X9.100-181. A call of its own: x9_read accepts a file whatever its pictures hold. The image may
 * be the part that x9_picture names. Returns the number and fills `answer` with
 *   [0] the number   [1] the tag, 0 unless TAGORDER or TAGVALUE names one
 * The first of these that applies, else ACCEPTED:
 *   CUT        fewer than 8 bytes
 *   TAGVALUE   with tag 0, where the image does not begin with 49 49 and, low byte first, 42
 *   CUT        the first directory, with the four bytes of the next offset, does not lie within the image; nor the value of an entry of type 1 to 12,
 *              where it is longer than four bytes; nor the strip, where 273 and 279 each are one SHORT or LONG. No sum or product is cut to 32 bits
 *   TAGORDER   the lowest tag that is not above the tag before it
 *   TAGVALUE   the lowest required tag that is absent or wrong; the first entry with a tag counts. 256 and 257 are one SHORT or LONG, not 0; 259 is
 *              one SHORT, 4; 262 one SHORT, 0; 273 and 279 one SHORT or LONG; 278 one SHORT or LONG, the number of 257; 282 and 283 one RATIONAL
 *              each that resolves to 200 or 240, with the same ratio at another offset
 * Not judged: optional and other tags, entries of any other type, the next offset and further directories, a directory over the header or at an odd
 * offset, parts that overlap, a strip of 0 bytes, the two bytes behind a SHORT, and the compressed data. The variances of Table 3 are wrong values. */
uint64_t x9_tiff(const uint8_t *image, size_t image_len, uint64_t answer[2]);

/* The day book: two lent arrays of 64-bit numbers, a table which keeps the figures of cash letters as they were when their files were entered, and a list of
 * the file numbers taken. Two owners, 1 and 2, share them: each has entries, entry numbers, file numbers, running totals and a net position of its own.
 * Zeros are an empty book and an empty list.
 * The table. A head of 17 numbers:
 *   [0] the rows claimed, for both owners, gaps among them
 *   of owner 1:   [1] the last entry number given
 *                 [2] bundles   [3] debit items   [4] credit items   [5] views   [6] debit cents   [7] credit cents: the running totals, the sums of its rows
 *                 [8] the net position, the credit cents of its rows minus their debit cents, below zero in two's complement
 *   of owner 2:   [9] to [16] the same
 * and then rows of 9, one for each cash letter that is in the book:
 *   [0] the owner   [1] the entry number, from 1 on   [2] the file number that the caller gave
 *   [3] bundles   [4] debit items   [5] credit items   [6] views   [7] debit cents   [8] credit cents: the letter's own
 * A claimed row whose owner is neither 1 nor 2 is a gap: no one's, and free, as are the rows behind those claimed.
 * `book_len` counts numbers. Numbers of the head that a short table lacks count as 0, and such a table has no rows; the rows there are the whole nines
 * behind the head. What stands behind the rows claimed, and behind the last whole row, is not looked at.
 * The list. [0] the places claimed, and then places of two numbers, one for each file ever entered, whether or not its letters are still in the book:
 *   [0] the owner   [1] the file number
 * `taken_len` counts numbers. A list without its first number claims 0 and has no place; the places there are the whole pairs behind that number. A place
 * behind those claimed is free, and what stands there is not looked at. A claimed place of neither owner takes no file number.
 * Every call first asks whether the table is a book: BOOK where it claims more rows than there are, or a running total of either owner is not the sum of
 * its own rows, or its net position is not what they come to (what 64 bits with a sign do not hold is none); and, where the list is lent, where it claims
 * more places than there are. So the time of a call grows with the rows claimed, that of an entry with the places claimed too. Then NOENTRY, where the owner
 * is neither 1 nor 2. What an owner is answered depends on its own calls and on how many rows and places are free, and on nothing else that the other did.
 * On the book's own refusals (BOOK, DUPLICATE, FULL, NOENTRY, RANGE) all behind the number is 0, and table and list are as they were.
 * Tables from before: one that was filled before there were owners (request 6) has all its entries as owner 1's, and is a book as soon as [8] holds their net
 * position, with zeros in [9] to [16]; one that was filled before net positions were kept (request 8) is a book as soon as [8] and [16] hold them. Either
 * needs a list with a place for each file number of each owner in its rows, or these may be entered again.
 *
 * Entering a file for an owner: reads it as x9_read does, with its row table, and enters each of its cash letters in a row of its own, numbered on from the
 * last number given to the owner; a number is not given again, whatever is withdrawn. The lowest gaps are used first, then rows behind those claimed, and a
 * row is overwritten whole. The file number, with its owner, gets the first free place of the list. Returns the number and fills `answer` as x9_read does, with
 *   [12] the first entry number given, 0 where nothing was entered
 * Refused, table, book and list untouched: BOOK; NOENTRY; then x9_read's own answers, with record, field and offset; DUPLICATE, a claimed place of the list
 * has the owner and the file number (the rows are not looked at for it); RANGE, the net position of the owner with all the file's letters would lie beyond
 * 1,000,000,000,000,000,000 cents either side; FULL, more letters than free rows, or no free place, or a running total or the last entry number of the
 * owner would pass 64 bits. */
uint64_t x9_book_enter(const uint8_t *file, size_t file_len, uint64_t file_number, uint64_t owner, uint64_t *table, size_t table_len, uint64_t *book,
                       size_t book_len, uint64_t *taken, size_t taken_len, uint64_t answer[13]);

/* Withdrawing an entry: the first row of the owner that has the entry number becomes nine zeros, a gap, and the running totals and the net position of the
 * owner are those of the rows that are left. All else stays: the rows claimed, the last entry number, and the list, so that the file number stays taken.
 * Returns the number.
 * Refused, book untouched: BOOK; NOENTRY, also where no row of the owner has the entry number; RANGE, the net position without the entry would lie beyond
 * 1,000,000,000,000,000,000 cents either side. */
uint64_t x9_book_withdraw(uint64_t *book, size_t book_len, const uint64_t *taken, size_t taken_len, uint64_t owner, uint64_t entry_number);

/* Tidying up: the rows of both owners among those claimed close up from the first row on, in their order and as they are; the claimed rows behind them become
 * zeros; the rows claimed are then as many as there are entries. All else stays. It makes no row free that was not. Returns the number: 0, or BOOK with the
 * book untouched. */
uint64_t x9_book_tidy(uint64_t *book, size_t book_len, const uint64_t *taken, size_t taken_len);

/* Looking up an entry: the first row of the owner that has the entry number. Returns the number and fills `found` with
 *   [0] the number   [1] the entry number   [2] the file number
 *   [3] bundles   [4] debit items   [5] credit items   [6] views   [7] debit cents   [8] credit cents
 * NOENTRY where no row of the owner has it, as after a withdrawal. */
uint64_t x9_book_find(const uint64_t *book, size_t book_len, uint64_t owner, uint64_t entry_number, uint64_t found[9]);

/* The running totals of an owner. Returns the number and fills `totals` with
 *   [0] the number   [1] its entries, those withdrawn left out
 *   [2] bundles   [3] debit items   [4] credit items   [5] views   [6] debit cents   [7] credit cents
 *   [8] the net position, credit cents minus debit cents, as a signed number in two's complement: where it is 2^63 or more, it stands for itself minus 2^64.
 *       In C, a number above INT64_MAX is -(int64_t)(UINT64_MAX - totals[8]) - 1, and any other one (int64_t)totals[8]; a memcpy into an int64_t does the same */
uint64_t x9_book_totals(const uint64_t *book, size_t book_len, uint64_t owner, uint64_t totals[9]);

#ifdef __cplusplus
}
#endif

#endif
