/*
 * Listochur: a proved stack marker for Kaspa script, for C callers on x86-64 Linux. Link libexport.a, which `rt lib`, run in
 * crates/export, writes to crates/export/out. The numbers are those of document 01, section 7, and of the requests of document
 * 02.
 *
 * Each function takes every input: what is bad about it is refused with a number, so a caller has nothing to test first.
 * A slice passes as a pointer and then the number of its elements. As everywhere in C, this much is the caller's:
 *
 * - A pointer points to that many elements, aligned for their type, to read or, where it is not const, to write.
 * - With a length of 0 nothing is read or written through the pointer, and it may be NULL.
 * - What is written, `log`, `items`, `out`, `tally` and a `text`, `fragment` or `map` that is not const, overlaps nothing else
 *   that is passed. Slices that are only read may overlap.
 *
 * The functions allocate nothing, keep no pointer, call nothing back and may run on several threads at once. They use up to
 * 512 KiB of the caller's stack: conditionals nest at most 24 deep, and each level has its own.
 */
#ifndef LISTOCHUR_H
#define LISTOCHUR_H

#include <stddef.h>
#include <stdint.h>

#ifdef __cplusplus
extern "C" {
#endif

/* How many places `out` needs. With fewer nothing is written to it; places beyond these stay as they were. */
#define LISTOCHUR_VERDICT_PLACES 9
#define LISTOCHUR_LIMITS_PLACES 4
#define LISTOCHUR_PAPER_PLACES 7
#define LISTOCHUR_PART_PLACES 2
#define LISTOCHUR_LINES_PLACES 1
#define LISTOCHUR_LOG_LINES_PLACES 1
#define LISTOCHUR_REASON_PLACES 1
#define LISTOCHUR_SUMS_PLACES (3 + LISTOCHUR_NUMBERS)
#define LISTOCHUR_LISTING_PLACES 3

/* How many verdict numbers are in use, from 0 on. */
#define LISTOCHUR_NUMBERS 31

/* Room for the lines of any paper, and for the words of any verdict. */
#define LISTOCHUR_LINES_BYTES 4096
#define LISTOCHUR_REASON_BYTES 80

/* A height in the log where the row is dead. */
#define LISTOCHUR_DEAD 65535

/*
 * The analysis of a fragment from so many unknown items on main and alt. Answers the verdict's number, 0 for accepted.
 * `out`: number, offset, two figures, rows written, peak, 1 if there are end stacks or else 0, their heights on main and alt.
 * `log`: three numbers for each instruction met, its offset and the heights of main and alt just before it.
 */
uint32_t listochur_analyze(const uint8_t *fragment, size_t fragment_len, uint32_t main_items, uint32_t alt_items, uint16_t *log,
                           size_t log_len, uint64_t *out, size_t out_len);

/* How many numbers `items` has for an item, how many places are enough for any end, and the length of an unknown item. */
#define LISTOCHUR_ITEM_NUMBERS 3
#define LISTOCHUR_ITEMS_PLACES 732
#define LISTOCHUR_UNKNOWN 255

/*
 * The same, and the items of the end stacks.
 * `items`: three numbers for each item of main from bottom to top and then for each of alt from bottom to top: its length, 0 to
 * 8, or LISTOCHUR_UNKNOWN; its bytes as one number, the first byte the lowest, or 0 if it is unknown; its mark, which is 0.
 * They are written where there are end stacks; with fewer places than they need none is, and places beyond them stay as they
 * were.
 */
uint32_t listochur_analyze_items(const uint8_t *fragment, size_t fragment_len, uint32_t main_items, uint32_t alt_items,
                                 uint16_t *log, size_t log_len, uint64_t *items, size_t items_len, uint64_t *out,
                                 size_t out_len);

/*
 * The limit check: malformed bytecode, over 201 opcodes above 60, over 10,000 bytes. Answers its number, 0 for within.
 * `out`: number, offset, two figures.
 */
uint32_t listochur_check_limits(const uint8_t *bytecode, size_t bytecode_len, uint64_t *out, size_t out_len);

/*
 * The marking of a paper: its header, the dispatch check, each body, the initialiser. Answers the verdict's number, 0 for
 * accepted.
 * `out`: number, the entry that it is about (the count of entries for the initialiser), offset, two figures, rows written, peak.
 * `log`: the rows of all fragments, one after another.
 */
uint32_t listochur_mark_paper(const uint8_t *paper, size_t paper_len, uint16_t *log, size_t log_len, uint64_t *out,
                              size_t out_len);

/*
 * The part of the body (mark 0) or of the initialiser (mark 1) that shows what stands at an offset: the whole instruction, or
 * the rest if it is malformed; an empty part at or past the end and for any other mark. Answers the part's length.
 * `out`: where the part starts in its fragment, and its length. The part always lies within the fragment.
 */
size_t listochur_display(const uint8_t *body, size_t body_len, const uint8_t *init, size_t init_len, size_t offset, uint32_t mark,
                         uint64_t *out, size_t out_len);

/*
 * What `stackmark` prints of a paper: a line for each fragment accepted, then `accepted` or `refused N at K O A B`. Answers the
 * verdict's number, 0 for accepted.
 * `text`: the lines, each ended by a newline and with no NUL behind them, where it has room for all of them; else it stays as it
 * was. The bytes behind them stay as they were.
 * `out`: how many bytes the lines take, also where `text` has no room for them; at most LISTOCHUR_LINES_BYTES.
 * `log`: the rows of all fragments, one after another, whatever room `text` and `out` have.
 */
uint32_t listochur_mark_lines(const uint8_t *paper, size_t paper_len, uint16_t *log, size_t log_len, uint8_t *text,
                              size_t text_len, uint64_t *out, size_t out_len);

/*
 * What `stacklog` prints of a paper: each fragment met with the rows of its log, what was refused, and then `accepted` or
 * `refused N at K O A B`. Answers the verdict's number, 0 for accepted.
 * `text`: the lines, each ended by a newline and with no NUL behind them, where it has room for all of them; else it stays as it
 * was. The bytes behind them stay as they were.
 * `out`: how many bytes the lines take, also where `text` has no room for them: a call with no text tells how much to lend.
 * `log`: the rows of all fragments, one after another, whatever room `text` and `out` have.
 */
uint32_t listochur_log_lines(const uint8_t *paper, size_t paper_len, uint16_t *log, size_t log_len, uint8_t *text,
                             size_t text_len, uint64_t *out, size_t out_len);

/*
 * A verdict's number and its two figures in words, as `main dry: needed 2, had 1`. Answers the number that it was passed; one
 * past those in use has no words.
 * `text`: the words, with no newline and no NUL behind them, where it has room for all of them; else it stays as it was. The
 * bytes behind them stay as they were.
 * `out`: how many bytes the words take, also where `text` has no room for them; at most LISTOCHUR_REASON_BYTES.
 */
uint32_t listochur_reason(uint32_t number, uint64_t first, uint64_t second, uint8_t *text, size_t text_len, uint64_t *out,
                          size_t out_len);

/*
 * The bench tally gains one verdict, of this number, rows and peak. Answers 0, or 22 where a sum would pass 4,294,967,295, with
 * the tally as it was.
 * `tally`: four counters: fragments, accepted, rows, greatest peak. A pointer to four numbers; no length is passed.
 */
uint32_t listochur_gain(uint32_t tally[4], uint32_t number, uint64_t rows, uint32_t peak);

/*
 * Sums over a sitting, a list of verdict number and peak by turns. Answers 0, or 23 where the list has more than 8,192 numbers or
 * an odd count of them, or a verdict number is not in use.
 * `out`: number, the sum of the accepted verdicts' peaks, their count, and how often 0, 1, .. the greatest number in use occurred;
 * after 23 all but the number are 0.
 */
uint32_t listochur_sums(const uint32_t *sitting, size_t sitting_len, uint64_t *out, size_t out_len);

/*
 * A listing, words parted by one space as `OpDup <0102> 0x50`, assembled into a fragment. Answers 0; 26 where a word is outside
 * the form; 27 where `fragment` cannot take all bytes, which `text_len` of them always can.
 * `fragment`: the bytes, where the answer is 0; else it stays as it was. The bytes behind them stay as they were.
 * `out`: number, the offset of the first strange word (0 but for 26), how many bytes are written.
 */
uint32_t listochur_assemble(const uint8_t *text, size_t text_len, uint8_t *fragment, size_t fragment_len, uint64_t *out,
                            size_t out_len);

/*
 * A fragment as a listing, each data push as its bytes, whatever its length form. Answers 0; 3 where the fragment is malformed;
 * 27 where `text` cannot take all of it, which 25 bytes for each of the fragment's always can.
 * `text`: the listing, with no newline and no NUL behind it, where the answer is 0; else it stays as it was. The bytes behind it
 * stay as they were.
 * `out`: number, the offset of the malformed instruction (0 but for 3), how many bytes are written.
 */
uint32_t listochur_list(const uint8_t *fragment, size_t fragment_len, uint8_t *text, size_t text_len, uint64_t *out,
                        size_t out_len);

/*
 * A lent opcode map and a lent stack limit (request L6), and the mode (request L7). The functions above go by the built-in map at
 * the limit of 244 in plain mode; those below by the map, the limit and the mode that they are lent.
 *
 * A map is a header of two 16-bit numbers, lowest byte first, the count of rows (256) and the offset of the first (4 or more),
 * then one byte a row, the class number of its code. Bytes before the rows and behind them are free. It is bad, 28, where the
 * count or the offset is another, the rows do not lie within the map, a row is over 31, the row of a code up to 60 is not the
 * built-in one, or a later row is 1 (push). All rows are judged, used or not, and once a call.
 *
 * `limit` is 1 to 244 and stands for 244 everywhere, in figures too; another one is bad, 29. Both are judged before all else, the
 * map first. At 28 and 29 `log` and `items` stay as they were, and `out` has the number and zeros; the lines are the one line
 * `refused 28 at 0 0 0 0`.
 *
 * `mode` is LISTOCHUR_PLAIN or LISTOCHUR_EXAMINED; any other than 0 is examined. In the examined mode a literal of more than
 * LISTOCHUR_ELEMENT bytes that a run may push is refused, 30, with its length and LISTOCHUR_ELEMENT, ahead of the test for room at
 * that push; where no run comes it passes.
 */

/* How many bytes the map of a year has, and the built-in limit. */
#define LISTOCHUR_MAP_BYTES 260
#define LISTOCHUR_LIMIT 244

/* The modes, and how many bytes a literal may have in the examined one. */
#define LISTOCHUR_PLAIN 0
#define LISTOCHUR_EXAMINED 1
#define LISTOCHUR_ELEMENT 520

/* The rule years (request L8): the current one, and the classic one. */
#define LISTOCHUR_CURRENT_YEAR 0
#define LISTOCHUR_CLASSIC_YEAR 1

/*
 * The map of a rule year, to be lent: 00 01 04 00 and the 256 class numbers. That of the current year is the built-in one; that of
 * the classic year leaves b2 to d9, 7e, 7f, 83 to 86, 95, 96, 97, a6 and a7 unmodelled. Answers LISTOCHUR_MAP_BYTES, or 0 for
 * another year and where `map` is shorter.
 * `map`: the bytes, where the answer is not 0; else it stays as it was. The bytes behind them stay as they were.
 */
uint32_t listochur_map(uint32_t year, uint8_t *map, size_t map_len);

/* As `listochur_analyze_items`, by a lent map, limit and mode. */
uint32_t listochur_analyze_with(const uint8_t *fragment, size_t fragment_len, uint32_t main_items, uint32_t alt_items,
                                const uint8_t *map, size_t map_len, uint32_t limit, uint32_t mode, uint16_t *log, size_t log_len,
                                uint64_t *items, size_t items_len, uint64_t *out, size_t out_len);

/* As `listochur_mark_paper`, by a lent map, limit and mode. */
uint32_t listochur_mark_paper_with(const uint8_t *paper, size_t paper_len, const uint8_t *map, size_t map_len, uint32_t limit,
                                   uint32_t mode, uint16_t *log, size_t log_len, uint64_t *out, size_t out_len);

/* As `listochur_mark_lines`, by a lent map, limit and mode. */
uint32_t listochur_mark_lines_with(const uint8_t *paper, size_t paper_len, const uint8_t *map, size_t map_len, uint32_t limit,
                                   uint32_t mode, uint16_t *log, size_t log_len, uint8_t *text, size_t text_len, uint64_t *out,
                                   size_t out_len);

/*
 * As `listochur_log_lines`, by a lent map, limit and mode. The words of the instructions are those of the built-in map; which of
 * them open and close a conditional goes by the lent one.
 */
uint32_t listochur_log_lines_with(const uint8_t *paper, size_t paper_len, const uint8_t *map, size_t map_len, uint32_t limit,
                                  uint32_t mode, uint16_t *log, size_t log_len, uint8_t *text, size_t text_len, uint64_t *out,
                                  size_t out_len);

#ifdef __cplusplus
}
#endif

#endif
