/*
 * Hezgolt divides a chip layer, drawn as rectangles, over two to eight masks.
 *
 * One function takes the bytes of a layer text and gives the bytes of a result text; a second one takes the rectangles from a
 * GDSII stream instead. docs/RULES.md describes the texts, in sections 9 and 10, and the stream. `tools/build loader_c` makes
 * the library, target/staticlib/libloader.a, for Linux on x86-64-v2. Of the C library it needs memcpy, memmove and memset, and
 * nothing else.
 */
#ifndef HEZGOLT_H
#define HEZGOLT_H

#include <stdint.h>

#ifdef __cplusplus
extern "C" {
#endif

/* The greatest size of a layer text, in bytes, and so of a settings text. */
#define HEZGOLT_LAYER_MOST 32768u

/* The greatest size of a stream, in bytes. */
#define HEZGOLT_STREAM_MOST 65536u

/* The least size of a result buffer, in bytes. Every result text fits into it. */
#define HEZGOLT_RESULT_LEAST 4096u

/* An answer below this number is a length, and any other a refusal. */
#define HEZGOLT_REFUSED 10000u

/*
 * In:
 *
 *   layer, layer_size    The layer text: lines of ASCII with byte 10 at their ends, the last one's too. It needs no zero
 *                        byte after it, and must have none inside. There are six lines with settings, the pieces' (up to
 *                        512) and, for pieces whose masks are fixed, `fixed=PIECE,MASK` lines (up to one for each piece).
 *   result, result_size  A buffer for the result text, of HEZGOLT_RESULT_LEAST bytes or more.
 *
 * Out, where the layer was decomposed: the length of the result text, from 51 (five lines, for a layer without pieces) to
 * 4,096. The text stands at the buffer's front. No zero byte follows it: the bytes past the text are left as they were.
 *
 * Out, where the call was refused: 10,000 x NUMBER + PLACE, and the whole buffer is left as it was. If r is what was
 * returned, NUMBER is r / HEZGOLT_REFUSED and PLACE is r % HEZGOLT_REFUSED. The questions are asked in this order, those of
 * 3, 4, 5 and 13 for one line after the other, and the first that is answered with no decides:
 *
 *   NUMBER  question                                                        PLACE
 *   1       Has the buffer at least 4,096 bytes?                            0
 *   2       Has the layer text at most 32,768 bytes?                        0
 *   3       Is the line the one expected, and in its form?                  the line, from 1
 *   4       Is each number of the line in its range?                        the line, from 1
 *   5       Has the line's piece an area, X1 < X2 and Y1 < Y2?              the line, from 1
 *   13      `fixed`: is the piece below `pieces`, the mask below `masks`?   the line, from 1
 *   6       Is every piece clear of the earlier ones of its shape?          the first piece that is not, from 0
 *   14      Have tied pieces no two different fixed masks?                  the first piece that differs from an earlier
 *                                                                           one, from 0
 *
 * For 3, a line that is missing, a last line without byte 10 and bytes after the last line each count as the next line. After
 * the pieces only `fixed` lines are expected, each with a higher piece than the one before; a lower one, or the same again, is
 * 3. Of these lines 13 is asked in place of 4. For 14, pieces are tied directly or through others.
 *
 * What the caller sees to:
 *
 *   Pointers  layer can be read for layer_size bytes, and result read and written for result_size bytes. The two areas do
 *             not overlap, and nothing else writes to them during the call. A size of 0 is allowed; pass a pointer that is
 *             not null with it all the same.
 *   Stack     A call takes up to 560 KiB of its thread's stack, at 512 pieces that are searched to the last one (measured).
 *             Give the thread 1 MiB.
 *   Time      The setting `budget` bounds the steps of the search, and a call cannot be stopped before its end. A step takes
 *             2 to 10 ns (measured) where a piece conflicts with some dozens of others, so that the greatest budget,
 *             1,000,000,000, takes some seconds. It takes up to 110 ns if all 512 pieces conflict with each other on two
 *             masks; the greatest budget is then two minutes. All the rest of a call takes some 10 ms at most.
 *
 * The function keeps nothing between calls and has no state of its own, so any number of threads may call it at once, each
 * with its own buffer; they may share a layer text. It allocates nothing, reads and writes no files, leaves errno alone, and
 * returns on every input. The same input always gives the same output.
 */
uint64_t hezgolt_decompose(const uint8_t *layer, uint64_t layer_size, uint8_t *result, uint64_t result_size);

/*
 * The same for a layer that comes as a GDSII stream. In:
 *
 *   settings, settings_size  The settings: a layer text of six lines, the last of which is `pieces=0`. No mask is fixed.
 *   stream, stream_size      The stream, with these records and no others: HEADER, BGNLIB, LIBNAME, UNITS, BGNSTR, STRNAME,
 *                            seven for each piece (BOUNDARY, LAYER, DATATYPE, XY, PROPATTR, PROPVALUE, ENDEL), ENDSTR, ENDLIB.
 *                            XY is the piece's rectangle in nm, and property 1 the number of its shape. Zero bytes may
 *                            follow.
 *   result, result_size      As above.
 *
 * Out, where the layer was decomposed: as above, with the result text of the layer text that states these settings and these
 * pieces.
 *
 * Out, where the call was refused: 10,000 x NUMBER + PLACE as above. The first question answered with no decides, in this
 * order; 3 and 4 are asked line after line of the settings text, 9 to 11 record after record of the whole stream, and only
 * then 4 and 6 of the pieces:
 *
 *   NUMBER  question                                                        PLACE
 *   1       Has the buffer at least 4,096 bytes?                            0
 *   2       Have settings at most 32,768 and stream at most 65,536 bytes?   0
 *   3       Settings: is the line the one expected, and in its form?        the line, from 1
 *   4       Settings: is its number in the range, and `pieces` 0?           the line, from 1
 *   9       Is the record the one expected, whole, and in its form?         the record, from 1
 *   10      Do the five points of XY go once around a rectangle?            the record, from 1
 *   11      Is the database unit 1 nm, to a millionth of it?                the record, 4
 *   4       Are there at most 512 pieces?                                   0
 *   4       Are the piece's shape and coordinates in their ranges?          the piece, from 0
 *   6       Is every piece clear of the earlier ones of its shape?          the first piece that is not, from 0
 *
 * For 9, a record that is missing or not there to its end has the number that it would have, and bytes other than zero after
 * ENDLIB count as the next record. A rectangle that has no area, or points that do not come back to the first, are 10; another
 * number of points is 9. A negative coordinate is out of range. There is no refusal 5, 13 or 14: a `fixed` line in the
 * settings text is 3, like any other line after the sixth.
 *
 * What is said above of pointers, stack, time and threads holds for this function too, with three areas in place of two.
 */
uint64_t hezgolt_decompose_stream(const uint8_t *settings, uint64_t settings_size, const uint8_t *stream, uint64_t stream_size,
                                  uint8_t *result, uint64_t result_size);

#ifdef __cplusplus
}
#endif

#endif
