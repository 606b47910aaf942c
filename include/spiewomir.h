/* Motion upsampling between two layers of a track clip: the C interface of the
 * proved library (the crate `spiewomir`; `tools/build spiewomir` writes
 * target/staticlib/libspiewomir.a, for x86-64 Linux, and `tools/install PREFIX`
 * installs it; it needs no other library). For C99 and C++11 or later.
 *
 * Of a small picture (the base) each 16x16 macroblock has a motion record: how it
 * is split, references, vectors, and which quadrants have coded detail. The base,
 * scaled, is a window of the large (full) picture; the calls make the records of the
 * large picture's macroblocks from those of up to four base macroblocks each. A
 * macroblock is inside when all of it lies in the window; else it is outside, and
 * inherits nothing.
 *
 * Every call ends, asks nothing of its numbers, and judges what it is lent. The
 * caller only has to lend what it says: `base_len` words at `base` (or `text_len`
 * bytes at `text`) to read, and `out_len` words at `out` (`words_len` at `words`,
 * `log_len` bytes at `log`) to write.
 *   - The two must not overlap. While a call runs, nothing else may write what it
 *     reads, or touch what it writes.
 *   - What is lent to write may be uninitialised.
 *   - Lengths count words, not bytes (of `text` and `log`: bytes). Words are int16_t,
 *     in the two wide calls int32_t, aligned as such and in the machine's byte order.
 *   - With length 0 the pointer may be null.
 * A refused call leaves every word and byte lent to it as it was. `base` and `text`
 * are never written, and a base is read where it stands. Calls keep nothing between
 * them (a session is handed over and back by value), take no memory but stack (some
 * 5 KB; 20 KB for a text, 40 KB for a log), and may be made from any threads at once.
 */
#ifndef SPIEWOMIR_H
#define SPIEWOMIR_H

#include <stddef.h>
#include <stdint.h>

#ifdef __cplusplus
extern "C" {
#endif

/* The version that this header is of: major times 10,000, plus minor times 100, plus
 * patch. CHANGELOG.md says what is new. */
#define SPIEWOMIR_VERSION 50100

/* The version of the library that is linked: SPIEWOMIR_VERSION, unless the header is
 * another version's. */
uint32_t spiewomir_version(void);

/* A motion record has 78 words:
 *   0            type: 0 intra, 1 16x16, 2 16x8, 3 8x16, 4 8x8 (width by height);
 *                5 outside, in written records only
 *   1 + q        sub-type of quadrant q (0 to 3, raster): 0 8x8, 1 8x4, 2 4x8, 3 4x4
 *   5 + 2q + l   reference of quadrant q in list l (0 or 1), -1 where it is unused
 *   13 + 4b + 2l, and the next: horizontal and vertical vector, in quarter samples,
 *                of 4x4 block b (0 to 15, raster: four to a row) in list l
 *   77           detail: bit q (of value 1, 2, 4, 8) says that quadrant q has luma
 *                coefficients in the base
 * Well formed, by rule: 1 type 0..4; 2 sub-types 0..3, all 0 unless type 4;
 * 3 references -1..31; 4 type 0 has only -1, any other type a used list in each
 * quadrant; 5 vector words -8192..8191, of a wide record -131072..131071, and 0 where the
 * reference is -1; 6 all blocks of a partition or sub-partition have the same references
 * and vectors; 7 detail 0..15.
 * A written vector word is (v * scale + 32768) / 65536, rounded down, also below zero,
 * of a base's word v, with scale = (S * 65536 + B / 2) / B of its axis, rounded down (B
 * and S are the base's and the scaled base's size along it), as Annex G of H.264 has it.
 * A written detail has a quadrant's bit set exactly when one of the quadrant's four
 * blocks reads a base quadrant whose bit is set, of an intra macroblock too: the base
 * quadrant that lies there counts, also where the block takes its motion from a
 * neighbour. Outside it is 0. It takes no part in the split.
 * A picture of W by H samples has W/16 times H/16 macroblocks; columns, rows and
 * addresses (raster order) count from 0. A written record is not well formed as a
 * base's if it is of type 5 or has a vector word outside rule 5's; these reach
 * -16384..16382, of a wide record -262144..262142.
 * A wide record has 32-bit words, at the same places and by the same rules but for the
 * limits in rule 5. Only spiewomir_macroblock_wide and spiewomir_picture_wide take and
 * write such; all other records here have 16-bit words. */
#define SPIEWOMIR_WORDS 78

/* The macroblocks along a side of `size` samples, and the words of a picture's
 * records; 0 for a size outside 1..4096, which the calls refuse. An argument is
 * evaluated more than once. */
#define SPIEWOMIR_MACROBLOCKS(size) ((size) > 0 && (size) <= 4096 ? (size_t)(size) / 16 : (size_t)0)
#define SPIEWOMIR_PICTURE_WORDS(width, height) \
    (SPIEWOMIR_MACROBLOCKS(width) * SPIEWOMIR_MACROBLOCKS(height) * SPIEWOMIR_WORDS)

/* A sync text: the most bytes, the most record lines, and the words to lend for
 * these. */
#define SPIEWOMIR_TEXT_BYTES 65536
#define SPIEWOMIR_TEXT_RECORDS 99
#define SPIEWOMIR_TEXT_WORDS 7722

/* The bytes that every log fits: 65,536 lines of at most 18, and a last one of at
 * most 31. */
#define SPIEWOMIR_LOG_BYTES 1179679

/* Refusals, judged in rising order, but 20 to 22 (sessions only) before the
 * others; a text's are judged in the order given at the call. 0 means answered. */
#define SPIEWOMIR_ANSWERED 0
#define SPIEWOMIR_REFUSED_BASE_SIZE 1     /* base size no multiple of 16 in 16..4096 */
#define SPIEWOMIR_REFUSED_FULL_SIZE 2     /* the same for the full picture's size */
#define SPIEWOMIR_REFUSED_SCALED_SIZE 3   /* scaled size odd, below the base's or above twice that */
#define SPIEWOMIR_REFUSED_OFFSET 4        /* offset odd or outside -8192..8190 */
#define SPIEWOMIR_REFUSED_BASE_LENGTH 5   /* base_len is not 78 for each base macroblock */
#define SPIEWOMIR_REFUSED_OUTPUT_LENGTH 6 /* out_len is not what the call writes; words_len is not 7722;
                                             log_len is below 1179679 */
#define SPIEWOMIR_REFUSED_POSITION 7      /* column or row outside the picture (one macroblock only) */
#define SPIEWOMIR_REFUSED_RECORD 8        /* a malformed record: `place` is the lowest malformed
                                             address among the records checked, `rule` the first rule
                                             of well-formedness (above) that it breaks */
#define SPIEWOMIR_REFUSED_GRAMMAR 9       /* a text that breaks the grammar: `place` is the first byte
                                             offset at which no text of the grammar, however long, can
                                             go on, and the text's length if it ends early. A text of
                                             no bytes is not refused by it */
#define SPIEWOMIR_REFUSED_LIMIT 10        /* a text above 65,536 bytes or 99 record lines */
#define SPIEWOMIR_REFUSED_NOTHING_BEGUN 20 /* next or abandon with nothing begun */
#define SPIEWOMIR_REFUSED_FINISHED 21      /* next or abandon after the last macroblock */
#define SPIEWOMIR_REFUSED_UNFINISHED 22    /* begin while a picture is unfinished */

/* Kinds of answer: word 0 of the written record. */
#define SPIEWOMIR_INTRA 0
#define SPIEWOMIR_16X16 1
#define SPIEWOMIR_16X8 2
#define SPIEWOMIR_8X16 3
#define SPIEWOMIR_8X8 4
#define SPIEWOMIR_OUTSIDE 5

/* Sub-types of a quadrant. */
#define SPIEWOMIR_SUB_8X8 0
#define SPIEWOMIR_SUB_8X4 1
#define SPIEWOMIR_SUB_4X8 2
#define SPIEWOMIR_SUB_4X4 3

/* Classes: the base macroblocks read are one, two columns, two rows, four. */
#define SPIEWOMIR_CORNER 0
#define SPIEWOMIR_VERT 1
#define SPIEWOMIR_HORI 2
#define SPIEWOMIR_CENTER 3

/* Luma samples, not yet judged. The base picture, scaled, is a window of the
 * full picture at the offset; it may lie partly or wholly off the picture. */
typedef struct {
    int32_t base_width, base_height, scaled_width, scaled_height;
    int32_t offset_x, offset_y, full_width, full_height;
} SpiewomirGeometry;

typedef struct {
    uint32_t refusal, place, rule; /* place and rule are 0 but for refusal 8 */
    uint32_t kind;                 /* what follows is 0 in a refusal */
    uint32_t sub0, sub1, sub2, sub3; /* sub-types of the quadrants; 0 unless kind is 4 */
    uint32_t class_;                 /* what is read of the base; 0 (CORNER) outside */
    uint32_t column, row;            /* first base column and row that are read; 0 outside */
    uint32_t detail;                 /* word 77 of the written record; 0 outside */
    uint32_t first, right, below, diagonal; /* how many of the sixteen blocks read the base macroblock at
                                               `column` and `row`, the one to its right, the one below it
                                               and the one below and to the right, before any filling
                                               from neighbours: 16 together, 0 for one that the class
                                               leaves out; all 0 outside */
} SpiewomirMacroblock;

typedef struct {
    uint32_t refusal, place, rule; /* place and rule are 0 but for refusal 8 */
    uint32_t inherited, intra, outside; /* macroblocks by the kind of their answers; 0 in a refusal */
} SpiewomirPicture;

/* A session over one picture. Any numbers can be handed over: a session that no
 * list of calls makes (`begun` not 1, a geometry that is refused, more macroblocks
 * counted than there are) is answered as a fresh one. */
typedef struct {
    uint32_t begun; /* 1 once a picture is begun */
    SpiewomirGeometry geometry;
    uint32_t inherited, intra, outside; /* answered next calls by the kind of their answers; their sum
                                           is the address that is next, or, at the end, the
                                           picture's count of macroblocks */
} SpiewomirSession;

typedef struct {
    SpiewomirSession session;
    uint32_t refusal, place, rule;
} SpiewomirJudged;

typedef struct {
    SpiewomirSession session;
    SpiewomirMacroblock macroblock;
} SpiewomirAdvanced;

typedef struct {
    SpiewomirSession session;
    uint32_t inherited, intra, outside;
} SpiewomirTotals;

typedef struct {
    uint32_t refusal, place, rule; /* place is 0 but for refusal 9, rule is 0 */
    SpiewomirGeometry geometry;    /* as it stands in the text, not judged; zeros in a refusal */
    uint32_t lines;                /* record lines; 0 in a refusal */
    uint32_t empty;                /* 1 where there is no picture: the text has no bytes, and 6 does not
                                      refuse; all else is 0 then. Else 0, also of a text whose numbers
                                      and lines are 0 */
} SpiewomirText;

typedef struct {
    uint32_t refusal;                   /* the call's own: 6 or 0; what follows is 0 if it is 6 */
    uint32_t text_refusal, place, rule; /* the text's, 0 if it has a picture or is empty: the number and
                                           place that the log says, and the rule of refusal 8 */
    size_t bytes;                       /* the log's length */
    uint32_t empty;                     /* 1 if a log is written and the text has no bytes; else 0 */
} SpiewomirLog;

/* One macroblock. `base` has the base picture's records in raster order, `out`
 * has 78 words. Refusals 1 to 8; only the records that the macroblock reads are
 * checked by 8, none of them outside the window. Answered, all 78 words at `out`
 * are written: the inherited record, or one of type 0 (intra) or 5 (outside) with
 * sub-types 0, references -1 and vectors 0, and with its detail, 0 outside. The
 * records that are not read may hold any words and change nothing. */
SpiewomirMacroblock spiewomir_macroblock(SpiewomirGeometry geometry, const int16_t *base, size_t base_len,
                                         int32_t column, int32_t row, int16_t *out, size_t out_len);

/* The whole picture. `out` has 78 words for each macroblock of the full picture.
 * Refusals 1 to 6 and 8; all base records are checked by 8. Answered, all words at
 * `out` are written in raster order, for each macroblock those that
 * spiewomir_macroblock writes for it, and the counts are the numbers of its answers
 * of each sort. */
SpiewomirPicture spiewomir_picture(SpiewomirGeometry geometry, const int16_t *base, size_t base_len,
                                   int16_t *out, size_t out_len);

/* The same two calls on wide records, for longer vectors: all is as above, lengths in
 * words, refusals and answers included (a picture's words are those that
 * spiewomir_macroblock_wide writes), but the words of `base` and `out` are int32_t, and
 * vector words are -131072..131071 by rule 5. Every word is judged as the number that it
 * is (type 65537 breaks rule 1). On a base whose vector words are all in -8192..8191 they
 * write the same numbers as the calls above, and give the same answers, counts and
 * refusals. */
SpiewomirMacroblock spiewomir_macroblock_wide(SpiewomirGeometry geometry, const int32_t *base, size_t base_len,
                                              int32_t column, int32_t row, int32_t *out, size_t out_len);

SpiewomirPicture spiewomir_picture_wide(SpiewomirGeometry geometry, const int32_t *base, size_t base_len,
                                        int32_t *out, size_t out_len);

/* A session makes one picture macroblock by macroblock. Each call hands the session
 * back with its answer; a refused call, and totals, hand back the very numbers that
 * they were handed. */
SpiewomirSession spiewomir_session_fresh(void);

/* Begins a picture at its first macroblock, with totals of 0; also after a finished
 * one. Refusals 22, and 1 to 4. */
SpiewomirJudged spiewomir_session_begin(SpiewomirSession session, SpiewomirGeometry geometry);

/* Refusals 20 and 21; then answers, refuses (5, 6 and 8) and writes as
 * spiewomir_macroblock does for the next macroblock in raster order. */
SpiewomirAdvanced spiewomir_session_next(SpiewomirSession session, const int16_t *base, size_t base_len,
                                         int16_t *out, size_t out_len);

/* Gives up an unfinished picture: the session is fresh. Refusals 20 and 21. */
SpiewomirJudged spiewomir_session_abandon(SpiewomirSession session);

/* The answered next calls of each sort since the last begin or abandon that was not
 * refused. */
SpiewomirTotals spiewomir_session_totals(SpiewomirSession session);

/* A sync text has one bracket form a line, a line feed after each, items separated by
 * one space: (base W H), (scaled W H), (at X Y), (full W H) in that order, then none
 * or more lines, one for each base record in raster order: (intra D), or (whole (R0 R1)
 * (X0 Y0 X1 Y1) D), which is type 1 with this motion in all blocks, or (mb T
 * (4 sub-types) (8 references) (64 vector words) D), the record's words. D is the
 * detail, word 77. Numbers are -32768..32767, with no leading zero and no -0. Between
 * lines and at both ends may stand lines (note ..) of any count, none included, of
 * words of letters a to z, numbers, and lists of one or more of the same, to depth 8
 * with the note at 1. A text of no bytes means no picture: the camera filmed nothing.
 * One of notes only is no such text, nor is a line feed alone; 9 refuses both.
 *
 * Reads one. `words` has 7722 words, those of 99 records. Refusals 6, then 10 by
 * length, then 9, then 10 by lines; nothing else is judged: the geometry's numbers
 * and the records' words are those that stand in the text, fit for
 * spiewomir_picture or not. Read, the words of the record lines stand first in
 * `words`, 78 for each line in the text's order, and the rest is as it was. A text of
 * no bytes is refused by 6 only: else `empty` is 1, and all words are as they were. */
SpiewomirText spiewomir_text(const uint8_t *text, size_t text_len, int16_t *words, size_t words_len);

/* Writes the log of a sync text. `log` has 1179679 bytes or more; fewer are refused
 * by 6. Every text then has a log, a refused one too: a line (mb column row type
 * pieces) for each macroblock in raster order, pieces being 0 for types 0 and 5,
 * then (sync macroblocks inherited intra outside); or only (sync 0 0 0 0) for a text
 * of no bytes, which means no picture; or only (refused number place) for the first
 * that applies of 10 by length, 9, 10 by lines, 1 to 5 (5: record lines too few or
 * many), and 8 on all records. Each line ends in a line feed. The log stands first in
 * `log`, `bytes` long with no zero put after it, and the rest is as it was.
 * `text_refusal`, `place` and `rule` are the text's refusal, and `empty` says that
 * there is no picture, so that the log need not be read for either; `refusal` is 0
 * then, for the log is written. */
SpiewomirLog spiewomir_log(const uint8_t *text, size_t text_len, uint8_t *log, size_t log_len);

#ifdef __cplusplus
}
#endif

#endif
