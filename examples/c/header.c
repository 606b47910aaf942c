/* What the header says beside its constants, in C and in C++: the version, a picture's
 * words, a session's next address; every call with what it writes lent uninitialised,
 * which a memory checker can look at; and the two wide calls, their types and what they
 * make of the same base.
 *
 *     header < examples/unaligned.sync
 *
 * Prints what does not hold; the exit status is 0 if all does. */
#include "spiewomir.h"
#include <stdio.h>
#include <stdlib.h>
#include <string.h>

static int wrong;

static void is(int line, const char *what, size_t got, size_t expected) {
    if (got == expected) return;
    printf("header: line %d: %s is %lu, not %lu\n", line, what, (unsigned long)got, (unsigned long)expected);
    wrong = 1;
}

#define IS(got, expected) is(__LINE__, #got, (size_t)(got), (size_t)(expected))

/* a picture's words are a constant expression, for arrays too */
static int16_t largest[SPIEWOMIR_PICTURE_WORDS(4096, 4096)];

static void sizes(void) {
    int32_t sixteen = 16;
    IS(sizeof largest / sizeof *largest, 78u * 256 * 256);
    IS(SPIEWOMIR_PICTURE_WORDS(48, 32), 78 * 3 * 2);
    IS(SPIEWOMIR_PICTURE_WORDS(16 + 32, sixteen << 1), 78 * 3 * 2);
    IS(2 * SPIEWOMIR_PICTURE_WORDS(sixteen, 1 ? sixteen : 0) / 7, 22);
    IS(SPIEWOMIR_PICTURE_WORDS((size_t)48, 32u), 78 * 3 * 2);
    IS(SPIEWOMIR_PICTURE_WORDS(0, 4096), 0);
    IS(SPIEWOMIR_PICTURE_WORDS(-16, -16), 0);
    IS(SPIEWOMIR_PICTURE_WORDS(INT32_MIN, INT32_MAX), 0);
    IS(SPIEWOMIR_PICTURE_WORDS(4096, 4112), 0);
    IS(SPIEWOMIR_MACROBLOCKS(80), 5);
    IS(SPIEWOMIR_TEXT_WORDS, SPIEWOMIR_TEXT_RECORDS * SPIEWOMIR_WORDS);
    IS(sizeof(SpiewomirMacroblock), 16 * sizeof(uint32_t));
    IS(offsetof(SpiewomirMacroblock, detail), 11 * sizeof(uint32_t));
    IS(offsetof(SpiewomirMacroblock, diagonal), 15 * sizeof(uint32_t));
    IS(sizeof(SpiewomirText), 13 * sizeof(uint32_t));
    IS(offsetof(SpiewomirText, empty), 12 * sizeof(uint32_t));
    IS(sizeof(SpiewomirLog), 4 * sizeof(uint32_t) + 2 * sizeof(size_t));
    IS(offsetof(SpiewomirLog, empty), 4 * sizeof(uint32_t) + sizeof(size_t));
}

static void *room(size_t size) { /* uninitialised */
    void *at = malloc(size);
    if (!at) {
        perror("header");
        exit(2);
    }
    return at;
}

static uint32_t next_address(SpiewomirSession s) { return s.inherited + s.intra + s.outside; }

/* the wide calls are the narrow ones with other words */
static SpiewomirMacroblock (*const macroblock_wide)(SpiewomirGeometry, const int32_t *, size_t, int32_t, int32_t, int32_t *, size_t) = spiewomir_macroblock_wide;
static SpiewomirPicture (*const picture_wide)(SpiewomirGeometry, const int32_t *, size_t, int32_t *, size_t) = spiewomir_picture_wide;

/* a base through both widths: the same answers, counts and words */
static void widths(SpiewomirGeometry g, const int16_t *base, size_t base_len, const int16_t *out, size_t count) {
    int32_t *wide = (int32_t *)room(base_len * sizeof *wide), *wide_out = (int32_t *)room(count * sizeof *wide_out);
    int16_t *again = (int16_t *)room(count * sizeof *again);
    uint32_t columns = (uint32_t)SPIEWOMIR_MACROBLOCKS(g.full_width);
    for (size_t i = 0; i < base_len; i++) wide[i] = base[i];
    SpiewomirPicture p = spiewomir_picture(g, base, base_len, again, count), w = picture_wide(g, wide, base_len, wide_out, count);
    IS(memcmp(&p, &w, sizeof p), 0);
    IS(p.refusal, SPIEWOMIR_ANSWERED);
    for (size_t i = 0; i < count; i++) IS(wide_out[i], out[i]);
    IS(picture_wide(g, wide, base_len, wide_out, count + 1).refusal, SPIEWOMIR_REFUSED_OUTPUT_LENGTH);
    for (uint32_t a = 0; a < count / SPIEWOMIR_WORDS; a++) {
        int32_t *one = (int32_t *)room(SPIEWOMIR_WORDS * sizeof *one), column = (int32_t)(a % columns), row = (int32_t)(a / columns);
        SpiewomirMacroblock m = spiewomir_macroblock(g, base, base_len, column, row, again, SPIEWOMIR_WORDS);
        SpiewomirMacroblock n = macroblock_wide(g, wide, base_len, column, row, one, SPIEWOMIR_WORDS);
        IS(memcmp(&m, &n, sizeof m), 0);
        IS(memcmp(one, wide_out + a * (size_t)SPIEWOMIR_WORDS, SPIEWOMIR_WORDS * sizeof *one), 0);
        free(one);
    }
    free(wide);
    free(wide_out);
    free(again);
}

static void calls(const uint8_t *text, size_t length) {
    int16_t *words = (int16_t *)room(SPIEWOMIR_TEXT_WORDS * sizeof *words);
    uint8_t *log = (uint8_t *)room(SPIEWOMIR_LOG_BYTES);
    SpiewomirText t = spiewomir_text(text, 0, words, SPIEWOMIR_TEXT_WORDS);
    IS(t.refusal, SPIEWOMIR_ANSWERED);
    IS(t.empty, 1);
    IS(spiewomir_text(NULL, 0, words, SPIEWOMIR_TEXT_WORDS).empty, 1);
    t = spiewomir_text(text, length, words, SPIEWOMIR_TEXT_WORDS);
    IS(t.refusal, SPIEWOMIR_ANSWERED);
    IS(t.empty, 0);
    SpiewomirGeometry g = t.geometry;
    size_t base_len = t.lines * (size_t)SPIEWOMIR_WORDS, count = SPIEWOMIR_PICTURE_WORDS(g.full_width, g.full_height);
    uint32_t columns = (uint32_t)SPIEWOMIR_MACROBLOCKS(g.full_width);
    IS(base_len, SPIEWOMIR_PICTURE_WORDS(g.base_width, g.base_height));
    int16_t *out = (int16_t *)room(count * sizeof *out);
    for (uint32_t a = 0; a < t.lines; a++) words[a * (size_t)SPIEWOMIR_WORDS + 77] = (int16_t)(a + 1); /* in a text that has none */
    IS(spiewomir_picture(g, words, base_len, out, count - 1).refusal, SPIEWOMIR_REFUSED_OUTPUT_LENGTH);
    IS(spiewomir_picture(g, words, base_len, out, count).refusal, SPIEWOMIR_ANSWERED);

    SpiewomirSession s = spiewomir_session_begin(spiewomir_session_fresh(), g).session;
    for (uint32_t a = 0; a < count / SPIEWOMIR_WORDS; a++) {
        int16_t *one = (int16_t *)room(SPIEWOMIR_WORDS * sizeof *one), *next = (int16_t *)room(SPIEWOMIR_WORDS * sizeof *next);
        IS(next_address(s), a);
        SpiewomirMacroblock m = spiewomir_macroblock(g, words, base_len, (int32_t)(next_address(s) % columns), (int32_t)(next_address(s) / columns), one, SPIEWOMIR_WORDS);
        IS(m.refusal, SPIEWOMIR_ANSWERED);
        IS(m.detail, one[77]);
        SpiewomirAdvanced refused = spiewomir_session_next(s, words, base_len, next, SPIEWOMIR_WORDS - 1);
        IS(refused.macroblock.refusal, SPIEWOMIR_REFUSED_OUTPUT_LENGTH);
        IS(next_address(refused.session), a);
        s = spiewomir_session_next(s, words, base_len, next, SPIEWOMIR_WORDS).session;
        IS(memcmp(one, out + a * (size_t)SPIEWOMIR_WORDS, SPIEWOMIR_WORDS * sizeof *one), 0);
        IS(memcmp(one, next, SPIEWOMIR_WORDS * sizeof *one), 0);
        free(one);
        free(next);
    }
    IS(next_address(s), count / SPIEWOMIR_WORDS);
    widths(g, words, base_len, out, count);

    SpiewomirLog l = spiewomir_log(NULL, 0, log, SPIEWOMIR_LOG_BYTES);
    IS(l.empty, 1);
    IS(l.bytes, 15);
    IS(memcmp(log, "(sync 0 0 0 0)\n", 15), 0);
    l = spiewomir_log(text, length, log, SPIEWOMIR_LOG_BYTES);
    IS(l.refusal, SPIEWOMIR_ANSWERED);
    IS(l.empty, 0);
    IS(log[0], '(');
    IS(log[l.bytes - 1], '\n');
    free(words);
    free(log);
    free(out);
}

int main(void) {
    static uint8_t text[SPIEWOMIR_TEXT_BYTES + 1];
    size_t length = fread(text, 1, sizeof text, stdin);
    IS(spiewomir_version(), SPIEWOMIR_VERSION);
    sizes();
    calls(text, length);
    return wrong;
}
