/* The header's constants and members against the library: each refusal is provoked, each
 * kind and class met, each limit tried on both sides.
 *
 *     constants < examples/unaligned.sync
 *
 * Prints what does not hold; the exit status is 0 if all does. */
#include "spiewomir.h"
#include <stdio.h>
#include <string.h>

static int wrong;

static void is(int line, const char *what, uint32_t got, uint32_t expected) {
    if (got == expected) return;
    printf("constants: line %d: %s is %u, not %u\n", line, what, (unsigned)got, (unsigned)expected);
    wrong = 1;
}

#define IS(got, expected) is(__LINE__, #got, (uint32_t)(got), (uint32_t)(expected))

#define W SPIEWOMIR_WORDS
static int16_t base[SPIEWOMIR_TEXT_WORDS + 1], one[W + 1], out[25 * W];
static int32_t wide[2 * W], wide_one[2 * W];
static uint8_t text[SPIEWOMIR_TEXT_BYTES + 1], room[SPIEWOMIR_LOG_BYTES];
static const SpiewomirGeometry small = {16, 16, 16, 16, 0, 0, 16, 16};

static void intra(int16_t *words) {
    for (int i = 0; i < W; i++) words[i] = i >= 5 && i < 13 ? -1 : 0;
}

/* `base` again, in wide words */
static void widen(void) {
    for (int i = 0; i < 2 * W; i++) wide[i] = base[i];
}

/* ---- refusals 1 to 4: each of the eight numbers, wrong by itself */
static void judged(SpiewomirGeometry g, uint32_t expected) {
    IS(spiewomir_macroblock(g, base, W, 0, 0, one, W).refusal, expected);
    IS(spiewomir_picture(g, base, W, out, W).refusal, expected);
    IS(spiewomir_macroblock_wide(g, wide, W, 0, 0, wide_one, W).refusal, expected);
    IS(spiewomir_picture_wide(g, wide, W, wide_one, W).refusal, expected);
    IS(spiewomir_session_begin(spiewomir_session_fresh(), g).refusal, expected);
}

static void geometries(void) {
    SpiewomirGeometry g = small;
    intra(base);
    widen();
    judged(g, SPIEWOMIR_ANSWERED);
    g = small, g.base_width++, judged(g, SPIEWOMIR_REFUSED_BASE_SIZE);
    g = small, g.base_height++, judged(g, SPIEWOMIR_REFUSED_BASE_SIZE);
    g = small, g.full_width++, judged(g, SPIEWOMIR_REFUSED_FULL_SIZE);
    g = small, g.full_height++, judged(g, SPIEWOMIR_REFUSED_FULL_SIZE);
    g = small, g.scaled_width++, judged(g, SPIEWOMIR_REFUSED_SCALED_SIZE);
    g = small, g.scaled_height++, judged(g, SPIEWOMIR_REFUSED_SCALED_SIZE);
    g = small, g.offset_x++, judged(g, SPIEWOMIR_REFUSED_OFFSET);
    g = small, g.offset_y++, judged(g, SPIEWOMIR_REFUSED_OFFSET);
}

/* ---- refusals 5 to 8 */
static void records(void) {
    SpiewomirGeometry g = small;
    g.full_width = 32; /* two columns, one row */
    intra(base);
    IS(spiewomir_macroblock(g, base, W, 1, 0, one, W).refusal, SPIEWOMIR_ANSWERED);
    IS(spiewomir_macroblock(g, base, W - 1, 1, 0, one, W).refusal, SPIEWOMIR_REFUSED_BASE_LENGTH);
    IS(spiewomir_macroblock(g, base, W + 1, 1, 0, one, W).refusal, SPIEWOMIR_REFUSED_BASE_LENGTH);
    IS(spiewomir_macroblock(g, base, W, 1, 0, one, W - 1).refusal, SPIEWOMIR_REFUSED_OUTPUT_LENGTH);
    IS(spiewomir_macroblock(g, base, W, 1, 0, one, W + 1).refusal, SPIEWOMIR_REFUSED_OUTPUT_LENGTH);
    IS(spiewomir_macroblock(g, base, W, 2, 0, one, W).refusal, SPIEWOMIR_REFUSED_POSITION);
    IS(spiewomir_macroblock(g, base, W, 0, 1, one, W).refusal, SPIEWOMIR_REFUSED_POSITION);
    IS(spiewomir_macroblock(g, base, W, -1, 0, one, W).refusal, SPIEWOMIR_REFUSED_POSITION);

    /* the second of two records breaks rule 4; the macroblock reads it */
    g = small, g.base_width = g.scaled_width = 32, g.offset_x = -16;
    intra(base + W);
    base[W + 12] = 0;
    SpiewomirMacroblock m = spiewomir_macroblock(g, base, 2 * W, 0, 0, one, W);
    IS(m.refusal, SPIEWOMIR_REFUSED_RECORD);
    IS(m.place, 1);
    IS(m.rule, 4);
    IS(m.detail, 0);
    SpiewomirPicture p = spiewomir_picture(g, base, 2 * W, out, W);
    IS(p.refusal, SPIEWOMIR_REFUSED_RECORD);
    IS(p.place, 1);
    IS(p.rule, 4);

    /* rule 7, of a record that has no other fault */
    intra(base + W);
    base[W + 77] = 16;
    IS(spiewomir_macroblock(g, base, 2 * W, 0, 0, one, W).rule, 7);
    p = spiewomir_picture(g, base, 2 * W, out, W);
    IS(p.refusal, SPIEWOMIR_REFUSED_RECORD);
    IS(p.place, 1);
    IS(p.rule, 7);
    base[W + 77] = 15;
    m = spiewomir_macroblock(g, base, 2 * W, 0, 0, one, W);
    IS(m.refusal, SPIEWOMIR_ANSWERED);
    IS(m.kind, SPIEWOMIR_INTRA);
    IS(m.detail, 15);
}

/* ---- kinds and sub-types: at ratio 1 the motions of the base's sixteen blocks, a digit for each motion */
static SpiewomirMacroblock split(const char *motions) {
    base[0] = 4;
    for (int i = 1; i < 5; i++) base[i] = 3;
    for (int i = 5; i < 13; i++) base[i] = i % 2 ? 0 : -1;
    memset(base + 13, 0, 65 * sizeof *base);
    for (int i = 0; i < 16; i++) base[13 + 4 * i] = (int16_t)(motions[i] - '0');
    return spiewomir_macroblock(small, base, W, 0, 0, one, W);
}

static void kinds(void) {
    SpiewomirMacroblock m;
    IS(split("0000000000000000").kind, SPIEWOMIR_16X16);
    IS(split("0000000011111111").kind, SPIEWOMIR_16X8);
    IS(split("0011001100110011").kind, SPIEWOMIR_8X16);
    m = split("0011002234563478");
    IS(m.refusal, SPIEWOMIR_ANSWERED);
    IS(m.kind, SPIEWOMIR_8X8);
    IS(m.sub0, SPIEWOMIR_SUB_8X8);
    IS(m.sub1, SPIEWOMIR_SUB_8X4);
    IS(m.sub2, SPIEWOMIR_SUB_4X8);
    IS(m.sub3, SPIEWOMIR_SUB_4X4);
    IS(m.detail, 0);
    /* and each detail is kept */
    for (uint32_t detail = 0; detail < 16; detail++) {
        base[77] = (int16_t)detail;
        m = spiewomir_macroblock(small, base, W, 0, 0, one, W);
        IS(m.refusal, SPIEWOMIR_ANSWERED);
        IS(m.kind, SPIEWOMIR_8X8);
        IS(m.detail, detail);
        IS(one[77], detail);
    }
}

/* ---- wide records: rule 5 by width, and words that are right in their low halves only. At ratio 1 a word `v` at `at` of a base whose one motion, in list 0, is the vector
 * 4, 0, in sixteen blocks. */
static void word_is(int at, int32_t v, uint32_t wide_rule) {
    SpiewomirMacroblock m = split("4444444444444444");
    IS(m.refusal, SPIEWOMIR_ANSWERED);
    widen();
    wide[at] = v;
    m = spiewomir_macroblock_wide(small, wide, W, 0, 0, wide_one, W);
    IS(m.refusal, wide_rule ? SPIEWOMIR_REFUSED_RECORD : SPIEWOMIR_ANSWERED);
    IS(m.rule, wide_rule);
    SpiewomirPicture p = spiewomir_picture_wide(small, wide, W, wide_one + W, W);
    IS(p.refusal, m.refusal);
    IS(p.rule, wide_rule);
    if (wide_rule) return;
    IS(wide_one[at], v);
    IS(memcmp(wide_one, wide_one + W, sizeof *wide_one * W), 0);
}

static void widths(void) {
    static const int32_t narrow[] = {-8193, -8192, 8191, 8192};
    for (int i = 0; i < 4; i++) {
        split("4444444444444444");
        base[13] = (int16_t)narrow[i];
        SpiewomirMacroblock m = spiewomir_macroblock(small, base, W, 0, 0, one, W);
        IS(m.rule, i == 0 || i == 3 ? 5 : 0);
        word_is(13, narrow[i], 0);
    }
    word_is(13, -131073, 5), word_is(13, -131072, 0), word_is(13, 131071, 0), word_is(13, 131072, 5);
    word_is(74, -131073, 5), word_is(74, -131072, 0), word_is(74, 131071, 0), word_is(74, 131072, 5);
    word_is(74, INT32_MIN, 5), word_is(74, INT32_MAX, 5);
    word_is(76, 65536, 5); /* list 1 is not used */
    word_is(0, 65536 + 4, 1), word_is(1, 65536 + 3, 2), word_is(5, 65536, 3), word_is(6, 65535, 3), word_is(77, 65536, 7);

    /* lengths are in words; refusals 5 to 7, and 8 with its place */
    SpiewomirGeometry g = small;
    split("4444444444444444");
    widen();
    IS(spiewomir_macroblock_wide(g, wide, W - 1, 0, 0, wide_one, W).refusal, SPIEWOMIR_REFUSED_BASE_LENGTH);
    IS(spiewomir_macroblock_wide(g, wide, W, 0, 0, wide_one, 2 * W).refusal, SPIEWOMIR_REFUSED_OUTPUT_LENGTH);
    IS(spiewomir_picture_wide(g, wide, W, wide_one, W / 2).refusal, SPIEWOMIR_REFUSED_OUTPUT_LENGTH);
    IS(spiewomir_macroblock_wide(g, wide, W, 1, 0, wide_one, W).refusal, SPIEWOMIR_REFUSED_POSITION);
    g.base_width = g.scaled_width = 32, g.offset_x = -16;
    memcpy(wide + W, wide, W * sizeof *wide);
    wide[W + 13] = 131072;
    SpiewomirMacroblock m = spiewomir_macroblock_wide(g, wide, 2 * W, 0, 0, wide_one, W);
    IS(m.refusal, SPIEWOMIR_REFUSED_RECORD);
    IS(m.place, 1);
    IS(m.rule, 5);
}

/* ---- the log of the text's first n bytes is one line, of a refusal, or of no picture where n is 0, and its call hands that back */
static void logged(size_t n, uint32_t number, uint32_t place, uint32_t rule, const char *line) {
    SpiewomirLog l = spiewomir_log(text, n, room, SPIEWOMIR_LOG_BYTES);
    IS(l.refusal, SPIEWOMIR_ANSWERED);
    IS(l.text_refusal, number);
    IS(l.place, place);
    IS(l.rule, rule);
    IS(l.empty, n == 0);
    IS(l.bytes, strlen(line));
    IS(memcmp(room, line, strlen(line)), 0);
}

/* ---- no picture: of a text of no bytes only, after 6, with no word written */
static void empty_texts(void) {
    static const char *const zeros = "(base 0 0)\n(scaled 0 0)\n(at 0 0)\n(full 0 0)\n", *const notes = "(note)\n(note rest day)\n";
    static const SpiewomirText none;
    static int16_t before[SPIEWOMIR_TEXT_WORDS];
    for (size_t i = 0; i < SPIEWOMIR_TEXT_WORDS; i++) base[i] = before[i] = (int16_t)(i * 7 + 1);
    SpiewomirText t = spiewomir_text(text, 0, base, SPIEWOMIR_TEXT_WORDS);
    IS(t.empty, 1);
    t.empty = 0;
    IS(memcmp(&t, &none, sizeof t), 0);
    t = spiewomir_text(text, 0, base, SPIEWOMIR_TEXT_WORDS - 1);
    IS(t.refusal, SPIEWOMIR_REFUSED_OUTPUT_LENGTH);
    IS(t.empty, 0);
    t = spiewomir_text(text, 0, base, SPIEWOMIR_TEXT_WORDS + 1);
    IS(t.refusal, SPIEWOMIR_REFUSED_OUTPUT_LENGTH);
    IS(t.empty, 0);
    logged(0, SPIEWOMIR_ANSWERED, 0, 0, "(sync 0 0 0 0)\n");
    SpiewomirLog l = spiewomir_log(text, 0, room, SPIEWOMIR_LOG_BYTES - 1);
    IS(l.refusal, SPIEWOMIR_REFUSED_OUTPUT_LENGTH);
    IS(l.bytes, 0);
    IS(l.empty, 0);

    /* a text with the same numbers is not empty, nor are a line feed alone and notes only */
    memcpy(text, zeros, strlen(zeros));
    t = spiewomir_text(text, strlen(zeros), base, SPIEWOMIR_TEXT_WORDS);
    IS(memcmp(&t, &none, sizeof t), 0);
    logged(strlen(zeros), SPIEWOMIR_REFUSED_BASE_SIZE, 0, 0, "(refused 1 0)\n");
    text[0] = '\n';
    t = spiewomir_text(text, 1, base, SPIEWOMIR_TEXT_WORDS);
    IS(t.refusal, SPIEWOMIR_REFUSED_GRAMMAR);
    IS(t.place, 0);
    IS(t.empty, 0);
    logged(1, SPIEWOMIR_REFUSED_GRAMMAR, 0, 0, "(refused 9 0)\n");
    memcpy(text, notes, strlen(notes));
    t = spiewomir_text(text, strlen(notes), base, SPIEWOMIR_TEXT_WORDS);
    IS(t.refusal, SPIEWOMIR_REFUSED_GRAMMAR);
    IS(t.place, strlen(notes));
    IS(t.empty, 0);
    logged(strlen(notes), SPIEWOMIR_REFUSED_GRAMMAR, (uint32_t)strlen(notes), 0, "(refused 9 23)\n");
    IS(memcmp(base, before, sizeof before), 0);
}

/* ---- texts: refusals 6, 9 and 10, and the members in their order */
static void texts(void) {
    static const char some[] = "(base 16 32)\n(scaled 18 34)\n(at -2 4)\n(full 48 64)\n";
    size_t n = sizeof some - 1;
    SpiewomirText t;
    memset(text, 'a', sizeof text);
    IS(spiewomir_text(text, SPIEWOMIR_TEXT_BYTES, base, SPIEWOMIR_TEXT_WORDS).refusal, SPIEWOMIR_REFUSED_GRAMMAR);
    IS(spiewomir_text(text, SPIEWOMIR_TEXT_BYTES + 1, base, SPIEWOMIR_TEXT_WORDS).refusal, SPIEWOMIR_REFUSED_LIMIT);
    IS(spiewomir_text(text, SPIEWOMIR_TEXT_BYTES + 1, base, SPIEWOMIR_TEXT_WORDS - 1).refusal, SPIEWOMIR_REFUSED_OUTPUT_LENGTH);
    IS(spiewomir_text(text, SPIEWOMIR_TEXT_BYTES + 1, base, SPIEWOMIR_TEXT_WORDS + 1).refusal, SPIEWOMIR_REFUSED_OUTPUT_LENGTH);
    memcpy(text, some, n);
    t = spiewomir_text(text, n - 1, base, SPIEWOMIR_TEXT_WORDS);
    IS(t.refusal, SPIEWOMIR_REFUSED_GRAMMAR);
    IS(t.place, n - 1);
    IS(t.rule, 0);
    for (int i = 0; i <= SPIEWOMIR_TEXT_RECORDS; i++) memcpy(text + n + 10 * (size_t)i, "(intra 9)\n", 10);
    t = spiewomir_text(text, n + 10 * SPIEWOMIR_TEXT_RECORDS, base, SPIEWOMIR_TEXT_WORDS);
    IS(t.refusal, SPIEWOMIR_ANSWERED);
    IS(t.empty, 0);
    IS(t.lines, SPIEWOMIR_TEXT_RECORDS);
    for (int i = 0; i < SPIEWOMIR_TEXT_RECORDS; i++) IS(base[i * W + 77], 9);
    IS(t.geometry.base_width, 16);
    IS(t.geometry.base_height, 32);
    IS(t.geometry.scaled_width, 18);
    IS(t.geometry.scaled_height, 34);
    IS(t.geometry.offset_x, -2);
    IS(t.geometry.offset_y, 4);
    IS(t.geometry.full_width, 48);
    IS(t.geometry.full_height, 64);
    IS(spiewomir_text(text, n + 10 * (SPIEWOMIR_TEXT_RECORDS + 1), base, SPIEWOMIR_TEXT_WORDS).refusal, SPIEWOMIR_REFUSED_LIMIT);
    SpiewomirLog l = spiewomir_log(text, n, room, SPIEWOMIR_LOG_BYTES - 1);
    IS(l.refusal, SPIEWOMIR_REFUSED_OUTPUT_LENGTH);
    IS(l.text_refusal, SPIEWOMIR_ANSWERED);
    IS(l.place, 0);
    IS(l.rule, 0);
    IS(l.bytes, 0);
    logged(n, SPIEWOMIR_REFUSED_BASE_LENGTH, 0, 0, "(refused 5 0)\n");
    logged(n - 1, SPIEWOMIR_REFUSED_GRAMMAR, (uint32_t)(n - 1), 0, "(refused 9 50)\n");
    static const char two[] = "(intra 0)\n(whole (0 32) (0 0 0 0) 0)\n", more[] = "(intra 15)\n(whole (0 31) (0 0 0 0) 16)\n", old[] = "(intra)\n";
    memcpy(text + n, two, sizeof two - 1);
    logged(n + sizeof two - 1, SPIEWOMIR_REFUSED_RECORD, 1, 3, "(refused 8 1)\n");
    memcpy(text + n, more, sizeof more - 1);
    logged(n + sizeof more - 1, SPIEWOMIR_REFUSED_RECORD, 1, 7, "(refused 8 1)\n");
    memcpy(text + n, old, sizeof old - 1);
    logged(n + sizeof old - 1, SPIEWOMIR_REFUSED_GRAMMAR, (uint32_t)(n + 6), 0, "(refused 9 57)\n");
}

/* ---- the picture of examples/unaligned.sync: classes, counts, details, and refusals 20 to 22. The text's details are 0;
 * the four records are given one each, in quadrants 1, 3, 1 (of the intra one) and 2. */
static const int16_t details[] = {2, 8, 2, 4};

static const struct {
    int32_t column, row;
    uint32_t class_, base_column, base_row, detail;
    int inherited;
    uint32_t first, right, below, diagonal;
} read_by[] = {{1, 1, SPIEWOMIR_CORNER, 0, 0, 3, 1, 16, 0, 0, 0}, {2, 1, SPIEWOMIR_VERT, 0, 0, 1, 1, 4, 12, 0, 0},
               {3, 2, SPIEWOMIR_HORI, 1, 0, 3, 1, 4, 0, 12, 0},   {2, 2, SPIEWOMIR_CENTER, 0, 0, 5, 1, 1, 3, 3, 9},
               {3, 1, SPIEWOMIR_CORNER, 1, 0, 15, 1, 16, 0, 0, 0}, {1, 3, SPIEWOMIR_CORNER, 0, 1, 3, 0, 16, 0, 0, 0}};

static void picture(size_t length) {
    SpiewomirText t = spiewomir_text(text, length, base, SPIEWOMIR_TEXT_WORDS);
    size_t words = (size_t)t.lines * W;
    IS(t.refusal, SPIEWOMIR_ANSWERED);
    IS(t.lines, 4);
    for (int i = 0; i < 4; i++) {
        IS(base[i * W + 77], 0);
        base[i * W + 77] = details[i];
    }
    SpiewomirPicture p = spiewomir_picture(t.geometry, base, words, out, 25 * W);
    IS(p.refusal, SPIEWOMIR_ANSWERED);
    IS(p.inherited, 7);
    IS(p.intra, 2);
    IS(p.outside, 16);
    for (size_t i = 0; i < sizeof read_by / sizeof *read_by; i++) {
        SpiewomirMacroblock m = spiewomir_macroblock(t.geometry, base, words, read_by[i].column, read_by[i].row, one, W);
        IS(m.refusal, SPIEWOMIR_ANSWERED);
        IS(m.kind != SPIEWOMIR_INTRA && m.kind != SPIEWOMIR_OUTSIDE, read_by[i].inherited);
        IS(m.class_, read_by[i].class_);
        IS(m.column, read_by[i].base_column);
        IS(m.row, read_by[i].base_row);
        IS(m.detail, read_by[i].detail);
        IS(one[77], read_by[i].detail);
        IS(m.first, read_by[i].first);
        IS(m.right, read_by[i].right);
        IS(m.below, read_by[i].below);
        IS(m.diagonal, read_by[i].diagonal);
    }
    SpiewomirMacroblock m = spiewomir_macroblock(t.geometry, base, words, 1, 2, one, W);
    IS(m.kind, SPIEWOMIR_INTRA);
    IS(one[0], SPIEWOMIR_INTRA);
    IS(m.detail, 15);
    IS(one[77], 15);
    IS(m.first, 4);
    IS(m.below, 12);
    IS(m.right + m.diagonal, 0);
    m = spiewomir_macroblock(t.geometry, base, words, 4, 3, one, W);
    IS(m.kind, SPIEWOMIR_OUTSIDE);
    IS(one[0], SPIEWOMIR_OUTSIDE);
    IS(m.class_, SPIEWOMIR_CORNER);
    IS(m.column, 0);
    IS(m.row, 0);
    IS(m.detail, 0);
    IS(one[77], 0);
    IS(m.first + m.right + m.below + m.diagonal, 0);

    SpiewomirSession s = spiewomir_session_fresh();
    IS(s.begun, 0);
    IS(spiewomir_session_next(s, base, words, one, W).macroblock.refusal, SPIEWOMIR_REFUSED_NOTHING_BEGUN);
    IS(spiewomir_session_abandon(s).refusal, SPIEWOMIR_REFUSED_NOTHING_BEGUN);
    s = spiewomir_session_begin(s, t.geometry).session;
    IS(s.begun, 1);
    IS(s.geometry.scaled_width, 64);
    IS(s.geometry.full_height, 80);
    IS(memcmp(&s.geometry, &t.geometry, sizeof s.geometry), 0);
    for (int i = 0; i < 25; i++) {
        IS(spiewomir_session_begin(s, t.geometry).refusal, SPIEWOMIR_REFUSED_UNFINISHED);
        SpiewomirAdvanced a = spiewomir_session_next(s, base, words, one, W);
        IS(a.macroblock.refusal, SPIEWOMIR_ANSWERED);
        IS(a.macroblock.kind, out[i * W]);
        IS(a.macroblock.detail, out[i * W + 77]);
        s = a.session;
    }
    IS(spiewomir_session_next(s, base, words, one, W).macroblock.refusal, SPIEWOMIR_REFUSED_FINISHED);
    IS(spiewomir_session_abandon(s).refusal, SPIEWOMIR_REFUSED_FINISHED);
    SpiewomirTotals c = spiewomir_session_totals(s);
    IS(memcmp(&c.session, &s, sizeof s), 0);
    IS(s.inherited, 7);
    IS(s.intra, 2);
    IS(s.outside, 16);
    IS(c.inherited, 7);
    IS(c.intra, 2);
    IS(c.outside, 16);

    static const char last[] = "(sync 25 7 2 16)\n";
    SpiewomirLog l = spiewomir_log(text, length, room, SPIEWOMIR_LOG_BYTES);
    IS(l.refusal, SPIEWOMIR_ANSWERED);
    IS(l.text_refusal, SPIEWOMIR_ANSWERED);
    IS(l.place, 0);
    IS(l.rule, 0);
    IS(l.empty, 0);
    IS(l.bytes > strlen(last) && !memcmp(room + l.bytes - strlen(last), last, strlen(last)), 1);
}

int main(void) {
    size_t length = fread(text, 1, sizeof text, stdin);
    picture(length);
    geometries();
    records();
    kinds();
    widths();
    texts();
    empty_texts();
    return wrong;
}
