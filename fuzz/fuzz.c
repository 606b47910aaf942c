/* Damaged texts and wrong calls through the C interface, by numbers from a seed.
 *
 *     fuzz SEED COUNT TEXT..    the texts are sync texts to start from
 *
 * Every lent buffer ends where a page ends that may not be touched (with -m it is
 * from malloc, for a memory checker), or is a null pointer of length 0. Of each
 * input: a refused call leaves every lent word and byte, and what is only read stays;
 * a text's log, its picture, its macroblocks one by one and its session say the same;
 * an answer says what its record says, and names base macroblocks that are there, from
 * which its detail comes and which its four counts are of. A text of no bytes, and no
 * other, is answered with no picture, whatever is lent with it. Each base goes through the
 * wide calls too, which give the same where its vectors fit the narrow ones, and again with
 * long vectors and damaged wide words. The last lines say how many inputs were tried, how
 * often each refusal and rule came, and no picture, and details, and long vectors; the exit
 * status is 0 if all held. */
#define _DEFAULT_SOURCE
#include "spiewomir.h"
#include <stdio.h>
#include <stdlib.h>
#include <string.h>
#include <sys/mman.h>
#include <unistd.h>

static int from_malloc;
static unsigned long long state;
static unsigned long calls[5];
static unsigned long refusals[32], rules[8];
static unsigned long details[3]; /* answers without, and inherited and intra ones with */
static unsigned long empties; /* inputs answered with no picture */
static unsigned long wide_calls[2], wide_refusals[32], wide_rules[8], long_words; /* of the wide calls; written vector words beyond 16 bits */

static unsigned below(unsigned n) {
    state ^= state << 13;
    state ^= state >> 7;
    state ^= state << 17;
    return (unsigned)((state >> 20) % n);
}

/* one less, the same, or one more */
static size_t about(size_t n) {
    unsigned k = below(3);
    return k == 0 ? n + 1 : k == 1 && n > 0 ? n - 1 : n;
}

static void fail(const char *what) {
    printf("fuzz: %s\n", what);
    exit(1);
}

#define HOLDS(test) ((test) ? (void)0 : fail(#test))

/* ---- lent buffers */
typedef struct {
    void *at;
    size_t size;
    void *pages;
    size_t mapped;
} Lent;

static Lent lend(size_t size) {
    Lent l = {NULL, size, NULL, 0};
    if (from_malloc) {
        l.at = malloc(size ? size : 1);
        if (!l.at) fail("no memory");
        return l;
    }
    size_t page = (size_t)sysconf(_SC_PAGESIZE);
    l.mapped = (size + page - 1) / page * page + page;
    l.pages = mmap(NULL, l.mapped, PROT_READ | PROT_WRITE, MAP_PRIVATE | MAP_ANONYMOUS, -1, 0);
    if (l.pages == MAP_FAILED) fail("no memory");
    char *end = (char *)l.pages + l.mapped - page;
    if (mprotect(end, page, PROT_NONE)) fail("mprotect");
    l.at = end - size;
    return l;
}

static void back(Lent l) {
    if (from_malloc) free(l.at);
    else munmap(l.pages, l.mapped);
}

static void scribble(void *at, size_t size) {
    unsigned char *p = at;
    unsigned char c = (unsigned char)below(256);
    for (size_t i = 0; i < size; i++) p[i] = (unsigned char)(c + i * 7);
}

static void *copy_of(const void *at, size_t size) {
    void *c = malloc(size ? size : 1);
    if (!c) fail("no memory");
    memcpy(c, at, size);
    return c;
}

/* ---- texts */
#define MOST 70000
static unsigned char text[2 * MOST];
static size_t length;

static void put(size_t at, const void *bytes, size_t n, size_t instead) {
    if (length - instead + n > MOST) return;
    memmove(text + at + n, text + at + instead, length - at - instead);
    memcpy(text + at, bytes, n);
    length = length - instead + n;
}

static void damage(const unsigned char *other, size_t other_length) {
    static const char *const bits[] = {"-32769", "-32768", "32767", "32768", "-0", "00", "01", "4096", "4112", "16", "15", "5", "-1", "(note)\n", "(note a (1 (b)))\n", "((((((((a))))))))", "(intra 15)\n", " ", "(", ")", "\n"};
    size_t at = below((unsigned)length + 1);
    size_t some = 1 + below(6);
    if (some > length - at) some = length - at;
    switch (below(7)) {
    case 0: if (at < length) text[at] = (unsigned char)below(256); break;
    case 1: put(at, "", 0, some); break;
    case 2: put(at, text + at, some, 0); break;
    case 3: length = at; break;
    case 4: {
        const char *b = bits[below(sizeof bits / sizeof *bits)];
        put(at, b, strlen(b), 0);
        break;
    }
    case 5: { /* a number replaced */
        const char *b = bits[below(13)];
        while (at < length && (text[at] < '0' || text[at] > '9')) at++;
        size_t n = 0;
        while (at + n < length && text[at + n] >= '0' && text[at + n] <= '9') n++;
        if (n) put(at, b, strlen(b), n);
        break;
    }
    default: { /* part of another text */
        size_t from = below((unsigned)other_length + 1), n = below((unsigned)(other_length - from) + 1);
        put(at, other + from, n, 0);
    }
    }
}

/* ---- what one macroblock's call of either width hands back, with the words that it wrote */
static int inside(int32_t at, int32_t offset, int32_t scaled) { return offset <= 16 * at && 16 * at + 16 <= offset + scaled; }

static int32_t word(int wide, const void *words, size_t at) { return wide ? ((const int32_t *)words)[at] : ((const int16_t *)words)[at]; }

static void answer(int wide, SpiewomirGeometry g, const void *base, int32_t column, int32_t row, SpiewomirMacroblock m, const void *record) {
    if (m.refusal) {
        HOLDS(m.refusal == SPIEWOMIR_REFUSED_RECORD ? m.rule >= 1 && m.rule <= 7 : m.place == 0 && m.rule == 0);
        HOLDS(!m.kind && !m.sub0 && !m.sub1 && !m.sub2 && !m.sub3 && !m.class_ && !m.column && !m.row && !m.detail);
        HOLDS(!m.first && !m.right && !m.below && !m.diagonal);
        return;
    }
    HOLDS(m.place == 0 && m.rule == 0);
    HOLDS(m.kind == (uint32_t)word(wide, record, 0));
    HOLDS(m.sub0 == (uint32_t)word(wide, record, 1) && m.sub1 == (uint32_t)word(wide, record, 2));
    HOLDS(m.sub2 == (uint32_t)word(wide, record, 3) && m.sub3 == (uint32_t)word(wide, record, 4));
    HOLDS(m.sub0 <= 3 && m.sub1 <= 3 && m.sub2 <= 3 && m.sub3 <= 3);
    HOLDS(m.kind == SPIEWOMIR_8X8 || !(m.sub0 || m.sub1 || m.sub2 || m.sub3));
    HOLDS(m.detail == (uint32_t)word(wide, record, 77) && m.detail <= 15);
    if (!inside(column, g.offset_x, g.scaled_width) || !inside(row, g.offset_y, g.scaled_height)) {
        HOLDS(m.kind == SPIEWOMIR_OUTSIDE && m.class_ == SPIEWOMIR_CORNER && m.column == 0 && m.row == 0 && m.detail == 0);
        HOLDS(!m.first && !m.right && !m.below && !m.diagonal);
        return;
    }
    HOLDS(m.kind == SPIEWOMIR_INTRA || m.kind == SPIEWOMIR_16X16 || m.kind == SPIEWOMIR_16X8 || m.kind == SPIEWOMIR_8X16 || m.kind == SPIEWOMIR_8X8);
    HOLDS(m.class_ == SPIEWOMIR_CORNER || m.class_ == SPIEWOMIR_VERT || m.class_ == SPIEWOMIR_HORI || m.class_ == SPIEWOMIR_CENTER);
    uint32_t columns = m.class_ == SPIEWOMIR_VERT || m.class_ == SPIEWOMIR_CENTER ? 2 : 1;
    uint32_t rows = m.class_ == SPIEWOMIR_HORI || m.class_ == SPIEWOMIR_CENTER ? 2 : 1;
    HOLDS(m.column < 256 && m.column + columns <= (uint32_t)g.base_width / 16);
    HOLDS(m.row < 256 && m.row + rows <= (uint32_t)g.base_height / 16);

    /* what fed it: all sixteen blocks, each macroblock that is named with some and no other */
    HOLDS(m.first + m.right + m.below + m.diagonal == 16 && m.first <= 16 && m.right <= 16 && m.below <= 16);
    HOLDS(m.first && !m.right == (columns == 1) && !m.below == (rows == 1) && !m.diagonal == (columns == 1 || rows == 1));
    HOLDS(m.first * m.diagonal == m.right * m.below);

    /* detail comes from the base macroblocks that are named, and from no others: none if they have none, all if they have all */
    int32_t some = 0, every = 15;
    for (uint32_t r = m.row; r < m.row + rows; r++)
        for (uint32_t c = m.column; c < m.column + columns; c++) {
            int32_t d = word(wide, base, (r * ((uint32_t)g.base_width / 16) + c) * SPIEWOMIR_WORDS + 77);
            some |= d, every &= d;
        }
    HOLDS(some || m.detail == 0);
    HOLDS(every != 15 || m.detail == 15);
    if (!wide) details[m.detail ? m.kind == SPIEWOMIR_INTRA ? 2 : 1 : 0]++;
}

/* ---- null pointers of length 0, for each buffer of each call. `g` is refused by `verdict`, or by none. */
static void nulls(SpiewomirGeometry g, uint32_t verdict, const int16_t *base, size_t count, int16_t *out, size_t room) {
    uint32_t no_base = verdict ? verdict : SPIEWOMIR_REFUSED_BASE_LENGTH;
    int fits = !verdict && count == (size_t)(g.base_width / 16) * (size_t)(g.base_height / 16) * SPIEWOMIR_WORDS;
    uint32_t no_out = fits ? SPIEWOMIR_REFUSED_OUTPUT_LENGTH : no_base;
    SpiewomirSession s = spiewomir_session_begin(spiewomir_session_fresh(), g).session;
    uint32_t begun = verdict ? SPIEWOMIR_REFUSED_NOTHING_BEGUN : 0;
    HOLDS(spiewomir_macroblock(g, NULL, 0, 0, 0, out, room).refusal == no_base);
    HOLDS(spiewomir_macroblock(g, base, count, 0, 0, NULL, 0).refusal == no_out);
    HOLDS(spiewomir_macroblock(g, NULL, 0, 0, 0, NULL, 0).refusal == no_base);
    HOLDS(spiewomir_picture(g, NULL, 0, out, room).refusal == no_base);
    HOLDS(spiewomir_picture(g, base, count, NULL, 0).refusal == no_out);
    HOLDS(spiewomir_picture(g, NULL, 0, NULL, 0).refusal == no_base);
    HOLDS(spiewomir_session_next(s, NULL, 0, out, room).macroblock.refusal == (begun ? begun : no_base));
    HOLDS(spiewomir_session_next(s, base, count, NULL, 0).macroblock.refusal == (begun ? begun : no_out));
    HOLDS(spiewomir_session_next(s, NULL, 0, NULL, 0).macroblock.refusal == (begun ? begun : no_base));
}

/* ---- the wide calls on one base */
static SpiewomirPicture wide_pictures(SpiewomirGeometry g, const int32_t *base, size_t count, Lent out, size_t words_out, size_t full) {
    void *lent = copy_of(base, count * sizeof(int32_t)), *before = copy_of(out.at, out.size);
    SpiewomirPicture p = spiewomir_picture_wide(g, base, count, out.at, words_out);
    wide_calls[0]++;
    wide_refusals[p.refusal]++;
    wide_rules[p.rule & 7]++;
    if (p.refusal) {
        HOLDS(memcmp(out.at, before, out.size) == 0);
    } else {
        for (size_t at = 0; at < count; at++) { /* each word of the base is in the range that its rule gives */
            size_t w = at % SPIEWOMIR_WORDS;
            int32_t low = w < 5 || w == 77 ? 0 : w < 13 ? -1 : -131072, high = w == 0 ? 4 : w < 5 ? 3 : w < 13 ? 31 : w < 77 ? 131071 : 15;
            HOLDS(base[at] >= low && base[at] <= high);
        }
        for (size_t at = 0; at < words_out; at++) {
            int32_t v = ((int32_t *)out.at)[at];
            HOLDS(v >= -262144 && v <= 262142);
            long_words += v < INT16_MIN || v > INT16_MAX;
        }
    }
    Lent one = lend(SPIEWOMIR_WORDS * sizeof(int32_t));
    for (size_t a = 0; a < (p.refusal ? 3 : full < 8 ? full + 1 : 8); a++) {
        int32_t across = g.full_width >= 16 ? g.full_width / 16 : 1;
        int32_t column = (int32_t)a % across, row = (int32_t)a / across;
        if (p.refusal && a == 2) column = -1 - (int32_t)below(9);
        scribble(one.at, one.size);
        void *was = copy_of(one.at, one.size);
        SpiewomirMacroblock m = spiewomir_macroblock_wide(g, base, count, column, row, one.at, SPIEWOMIR_WORDS);
        wide_calls[1]++;
        wide_refusals[m.refusal]++;
        wide_rules[m.rule & 7]++;
        if (m.refusal) HOLDS(memcmp(one.at, was, one.size) == 0);
        answer(1, g, base, column, row, m, one.at);
        if (!p.refusal && a < full) {
            HOLDS(m.refusal == 0);
            HOLDS(memcmp(one.at, (int32_t *)out.at + a * SPIEWOMIR_WORDS, one.size) == 0);
        }
        free(was);
    }
    HOLDS(memcmp(base, lent, count * sizeof(int32_t)) == 0);
    back(one);
    free(before);
    free(lent);
    return p;
}

static int is_vector(size_t at) { return at % SPIEWOMIR_WORDS >= 13 && at % SPIEWOMIR_WORDS < 77; }

/* ---- a narrow base, of which `p` and `made` are the picture, in wide words: the same where its vectors fit the narrow limit. Then with vectors so many times as long, which makes
 * the written ones as much longer, but for the rounding; and every second time with a word damaged, now and then in its high half alone. The numbers that are drawn for it are given back: the narrow calls are made of the same ones without it. */
static void wide_records(SpiewomirGeometry g, const int16_t *narrow, size_t count, SpiewomirPicture p, const int16_t *made, size_t words_out, size_t full) {
    Lent base = lend(count * sizeof(int32_t)), out = lend(words_out * sizeof(int32_t));
    int32_t *in = base.at, most = 1;
    unsigned long long drawn = state;
    int fit = 1;
    for (size_t at = 0; at < count; at++) {
        in[at] = narrow[at];
        if (!is_vector(at)) continue;
        fit = fit && in[at] >= -8192 && in[at] <= 8191;
        if (abs(in[at]) <= 8192 && abs(in[at]) > most) most = abs(in[at]);
    }
    scribble(out.at, out.size);
    HOLDS(spiewomir_macroblock_wide(g, NULL, 0, 0, 0, out.at, words_out).refusal == spiewomir_macroblock(g, NULL, 0, 0, 0, NULL, 0).refusal);
    HOLDS(spiewomir_macroblock_wide(g, in, count, 0, 0, NULL, 0).refusal == spiewomir_macroblock(g, narrow, count, 0, 0, NULL, 0).refusal);
    HOLDS(spiewomir_picture_wide(g, NULL, 0, NULL, 0).refusal == spiewomir_picture(g, NULL, 0, NULL, 0).refusal);
    HOLDS(spiewomir_picture_wide(g, in, count, NULL, 0).refusal == spiewomir_picture(g, narrow, count, NULL, 0).refusal);
    SpiewomirPicture w = wide_pictures(g, in, count, out, words_out, full);
    if (fit) {
        HOLDS(memcmp(&w, &p, sizeof p) == 0);
        for (size_t at = 0; !p.refusal && at < words_out; at++) HOLDS(((int32_t *)out.at)[at] == made[at]);
    }

    static const int32_t limits[] = {INT32_MIN, -131073, -131072, -65536, -8193, 8192, 65536, 65537, 131071, 131072, INT32_MAX};
    int32_t longer = below(4) ? 131071 / most : 1;
    for (size_t at = 0; at < count; at++)
        if (is_vector(at) && abs(in[at]) <= 8192) in[at] *= longer;
    int damaged = count && below(2);
    if (damaged) {
        size_t at = below((unsigned)count);
        if (below(4) == 0) at -= at % SPIEWOMIR_WORDS;
        switch (below(3)) {
        case 0: in[at] = limits[below(sizeof limits / sizeof *limits)]; break;
        case 1: in[at] ^= (int32_t)(1 + below(0x7fff)) << 16; break;
        default: in[at] = (int32_t)(below(65536) | (below(32768) << 16));
        }
    }
    w = wide_pictures(g, in, count, out, words_out, full);
    if (fit && !damaged) {
        HOLDS(memcmp(&w, &p, sizeof p) == 0);
        for (size_t at = 0; !p.refusal && at < words_out; at++) {
            int32_t v = ((int32_t *)out.at)[at];
            HOLDS(is_vector(at) ? abs(v - longer * made[at]) <= longer + 2 : v == made[at]);
        }
    }
    state = drawn;
    back(out);
    back(base);
}

/* ---- a picture: the calls on records */
static void records(SpiewomirGeometry g, const int16_t *words, size_t count, const SpiewomirPicture *logged) {
    Lent base = lend(count * sizeof(int16_t));
    memcpy(base.at, words, count * sizeof(int16_t));
    int16_t *in = base.at;
    if (below(2)) /* other details where they are right */
        for (size_t at = 77; at < count; at += SPIEWOMIR_WORDS)
            if (in[at] >= 0 && in[at] <= 15) in[at] = (int16_t)below(16);
    if (!logged && count) { /* a word damaged, now and then a detail */
        size_t at = below((unsigned)count);
        if (below(8) == 0) at = at - at % SPIEWOMIR_WORDS + 77;
        in[at] = (int16_t)(below(65536) - 32768);
    }
    void *lent = copy_of(base.at, base.size);
    size_t full = 16;
    if (g.full_width > 0 && g.full_width <= 4096 && g.full_height > 0 && g.full_height <= 4096)
        full = (size_t)(g.full_width / 16) * (size_t)(g.full_height / 16);
    if (full > 4096) full = 4096;
    size_t words_out = full * SPIEWOMIR_WORDS;
    if (!logged && below(8) == 0) words_out = about(words_out);
    Lent out = lend(words_out * sizeof(int16_t));
    scribble(out.at, out.size);
    void *before = copy_of(out.at, out.size);
    SpiewomirJudged begun = spiewomir_session_begin(spiewomir_session_fresh(), g);
    nulls(g, begun.refusal, base.at, count, out.at, words_out);
    HOLDS(memcmp(out.at, before, out.size) == 0);
    SpiewomirPicture p = spiewomir_picture(g, base.at, count, out.at, words_out);
    calls[1]++;
    refusals[p.refusal]++;
    if (p.refusal) HOLDS(memcmp(out.at, before, out.size) == 0);
    if (logged && full < 4096) {
        HOLDS(p.refusal == 0);
        HOLDS(p.inherited == logged->inherited && p.intra == logged->intra && p.outside == logged->outside);
    }

    /* one by one, and in a session */
    SpiewomirSession session = begun.session;
    Lent one = lend(SPIEWOMIR_WORDS * sizeof(int16_t));
    size_t tries = p.refusal ? 3 : full < 64 ? full + 1 : 64;
    for (size_t a = 0; a < tries; a++) {
        int32_t across = g.full_width >= 16 ? g.full_width / 16 : 1;
        int32_t column = (int32_t)a % across, row = (int32_t)a / across;
        if (p.refusal && a == 2) column = -1 - (int32_t)below(9);
        scribble(one.at, one.size);
        void *was = copy_of(one.at, one.size);
        SpiewomirMacroblock m = spiewomir_macroblock(g, base.at, count, column, row, one.at, SPIEWOMIR_WORDS);
        calls[2]++;
        refusals[m.refusal]++;
        rules[m.rule & 7]++;
        if (m.refusal) HOLDS(memcmp(one.at, was, one.size) == 0);
        answer(0, g, base.at, column, row, m, one.at);
        if (!p.refusal && a < full) {
            HOLDS(m.refusal == 0);
            HOLDS(memcmp(one.at, (int16_t *)out.at + a * SPIEWOMIR_WORDS, one.size) == 0);
        }
        scribble(one.at, one.size);
        free(was);
        was = copy_of(one.at, one.size);
        SpiewomirAdvanced n = spiewomir_session_next(session, base.at, count, one.at, SPIEWOMIR_WORDS);
        calls[3]++;
        refusals[n.macroblock.refusal]++;
        if (n.macroblock.refusal) {
            HOLDS(memcmp(one.at, was, one.size) == 0);
            HOLDS(memcmp(&n.session, &session, sizeof session) == 0);
        } else {
            if (!p.refusal && a < full) HOLDS(memcmp(one.at, (int16_t *)out.at + a * SPIEWOMIR_WORDS, one.size) == 0);
            HOLDS(column < 0 || memcmp(&n.macroblock, &m, sizeof m) == 0);
        }
        session = n.session;
        free(was);
    }
    SpiewomirTotals t = spiewomir_session_totals(session);
    if (!p.refusal && full < 64) HOLDS(t.inherited == p.inherited && t.intra == p.intra && t.outside == p.outside);
    refusals[spiewomir_session_abandon(session).refusal]++;
    refusals[spiewomir_session_begin(session, g).refusal]++;
    wide_records(g, base.at, count, p, out.at, words_out, full);
    HOLDS(memcmp(base.at, lent, base.size) == 0);
    back(one);
    free(lent);
    free(before);
    back(out);
    back(base);
}

/* ---- a text: the text call, and the log */
/* A text that is read, but refused by its log: the picture call refuses its numbers and words alike, with words to write
 * for the picture of a geometry that 1 to 4 accept. */
static void judged_alike(SpiewomirGeometry g, const int16_t *words, size_t count, SpiewomirLog log) {
    size_t room = 0;
    if (!spiewomir_session_begin(spiewomir_session_fresh(), g).refusal)
        room = (size_t)(g.full_width / 16) * (size_t)(g.full_height / 16) * SPIEWOMIR_WORDS;
    if (room > 1024 * SPIEWOMIR_WORDS) return;
    Lent out = lend(room * sizeof(int16_t));
    SpiewomirPicture p = spiewomir_picture(g, words, count, out.at, room);
    HOLDS(p.refusal == log.text_refusal && p.place == log.place && p.rule == log.rule);
    back(out);
}

/* The text call on no bytes, at `at` or null: 6 for another count of words, else no picture; and no word is written. */
static void no_bytes(const unsigned char *at, int16_t *words, size_t count) {
    static const SpiewomirText zeros;
    void *before = copy_of(words, count * sizeof(int16_t));
    SpiewomirText r = spiewomir_text(at, 0, words, count);
    HOLDS(r.refusal == (count == SPIEWOMIR_TEXT_WORDS ? 0 : SPIEWOMIR_REFUSED_OUTPUT_LENGTH));
    HOLDS(r.empty == (count == SPIEWOMIR_TEXT_WORDS));
    r.refusal = r.empty = 0;
    HOLDS(memcmp(&r, &zeros, sizeof r) == 0);
    HOLDS(memcmp(words, before, count * sizeof(int16_t)) == 0);
    free(before);
}

/* Its log: 6 for too few bytes, else one line; and of the first `seen` bytes no other is written. */
static void no_bytes_log(const unsigned char *at, unsigned char *log, size_t room, size_t seen) {
    static const char line[] = "(sync 0 0 0 0)\n";
    size_t end = room < SPIEWOMIR_LOG_BYTES ? 0 : sizeof line - 1;
    unsigned char *before = copy_of(log, seen);
    SpiewomirLog g = spiewomir_log(at, 0, log, room);
    HOLDS(g.refusal == (end ? 0 : SPIEWOMIR_REFUSED_OUTPUT_LENGTH) && g.empty == (end != 0) && g.bytes == end);
    HOLDS(g.text_refusal == 0 && g.place == 0 && g.rule == 0);
    HOLDS(memcmp(log, line, end) == 0);
    HOLDS(memcmp(log + end, before + end, seen - end) == 0);
    free(before);
}

/* Both, with right and wrong lengths lent. */
static void try_no_bytes(void) {
    static const size_t counts[] = {1, SPIEWOMIR_WORDS, SPIEWOMIR_TEXT_WORDS - 1, SPIEWOMIR_TEXT_WORDS, SPIEWOMIR_TEXT_WORDS + 1};
    static const size_t rooms[] = {1, 14, 15, 16, SPIEWOMIR_LOG_BYTES - 1, SPIEWOMIR_LOG_BYTES, SPIEWOMIR_LOG_BYTES + 1};
    Lent t = lend(0);
    for (size_t i = 0; i < sizeof counts / sizeof *counts; i++) {
        Lent w = lend(counts[i] * sizeof(int16_t));
        scribble(w.at, w.size);
        no_bytes(t.at, w.at, counts[i]);
        no_bytes(NULL, w.at, counts[i]);
        back(w);
    }
    for (size_t i = 0; i < sizeof rooms / sizeof *rooms; i++) {
        Lent l = lend(rooms[i]);
        scribble(l.at, l.size);
        no_bytes_log(t.at, l.at, rooms[i], rooms[i]);
        no_bytes_log(NULL, l.at, rooms[i], rooms[i]);
        back(l);
    }
    back(t);
}

static void try_text(void) {
    Lent t = lend(length);
    memcpy(t.at, text, length);
    size_t words = SPIEWOMIR_TEXT_WORDS;
    if (below(16) == 0) words = about(words);
    Lent w = lend(words * sizeof(int16_t));
    scribble(w.at, w.size);
    int16_t *before = copy_of(w.at, w.size);
    SpiewomirText r = spiewomir_text(t.at, length, w.at, words);
    calls[0]++;
    refusals[r.refusal]++;
    HOLDS(r.empty == (length == 0 && words == SPIEWOMIR_TEXT_WORDS));
    empties += r.empty;
    if (r.refusal || r.empty) {
        HOLDS(memcmp(w.at, before, w.size) == 0);
        HOLDS(r.refusal != SPIEWOMIR_REFUSED_GRAMMAR || (length > 0 && r.place <= length));
    } else {
        size_t used = (size_t)r.lines * SPIEWOMIR_WORDS;
        HOLDS(used <= words);
        HOLDS(memcmp((int16_t *)w.at + used, before + used, w.size - used * sizeof(int16_t)) == 0);
    }
    HOLDS(spiewomir_text(t.at, length, NULL, 0).refusal == SPIEWOMIR_REFUSED_OUTPUT_LENGTH);
    HOLDS(spiewomir_text(NULL, 0, NULL, 0).refusal == SPIEWOMIR_REFUSED_OUTPUT_LENGTH);
    no_bytes(NULL, w.at, words);
    HOLDS(memcmp(t.at, text, length) == 0);

    size_t room = SPIEWOMIR_LOG_BYTES;
    if (below(16) == 0) room -= 1 + below(100);
    Lent l = lend(room);
    memset(l.at, 0xa5, room);
    SpiewomirLog g = spiewomir_log(t.at, length, l.at, room);
    calls[4]++;
    size_t end = g.refusal ? 0 : g.bytes;
    HOLDS(end <= room);
    for (size_t i = end; i < room; i++)
        if (((unsigned char *)l.at)[i] != 0xa5) fail("a byte after the log is written");
    if (g.refusal) {
        HOLDS(g.refusal == SPIEWOMIR_REFUSED_OUTPUT_LENGTH && g.bytes == 0 && room < SPIEWOMIR_LOG_BYTES);
        HOLDS(g.text_refusal == 0 && g.place == 0 && g.rule == 0 && g.empty == 0);
    } else if (words == SPIEWOMIR_TEXT_WORDS) {
        const char *log = l.at;
        HOLDS(end > 0 && log[end - 1] == '\n');
        HOLDS((g.text_refusal != 0) == (log[1] == 'r'));
        HOLDS(g.empty == (length == 0) && g.empty == (end == 15 && memcmp(log, "(sync 0 0 0 0)\n", 15) == 0));
        if (g.text_refusal) {
            char line[64];
            int n = snprintf(line, sizeof line, "(refused %u %u)\n", g.text_refusal, g.place);
            HOLDS((size_t)n == end && memcmp(line, log, end) == 0);
            HOLDS(g.text_refusal == SPIEWOMIR_REFUSED_RECORD ? g.rule >= 1 && g.rule <= 7 : g.rule == 0);
        } else {
            HOLDS(g.place == 0 && g.rule == 0);
        }
        if (r.refusal) {
            HOLDS(g.text_refusal == r.refusal && g.place == r.place && g.rule == r.rule);
        } else if (g.text_refusal) {
            refusals[g.text_refusal]++;
            judged_alike(r.geometry, w.at, (size_t)r.lines * SPIEWOMIR_WORDS, g);
            records(r.geometry, w.at, (size_t)r.lines * SPIEWOMIR_WORDS, NULL);
        } else if (!g.empty) {
            size_t last = end - 1;
            while (last && log[last - 1] != '\n') last--;
            unsigned total, inherited, intra, outside;
            char line[64];
            HOLDS(end - last < sizeof line);
            memcpy(line, log + last, end - last);
            line[end - last] = 0;
            HOLDS(sscanf(line, "(sync %u %u %u %u)", &total, &inherited, &intra, &outside) == 4);
            HOLDS(total > 0 && total == inherited + intra + outside);
            SpiewomirPicture p = {0, 0, 0, inherited, intra, outside};
            records(r.geometry, w.at, (size_t)r.lines * SPIEWOMIR_WORDS, &p);
            records(r.geometry, w.at, (size_t)r.lines * SPIEWOMIR_WORDS, NULL);
        }
    }
    HOLDS(spiewomir_log(t.at, length, NULL, 0).refusal == SPIEWOMIR_REFUSED_OUTPUT_LENGTH);
    HOLDS(spiewomir_log(NULL, 0, NULL, 0).refusal == SPIEWOMIR_REFUSED_OUTPUT_LENGTH);
    no_bytes_log(NULL, l.at, room, 64);
    HOLDS(memcmp(t.at, text, length) == 0);
    back(l);
    free(before);
    back(w);
    back(t);
}

static size_t load(const char *name, unsigned char *to) {
    FILE *f = fopen(name, "rb");
    if (!f) fail(name);
    size_t n = fread(to, 1, MOST, f);
    fclose(f);
    return n;
}

int main(int argc, char **argv) {
    int i = 1;
    if (i < argc && strcmp(argv[i], "-m") == 0) from_malloc = 1, i++;
    if (argc - i < 3) {
        puts("usage: fuzz [-m] SEED COUNT TEXT..");
        return 2;
    }
    state = strtoull(argv[i++], NULL, 10) * 2654435769u + 88172645463325252u;
    unsigned long count = strtoul(argv[i++], NULL, 10);
    static unsigned char other[MOST];
    for (unsigned long k = 0; k < count; k++) {
        length = load(argv[i + (int)below((unsigned)(argc - i))], text);
        size_t n = load(argv[i + (int)below((unsigned)(argc - i))], other);
        for (unsigned d = below(4); d > 0; d--) damage(other, n);
        if (k == 0) length = 0; /* the first input has no bytes */
        try_text();
    }
    try_no_bytes();
    printf("fuzz: %lu inputs: %lu text calls, %lu logs, %lu pictures, %lu macroblocks, %lu session calls; refusals", count, calls[0], calls[4], calls[1], calls[2], calls[3]);
    for (int r = 1; r < 32; r++)
        if (refusals[r]) printf(" %d:%lu", r, refusals[r]);
    printf("; no picture %lu; rules of 8, singly,", empties);
    for (int r = 1; r < 8; r++) printf(" %d:%lu", r, rules[r]);
    printf("; details %lu inherited, %lu intra, %lu none\n", details[1], details[2], details[0]);
    printf("fuzz: wide: %lu pictures, %lu macroblocks; refusals", wide_calls[0], wide_calls[1]);
    for (int r = 1; r < 32; r++)
        if (wide_refusals[r]) printf(" %d:%lu", r, wide_refusals[r]);
    printf("; rules of 8");
    for (int r = 1; r < 8; r++) printf(" %d:%lu", r, wide_rules[r]);
    printf("; %lu words beyond 16 bits\n", long_words);
    return 0;
}
