/* Reads a sync text from standard input, makes its picture, and prints the counts, and
 * of one macroblock how many of its blocks each base macroblock fed, and the record:
 *
 *     picture COLUMN ROW < TEXT
 *
 * The exit status is 0, 1 if a call refuses, which is printed, 2 if the arguments are no
 * two numbers or the text cannot be read, or 3 if the text has no bytes: then "no
 * picture" is printed.
 *
 * Built with: cc -Iinclude examples/c/picture.c target/staticlib/libspiewomir.a */
#include "spiewomir.h"
#include <ctype.h>
#include <errno.h>
#include <stdio.h>
#include <stdlib.h>

/* a whole argument that is a number of 32 bits */
static int number(const char *argument, int32_t *n) {
    char *end;
    errno = 0;
    long value = strtol(argument, &end, 10);
    if (isspace((unsigned char)*argument) || end == argument || *end || errno || value < INT32_MIN || value > INT32_MAX) return 0;
    *n = (int32_t)value;
    return 1;
}

static int refused(uint32_t number, uint32_t place, uint32_t rule) {
    printf("refused %u place %u rule %u\n", number, place, rule);
    return 1;
}

int main(int argc, char **argv) {
    static uint8_t text[SPIEWOMIR_TEXT_BYTES + 1];
    static int16_t base[SPIEWOMIR_TEXT_WORDS];
    int16_t record[SPIEWOMIR_WORDS];
    int32_t column, row;
    if (argc != 3 || !number(argv[1], &column) || !number(argv[2], &row)) {
        fputs("usage: picture COLUMN ROW < TEXT\n", stderr);
        return 2;
    }
    size_t length = fread(text, 1, sizeof text, stdin);
    if (ferror(stdin)) {
        perror("picture");
        return 2;
    }

    /* the text: the geometry's numbers, and the words of its records */
    SpiewomirText t = spiewomir_text(text, length, base, SPIEWOMIR_TEXT_WORDS);
    if (t.refusal != SPIEWOMIR_ANSWERED) return refused(t.refusal, t.place, t.rule);
    if (t.empty) {
        puts("no picture");
        return 3;
    }
    size_t base_words = (size_t)t.lines * SPIEWOMIR_WORDS;

    /* the picture: 78 words for each macroblock. Sizes are judged by the call itself. */
    SpiewomirGeometry g = t.geometry;
    size_t words = SPIEWOMIR_PICTURE_WORDS(g.full_width, g.full_height);
    int16_t *out = malloc((words ? words : 1) * sizeof *out);
    if (!out) {
        perror("picture");
        return 2;
    }
    SpiewomirPicture p = spiewomir_picture(g, base, base_words, out, words);
    free(out);
    if (p.refusal != SPIEWOMIR_ANSWERED) return refused(p.refusal, p.place, p.rule);

    /* one record: the words that the picture has from 78 * (row * columns + column) on. The
     * call judges column and row. */
    SpiewomirMacroblock m = spiewomir_macroblock(g, base, base_words, column, row, record, SPIEWOMIR_WORDS);
    if (m.refusal != SPIEWOMIR_ANSWERED) return refused(m.refusal, m.place, m.rule);
    printf("inherited %u intra %u outside %u\n", p.inherited, p.intra, p.outside);
    printf("first %u right %u below %u diagonal %u\n", m.first, m.right, m.below, m.diagonal);
    for (int i = 0; i < SPIEWOMIR_WORDS; i++) printf("%d%c", record[i], i + 1 < SPIEWOMIR_WORDS ? ' ' : '\n');
    return 0;
}
