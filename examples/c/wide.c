/* A vector of any length: one base macroblock moves as a whole by X, Y, in quarter samples,
 * and its picture is doubled. Prints the vector of the large picture's first macroblock, as
 * the call on 16-bit words makes it and as that on 32-bit words does, or their refusals:
 *
 *     wide X Y
 *
 * The exit status is 0, 1 if the call on 32-bit words refuses, or 2 if the arguments are no
 * two numbers.
 *
 * Built with: cc -Iinclude examples/c/wide.c target/staticlib/libspiewomir.a */
#include "spiewomir.h"
#include <ctype.h>
#include <errno.h>
#include <stdio.h>
#include <stdlib.h>

/* a whole argument that is a number of 32 bits */
static int number(const char *argument, int32_t *n) {
    char *end;
    errno = 0;
    long value = strtol(argument, &end, 10);
    if (isspace((unsigned char)*argument) || end == argument || *end || errno || value < INT32_MIN || value > INT32_MAX) return 0;
    *n = (int32_t)value;
    return 1;
}

/* the vector is that of block 0 in list 0: words 13 and 14 */
static int print(int bits, SpiewomirMacroblock m, int32_t x, int32_t y) {
    if (m.refusal != SPIEWOMIR_ANSWERED) {
        printf("%d bits: refused %u place %u rule %u\n", bits, m.refusal, m.place, m.rule);
        return 1;
    }
    printf("%d bits: %d %d\n", bits, (int)x, (int)y);
    return 0;
}

int main(int argc, char **argv) {
    static const SpiewomirGeometry doubled = {16, 16, 32, 32, 0, 0, 32, 32};
    int32_t x, y, wide[SPIEWOMIR_WORDS] = {1}, wide_out[SPIEWOMIR_WORDS] = {0};
    int16_t words[SPIEWOMIR_WORDS], out[SPIEWOMIR_WORDS] = {0};
    int fit = 1;
    if (argc != 3 || !number(argv[1], &x) || !number(argv[2], &y)) {
        fputs("usage: wide X Y\n", stderr);
        return 2;
    }

    /* type 1; reference 0 in list 0, list 1 not used; one vector in all blocks; no detail */
    for (int q = 0; q < 4; q++) wide[6 + 2 * q] = -1;
    for (int b = 0; b < 16; b++) wide[13 + 4 * b] = x, wide[14 + 4 * b] = y;

    /* the same in 16-bit words, if these can say it */
    for (int i = 0; i < SPIEWOMIR_WORDS; i++) {
        fit = fit && wide[i] >= INT16_MIN && wide[i] <= INT16_MAX;
        words[i] = fit ? (int16_t)wide[i] : 0;
    }
    SpiewomirMacroblock m;
    if (fit) {
        m = spiewomir_macroblock(doubled, words, SPIEWOMIR_WORDS, 0, 0, out, SPIEWOMIR_WORDS);
        print(16, m, out[13], out[14]);
    } else {
        puts("16 bits: no such words");
    }
    m = spiewomir_macroblock_wide(doubled, wide, SPIEWOMIR_WORDS, 0, 0, wide_out, SPIEWOMIR_WORDS);
    return print(32, m, wide_out[13], wide_out[14]);
}
