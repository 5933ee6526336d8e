/* Converts a reduced Groebner basis from grevlex order to lex order.

   Link with libconvert.a, which `bindings/library` writes to target/staticlib:

       cc -O2 program.c target/staticlib/libconvert.a -o program

   The library keeps nothing between calls and takes no memory but its stack, so any number of threads may call it. A call takes less than
   256 KB of stack. */

#ifndef JUIRKES_H
#define JUIRKES_H

#include <stddef.h>
#include <stdint.h>

#ifdef __cplusplus
extern "C" {
#endif

/* The longest input that is read, in bytes. */
#define JUIRKES_INPUT_LIMIT 65536

/* An output buffer of this many bytes is long enough for every output. */
#define JUIRKES_OUTPUT_ROOM 65536

/* The numbers of an answer, and the line that comes with each. Lines count from 1; 0 is the text as a whole. */
enum {
    /* Accepted; the value is the length written. */
    JUIRKES_ACCEPTED = 0,
    /* More than 65,536 input bytes. Line 0. */
    JUIRKES_INPUT_TOO_LONG = 1,
    /* A line not of its form or kind at its place; a missing line or a missing LF; anything after end. The first bad line. */
    JUIRKES_BAD_LINE = 2,
    /* The order word is not grevlex. Line 1. */
    JUIRKES_ORDER_NOT_GREVLEX = 3,
    /* p is no prime from 2 to 251. Line 1. */
    JUIRKES_BAD_PRIME = 4,
    /* n is not 1 to 4. Line 1. */
    JUIRKES_BAD_VARIABLE_COUNT = 5,
    /* A coefficient not 1 to p - 1. That line. */
    JUIRKES_BAD_COEFFICIENT = 6,
    /* An exponent over 32. That line. */
    JUIRKES_EXPONENT_TOO_LARGE = 7,
    /* A term not smaller than the one before it. That line. */
    JUIRKES_TERMS_NOT_FALLING = 8,
    /* A leading coefficient that is not 1. That line. */
    JUIRKES_NOT_MONIC = 9,
    /* A 98th poly line, or a 34th term in a line. That line. */
    JUIRKES_TOO_MANY_LINES_OR_TERMS = 10,
    /* The end number differs from the number of poly lines. The end line. */
    JUIRKES_END_NUMBER_DIFFERS = 11,
    /* A monomial of the line is divisible by another line's leading monomial. The smallest such line. */
    JUIRKES_NOT_REDUCED = 12,
    /* Not zero-dimensional. Line 0. */
    JUIRKES_NOT_ZERO_DIMENSIONAL = 13,
    /* More than 32 standard monomials. Line 0. */
    JUIRKES_TOO_MANY_STANDARD_MONOMIALS = 14,
    /* An S-polynomial with nonzero remainder. The later line of the pair. */
    JUIRKES_NOT_GROEBNER = 15,
    /* The output buffer is shorter than the output. Line 0. */
    JUIRKES_OUTPUT_TOO_SHORT = 16
};

/* number is one of the above; value is the length written if number is 0, otherwise the line. */
typedef struct {
    uint64_t number;
    uint64_t value;
} juirkes_answer;

/* Converts the text of input_length bytes at input, and writes the result to the output_length bytes lent at output.

   On acceptance the first value bytes of the output are the text, and the bytes past them keep their contents. A refusal writes
   no byte. The input may hold any bytes; nothing needs a test before the call. Neither text ends in a NUL.

   The caller owes two things: neither pointer is null (with length 0 any other address will do), and the two buffers do not overlap. */
juirkes_answer juirkes_convert(const uint8_t *input, size_t input_length, uint8_t *output, size_t output_length);

/* The words for a number of an answer. */
static inline const char *juirkes_words(uint64_t number) {
    switch (number) {
    case JUIRKES_ACCEPTED:
        return "accepted";
    case JUIRKES_INPUT_TOO_LONG:
        return "more than 65,536 input bytes";
    case JUIRKES_BAD_LINE:
        return "a line not of its form or kind at its place, a missing line or a missing LF, or anything after end";
    case JUIRKES_ORDER_NOT_GREVLEX:
        return "order word is not grevlex";
    case JUIRKES_BAD_PRIME:
        return "p is no prime from 2 to 251";
    case JUIRKES_BAD_VARIABLE_COUNT:
        return "n is not 1 to 4";
    case JUIRKES_BAD_COEFFICIENT:
        return "coefficient not 1 to p - 1";
    case JUIRKES_EXPONENT_TOO_LARGE:
        return "exponent over 32";
    case JUIRKES_TERMS_NOT_FALLING:
        return "a term not smaller than the one before it";
    case JUIRKES_NOT_MONIC:
        return "leading coefficient not 1";
    case JUIRKES_TOO_MANY_LINES_OR_TERMS:
        return "a 98th poly line, or a 34th term in a line";
    case JUIRKES_END_NUMBER_DIFFERS:
        return "end number differs from the poly lines";
    case JUIRKES_NOT_REDUCED:
        return "a monomial of the line is divisible by another line's leading monomial";
    case JUIRKES_NOT_ZERO_DIMENSIONAL:
        return "not zero-dimensional";
    case JUIRKES_TOO_MANY_STANDARD_MONOMIALS:
        return "more than 32 standard monomials";
    case JUIRKES_NOT_GROEBNER:
        return "an S-polynomial with nonzero remainder";
    case JUIRKES_OUTPUT_TOO_SHORT:
        return "output buffer shorter than the output";
    default:
        return "no number of an answer";
    }
}

#ifdef __cplusplus
}
#endif

#endif
