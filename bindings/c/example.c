/* Converts the text on standard input and prints the result, or a line `refused`, the number and the line, parted by tabs, and on standard
   error what the number means. Returns 0 if the text is accepted, 1 if it is refused, 2 if it cannot be read or the answer not written.

       cc -O2 -I bindings/c bindings/c/example.c target/staticlib/libconvert.a -o example && ./example < text */

#include <inttypes.h>
#include <stdio.h>

#include "juirkes.h"

/* One byte more than is read, so that a longer text is seen to be longer. */
static uint8_t input[JUIRKES_INPUT_LIMIT + 1];
static uint8_t output[JUIRKES_OUTPUT_ROOM];

int main(void) {
    size_t length = fread(input, 1, sizeof input, stdin);
    if (ferror(stdin)) {
        perror("standard input");
        return 2;
    }
    juirkes_answer answer = juirkes_convert(input, length, output, sizeof output);
    if (answer.number == JUIRKES_ACCEPTED) {
        fwrite(output, 1, (size_t)answer.value, stdout);
    } else {
        printf("refused\t%" PRIu64 "\t%" PRIu64 "\n", answer.number, answer.value);
        fprintf(stderr, "refusal %" PRIu64 ": %s\n", answer.number, juirkes_words(answer.number));
    }
    if (fflush(stdout) != 0) {
        perror("standard output");
        return 2;
    }
    return answer.number == JUIRKES_ACCEPTED ? 0 : 1;
}
