/* Decomposes the layer text on standard input: prints the result text, or the refusal and ends with status 1. */
#include <inttypes.h>
#include <stdio.h>

#include "hezgolt.h"

int main(void)
{
    /* One byte more than a layer text may have, so that a longer one is seen and refused. */
    static uint8_t layer[HEZGOLT_LAYER_MOST + 1];
    static uint8_t result[HEZGOLT_RESULT_LEAST];
    size_t size = fread(layer, 1, sizeof layer, stdin);
    uint64_t answer;

    if (ferror(stdin)) {
        fputs("example: standard input cannot be read\n", stderr);
        return 2;
    }
    answer = hezgolt_decompose(layer, size, result, sizeof result);
    if (answer >= HEZGOLT_REFUSED) {
        printf("refused=%" PRIu64 ",%" PRIu64 "\n", answer / HEZGOLT_REFUSED, answer % HEZGOLT_REFUSED);
        return 1;
    }
    /* The answer is the length: the text is not ended by a zero byte. */
    if (fwrite(result, 1, (size_t)answer, stdout) != answer || fflush(stdout) != 0) {
        fputs("example: standard output cannot be written\n", stderr);
        return 2;
    }
    return 0;
}
