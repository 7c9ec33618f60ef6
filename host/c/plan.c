/* Plans a floor: a sheet on standard input, its routes on standard output. Links the proved archive. */
#include <stdio.h>

#include "kalomivund.h"

int main(void) {
    static uint8_t text[65536];
    static uint8_t out[KALOMIVUND_MOST_TEXT];

    /* The longest sheet has 11,732 bytes, so what is wrong with a longer text lies in what is read of it. */
    size_t length = fread(text, 1, sizeof text, stdin);
    if (ferror(stdin)) {
        perror("plan: standard input");
        return 2;
    }
    uint64_t word = kalomivund_print_routes(text, length, out, sizeof out);
    if (KALOMIVUND_REFUSED(word)) {
        fprintf(stderr, "plan: refusal %u, place %llu\n", KALOMIVUND_REFUSAL(word), (unsigned long long)KALOMIVUND_PLACE(word));
        return 2;
    }
    size_t bytes = (size_t)KALOMIVUND_NUMBER(word);
    if (fwrite(out, 1, bytes, stdout) != bytes || fflush(stdout) != 0) {
        perror("plan: standard output");
        return 2;
    }
    return 0;
}
