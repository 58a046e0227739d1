/* Judges many logs: standard input has, for each, its number of bytes as a line and then the bytes; the number of each
 * verdict is printed as a line. For tools/differential. */
#include <inttypes.h>
#include <stdio.h>

#include "../c/bench_verdict.h"

#define MOST_BYTES 1000000

static uint8_t log_bytes[MOST_BYTES];

int main(void)
{
    size_t length;
    while (scanf("%zu", &length) == 1) {
        if (getchar() != '\n' || length > sizeof log_bytes || fread(log_bytes, 1, length, stdin) != length) {
            fprintf(stderr, "bad input\n");
            return 1;
        }
        printf("%" PRIu64 "\n", bench_verdict(log_bytes, length));
    }
    return 0;
}
