/* Judges the log in the file that is named on the command line, and prints verdict= and the number. The status is 0 if
 * all reads are legal, 1 if not, and 2 if the file cannot be read. */
#include <inttypes.h>
#include <stdio.h>

#include "bench_verdict.h"

/* One byte more than a log may have, so that a longer file is found to be too long. */
#define MOST_BYTES 60000

static uint8_t log_bytes[MOST_BYTES + 1];

int main(int argc, char **argv)
{
    if (argc != 2) {
        fprintf(stderr, "usage: judge_log FILE\n");
        return 2;
    }
    FILE *file = fopen(argv[1], "rb");
    if (file == NULL) {
        perror(argv[1]);
        return 2;
    }
    size_t length = fread(log_bytes, 1, sizeof log_bytes, file);
    int failed = ferror(file);
    fclose(file);
    if (failed) {
        fprintf(stderr, "%s: cannot be read\n", argv[1]);
        return 2;
    }
    uint64_t verdict = bench_verdict(log_bytes, length);
    printf("verdict=%" PRIu64 "\n", verdict);
    return verdict == 0 ? 0 : 1;
}
