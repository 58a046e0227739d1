/* Measures bench_verdict on full logs of 2,048 steps beside the plain judge of plain.c, in the same run, and prints for
 * each log the time of one verdict by either and the ratio. With files on the command line it compares the answers of
 * the two on them instead, and fails where they differ. */
#define _POSIX_C_SOURCE 199309L
#include <inttypes.h>
#include <stdio.h>
#include <time.h>

#include "../c/bench_verdict.h"
#include "plain.h"

enum { STEPS = 2048, SIZE = 60001 };

static uint8_t text[SIZE];

static double now(void)
{
    struct timespec t;
    clock_gettime(CLOCK_MONOTONIC, &t);
    return (double)t.tv_sec + (double)t.tv_nsec / 1e9;
}

/* The boards hand the cells on: acquire, write, read, release, and the next board's turn. */
static size_t handed_on(int boards, int cells)
{
    size_t n = (size_t)sprintf((char *)text, "trace=log\nboards=%d\ncells=%d\nentries=8\nstart=0\n", boards, cells);
    for (int i = 0; i < STEPS; i++) {
        int turn = i / 4, board = turn % boards, cell = turn % cells;
        switch (i % 4) {
        case 0: n += (size_t)sprintf((char *)text + n, "a=%d.%d\n", board, cell); break;
        case 1: n += (size_t)sprintf((char *)text + n, "w=%d.%d.%d\n", board, cell, turn); break;
        case 2: n += (size_t)sprintf((char *)text + n, "r=%d.%d.%d\n", board, cell, turn); break;
        case 3: n += (size_t)sprintf((char *)text + n, "l=%d.%d\n", board, cell); break;
        }
    }
    return n;
}

/* The most that a judge has to look through: 1,024 writes of one cell, and then 1,024 reads of the starting word by a
 * board that has done nothing there; or, by the writer itself, of the last word. */
static size_t then_read(int board, int word)
{
    size_t n = (size_t)sprintf((char *)text, "trace=log\nboards=2\ncells=1\nentries=1\nstart=0\n");
    for (int i = 0; i < STEPS; i++)
        n += i < STEPS / 2 ? (size_t)sprintf((char *)text + n, "w=0.0.%d\n", i + 1)
                           : (size_t)sprintf((char *)text + n, "r=%d.0.%d\n", board, word);
    return n;
}

static double measure(uint64_t (*judge)(const uint8_t *, size_t), size_t length, uint64_t *verdict)
{
    double best = 1e9;
    for (int round = 0; round < 20; round++) {
        double from = now();
        *verdict = judge(text, length);
        double took = now() - from;
        if (took < best)
            best = took;
    }
    return best;
}

static void row(const char *name, size_t length)
{
    uint64_t proved, plain;
    double a = measure(bench_verdict, length, &proved), b = measure(plain_verdict, length, &plain);
    printf("%-40s %9.1f us %9.1f us   ratio %.1f%s\n", name, a * 1e6, b * 1e6, a / b, proved == plain ? "" : "   DIFFERENT VERDICTS");
}

static int compare(int count, char **names)
{
    int different = 0;
    for (int i = 0; i < count; i++) {
        FILE *file = fopen(names[i], "rb");
        if (file == NULL) {
            perror(names[i]);
            return 2;
        }
        size_t length = fread(text, 1, sizeof text, file);
        fclose(file);
        uint64_t a = bench_verdict(text, length), b = plain_verdict(text, length);
        if (a != b) {
            printf("%s: %" PRIu64 " and %" PRIu64 "\n", names[i], a, b);
            different = 1;
        }
    }
    printf("%d files, %s\n", count, different ? "DIFFERENT VERDICTS" : "the same verdicts");
    return different;
}

int main(int argc, char **argv)
{
    if (argc > 1)
        return compare(argc - 1, argv + 1);
    printf("%-40s %12s %12s\n", "2,048 steps, best of 20", "proved", "plain C");
    row("8 boards hand 64 cells on", handed_on(8, 64));
    row("2 boards hand 1 cell on", handed_on(2, 1));
    row("1,024 writes, then the oldest word read", then_read(1, 0));
    row("1,024 writes, then the last word read", then_read(0, STEPS / 2));
    return 0;
}
