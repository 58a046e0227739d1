/* The verdict on a log of the roller bench, for the station firmware. */
#ifndef BENCH_VERDICT_H
#define BENCH_VERDICT_H

#include <stddef.h>
#include <stdint.h>

/* How a verdict that tells of a fault is put together: BENCH_VERDICT_FAULT times the number of the refusal, and the line. */
#define BENCH_VERDICT_FAULT UINT64_C(1000000)

/* Judges the `length` bytes from `log` on. The answer is
 *   0                                       if every read of the log is legal,
 *   the line of the first read that is not  (1 to 60,000),
 *   BENCH_VERDICT_FAULT * refusal + line    if the log is faulty, or the judge refuses one of its steps.
 * `log` points to `length` bytes that can be read and is not NULL, not even where `length` is 0. The bytes are not
 * changed and not kept. The call takes no memory from the heap, and some 40 KiB of the stack (as measured, not proved). */
uint64_t bench_verdict(const uint8_t *log, size_t length);

#endif
