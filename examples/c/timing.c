/* Asks the library for half-bit counts and deadlines, in range and out of it, and prints each answer on a line. */
#include <inttypes.h>
#include <stdio.h>

#include "pair_bench.h"

static void half_bit_count(uint32_t rate)
{
    printf("half_bit_count(%" PRIu32 ") = %" PRId64 "\n", rate, pair_bench_half_bit_count(rate));
}

static void deadline(uint32_t control, uint32_t rate, uint32_t delay)
{
    printf("deadline(%" PRIu32 ", %" PRIu32 ", %" PRIu32 ") = %" PRId64 "\n", control, rate, delay,
           pair_bench_deadline(control, rate, delay));
}

int main(void)
{
    half_bit_count(1592);
    half_bit_count(0);
    half_bit_count(1024);
    half_bit_count(2047);
    half_bit_count(2048);
    half_bit_count(UINT32_MAX);
    deadline(131, 1, 0);
    deadline(171, 1024, 64);
    deadline(162, 417, 12);
    deadline(59, 1024, 65535);
    deadline(256, 1, 0);
    deadline(131, 2048, 0);
    deadline(131, 1, 65536);
    deadline(UINT32_MAX, UINT32_MAX, UINT32_MAX);
    return 0;
}
