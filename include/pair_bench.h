/* The pair bench for C hosts: plain numbers in, a plain number out. */
#ifndef PAIR_BENCH_H
#define PAIR_BENCH_H

#include <stdint.h>

#ifdef __cplusplus
extern "C" {
#endif

/* A refusal is answered as its cause negated. These two calls have one cause. */
#define PAIR_BENCH_OUT_OF_RANGE (-5)

/* H, the internal clocks of half a bit (1 to 8192), of a rate register from 0 to 2047. */
int64_t pair_bench_half_bit_count(uint32_t rate);

/* The deadline: the phi clocks within which a character that can be sent at once is to be stored at the other end (at most 753671), of a
   control register from 0 to 255, a rate register from 0 to 2047 and a cable's delay from 0 to 65535 phi clocks. */
int64_t pair_bench_deadline(uint32_t control, uint32_t rate, uint32_t delay);

#ifdef __cplusplus
}
#endif

#endif
