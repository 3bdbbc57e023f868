/* The bench, written from docs/bench.md and docs/refusals.md alone: two chips, a cable between them, and one phi clock for both. */

#ifndef BENCH_H
#define BENCH_H

#include "cable.h"
#include "chip.h"
#include "refusal.h"

#include <stddef.h>

enum { MOST_EVENTS = 32, MOST_MOMENTS = 100000, MOST_BITS = 16, ADDRESSES = 32, NUMBER_MAX = 65535 };

#define LAST_CLOCK UINT32_C(4000000000)

enum kind { DSR_SETTING = 0, WRITE = 1 };

struct event {
    uint32_t end;
    uint32_t kind;
    uint32_t address; /* not looked at for a DSR setting */
    uint32_t value;
    uint32_t served; /* written by an accepted moment: the number at which the event was served, from 1 */
};

struct bench {
    struct cable *cable;
    bool open;
    uint32_t clock;
    struct chip chip[2]; /* of the ends A and B */
};

/* The pins that others see. */
struct pins {
    bool mark; /* XOUT */
    bool rts;
    bool interrupt; /* INT */
};

/* A bench over this cable that is not open. */
void bench_new(struct bench *bench, struct cable *cable);

/* The calls. A refused one leaves the bench, its cable and the event list. */
struct refusal bench_open(struct bench *bench, uint32_t start, uint32_t control, uint32_t x, uint32_t r, uint32_t interval);
struct refusal bench_load(struct bench *bench, uint32_t end, uint32_t character);
struct refusal bench_take(struct bench *bench, uint32_t end, struct taken *answer);
struct refusal bench_put(struct bench *bench, uint32_t end, uint32_t address, uint32_t count, uint32_t number);
struct refusal bench_get(const struct bench *bench, uint32_t end, uint32_t address, uint32_t count, uint32_t *answer);
struct refusal bench_moment(struct bench *bench, struct event *events, size_t count);
struct refusal bench_moments(struct bench *bench, uint32_t n);

/* What an end of an open bench shows. */
struct pins bench_pins(const struct bench *bench, uint32_t end);

#endif
